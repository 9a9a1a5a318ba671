//! What `light_rust.cpp` measures: the queue by its crate for Rust, and, unverified, a mutex around the standard library's binary
//! heap and a ring of lines. The mutex is the standard library's, or that of `parking_lot` where the cfg `with_parking_lot` is set.
mod heap;

use flatpq::{Member, Queue};
use heap::{Heap, Item, NONE};
use std::ops::DerefMut;

#[cfg(with_parking_lot)]
use parking_lot::Mutex;
#[cfg(not(with_parking_lot))]
use std::sync::Mutex;

/// What the workers share.
pub enum Shared {
    Crate(Queue),
    Locked(&'static Mutex<Heap>),
}

#[cfg(with_parking_lot)]
fn locked(heap: &Mutex<Heap>) -> impl DerefMut<Target = Heap> + '_ {
    heap.lock()
}

#[cfg(not(with_parking_lot))]
fn locked(heap: &Mutex<Heap>) -> impl DerefMut<Target = Heap> + '_ {
    heap.lock().expect("nobody panics")
}

/// What a worker calls by, in cache lines of its own.
#[repr(align(64))]
pub struct Worker {
    place: u32,
    by: By,
}

enum By {
    Member(Member),
    Queue(*const Queue),
    Lock(&'static Mutex<Heap>),
}

#[no_mangle]
pub extern "C" fn shared_open(is_crate: bool) -> *mut Shared {
    Box::into_raw(Box::new(if is_crate {
        Shared::Crate(Queue::new().expect("there is memory"))
    } else {
        Shared::Locked(Box::leak(Box::new(Mutex::new(Heap::new(true)))))
    }))
}

/// # Safety
///
/// Opened, and not closed yet.
#[no_mangle]
pub unsafe extern "C" fn shared_join(
    shared: *const Shared,
    place: u32,
    is_own: bool,
) -> *mut Worker {
    let by = match unsafe { &*shared } {
        Shared::Crate(queue) if is_own => By::Queue(queue),
        Shared::Crate(queue) => By::Member(queue.join().expect("each worker has a place")),
        Shared::Locked(heap) => By::Lock(heap),
    };
    Box::into_raw(Box::new(Worker { place, by }))
}

/// # Safety
///
/// The worker has joined, and belongs to the calling thread.
#[no_mangle]
pub unsafe extern "C" fn worker_push(worker: *mut Worker, item: Item) {
    let Worker { place, by } = unsafe { &mut *worker };
    match by {
        By::Member(member) => drop(
            member
                .push(item.priority, item.value)
                .expect("the queue takes all"),
        ),
        By::Queue(queue) => drop(
            unsafe { &**queue }
                .push(item.priority, item.value)
                .expect("the queue takes all"),
        ),
        By::Lock(heap) => locked(heap).push(*place, item),
    }
}

/// Whether there was an item, and the item.
///
/// # Safety
///
/// As that of `worker_push`.
#[no_mangle]
pub unsafe extern "C" fn worker_pop(worker: *mut Worker, first: &mut Item) -> bool {
    let Worker { place, by } = unsafe { &mut *worker };
    let found = match by {
        By::Member(member) => {
            let first = member.pop().expect("the queue refuses no pop");
            first.map(|(priority, value)| Item { priority, value })
        }
        By::Queue(queue) => {
            let first = unsafe { &**queue }.pop().expect("the queue refuses no pop");
            first.map(|(priority, value)| Item { priority, value })
        }
        By::Lock(heap) => locked(heap).pop(*place),
    };
    *first = found.unwrap_or(NONE);
    found.is_some()
}

/// # Safety
///
/// The worker has joined, and comes no more.
#[no_mangle]
pub unsafe extern "C" fn worker_leave(worker: *mut Worker) {
    drop(unsafe { Box::from_raw(worker) });
}

/// How many lines there have been.
///
/// # Safety
///
/// Opened, and not closed yet, and all workers have left.
#[no_mangle]
pub unsafe extern "C" fn shared_close(shared: *mut Shared) -> u64 {
    match *unsafe { Box::from_raw(shared) } {
        Shared::Crate(queue) => {
            let Ok(journal) = queue.close() else {
                panic!("all members have left");
            };
            journal.before() + journal.len() as u64
        }
        Shared::Locked(heap) => locked(heap).calls,
    }
}
