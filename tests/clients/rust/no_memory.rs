//! Where memory is refused to a push, it says so and changes nothing; and goes on once there is memory again. A batch of pops asks for little. A
//! listener needs a descriptor, and the first future a thread.
//! The only test of its process, whose address space it limits, and whose allocator refuses.
use flatpq::{Error, NotPushed, TaskQueue};
use std::alloc::{GlobalAlloc, Layout, System};
use std::fs;
use std::future::Future;
use std::pin::Pin;
use std::ptr;
use std::sync::atomic::{AtomicUsize, Ordering::Relaxed};
use std::sync::mpsc::{self, Sender};
use std::sync::Arc;
use std::task::{Context, Poll, Wake, Waker};
use std::time::Duration;

/// Of these payloads so many get memory, and then none.
type Large = [u64; 80];
static LEFT: AtomicUsize = AtomicUsize::new(usize::MAX);

struct Refusing;

#[global_allocator]
static ALLOCATOR: Refusing = Refusing;

// SAFETY: it is the system's allocator where it does not refuse.
unsafe impl GlobalAlloc for Refusing {
    unsafe fn alloc(&self, layout: Layout) -> *mut u8 {
        let one_less = |left: usize| left.checked_sub(1);
        let is_large = layout == Layout::new::<Large>();
        if is_large && LEFT.fetch_update(Relaxed, Relaxed, one_less).is_err() {
            return ptr::null_mut();
        }
        // SAFETY: as of the caller.
        unsafe { System.alloc(layout) }
    }

    unsafe fn dealloc(&self, block: *mut u8, layout: Layout) {
        // SAFETY: as of the caller.
        unsafe { System.dealloc(block, layout) }
    }
}

const LONG: Duration = Duration::from_secs(60);
const MORE: u64 = 16 << 20;
const TOO_MANY_FILES: i32 = 24;
const DESCRIPTORS: i32 = 7;
const ADDRESS_SPACE: i32 = 9;

#[repr(C)]
struct Limit {
    soft: u64,
    hard: u64,
}

extern "C" {
    fn getrlimit(resource: i32, limit: *mut Limit) -> i32;
    fn setrlimit(resource: i32, limit: *const Limit) -> i32;
}

/// The bytes of the process's address space.
fn in_use() -> u64 {
    let status = fs::read_to_string("/proc/self/statm").unwrap();
    4096 * status.split(' ').next().unwrap().parse::<u64>().unwrap()
}

fn limit_to(resource: i32, soft: u64) -> u64 {
    let mut limit = Limit { soft: 0, hard: 0 };
    // SAFETY: the limit is this call's own.
    unsafe {
        assert_eq!(getrlimit(resource, &mut limit), 0);
        let before = limit.soft;
        limit.soft = soft;
        assert_eq!(setrlimit(resource, &limit), 0);
        before
    }
}

/// The first number whose push is refused comes back; and then it is pushed. The first payload has the number 0.
fn comes_back<T: Send>(queue: &TaskQueue<u64, T>, of: fn(u64) -> T, number_of: fn(T) -> u64) {
    let before = limit_to(ADDRESS_SPACE, in_use() + MORE);
    let push = |number| queue.push(1, of(number)).err();
    let refused = (0..u64::MAX).find_map(|number| Some((number, push(number)?)));
    limit_to(ADDRESS_SPACE, before);
    let (number, NotPushed { payload, error }) = refused.expect("memory is refused some time");
    assert_eq!((number_of(payload), error), (number, Error::NoMemory));
    assert_eq!(queue.push(1, of(number)).unwrap(), number + 1);
    assert_eq!(queue.pop().unwrap().map(|(_, it)| number_of(it)), Some(0));
}

/// It asks for room for as many payloads as 64 KiB hold, or for one.
fn a_batch_asks_for_little() {
    let queue: TaskQueue<u64, [u64; 1 << 17]> = TaskQueue::new().unwrap();
    let before = limit_to(ADDRESS_SPACE, in_use() + MORE);
    let popped = queue.pop_due_many(5, usize::MAX);
    limit_to(ADDRESS_SPACE, before);
    assert!(popped.unwrap().is_empty());
}

/// None of it is pushed, and all of it comes back in its order, what nobody asked for yet too.
fn a_batch_comes_back() {
    let queue: TaskQueue<u64, Large> = TaskQueue::new().unwrap();
    let batch = |at: u64| (at, [at; 80]);
    LEFT.store(2, Relaxed);
    let refused = queue.push_many((0..5).map(batch)).unwrap_err();
    LEFT.store(usize::MAX, Relaxed);
    assert_eq!((refused.error, refused.pushed.count), (Error::NoMemory, 0));
    assert!(refused.payloads.into_iter().eq((0..5).map(batch)));
    assert_eq!(queue.len(), Ok(0));
}

struct Says(Sender<()>);

impl Wake for Says {
    fn wake(self: Arc<Says>) {
        self.0.send(()).unwrap();
    }
}

/// The stack of a thread is greater than what there is. The thread runs before anything is limited again.
fn a_future_without_a_thread_is_refused() {
    let queue: TaskQueue<u64, u64> = TaskQueue::new().unwrap();
    let mut member = queue.join().unwrap();
    let (says, hears) = mpsc::channel();
    let waker = Arc::new(Says(says)).into();
    let mut context = Context::from_waker(&waker);
    let before = limit_to(ADDRESS_SPACE, in_use() + MORE / 16);
    let polled = member.poll_take(&mut context);
    limit_to(ADDRESS_SPACE, before);
    assert_eq!(polled, Poll::Ready(Err(Error::NoMemory)));
    assert!(member.poll_take(&mut context).is_pending());
    queue.push(1, 1).unwrap();
    hears.recv().unwrap();
}

/// A push that waited for room, and gets no memory for its payload, leaves the place to another.
fn a_push_without_memory_leaves_its_place() {
    let queue: TaskQueue<u64, Large> = flatpq::Options::new().most_items(1).open().unwrap();
    let (mut one, mut other) = (queue.join().unwrap(), queue.join().unwrap());
    queue.push(1, [1; 80]).unwrap();
    let [(first, one_hears), (second, other_hears)] = [(); 2].map(|()| mpsc::channel());
    let [first, second] = [first, second].map(|says| Waker::from(Arc::new(Says(says))));
    let (mut pushes, mut waits) = (one.push_async(2, [2; 80]), other.push_async(3, [3; 80]));
    assert!(Pin::new(&mut pushes)
        .poll(&mut Context::from_waker(&first))
        .is_pending());
    assert!(Pin::new(&mut waits)
        .poll(&mut Context::from_waker(&second))
        .is_pending());
    queue.pop().unwrap();
    assert!(one_hears.recv_timeout(LONG).is_ok() && other_hears.try_recv().is_err());
    LEFT.store(0, Relaxed);
    let refused = Pin::new(&mut pushes).poll(&mut Context::from_waker(&first));
    LEFT.store(usize::MAX, Relaxed);
    assert!(matches!(refused, Poll::Ready(Err(it)) if it.error == Error::NoMemory));
    assert!(other_hears.recv_timeout(LONG).is_ok());
}

/// And gives its member back.
fn a_listener_without_a_descriptor_is_refused() {
    let queue: TaskQueue<u64, u64> = flatpq::Options::new().members(1).open().unwrap();
    let before = limit_to(DESCRIPTORS, 0);
    let refused = queue.listener().err();
    limit_to(DESCRIPTORS, before);
    assert_eq!(refused.unwrap().raw_os_error(), Some(TOO_MANY_FILES));
    assert!(queue.listener().is_ok());
}

/// In the item itself, and in blocks of their own.
#[test]
fn a_push_without_memory_is_refused() {
    a_future_without_a_thread_is_refused();
    a_push_without_memory_leaves_its_place();
    a_listener_without_a_descriptor_is_refused();
    a_batch_asks_for_little();
    a_batch_comes_back();
    comes_back(&TaskQueue::new().unwrap(), |it| it, |it| it);
    comes_back(&TaskQueue::new().unwrap(), |it| [it; 64], |it| it[0]);
}
