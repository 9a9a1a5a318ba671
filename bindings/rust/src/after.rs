//! Code of the user that a call of the library gives rise to: wakers, and drops of payloads. It may call the library, and panic, so it
//! runs once that call has returned.
use crate::sync::{channel, thread_local, AtomicBool, Builder, Mutex, MutexGuard, Sender};
use std::cell::Cell;
use std::panic::{catch_unwind, AssertUnwindSafe};
use std::sync::atomic::Ordering;
use std::sync::PoisonError;
use std::task::Waker;
use std::{io, mem, ptr};

/// What is run after a call.
#[derive(Default)]
struct After {
    wakers: Vec<Waker>,
    left: Vec<Dropped>,
}

/// What most calls have nothing of.
type IfAny = Option<Box<After>>;

thread_local! {
    // It has no destructor, so it is there while a thread ends, too.
    static AFTER: Cell<*mut IfAny> = const { Cell::new(ptr::null_mut()) };
}

/// Makes a call that returns soon, and then runs what comes of it.
pub fn calling<R>(call: impl FnOnce() -> R) -> R {
    let mut after: IfAny = None;
    let result = during(&mut after, call);
    if let Some(after) = after {
        run(*after);
    }
    result
}

/// A waker that panics is not the call's fault, which has an answer for its caller.
#[cold]
fn run(after: After) {
    after.wakers.into_iter().for_each(wake_caught);
}

/// Makes a call that may wait for long: wakers run in another thread meanwhile.
pub fn waiting<R>(call: impl FnOnce() -> R) -> R {
    during(ptr::null_mut(), call)
}

/// Makes a call that may wait until then.
pub fn until<R>(until: u64, call: impl FnOnce() -> R) -> R {
    match until {
        0 => calling(call),
        _ => waiting(call),
    }
}

fn during<R>(after: *mut IfAny, call: impl FnOnce() -> R) -> R {
    /// What was set before, which is set again.
    struct Before(*mut IfAny);
    impl Drop for Before {
        #[inline]
        fn drop(&mut self) {
            AFTER.with(|it| it.set(self.0));
        }
    }
    let _before = Before(AFTER.with(|it| it.replace(after)));
    call()
}

/// Wakes after the call in which the thread is, or else in a thread for that.
pub fn wake(waker: Waker) {
    let after = AFTER.with(Cell::get);
    if after.is_null() {
        return hand_over(waker);
    }
    // SAFETY: it is on this thread's stack until the call has returned, and nobody else uses it meanwhile.
    let after = unsafe { &mut *after };
    after.get_or_insert_with(Box::default).wakers.push(waker);
}

pub fn wake_caught(waker: Waker) {
    caught(|| waker.wake());
}

pub fn drop_caught(waker: Option<Waker>) {
    if waker.is_some() {
        caught(|| drop(waker));
    }
}

/// A panic ends here, and so does that of its payload's drop, and of that one's.
fn caught(run: impl FnOnce()) {
    let mut panic = catch_unwind(AssertUnwindSafe(run)).err();
    for _ in 0..2 {
        panic = panic.and_then(|it| catch_unwind(AssertUnwindSafe(|| drop(it))).err());
    }
    mem::forget(panic);
}

/// Where wakers go that can't run in their own thread: one that waits in the library for an item, or one of C or C++. They may call the
/// library, so a thread of this crate runs them.
static WAKERS: Mutex<Option<Sender<Waker>>> = Mutex::new(None);

/// Whether that thread has started.
static IS_STARTED: AtomicBool = AtomicBool::new(false);

/// Locks what no panic leaves half done.
pub fn locked<T>(mutex: &Mutex<T>) -> MutexGuard<'_, T> {
    mutex.lock().unwrap_or_else(PoisonError::into_inner)
}

/// Starts the thread that runs such wakers, before the first member listens: whether there is one.
pub fn has_thread() -> bool {
    IS_STARTED.load(Ordering::Acquire) || start()
}

#[cold]
fn start() -> bool {
    let mut sender = locked(&WAKERS);
    if sender.is_none() {
        *sender = start_waking().ok();
        IS_STARTED.store(sender.is_some(), Ordering::Release);
    }
    sender.is_some()
}

fn start_waking() -> io::Result<Sender<Waker>> {
    let (sender, wakers) = channel::<Waker>();
    let wake_each = move || wakers.into_iter().for_each(wake_caught);
    let thread = Builder::new().name("flatpq wakers".to_string());
    thread.spawn(wake_each).map(|_| sender)
}

#[cold]
fn hand_over(waker: Waker) {
    // The thread is there since a member listens, and never ends.
    if let Some(sender) = &*locked(&WAKERS) {
        let _ = sender.send(waker);
    }
}

/// A payload that is dropped with this. If one of many panics, the others are dropped all the same.
pub struct Dropped {
    value: u64,
    drop: unsafe fn(u64),
}

impl Dropped {
    /// The payload of this value, which this function drops.
    ///
    /// # Safety
    ///
    /// The function drops payloads of this value's type, and nobody else has the payload.
    pub unsafe fn by(drop: unsafe fn(u64), value: u64) -> Dropped {
        Dropped { value, drop }
    }

    /// Drops it after the call in which the thread is, or leaks it if there is none.
    pub fn drop_after(self) {
        let after = AFTER.with(Cell::get);
        if after.is_null() {
            // The call that freed the queue is over, and so may be what the payload borrows.
            mem::forget(self);
        } else {
            // SAFETY: as above.
            let after = unsafe { &mut *after };
            after.get_or_insert_with(Box::default).left.push(self);
        }
    }
}

impl Drop for Dropped {
    fn drop(&mut self) {
        // SAFETY: as the maker said; it is dropped once.
        unsafe { (self.drop)(self.value) }
    }
}
