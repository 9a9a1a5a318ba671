//! Wakers of tasks, one of each thread. A wake is a step of the thread that wakes.
use crate::explorer::{self, point, Access, MOST_THREADS};
use crate::sync::{self, Own};
use std::cell::Cell;
use std::task::{RawWaker, RawWakerVTable, Waker};

/// What all clones of a waker are.
struct Alarm {
    thread: usize,
    /// It is the one by which its task was polled last.
    number: u32,
    clones: Cell<u32>,
    /// How often it may wake yet: once for each poll.
    may_wake: Cell<u32>,
}

#[derive(Default)]
struct Task {
    /// A step of another thread sets it.
    is_woken: Cell<u32>,
    number: Cell<u32>,
    clones: Cell<u32>,
}

static TASKS: Own<Task> = Own([const {
    Task {
        is_woken: Cell::new(0),
        number: Cell::new(0),
        clones: Cell::new(0),
    }
}; MOST_THREADS + 1]);

/// How many clones there are of all wakers of a thread.
pub fn clones(thread: usize) -> u32 {
    TASKS.0[thread].clones.get()
}

/// Where a wake shows.
pub fn word(thread: usize) -> *const u32 {
    TASKS.0[thread].is_woken.as_ptr()
}

pub fn is_woken() -> bool {
    point(c"is it woken", word(explorer::thread()), Access::Reads);
    TASKS.with(|it| it.is_woken.get()) != 0
}

/// A waker of the calling thread. Its earlier ones wake it no more.
pub fn new() -> Waker {
    let thread = explorer::thread();
    let number = TASKS.0[thread].number.get() + 1;
    TASKS.0[thread].number.set(number);
    TASKS.0[thread].clones.set(clones(thread) + 1);
    let alarm = Alarm {
        thread,
        number,
        clones: Cell::new(1),
        may_wake: Cell::new(0),
    };
    // SAFETY: the functions of the table are as those of `Arc<dyn Wake>`.
    unsafe { Waker::from_raw(RawWaker::new(Box::into_raw(Box::new(alarm)).cast(), &TABLE)) }
}

/// The task is polled by this one, and may be woken once more.
pub fn polls(waker: &Waker) {
    may_wake_more(waker);
    point(c"not woken yet", word(explorer::thread()), Access::Writes);
    TASKS.with(|it| it.is_woken.set(0));
}

pub fn may_wake_more(waker: &Waker) {
    let alarm = alarm_of(waker);
    alarm.may_wake.set(alarm.may_wake.get() + 1);
}

/// The last poll wakes no more.
pub fn may_wake_once_less(waker: &Waker) {
    let alarm = alarm_of(waker);
    alarm.may_wake.set(alarm.may_wake.get() - 1);
}

/// A timer of the task wakes by this one.
pub fn rings(waker: &Waker) {
    may_wake_more(waker);
    waker.wake_by_ref();
}

fn alarm_of(waker: &Waker) -> &Alarm {
    // SAFETY: all wakers here are those of `new`.
    unsafe { &*waker.data().cast() }
}

static TABLE: RawWakerVTable = RawWakerVTable::new(clone, wake, wake_by_ref, drop_one);

// SAFETY, of these four: the pointer is that of a waker of `new` which is there.

unsafe fn clone(at: *const ()) -> RawWaker {
    sync::user();
    let alarm = unsafe { &*at.cast::<Alarm>() };
    alarm.clones.set(alarm.clones.get() + 1);
    TASKS.0[alarm.thread].clones.set(clones(alarm.thread) + 1);
    RawWaker::new(at, &TABLE)
}

unsafe fn wake(at: *const ()) {
    unsafe {
        wake_by_ref(at);
        drop_one(at);
    }
}

unsafe fn wake_by_ref(at: *const ()) {
    sync::user();
    let alarm = unsafe { &*at.cast::<Alarm>() };
    let task = &TASKS.0[alarm.thread];
    point(c"wake", task.is_woken.as_ptr(), Access::Writes);
    if alarm.may_wake.get() == 0 {
        explorer::fail(c"a task is woken that listens no more, or was woken already");
    }
    alarm.may_wake.set(alarm.may_wake.get() - 1);
    if alarm.number == task.number.get() {
        task.is_woken.set(1);
        explorer::wake(task.is_woken.as_ptr());
    }
}

unsafe fn drop_one(at: *const ()) {
    sync::user();
    let alarm = unsafe { &*at.cast::<Alarm>() };
    TASKS.0[alarm.thread].clones.set(clones(alarm.thread) - 1);
    alarm.clones.set(alarm.clones.get() - 1);
    if alarm.clones.get() == 0 {
        drop(unsafe { Box::from_raw(at.cast_mut().cast::<Alarm>()) });
    }
}
