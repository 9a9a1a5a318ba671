//! What the explorer has for words in other languages (`wrapping.h`).
use std::ffi::{c_char, c_int, CStr};

#[repr(C)]
#[derive(Clone, Copy)]
pub enum Access {
    Reads = 1,
    Writes,
    Locks,
    Unlocks = 5,
}

/// In which call a thread is.
#[repr(C)]
#[derive(Clone, Copy, PartialEq)]
pub enum In {
    NoCall,
    Calls,
    Takes,
    TakesDue,
    Pushes,
    ListensFor,
    ListensForDue,
    HasAlarm,
    Awaits,
    Serves,
}

#[repr(C)]
pub struct Word {
    pub text: *const c_char,
    pub does: Option<extern "C" fn(c_int, *const u64)>,
}

#[repr(C)]
pub struct Wrapper {
    pub name: *const c_char,
    pub words: *const Word,
    pub opens: extern "C" fn(*const crate::raw::RawOptions),
    pub thread_ends: extern "C" fn(c_int),
    pub settles: extern "C" fn(),
    pub shuts: extern "C" fn() -> u32,
    pub frees: extern "C" fn(),
}

// SAFETY: nobody writes what they point to.
unsafe impl Sync for Word {}
// SAFETY: as above.
unsafe impl Sync for Wrapper {}

mod inside {
    use super::*;
    use crate::journal::Item;

    extern "C" {
        pub static now: u64;
        pub static executions: u64;
        pub static is_over: c_int;
        pub fn scheduler_point(
            what: *const c_char,
            at: *const u32,
            access: Access,
            file: *const c_char,
            line: c_int,
        );
        pub fn scheduler_step(at: *const u32, access: Access);
        pub fn scheduler_thread() -> c_int;
        pub fn wake_word(word: *const u32);
        pub fn sleep_at(at: *const u32, seen: u32, until: u64);
        pub fn nap_for(nanoseconds: u64);
        pub fn fail(why: *const c_char, ...) -> !;
        pub fn next_value() -> u64;
        pub fn check_call_begins(call: In, limit: u64, number: u64);
        pub fn check_call_ends(request: u32, code: u32, item: Item, number: u64);
        pub fn await_readable(descriptor: c_int, until: u64) -> c_int;
        pub fn system_lock(mutex: *mut u32) -> c_int;
        pub fn system_unlock(mutex: *mut u32) -> c_int;
    }
}

pub const MOST_THREADS: usize = 8;
pub const FOREVER: u64 = u64::MAX;
/// The number of an entry that its call does not return.
pub const UNNUMBERED: u64 = u64::MAX;

// SAFETY, of all below: the explorer runs one thread at a time, and takes any words and numbers.

/// A step of the calling thread at this word comes next: others may go on before it.
pub fn point(what: &'static CStr, at: *const u32, access: Access) {
    unsafe { inside::scheduler_point(what.as_ptr(), at, access, c"rust".as_ptr(), 0) }
}

/// The number of the calling thread; that of the opening and the end is the last one.
pub fn thread() -> usize {
    usize::try_from(unsafe { inside::scheduler_thread() }).unwrap_or(MOST_THREADS)
}

pub fn now() -> u64 {
    unsafe {
        inside::scheduler_step((&raw const inside::now).cast(), Access::Reads);
        inside::now
    }
}

pub fn execution() -> u64 {
    unsafe { inside::executions }
}

pub fn is_over() -> bool {
    unsafe { (&raw const inside::is_over).read_volatile() != 0 }
}

pub fn wake(word: *const u32) {
    unsafe { inside::wake_word(word) }
}

pub fn sleep(at: *const u32, seen: u32, until: u64) {
    unsafe { inside::sleep_at(at, seen, until) }
}

pub fn nap(nanoseconds: u64) {
    unsafe { inside::nap_for(nanoseconds) }
}

pub fn fail(why: &'static CStr) -> ! {
    unsafe { inside::fail(c"%s".as_ptr(), why.as_ptr()) }
}

pub fn next_value() -> u64 {
    unsafe { inside::next_value() }
}

pub fn begins(call: In, limit: u64, number: u64) {
    unsafe { inside::check_call_begins(call, limit, number) }
}

pub fn ends(request: u32, code: u32, item: crate::journal::Item, number: u64) {
    unsafe { inside::check_call_ends(request, code, item, number) }
}

pub fn await_readable(descriptor: c_int, until: u64) -> bool {
    unsafe { inside::await_readable(descriptor, until) != 0 }
}

pub fn lock(mutex: *mut u32) {
    point(c"lock", mutex, Access::Locks);
    unsafe { inside::system_lock(mutex) };
}

pub fn unlock(mutex: *mut u32) {
    point(c"unlock", mutex, Access::Unlocks);
    unsafe { inside::system_unlock(mutex) };
}
