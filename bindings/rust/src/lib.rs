//! A priority queue that threads share, over flatpq, whose core is verified.
//!
//! A [`TaskQueue`] has payloads of any type, each by a [`Key`]. The smallest key comes out first, and payloads of equal keys in the order in
//! which they were pushed or moved there. Any number of threads may call it.
//!
//! ```
//! use flatpq::TaskQueue;
//! use std::thread;
//!
//! # fn main() -> Result<(), flatpq::Error> {
//! let queue = TaskQueue::new()?;
//! for (priority, task) in [(30, "sleep"), (10, "get up")] {
//!     queue.push(priority, task)?;
//! }
//! let first = thread::scope(|it| it.spawn(|| queue.take()).join().expect("the thread ends"));
//! assert_eq!(first?, (10, "get up"));
//! assert_eq!(queue.pop()?, Some((30, "sleep")));
//! assert_eq!(queue.pop()?, None);
//! # Ok(())
//! # }
//! ```
//!
//! - Calls: [`push`](TaskQueue::push), [`pop`](TaskQueue::pop), [`peek`](TaskQueue::peek), and [`pop_due`](TaskQueue::pop_due), up to a key.
//!   [`drain`](TaskQueue::drain) and [`clear`](TaskQueue::clear) take all.
//! - [`take`](TaskQueue::take) waits for a payload; [`try_take`](TaskQueue::try_take) never waits. If keys are times,
//!   [`take_due`](TaskQueue::take_due) and [`try_take_due`](TaskQueue::try_take_due) do the same for what is due.
//! - Batches, up to 64 requests under one lock: [`push_many`](TaskQueue::push_many) and [`pop_due_many`](TaskQueue::pop_due_many).
//! - Tickets, by which a payload is removed or moved wherever it waits: [`remove`](TaskQueue::remove), [`reschedule`](TaskQueue::reschedule).
//! - [`len`](TaskQueue::len) is exact, and so is [`peak_len`](TaskQueue::peak_len), the most that it has been. A queue may have a bound, at
//!   which pushes wait for room ([`Options::most_items`]).
//! - The two `try_` calls never wait. Every other call above may wait without limit; [`until`](TaskQueue::until) sets one, except for `drain`
//!   and `clear`: `queue.until(deadline).take()`.
//! - A [`TaskMember`] moves between threads. A thread that calls the queue itself has a member of its own, which [`leave`](TaskQueue::leave) gives
//!   back early.
//! - A task of an executor awaits [`take_async`](TaskQueue::take_async), [`take_due_async`](TaskQueue::take_due_async) or
//!   [`push_async`](TaskQueue::push_async). An event loop has a [`Listener`], or a [`DueListener`] for what is due.
//! - Each request that takes effect has an entry in the queue's [`Journal`], and so has a pop, a removal or a move that found nothing. Memory
//!   keeps the last ones, which [`archive`](TaskQueue::archive) copies, and [`close`](TaskQueue::close).
//! - After [`shut`](TaskQueue::shut) pushes are refused; takes return what is left, and then [`Error::Shut`]. [`is_shut`](TaskQueue::is_shut) asks
//!   whether that was done.
//! - A program that writes archives to a file survives a crash: [`wait_archived`](TaskQueue::wait_archived) waits until the program has stored a
//!   push's entry, and [`read_from`](TaskJournal::read_from) reads the file back, of a [`Queue`] alone. So push ids, and store payloads yourself.
//! - A [`Queue`] is one of integers.
//!
//! The queue is linearizable and lock-based. While other threads call without pause, calls may starve, except `shut`, and a `push` or `pop`
//! without a deadline. Of n payloads a push, a pop or a take costs O(log n).
//!
//! All that a thread does before it pushes or moves a payload happens before whatever a thread does after a call that returned this payload.
//!
//! In a forked child of a process that has opened a queue, calls except those of journals are refused ([`Error::Forked`]) or do nothing, and
//! payloads are not dropped.
//!
//! The crate needs Rust 1.63, and has no dependencies and no features. It links the static library in the folder `FLATPQ_LIB_DIR`. Without that
//! it looks in this order: in the package that holds the crate; in `out/` of its clone; by `pkg-config`. If `FLATPQ_DYNAMIC` is 1, it links the
//! shared library of `pkg-config`. It compares versions only where it asks `pkg-config`; else compare [`library_version`].
#![deny(missing_docs)]
#![deny(missing_debug_implementations)]
#![deny(unsafe_op_in_unsafe_fn)]

#[cfg(not(all(target_os = "linux", target_env = "gnu", target_arch = "x86_64")))]
compile_error!("flatpq runs on Linux with glibc on x86-64 alone");

/// A text for messages that has the name alone: payloads need none.
macro_rules! debug_by_name {
    ($Name:ident<$($life:lifetime,)? $($Part:ident),+>) => {
        impl<$($life,)? $($Part),+> std::fmt::Debug for $Name<$($life,)? $($Part),+> {
            fn fmt(&self, f: &mut std::fmt::Formatter<'_>) -> std::fmt::Result {
                f.debug_struct(stringify!($Name)).finish_non_exhaustive()
            }
        }
    };
}

mod after;
mod batches;
mod calls;
mod clock;
mod error;
mod futures;
mod journal;
mod key;
mod listener;
mod options;
mod payload;
mod raw;
mod sync;
mod tasks;
mod turns;

pub use batches::Pushed;
pub use calls::{Limited, Number};
pub use clock::Until;
pub use error::{Due, Error, NotAllPushed, NotClosed, NotPushed, NotReadBack};
pub use futures::{Push, Take, TakeDue, WaitArchived};
pub use journal::{Entry, Item, Iter, Journal, Left, ReadBack, Request, TaskJournal};
pub use key::{Key, TickKey, TimeKey};
pub use listener::{DueListener, Listener};
pub use options::{Keeping, Options};
pub use tasks::{Drain, Member, Queue, TaskMember, TaskQueue};

/// The version of the library that is linked: 10,000 times its major number, 100 times its minor number, and its patch. It goes with
/// this crate if all but the patch are the same, and its patch is not lower.
///
/// ```
/// let numbers = [env!("CARGO_PKG_VERSION_MAJOR"), env!("CARGO_PKG_VERSION_MINOR"), env!("CARGO_PKG_VERSION_PATCH")];
/// let own = numbers.iter().fold(0, |sum, number| 100 * sum + number.parse::<u32>().unwrap());
/// assert_eq!(flatpq::library_version() / 100, own / 100);
/// assert!(flatpq::library_version() >= own);
/// ```
#[must_use]
pub fn library_version() -> u32 {
    // SAFETY: the call returns a constant.
    unsafe { raw::pq_version() }
}
