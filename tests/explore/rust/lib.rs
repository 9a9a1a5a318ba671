//! The crate as it is, over what the explorer has in place of the standard library's threads (`sync.rs`), and what threads of scenarios do by it
//! (`words.rs`).
#![allow(dead_code)]

macro_rules! debug_by_name {
    ($($any:tt)*) => {};
}

#[path = "../../../bindings/rust/src/after.rs"]
mod after;
#[path = "../../../bindings/rust/src/batches.rs"]
mod batches;
#[path = "../../../bindings/rust/src/calls.rs"]
mod calls;
#[path = "../../../bindings/rust/src/clock.rs"]
mod clock;
#[path = "../../../bindings/rust/src/error.rs"]
mod error;
#[path = "../../../bindings/rust/src/futures.rs"]
mod futures;
#[path = "../../../bindings/rust/src/journal.rs"]
mod journal;
#[path = "../../../bindings/rust/src/key.rs"]
mod key;
#[path = "../../../bindings/rust/src/listener.rs"]
mod listener;
#[path = "../../../bindings/rust/src/options.rs"]
mod options;
#[path = "../../../bindings/rust/src/payload.rs"]
mod payload;
#[path = "../../../bindings/rust/src/raw.rs"]
mod raw;
#[path = "../../../bindings/rust/src/tasks.rs"]
mod tasks;
#[path = "../../../bindings/rust/src/turns.rs"]
mod turns;

mod explorer;
mod sync;
mod waker;
mod words;
