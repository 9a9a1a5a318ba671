//! What threads share, as the standard library has it. The explorer of schedules (`tests/explore/rust`) has its own in place of this.
pub use std::sync::atomic::AtomicBool;
pub use std::sync::mpsc::{channel, Sender};
pub use std::sync::{Mutex, MutexGuard};
pub use std::thread::Builder;
pub use std::thread_local;
