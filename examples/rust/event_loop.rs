//! Timers in an asynchronous task, over an executor of a few lines. The task takes what is due, and else waits until the listener's descriptor
//! is readable. It is once the first timer is due, another thread has pushed an earlier one, or the queue is shut. The task itself is as for tokio.
use flatpq::{Due, Error, TaskQueue};
use std::cell::Cell;
use std::future::Future;
use std::os::raw::{c_int, c_short, c_ulong};
use std::os::unix::io::{AsRawFd, RawFd};
use std::pin::Pin;
use std::sync::Arc;
use std::task::{Context, Poll, Wake};
use std::time::{Duration, Instant};
use std::{io, thread};

type Timers = TaskQueue<Instant, String>;

#[repr(C)]
struct Polled {
    descriptor: RawFd,
    events: c_short,
    has: c_short,
}

extern "C" {
    fn poll(all: *mut Polled, count: c_ulong, milliseconds: c_int) -> c_int;
}

/// Whether the descriptor is readable within so many milliseconds; -1 has no end.
fn is_readable(descriptor: RawFd, milliseconds: c_int) -> bool {
    const IN: c_short = 1;
    let mut one = Polled {
        descriptor,
        events: IN,
        has: 0,
    };
    // SAFETY: it is one, and borrowed for the call.
    unsafe { poll(&mut one, 1, milliseconds) == 1 }
}

thread_local! {
    /// What the task waits for.
    static AWAITED: Cell<RawFd> = const { Cell::new(-1) };
}

/// Waits for a descriptor. It has the calls of `tokio::io::unix::AsyncFd` that the task makes.
struct AsyncFd<T>(T);

impl<T: AsRawFd> AsyncFd<T> {
    fn new(inner: T) -> io::Result<AsyncFd<T>> {
        Ok(AsyncFd(inner))
    }

    fn get_mut(&mut self) -> &mut T {
        &mut self.0
    }

    fn readable_mut(&mut self) -> Readable {
        Readable(self.0.as_raw_fd())
    }
}

/// Is ready once the descriptor is readable.
struct Readable(RawFd);

/// This executor remembers nothing of a descriptor.
struct ReadyGuard;

impl ReadyGuard {
    fn clear_ready(&mut self) {}
}

impl Future for Readable {
    type Output = io::Result<ReadyGuard>;

    fn poll(self: Pin<&mut Self>, _: &mut Context<'_>) -> Poll<Self::Output> {
        if is_readable(self.0, 0) {
            return Poll::Ready(Ok(ReadyGuard));
        }
        AWAITED.with(|it| it.set(self.0));
        Poll::Pending
    }
}

struct Nobody;

impl Wake for Nobody {
    fn wake(self: Arc<Nobody>) {}
}

/// Runs one task, and sleeps while it waits for a descriptor.
fn block_on<R>(task: impl Future<Output = R>) -> R {
    let (mut task, waker) = (Box::pin(task), Arc::new(Nobody).into());
    loop {
        if let Poll::Ready(result) = task.as_mut().poll(&mut Context::from_waker(&waker)) {
            return result;
        }
        is_readable(AWAITED.with(Cell::get), -1);
    }
}

fn show(moment: Instant, text: &str) {
    let is_early = Instant::now() < moment;
    println!("{text}{}", if is_early { ", too early" } else { "" });
}

async fn run(timers: &Timers) -> io::Result<()> {
    let mut ready = AsyncFd::new(timers.due_listener()?)?;
    loop {
        match ready.get_mut().try_take_due() {
            Ok(Due::Got(moment, text)) => show(moment, &text),
            Ok(_) => ready.readable_mut().await?.clear_ready(),
            Err(Error::Shut) => return Ok(()),
            Err(error) => return Err(error.into()),
        }
    }
}

fn push(timers: &Timers) -> Result<(), Error> {
    let start = Instant::now();
    for milliseconds in [80, 40, 100, 60] {
        let due = start + Duration::from_millis(milliseconds);
        timers.push(due, format!("{milliseconds} ms are over"))?;
    }
    timers.shut()
}

fn main() -> io::Result<()> {
    let timers = Timers::new()?;
    thread::scope(|scope| {
        let pushing = scope.spawn(|| push(&timers));
        block_on(run(&timers))?;
        Ok(pushing.join().expect("the thread ends")?)
    })
}
