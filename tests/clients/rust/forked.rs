//! In children that are forked while threads are busy each call is refused, and queues and members end without waiting.
use flatpq::{Error, Queue, Take, TaskMember, TaskQueue, Until};
use std::future::Future;
use std::os::unix::io::AsRawFd;
use std::pin::Pin;
use std::ptr;
use std::sync::atomic::{AtomicBool, AtomicU32, Ordering::Relaxed};
use std::sync::Arc;
use std::task::{Context, Poll, Wake, Waker};
use std::thread;
use std::time::Duration;

const CHILDREN: usize = 40;
const SECONDS: u32 = 20;

#[repr(C)]
struct Polled {
    descriptor: i32,
    events: i16,
    has: i16,
}

extern "C" {
    fn poll(all: *mut Polled, count: u64, milliseconds: i32) -> i32;
    fn fork() -> i32;
    fn alarm(seconds: u32) -> u32;
    fn waitpid(child: i32, status: *mut i32, options: i32) -> i32;
    fn _exit(status: i32) -> !;
}

static DROPS: AtomicU32 = AtomicU32::new(0);

/// A payload that counts its drops.
struct Counted;

impl Drop for Counted {
    fn drop(&mut self) {
        DROPS.fetch_add(1, Relaxed);
    }
}

/// Whether each call is refused. A child does not panic.
fn is_refused(queue: TaskQueue<u64, Counted>, mut own: TaskMember<u64, Counted>) -> bool {
    let refused = Some(Error::Forked);
    let before = DROPS.load(Relaxed);
    let back = queue.push(1, Counted).err();
    let comes_back = DROPS.load(Relaxed) == before && back.map(|it| it.error) == refused;
    let calls = queue.pop().err() == refused
        && queue.take().err() == refused
        && queue.until(Duration::from_secs(1000)).take().err() == refused
        && queue.until(Until::NOW).pop().err() == refused
        && queue.take_due().err() == refused
        && queue.clear().err() == refused
        && queue.join().err() == refused
        && queue.join_until(Until::FOREVER).err() == refused
        && queue.listener().is_err()
        && TaskQueue::<u64, u32>::new().err() == refused
        && queue.shut().err() == refused
        && own.push(1, Counted).err().map(|it| it.error) == refused
        && own.pop_due(1).err() == refused
        && own.archive(0).err() == refused
        && own.len().err() == refused;
    queue.leave();
    own.unlisten();
    drop(own);
    // Those that are in the queue are not dropped.
    let closed = queue.close().err().map(|it| it.error) == refused;
    comes_back && calls && closed && DROPS.load(Relaxed) == before + 2
}

/// Runs the child, which the alarm ends where it hangs: whether it came to its end, and its answer was yes.
fn forked(child: impl FnOnce() -> bool) -> bool {
    let mut status = 0;
    // SAFETY: the child calls nothing that another thread may have been in the midst of, and ends without going on; the status is
    // this call's own.
    unsafe {
        let pid = fork();
        if pid == 0 {
            alarm(SECONDS);
            _exit(i32::from(!child()));
        }
        pid > 0 && waitpid(pid, &mut status, 0) == pid && status == 0
    }
}

#[test]
fn children_are_refused_and_none_hangs() {
    let (queue, busy) = (TaskQueue::new().unwrap(), TaskQueue::new().unwrap());
    let own = queue.join().unwrap();
    queue.push(1, Counted).unwrap();
    let is_over = AtomicBool::new(false);
    let calls = || {
        while !is_over.load(Relaxed) {
            busy.push(1, 1).unwrap();
            busy.join().unwrap().pop().unwrap();
        }
    };
    thread::scope(|scope| {
        let threads = [(); 3].map(|()| scope.spawn(calls));
        let each = (0..CHILDREN).all(|_| {
            forked(|| {
                // SAFETY: the child has no other thread, and ends without a drop of what was read here.
                let (queue, own) = unsafe { (ptr::read(&queue), ptr::read(&own)) };
                busy.pop().err() == Some(Error::Forked) && is_refused(queue, own)
            })
        });
        is_over.store(true, Relaxed);
        assert!(each);
        threads.into_iter().for_each(|it| it.join().unwrap());
    });
    assert_eq!(DROPS.load(Relaxed), 0);
    assert!(queue.pop().unwrap().is_some());
    drop((own, queue));
    assert_eq!(DROPS.load(Relaxed), 1);
}

struct Nobody;

impl Wake for Nobody {
    fn wake(self: Arc<Nobody>) {}
}

fn is_polled(take: &mut Take<'_, u64, u64>, polled: Poll<Result<(u64, u64), Error>>) -> bool {
    let waker = Waker::from(Arc::new(Nobody));
    Pin::new(take).poll(&mut Context::from_waker(&waker)) == polled
}

/// Two threads make such futures and drop them, while children get one each: whether each came to its end.
fn each_child_ends<F>(
    children: usize,
    listens: impl Fn() -> F + Sync,
    child: impl Fn(F) -> bool,
) -> bool {
    let is_over = AtomicBool::new(false);
    thread::scope(|threads| {
        for _ in 0..2 {
            threads.spawn(|| {
                while !is_over.load(Relaxed) {
                    drop(listens());
                }
            });
        }
        let each = (0..children).all(|_| {
            let own = listens();
            forked(|| child(own))
        });
        is_over.store(true, Relaxed);
        each
    })
}

/// Futures of a queue share a lock, which another thread may have.
#[test]
fn a_child_waits_for_no_future() {
    let queue = Queue::new().unwrap();
    let listens = || {
        let mut take = queue.take_async();
        assert!(is_polled(&mut take, Poll::Pending));
        take
    };
    let is_refused = |mut it: Take<'_, _, _>| is_polled(&mut it, Poll::Ready(Err(Error::Forked)));
    assert!(each_child_ends(CHILDREN, listens, is_refused));
}

/// And so do those that wait for an archive.
#[test]
fn a_child_drops_what_waits_for_an_archive() {
    let queue = Queue::<u64, u64>::new().unwrap();
    let waker = Waker::from(Arc::new(Nobody));
    let listens = || {
        let mut it = queue.wait_archived_async(1 << 40);
        assert!(Pin::new(&mut it)
            .poll(&mut Context::from_waker(&waker))
            .is_pending());
        it
    };
    assert!(each_child_ends(5 * CHILDREN, listens, |it| {
        drop(it);
        true
    }));
}

/// The child has the parent's descriptor too.
#[test]
fn a_child_takes_no_event() {
    let queue = TaskQueue::new().unwrap();
    let mut listener = queue.listener().unwrap();
    assert_eq!(listener.try_take(), Ok(None));
    queue.push(5, 50).unwrap();
    assert!(forked(|| listener.try_take() == Err(Error::Forked)));
    let (descriptor, events) = (listener.as_raw_fd(), 1);
    let mut polled = Polled {
        descriptor,
        events,
        has: 0,
    };
    // SAFETY: it is one, and borrowed for the call.
    assert_eq!(unsafe { poll(&mut polled, 1, 0) }, 1);
    assert_eq!(listener.try_take(), Ok(Some((5, 50))));
}
