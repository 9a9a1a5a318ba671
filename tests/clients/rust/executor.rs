//! An executor of the tests' own, for one thread.
use std::future::Future;
use std::pin::Pin;
use std::sync::atomic::{AtomicUsize, Ordering};
use std::sync::Arc;
use std::task::{Context, Poll, Wake, Waker};
use std::thread::{self, Thread};
use std::time::{Duration, Instant};

pub const LONG: Duration = Duration::from_secs(60);

/// Counts how often it is woken, and lets a thread go on.
pub struct Counted {
    wakes: AtomicUsize,
    thread: Thread,
}

impl Counted {
    pub fn new() -> Arc<Counted> {
        Arc::new(Counted {
            wakes: AtomicUsize::new(0),
            thread: thread::current(),
        })
    }

    pub fn wakes(&self) -> usize {
        self.wakes.load(Ordering::SeqCst)
    }
}

impl Wake for Counted {
    fn wake(self: Arc<Counted>) {
        self.wakes.fetch_add(1, Ordering::SeqCst);
        self.thread.unpark();
    }
}

pub fn polled<F: Future + Unpin>(future: &mut F, counted: &Arc<Counted>) -> Poll<F::Output> {
    let waker = Waker::from(Arc::clone(counted));
    Pin::new(future).poll(&mut Context::from_waker(&waker))
}

/// Runs futures in this thread until all are ready: each is polled where it was woken.
pub fn run_all<T>(mut futures: Vec<Pin<Box<dyn Future<Output = T> + '_>>>) -> Vec<T> {
    let counted: Vec<_> = futures.iter().map(|_| Counted::new()).collect();
    let mut ready: Vec<Option<T>> = futures.iter().map(|_| None).collect();
    let mut polled_at = vec![usize::MAX; futures.len()];
    while ready.iter().any(Option::is_none) {
        for (at, future) in futures.iter_mut().enumerate() {
            let wakes = counted[at].wakes();
            if ready[at].is_none() && polled_at[at] != wakes {
                polled_at[at] = wakes;
                if let Poll::Ready(output) = polled(future, &counted[at]) {
                    ready[at] = Some(output);
                }
            }
        }
        let idle = Instant::now();
        let is_woken = |at: usize| ready[at].is_none() && polled_at[at] != counted[at].wakes();
        while ready.iter().any(Option::is_none) && !(0..ready.len()).any(is_woken) {
            assert!(idle.elapsed() < LONG);
            thread::park_timeout(LONG);
        }
    }
    ready.into_iter().flatten().collect()
}

pub fn run<'a, T: 'a>(future: impl Future<Output = T> + 'a) -> T {
    run_all(vec![Box::pin(future)]).remove(0)
}
