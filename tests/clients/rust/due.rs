//! A delay queue: a payload comes out once it is due and not before. What an earlier push, a deadline and a shut do to a thread that waits
//! tests/explore tries.
use flatpq::{Due, Error, Key, Options, TaskQueue, TickKey, TimeKey};
use std::cell::Cell;
use std::future::{poll_fn, Future};
use std::sync::atomic::{AtomicUsize, Ordering::SeqCst};
use std::sync::Arc;
use std::task::{Context, Poll, Wake};
use std::time::{Duration, Instant};

const UNIT: Duration = Duration::from_millis(1);

/// Keys count milliseconds from a moment.
fn timed<K: TickKey>(start: Instant) -> TaskQueue<K, u32> {
    let options = Options::new().tickets(true).times(start, UNIT);
    options.open().unwrap()
}

/// These keys are 20, 0 and 10 units after the start, and one that is an hour later.
fn come_in_time<K: TickKey + PartialEq + std::fmt::Debug>(keys: [K; 4]) {
    let start = Instant::now() + 1000 * UNIT;
    let queue = timed(start);
    let [twenty, zero, ten, late] = keys;
    let ticket = queue.push(late, 9).unwrap();
    assert_eq!(queue.reschedule(ticket, late), Ok(Some(2)));
    queue.push_many([(twenty, 3), (zero, 1), (ten, 2)]).unwrap();
    assert_eq!(queue.until(UNIT).take_due(), Ok(Due::Later(zero)));
    for (key, payload, units) in [(zero, 1, 0), (ten, 2, 10), (twenty, 3, 20)] {
        assert_eq!(queue.take_due(), Ok((key, payload)));
        let since = Instant::now().checked_duration_since(start);
        assert!(since.unwrap() >= units * UNIT);
    }
    assert_eq!(queue.until(UNIT).take_due(), Ok(Due::Later(late)));
    queue.shut().unwrap();
    assert_eq!(queue.pop(), Ok(Some((late, 9))));
    assert_eq!(queue.take_due(), Err(Error::Shut));
}

#[test]
fn keys_count_from_a_moment() {
    come_in_time([20_u64, 0, 10, 3_600_000]);
    come_in_time([20_i32, 0, 10, 3_600_000]);
    come_in_time([20, 0, 10, 3_600_000].map(Micros));
}

/// So the last key may stand for never.
#[test]
fn the_last_keys_come_out_as_the_last_one() {
    let queue = timed(Instant::now());
    queue.push_many([(u64::MAX, 1), (u64::MAX - 1, 2)]).unwrap();
    assert_eq!(queue.until(UNIT).take_due(), Ok(Due::Later(u64::MAX)));
    assert_eq!(queue.pop(), Ok(Some((u64::MAX, 1))));
    assert_eq!(queue.pop(), Ok(Some((u64::MAX, 2))));
    queue.push(7, 3).unwrap();
    assert!(queue.close().unwrap().left().eq([(7, 3)]));
}

/// Microseconds of the library's clock.
#[derive(Clone, Copy, Debug, PartialEq)]
struct Micros(u64);

impl Key for Micros {
    const TIME_UNIT: u64 = 1000;

    fn to_number(self) -> u64 {
        self.0
    }

    fn from_number(number: u64) -> Micros {
        Micros(number)
    }
}

impl TimeKey for Micros {}
impl TickKey for Micros {}

#[test]
fn a_type_of_keys_has_its_unit() {
    let queue = TaskQueue::new().unwrap();
    let now = Instant::now().to_number() ^ 1 << 63;
    let soon = Micros(now / 1000 + 5000);
    queue.push(soon, "soon").unwrap();
    queue.push(Micros(0), "past").unwrap();
    assert_eq!(queue.take_due(), Ok((Micros(0), "past")));
    let began = Instant::now();
    assert_eq!(queue.take_due(), Ok((soon, "soon")));
    assert!(began.elapsed() < 1000 * UNIT);
    assert!(Instant::now().to_number() ^ 1 << 63 >= soon.0 * 1000);
}

struct Counted(AtomicUsize);

impl Wake for Counted {
    fn wake(self: Arc<Counted>) {
        self.0.fetch_add(1, SeqCst);
    }
}

/// A future sleeps once until the first is due. Where a sleep ends too early its task is woken, and it sleeps again.
#[test]
fn a_future_sleeps_until_the_first_is_due() {
    let queue = TaskQueue::new().unwrap();
    let (sleeps, is_over) = (Cell::new(0), Cell::new(false));
    let sleep = |_: Instant| {
        sleeps.set(sleeps.get() + 1);
        poll_fn(|_| {
            if is_over.get() {
                Poll::Ready(())
            } else {
                Poll::Pending
            }
        })
    };
    let woken = Arc::new(Counted(AtomicUsize::new(0)));
    let waker = Arc::clone(&woken).into();
    let mut take = Box::pin(queue.take_due_async(sleep));
    let mut poll = || take.as_mut().poll(&mut Context::from_waker(&waker));
    assert!(poll().is_pending() && sleeps.get() == 0);
    let late = Instant::now() + 3_600_000 * UNIT;
    queue.push(late, "late").unwrap();
    assert!(poll().is_pending() && poll().is_pending() && sleeps.get() == 1);
    assert_eq!(woken.0.swap(0, SeqCst), 1);
    is_over.set(true);
    assert!(poll().is_pending() && woken.0.swap(0, SeqCst) == 1);
    is_over.set(false);
    assert!(poll().is_pending() && sleeps.get() == 2);
    let past = Instant::now();
    queue.push(past, "past").unwrap();
    assert_eq!(poll(), Poll::Ready(Ok((past, "past"))));
    assert_eq!(queue.pop(), Ok(Some((late, "late"))));
}
