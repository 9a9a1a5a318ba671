//! Takes and pushes by futures, on an executor of this test's own: what is there, or has room, is ready at once, a push and a pop wake, and threads
//! that wait and futures lose no payload together. By a member, and by the queue. Drops, shuts and who is woken tests/explore tries.
mod executor;

use executor::{polled, run, run_all, Counted, LONG};
use flatpq::{Error, Member, Options, Queue, TaskQueue};
use std::future::Future;
use std::pin::Pin;
use std::sync::atomic::{AtomicUsize, Ordering};
use std::sync::{Arc, Mutex};
use std::task::{Context, Poll, RawWaker, RawWakerVTable, Waker};
use std::thread;
use std::time::{Duration, Instant};

fn members<const COUNT: usize>(queue: &Queue) -> [Member; COUNT] {
    [(); COUNT].map(|()| queue.join().unwrap())
}

#[test]
fn what_is_there_is_ready_and_what_comes_wakes() {
    let queue: Queue = Queue::new().unwrap();
    let [mut taker] = members(&queue);
    queue.push(1, 1).unwrap();
    assert_eq!(run(taker.take_async()), Ok((1, 1)));
    let (counted, other) = (Counted::new(), Counted::new());
    let mut take = taker.take_async();
    assert!(polled(&mut take, &counted).is_pending());
    assert!(polled(&mut take, &counted).is_pending() && counted.wakes() == 0);
    queue.push(1, 2).unwrap();
    queue.push(1, 3).unwrap();
    assert_eq!(counted.wakes(), 1);
    for value in [2, 3] {
        assert_eq!(polled(&mut take, &counted), Poll::Ready(Ok((1, value))));
    }
    // By the waker of the last poll.
    assert!(polled(&mut take, &counted).is_pending());
    assert!(polled(&mut take, &other).is_pending());
    queue.push(1, 4).unwrap();
    assert_eq!((counted.wakes(), other.wakes()), (1, 1));
    queue.shut().unwrap();
    assert_eq!(polled(&mut take, &other), Poll::Ready(Ok((1, 4))));
    assert_eq!(polled(&mut take, &other), Poll::Ready(Err(Error::Shut)));
    drop(take);
    let entries = queue.archive(0).unwrap().len();
    assert_eq!(entries, 9);
}

#[test]
fn a_member_that_listens_no_longer_has_no_waker() {
    let queue: Queue = Queue::new().unwrap();
    let [mut member] = members(&queue);
    let counted = Counted::new();
    let waker = Waker::from(Arc::clone(&counted));
    assert!(member
        .poll_take(&mut Context::from_waker(&waker))
        .is_pending());
    drop(waker);
    assert!(Arc::strong_count(&counted) == 2 && member.unlisten());
    assert!(Arc::strong_count(&counted) == 1 && !member.unlisten());
    // Nor has one that took.
    queue.push(1, 2).unwrap();
    let waker = Waker::from(Arc::clone(&counted));
    let taken = member.poll_take(&mut Context::from_waker(&waker));
    assert!(taken.is_ready() && Arc::strong_count(&counted) == 2 && member.number() == 2);
}

/// The sleep until the old time never ends.
#[test]
fn a_move_to_now_wakes() {
    let queue: TaskQueue<Instant, u32> = Options::new().tickets(true).open().unwrap();
    let ticket = queue.push(Instant::now() + LONG, 1).unwrap();
    let mut taker = queue.join().unwrap();
    let counted = Counted::new();
    let mut take = Box::pin(taker.take_due_async(|_| std::future::pending()));
    assert!(polled(&mut take, &counted).is_pending() && counted.wakes() == 0);
    let now = Instant::now();
    assert_eq!(queue.reschedule(ticket, now), Ok(Some(2)));
    assert_eq!(counted.wakes(), 1);
    assert_eq!(polled(&mut take, &counted), Poll::Ready(Ok((now, 1))));
}

#[test]
fn a_future_of_the_queue_joins_while_it_waits() {
    let queue: TaskQueue<u64, String> = Options::new().members(3).open().unwrap();
    let (_awake, counted) = (queue.join().unwrap(), Counted::new());
    let mut takes = [queue.take_async(), queue.take_async(), queue.take_async()];
    assert!(polled(&mut takes[0], &counted).is_pending());
    assert!(polled(&mut takes[1], &counted).is_pending());
    assert!(polled(&mut takes[2], &counted).is_pending());
    let [first, second, mut third] = takes;
    drop(second);
    assert_eq!(counted.wakes(), 1);
    assert_eq!(queue.until(Duration::ZERO).pop(), Ok(None));
    queue.leave();
    thread::scope(|scope| {
        scope.spawn(|| queue.push(7, "seven".to_string()).unwrap());
        assert_eq!(run(first), Ok((7, "seven".to_string())));
    });
    queue.shut().unwrap();
    assert_eq!(run(&mut third), Err(Error::Shut));
    let members = [queue.join().unwrap(), queue.join().unwrap()];
    assert_ne!(members[0].place(), members[1].place());
}

#[test]
fn a_member_that_goes_when_it_was_woken_wakes_the_next() {
    let queue: Queue = Queue::new().unwrap();
    let [mut first, mut second] = members(&queue);
    let [one, other] = [Counted::new(), Counted::new()];
    let mut forgotten = first.take_async();
    assert!(polled(&mut forgotten, &one).is_pending());
    std::mem::forget(forgotten);
    let mut taking = second.take_async();
    assert!(polled(&mut taking, &other).is_pending());
    queue.push(1, 3).unwrap();
    assert_eq!((one.wakes(), other.wakes()), (1, 0));
    drop(first);
    assert_eq!((one.wakes(), other.wakes()), (1, 1));
}

/// A member that listens may make other calls, also one that waits, which ends the listening.
#[test]
fn a_member_that_listens_makes_other_calls() {
    let queue: Queue = Queue::new().unwrap();
    let [mut member] = members(&queue);
    let counted = Counted::new();
    let waker = Waker::from(Arc::clone(&counted));
    let context = &mut Context::from_waker(&waker);
    assert!(member.poll_take(context).is_pending());
    assert_eq!(member.push(1, 2).unwrap(), 1);
    assert_eq!(counted.wakes(), 1);
    assert_eq!(member.poll_take(context), Poll::Ready(Ok((1, 2))));
    assert!(member.poll_take(context).is_pending() && member.unlisten());
    assert!(member.poll_take(context).is_pending());
    assert_eq!(member.until(Duration::from_millis(5)).take(), Ok(None));
    assert!(!member.unlisten());
    queue.push(3, 4).unwrap();
    assert_eq!((member.take(), counted.wakes()), (Ok((3, 4)), 1));
}

/// By archives that have counted its entry, and no other; of one that was dropped no waker is left.
#[test]
fn an_archive_wakes_those_whose_entries_it_has_counted() {
    let queue: Queue = Queue::new().unwrap();
    queue.push_many((0..3).map(|it| (it, it))).unwrap();
    let counted = [(); 4].map(|()| Counted::new());
    let mut waits = [1, 2, 3, 3].map(|number| queue.wait_archived_async(number));
    for (wait, counted) in waits.iter_mut().zip(&counted) {
        assert!(polled(wait, counted).is_pending() && polled(wait, counted).is_pending());
    }
    let [mut first, second, mut third, _fourth] = waits;
    drop(second);
    assert_eq!(Arc::strong_count(&counted[1]), 1);
    assert_eq!(queue.archive(2).unwrap().len(), 1);
    assert_eq!([0, 1, 2, 3].map(|it| counted[it].wakes()), [1, 0, 0, 0]);
    assert_eq!(polled(&mut first, &counted[0]), Poll::Ready(Ok(())));
    assert!(polled(&mut third, &counted[2]).is_pending());
    thread::scope(|scope| {
        scope.spawn(|| queue.archive(3).unwrap());
        assert_eq!(run(third), Ok(()));
    });
    assert_eq!(counted[3].wakes(), 1);
    assert_eq!(run(queue.wait_archived_async(3)), Ok(()));
}

/// Two futures on one thread, and a thread that waits, take all that two threads push.
#[test]
fn futures_and_threads_get_all_in_time() {
    const EACH: u64 = 3000;
    let queue: Queue = Queue::new().unwrap();
    let queue = &queue;
    let all = |mut member: Member| async move {
        let mut got = 0;
        while member.take_async().await.is_ok() {
            got += 1;
        }
        got
    };
    let got: u64 = thread::scope(|scope| {
        let waits = scope.spawn(|| std::iter::from_fn(|| queue.take().ok()).count());
        let pushing = [0, 1].map(|_| {
            scope.spawn(move || {
                for value in 0..EACH {
                    if value % 50 == 0 {
                        thread::sleep(Duration::from_micros(300));
                    }
                    queue.push(1, value).unwrap();
                }
            })
        });
        scope.spawn(move || {
            pushing.into_iter().for_each(|it| it.join().unwrap());
            queue.shut().unwrap();
        });
        let [first, second] = members(queue);
        let by_futures = run_all(vec![Box::pin(all(first)), Box::pin(all(second))]);
        by_futures.into_iter().sum::<u64>() + waits.join().unwrap() as u64
    });
    assert_eq!(got, 2 * EACH);
}

/// A timer as an executor has one: a thread that sleeps until a moment.
struct Sleep(Instant);

impl Future for Sleep {
    type Output = ();

    fn poll(self: Pin<&mut Self>, cx: &mut Context<'_>) -> Poll<()> {
        let (moment, waker) = (self.0, cx.waker().clone());
        let left = moment.saturating_duration_since(Instant::now());
        if left.is_zero() {
            return Poll::Ready(());
        }
        thread::spawn(move || {
            thread::sleep(left);
            waker.wake();
        });
        Poll::Pending
    }
}

#[test]
fn what_is_due_is_taken_by_the_program_s_own_timer() {
    const UNIT: Duration = Duration::from_millis(5);
    let queue: TaskQueue<Instant, u32> = TaskQueue::new().unwrap();
    let start = Instant::now();
    let asked = Mutex::new(Vec::new());
    let sleep = |moment| {
        asked.lock().unwrap().push(moment);
        Sleep(moment)
    };
    let [soon, later, late] = [2, 4, 20_000].map(|it| start + it * UNIT);
    queue.push(late, 3).unwrap();
    let mut take = queue.take_due_async(sleep);
    assert!(polled(&mut take, &Counted::new()).is_pending());
    assert_eq!(*asked.lock().unwrap(), [late]);
    queue.push_many([(later, 2), (soon, 1)]).unwrap();
    assert_eq!(run(take), Ok((soon, 1)));
    assert!(Instant::now() >= soon);
    let mut member = queue.join().unwrap();
    assert_eq!(run(member.take_due_async(sleep)), Ok((later, 2)));
    assert!(Instant::now() >= later && Instant::now() < late);
    let mut take = member.take_due_async(sleep);
    assert!(polled(&mut take, &Counted::new()).is_pending());
    queue.shut().unwrap();
    assert_eq!(queue.clear(), Ok(1));
    assert_eq!(run(take), Err(Error::Shut));
}

/// Calls a queue where its waker is copied for the first time, and counts its wakes.
struct Calling<'a> {
    queue: &'a Queue,
    call: fn(&Queue),
    copies: AtomicUsize,
    wakes: AtomicUsize,
}

static OF_CALLING: RawWakerVTable = RawWakerVTable::new(
    |it| {
        let calling = Calling::of(it);
        if calling.copies.fetch_add(1, Ordering::SeqCst) == 0 {
            (calling.call)(calling.queue);
        }
        RawWaker::new(it, &OF_CALLING)
    },
    |it| Calling::of(it).woken(),
    |it| Calling::of(it).woken(),
    |_| (),
);

impl<'a> Calling<'a> {
    fn new(queue: &'a Queue, call: fn(&Queue)) -> Calling<'a> {
        Calling {
            queue,
            call,
            copies: AtomicUsize::new(0),
            wakes: AtomicUsize::new(0),
        }
    }

    fn waker(&self) -> Waker {
        let raw = RawWaker::new((self as *const Calling<'_>).cast(), &OF_CALLING);
        // SAFETY: the functions take what this is.
        unsafe { Waker::from_raw(raw) }
    }

    fn of(it: *const ()) -> &'a Calling<'a> {
        // SAFETY: the test has it until its wakers are gone, in its own thread.
        unsafe { &*it.cast() }
    }

    fn woken(&self) {
        self.wakes.fetch_add(1, Ordering::SeqCst);
    }
}

#[test]
fn a_push_in_the_midst_of_a_poll_is_taken_or_wakes() {
    let queue: Queue = Queue::new().unwrap();
    let [mut taker] = members(&queue);
    for is_listening in [false, true] {
        let calling = Calling::new(&queue, |it| assert!(it.push(9, 9).is_ok()));
        let waker = calling.waker();
        if is_listening {
            assert!(polled(&mut taker.take_async(), &Counted::new()).is_pending());
        }
        let mut taken = taker.poll_take(&mut Context::from_waker(&waker));
        if taken.is_pending() && calling.wakes.load(Ordering::SeqCst) > 0 {
            taken = taker.poll_take(&mut Context::from_waker(&waker));
        }
        assert_eq!(taken, Poll::Ready(Ok((9, 9))));
        assert!(calling.copies.load(Ordering::SeqCst) > 0);
    }
}

#[test]
fn an_archive_in_the_midst_of_a_poll_is_seen() {
    let queue: Queue = Queue::new().unwrap();
    queue.push(1, 1).unwrap();
    let archiving = Calling::new(&queue, |it| drop(it.archive(1).unwrap()));
    let waker = archiving.waker();
    let mut wait = queue.wait_archived_async(1);
    let polled = Pin::new(&mut wait).poll(&mut Context::from_waker(&waker));
    assert_eq!(polled, Poll::Ready(Ok(())));
}

fn with_room_for(most_items: u64) -> Queue<u64, u32> {
    Options::new().most_items(most_items).open().unwrap()
}

#[test]
fn a_push_waits_for_room() {
    let queue = with_room_for(1);
    let mut member = queue.join().unwrap();
    let (one, other) = (Counted::new(), Counted::new());
    assert_eq!(run(queue.push_async(1, 1)), Ok(1));
    {
        let mut by_queue = queue.push_async(2, 2);
        let mut by_member = member.push_async(3, 3);
        for _ in 0..2 {
            assert!(polled(&mut by_queue, &one).is_pending());
            assert!(polled(&mut by_member, &other).is_pending());
        }
        assert_eq!((one.wakes(), other.wakes()), (0, 0));
        // Each place wakes one of them.
        assert_eq!(queue.pop(), Ok(Some((1, 1))));
        assert_eq!((one.wakes(), other.wakes()), (1, 0));
        assert_eq!(polled(&mut by_queue, &one), Poll::Ready(Ok(3)));
        assert_eq!(queue.pop(), Ok(Some((2, 2))));
        assert_eq!((one.wakes(), other.wakes()), (1, 1));
        assert_eq!(polled(&mut by_member, &other), Poll::Ready(Ok(5)));
    }
    assert_eq!(member.number(), 5);
    drop(member);
    assert!(queue.close().is_ok());
}
