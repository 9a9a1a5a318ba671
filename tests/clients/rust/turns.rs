//! More futures of a queue wait than it has members, for any payload and for room: calls beside them go on, each future is served, and no payload is
//! lost where some are dropped. One is refused only where no other that waits for the same has a member.
mod executor;

use executor::{polled, run, run_all, Counted, LONG};
use flatpq::{Error, Options, Queue, Take};
use std::cell::RefCell;
use std::future::Future;
use std::mem::ManuallyDrop;
use std::panic::{catch_unwind, AssertUnwindSafe};
use std::pin::Pin;
use std::ptr;
use std::sync::atomic::{AtomicUsize, Ordering};
use std::sync::Arc;
use std::task::{Context, Poll, RawWaker, RawWakerVTable, Waker};
use std::thread;
use std::time::Instant;

const TASKS: usize = 100;

type Futures<'a, T> = Vec<Pin<Box<dyn Future<Output = T> + 'a>>>;

/// All wait, and so does none that calls beside them.
fn all_wait<T>(futures: &mut Futures<'_, T>) {
    for future in futures {
        assert!(polled(future, &Counted::new()).is_pending());
    }
}

fn opened(members: u32) -> Queue {
    Options::new().members(members).open().unwrap()
}

#[test]
fn more_tasks_than_members_wait_for_payloads() {
    let queue: Queue = Queue::new().unwrap();
    let mut takes: Futures<'_, _> = Vec::new();
    takes.resize_with(TASKS, || Box::pin(queue.take_async()));
    all_wait(&mut takes);
    for value in 0..TASKS as u64 {
        assert!(queue.until(LONG).push(value, value).is_ok());
    }
    assert_eq!(queue.until(LONG).len(), Ok(TASKS));
    let mut taken: Vec<_> = run_all(takes).into_iter().map(Result::unwrap).collect();
    taken.sort_unstable();
    assert!(taken.into_iter().eq((0..TASKS as u64).map(|it| (it, it))));
}

#[test]
fn more_tasks_than_members_wait_for_room() {
    let queue: Queue = Options::new().members(3).most_items(1).open().unwrap();
    queue.push(0, 0).unwrap();
    let push = |value| queue.push_async(0, value);
    let mut pushes: Futures<'_, _> = Vec::new();
    for value in 1..=TASKS as u64 {
        pushes.push(Box::pin(push(value)));
    }
    all_wait(&mut pushes);
    let mut popped = vec![queue.until(LONG).pop().unwrap().unwrap().1];
    thread::scope(|threads| {
        let pops = || {
            while popped.len() <= TASKS {
                popped.extend(queue.until(LONG).take().unwrap().map(|it| it.1));
            }
        };
        threads.spawn(pops);
        assert!(run_all(pushes).iter().all(Result::is_ok));
    });
    popped.sort_unstable();
    assert!(popped.into_iter().eq(0..=TASKS as u64));
}

/// A future with a turn that is dropped hands it on, whether it listens, was woken for its turn, or waits; one that is ready does so too.
#[test]
fn a_turn_is_handed_on() {
    let queue = opened(2);
    let counted: Vec<_> = (0..5).map(|_| Counted::new()).collect();
    let woken = || counted.iter().map(|it| it.wakes()).collect::<Vec<_>>();
    let mut takes: Vec<_> = (0..5).map(|_| Some(queue.take_async())).collect();
    for (take, counted) in takes.iter_mut().flatten().zip(&counted) {
        assert!(polled(take, counted).is_pending() && polled(take, counted).is_pending());
    }
    takes[2] = None;
    for at in [3, 4] {
        let still = polled(takes[at].as_mut().unwrap(), &counted[at]);
        assert!(still.is_pending() && woken() == [0; 5]);
    }
    takes[0] = None;
    assert_eq!(woken(), [0, 1, 0, 0, 0]);
    takes[1] = None;
    assert_eq!(woken(), [0, 1, 0, 1, 0]);
    queue.push(1, 2).unwrap();
    let [fourth, fifth] = [3, 4].map(|at: usize| takes[at].take().unwrap());
    assert_eq!(run(fourth), Ok((1, 2)));
    assert_eq!(
        (woken(), Arc::strong_count(&counted[4])),
        (vec![0, 1, 0, 1, 1], 1)
    );
    queue.push(3, 4).unwrap();
    assert_eq!(run(fifth), Ok((3, 4)));
    // None has a turn any more.
    let _members = [queue.join().unwrap(), queue.join().unwrap()];
    let refused = polled(&mut queue.take_async(), &counted[0]);
    assert_eq!(refused, Poll::Ready(Err(Error::AllJoined)));
}

/// A future, which is dropped where this waker is copied.
type Other<'a> = RefCell<Option<Take<'a, u64, u64>>>;

fn dropping(other: &Other<'_>) -> RawWaker {
    RawWaker::new((other as *const Other<'_>).cast(), &DROPPING)
}

static DROPPING: RawWakerVTable = RawWakerVTable::new(
    |it| {
        // SAFETY: the test has it until its wakers are gone, in its own thread.
        let other = unsafe { &*it.cast::<Other<'_>>() };
        drop(other.borrow_mut().take());
        dropping(other)
    },
    |_| (),
    |_| (),
    |_| (),
);

#[test]
fn a_member_that_is_given_back_in_the_midst_of_a_poll_is_had() {
    let queue = opened(2);
    let _awake = queue.join().unwrap();
    let mut listens = queue.take_async();
    assert!(polled(&mut listens, &Counted::new()).is_pending());
    let (other, mut waits) = (RefCell::new(Some(listens)), queue.take_async());
    // SAFETY: the functions take what this is.
    let waker = unsafe { Waker::from_raw(dropping(&other)) };
    let polled = Pin::new(&mut waits).poll(&mut Context::from_waker(&waker));
    assert!(polled.is_pending() && other.borrow().is_none());
    assert!(queue.join().is_err());
}

static PANICKING: RawWakerVTable = RawWakerVTable::new(
    |it| RawWaker::new(it, &PANICKING),
    |_| (),
    |_| (),
    |_| panic!("the drop of a waker panics"),
);

/// Neither a turn nor a payload is lost where the drop of a waker panics.
#[test]
fn a_waker_whose_drop_panics_stops_no_other() {
    // SAFETY: the functions take what this is.
    let waker = unsafe { Waker::from_raw(RawWaker::new(ptr::null(), &PANICKING)) };
    let waker = ManuallyDrop::new(waker);
    let poll = |take: &mut Take<'_, u64, u64>| {
        let poll = || Pin::new(take).poll(&mut Context::from_waker(&waker));
        catch_unwind(AssertUnwindSafe(poll)).ok()
    };
    let (queue, counted) = (opened(2), Counted::new());
    let (mut listens, mut waits) = (queue.take_async(), queue.take_async());
    assert_eq!(poll(&mut listens), Some(Poll::Pending));
    assert!(polled(&mut waits, &counted).is_pending());
    let _ = catch_unwind(AssertUnwindSafe(|| drop(listens)));
    assert_eq!(counted.wakes(), 1);
    assert_eq!(poll(&mut waits), Some(Poll::Pending));
    queue.push(1, 2).unwrap();
    assert_eq!(poll(&mut waits), Some(Poll::Ready(Ok((1, 2)))));
    // A copy that takes the place of another.
    assert_eq!(poll(&mut waits), Some(Poll::Pending));
    assert!(polled(&mut waits, &counted).is_pending());
}

/// Futures by members, and those that wait for what else there is, hand no turn on.
#[test]
fn where_none_of_its_kind_has_a_member_a_future_is_refused() {
    let queue = opened(2);
    let mut members = [queue.join().unwrap(), queue.join().unwrap()];
    assert_eq!(run(queue.take_async()), Err(Error::AllJoined));
    {
        let [first, second] = &mut members;
        let (mut listens, mut refused) = (first.take_async(), second.take_async());
        assert!(polled(&mut listens, &Counted::new()).is_pending());
        assert_eq!(run(&mut refused), Err(Error::AllJoined));
        assert_eq!(run(queue.take_async()), Err(Error::AllJoined));
    }
    drop(members);
    let mut takes = queue.take_async();
    assert!(polled(&mut takes, &Counted::new()).is_pending());
    let sleep = |_| std::future::ready(());
    assert_eq!(run(queue.take_due_async(sleep)), Err(Error::AllJoined));
    queue.push(1, 2).unwrap();
    assert_eq!(run(takes), Ok((1, 2)));
    let queue = Options::new().members(2).most_items(1).open().unwrap();
    queue.push(Instant::now() + LONG, 1).unwrap();
    let mut due = queue.take_due_async(|_| std::future::pending::<()>());
    assert!(polled(&mut due, &Counted::new()).is_pending());
    let refused = run(queue.push_async(Instant::now(), 2)).unwrap_err();
    assert_eq!((refused.error, refused.payload), (Error::AllJoined, 2));
}

/// One of two members may listen. Each task takes in a loop: one that is ready comes again at once, and goes behind the other.
#[test]
fn one_that_waits_in_the_line_is_served() {
    let queue = opened(2);
    let counted = [Counted::new(), Counted::new()];
    let mut takes = [queue.take_async(), queue.take_async()];
    let (mut seen, mut taken) = ([0; 2], [0; 2]);
    for (take, counted) in takes.iter_mut().zip(&counted) {
        assert!(polled(take, counted).is_pending());
    }
    for value in 0..10 {
        queue.push(1, value).unwrap();
        for at in [0, 1, 0, 1] {
            if counted[at].wakes() != seen[at] {
                seen[at] = counted[at].wakes();
                while polled(&mut takes[at], &counted[at]).is_ready() {
                    taken[at] += 1;
                    takes[at] = queue.take_async();
                }
            }
        }
    }
    assert_eq!(taken, [5, 5]);
}

/// One that comes once there are members again has one, and listens beside those that wait in the line.
#[test]
fn members_that_are_back_are_had() {
    let queue = opened(4);
    let held = [queue.join().unwrap(), queue.join().unwrap()];
    let counted = [(); 4].map(|()| Counted::new());
    let mut takes = [(); 4].map(|()| queue.take_async());
    let [first, second, waits, comes] = &mut takes;
    for (take, counted) in [first, second, waits].into_iter().zip(&counted) {
        assert!(polled(take, counted).is_pending());
    }
    drop(held);
    assert!(polled(comes, &counted[3]).is_pending());
    for value in 0..3 {
        queue.push(1, value).unwrap();
    }
    assert_eq!(counted.map(|it| it.wakes()), [1, 1, 0, 1]);
}

/// Threads run tasks that take in loops, and drop some of their futures, while others push.
#[test]
fn no_payload_is_lost() {
    const EACH: usize = 2000;
    const THREADS: usize = 2;
    let (queue, taken) = (opened(3), AtomicUsize::new(0));
    let task = |at: usize| {
        let (queue, taken) = (&queue, &taken);
        async move {
            loop {
                if at % 3 == 0 && taken.load(Ordering::Relaxed) % 2 == 0 {
                    let mut dropped = queue.take_async();
                    let polled = polled(&mut dropped, &Counted::new());
                    if matches!(polled, Poll::Ready(Ok(_))) {
                        taken.fetch_add(1, Ordering::Relaxed);
                    }
                }
                match queue.take_async().await {
                    Ok(_) => taken.fetch_add(1, Ordering::Relaxed),
                    Err(Error::AllJoined) => continue,
                    Err(error) => return error,
                };
            }
        }
    };
    thread::scope(|threads| {
        let pushing: Vec<_> = (0..THREADS)
            .map(|_| {
                threads.spawn(|| (0..EACH).for_each(|it| assert!(queue.push(1, it as u64).is_ok())))
            })
            .collect();
        let running: Vec<_> = (0..THREADS)
            .map(|_| {
                threads.spawn(|| {
                    let tasks = (0..TASKS / THREADS).map(
                        |at| -> Pin<Box<dyn Future<Output = Error> + '_>> { Box::pin(task(at)) },
                    );
                    run_all(tasks.collect())
                })
            })
            .collect();
        pushing.into_iter().for_each(|it| it.join().unwrap());
        queue.shut().unwrap();
        for ended in running.into_iter().flat_map(|it| it.join().unwrap()) {
            assert_eq!(ended, Error::Shut);
        }
    });
    assert_eq!(taken.into_inner(), THREADS * EACH);
    assert!(queue.close().is_ok());
}
