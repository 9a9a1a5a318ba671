//! Each call once, by the queue and by a member; and what threads do to each other through them: waiting, shutting, coming and going.
use flatpq::{Due, Error, Keeping, Options, Queue, TaskQueue, Until};
use std::sync::mpsc;
use std::thread;
use std::time::{Duration, Instant};

const LONG: Duration = Duration::from_secs(60);
const WHILE: Duration = Duration::from_millis(15);

macro_rules! calls {
    ($caller:expr) => {
        assert_eq!($caller.push(3, 30).unwrap(), 1);
        let pushed = $caller.push_many([(2, 20), (1, 10), (4, 40)]).unwrap();
        assert_eq!((pushed.count, pushed.number), (3, 2));
        assert_eq!($caller.peek(), Ok(Some(1)));
        assert_eq!($caller.peek_item(), Ok(Some((1, 10))));
        assert_eq!($caller.pop_due(0), Ok(Due::Later(1)));
        assert_eq!($caller.pop_due(1), Ok(Due::Got(1, 10)));
        assert_eq!($caller.pop(), Ok(Some((2, 20))));
        assert_eq!($caller.pop_due_many(2, 9), Ok(vec![]));
        assert_eq!($caller.pop_due_many(9, 2), Ok(vec![(3, 30), (4, 40)]));
        assert_eq!($caller.pop_due_many(9, usize::MAX), Ok(vec![]));
        assert_eq!(
            ($caller.pop(), $caller.pop_due(9)),
            (Ok(None), Ok(Due::Empty))
        );
        assert_eq!($caller.archive(0).map(|it| it.len()), Ok(9));
        assert!($caller.push(5, 50).is_ok() && $caller.push(6, 60).is_ok());
    };
}

#[test]
fn a_queue_and_a_member_have_the_same_calls() {
    let queue = Queue::new().unwrap();
    calls!(queue);
    assert_eq!((queue.take(), queue.take_due()), (Ok((5, 50)), Ok((6, 60))));
    let queue = Queue::new().unwrap();
    let mut member = queue.join().unwrap();
    calls!(member);
    assert_eq!(
        (member.take(), member.take_due()),
        (Ok((5, 50)), Ok((6, 60)))
    );
    let queue = Queue::new().unwrap();
    calls!(queue.until(LONG));
    let soon = queue.until(Until::NOW);
    assert_eq!(
        (soon.take(), soon.take_due()),
        (Ok(Some((5, 50))), Ok(Due::Got(6, 60)))
    );
    assert_eq!((soon.take(), soon.take_due()), (Ok(None), Ok(Due::Empty)));
}

#[test]
fn a_batch_takes_as_many_as_there_are() {
    let queue = Queue::new().unwrap();
    let mut member = queue.join().unwrap();
    let pairs: Vec<(u64, u64)> = (0..5000).map(|it| (it, it)).collect();
    assert_eq!(queue.push_many(pairs.clone()).unwrap().count, 5000);
    assert_eq!(
        member.pop_due_many(9999, 3000).as_deref(),
        Ok(&pairs[..3000])
    );
    assert_eq!(member.number(), 5001);
    assert_eq!(
        member.pop_due_many(3999, usize::MAX).as_deref(),
        Ok(&pairs[3000..4000])
    );
    assert_eq!(
        queue.pop_due_many(9999, 1000).as_deref(),
        Ok(&pairs[4000..])
    );
    assert_eq!(
        queue.until(Until::NOW).pop_due_many(9999, usize::MAX),
        Ok(vec![])
    );
}

#[test]
fn a_take_waits_until_its_deadline() {
    let queue = Queue::new().unwrap();
    let began = Instant::now();
    assert_eq!(queue.until(WHILE).take(), Ok(None));
    assert_eq!(queue.until(began + 2 * WHILE).take(), Ok(None));
    assert!(began.elapsed() >= 2 * WHILE);
    thread::scope(|scope| {
        scope.spawn(|| {
            for key in 1..=4 {
                thread::sleep(WHILE);
                queue.push(key, 10 * key).unwrap();
            }
        });
        let mut member = queue.join().unwrap();
        assert_eq!(
            member.until(Instant::now() + LONG).take(),
            Ok(Some((1, 10)))
        );
        assert_eq!(queue.until(LONG).take(), Ok(Some((2, 20))));
        assert_eq!(member.until(Duration::MAX).take(), Ok(Some((3, 30))));
        assert_eq!(member.take(), Ok((4, 40)));
    });
    assert!(began.elapsed() < LONG);
}

#[test]
fn no_payload_is_lost_where_a_queue_is_shut() {
    for round in 0..20 {
        let queue = TaskQueue::new().unwrap();
        let works = |side: u64| {
            let mut count = 0_u64;
            let error = loop {
                let done = match side % 2 {
                    0 => queue.push(side, count).map_err(Error::from).map(drop),
                    _ => queue.take().map(drop),
                };
                match done {
                    Ok(()) => count += 1,
                    Err(error) => break error,
                }
            };
            assert_eq!(error, Error::Shut);
            count
        };
        let counts = thread::scope(|scope| {
            let threads: Vec<_> = (0..8)
                .map(|side| scope.spawn(move || works(side)))
                .collect();
            thread::sleep(Duration::from_millis(round % 5));
            queue.shut().unwrap();
            let counts: Vec<u64> = threads.into_iter().map(|it| it.join().unwrap()).collect();
            counts
        });
        let side = |first: usize| counts.iter().skip(first).step_by(2).sum::<u64>();
        assert_eq!(side(0), side(1));
        assert_eq!(queue.close().unwrap().left().count(), 0);
    }
}

#[test]
fn more_threads_than_members_call() {
    let queue: TaskQueue<u64, u64> = Options::new().members(2).open().unwrap();
    let queue = &queue;
    let sum: u64 = thread::scope(|scope| {
        let threads: Vec<_> = (0..16)
            .map(|thread| {
                scope.spawn(move || {
                    (0..100).for_each(|it| assert!(queue.push(it, thread).is_ok()));
                    (0..100)
                        .map(|_| queue.pop().unwrap().unwrap().1)
                        .sum::<u64>()
                })
            })
            .collect();
        threads.into_iter().map(|it| it.join().unwrap()).sum()
    });
    assert_eq!(sum, 100 * 15 * 16 / 2);
    queue.leave();
    let members = [queue.join().unwrap(), queue.join().unwrap()];
    assert_ne!(members[0].place(), members[1].place());
    assert_eq!(queue.until(WHILE).pop(), Err(Error::TimedOut));
    let joined = thread::scope(|scope| {
        let joining = scope.spawn(|| queue.join_until(LONG));
        thread::sleep(WHILE);
        drop(members);
        joining.join().unwrap()
    });
    assert_eq!(joined.unwrap().pop(), Ok(None));
}

type Job = Box<dyn FnOnce() + Send>;

/// A thread that has called a queue lives on, and calls one again that was not closed.
#[test]
fn a_close_takes_back_own_members() {
    let (jobs, received) = mpsc::channel::<Job>();
    let pool = thread::spawn(move || received.into_iter().for_each(|job| job()));
    let pushes = |queue: TaskQueue<u64, u32>, key: u64| {
        let (done, has_done) = mpsc::channel();
        let job: Job = Box::new(move || {
            queue.push(key, 1).unwrap();
            done.send(queue).unwrap();
        });
        jobs.send(job).unwrap();
        has_done.recv().unwrap()
    };
    let queue = pushes(TaskQueue::new().unwrap(), 1);
    queue.push(2, 1).unwrap();
    let member = queue.join().unwrap();
    let refused = queue.close().unwrap_err();
    assert_eq!(refused.error, Error::MembersLeft);
    drop(member);
    let queue = pushes(refused.queue, 3);
    let mut journal = queue.close().unwrap();
    assert!(journal.left().map(|(key, _)| key).eq([1, 2, 3]));
    drop(pushes(TaskQueue::new().unwrap(), 1));
    drop(jobs);
    pool.join().unwrap();
}

/// The functions of these threads have returned, but the threads may not have ended yet.
#[test]
fn a_close_after_a_scope_succeeds() {
    for _ in 0..300 {
        let queue: TaskQueue<u64, u32> = Options::new().members(4).open().unwrap();
        thread::scope(|scope| {
            let queue = &queue;
            (0..3).for_each(|it| drop(scope.spawn(move || queue.push(it, 1).unwrap())));
        });
        assert_eq!(queue.close().unwrap().len(), 3);
    }
}

/// One that polls gets what is left in a shut queue, and then learns that nothing comes.
#[test]
fn a_poll_sees_the_end() {
    let queue = Queue::new().unwrap();
    let mut member = queue.join().unwrap();
    let past = Instant::now();
    assert_eq!(queue.try_take_due(), Ok(Due::Empty));
    queue.push_many([(1, 10), (2, 20), (3, 30)]).unwrap();
    member.shut().unwrap();
    assert_eq!(queue.try_take(), Ok(Some((1, 10))));
    assert_eq!(member.try_take_due(), Ok(Due::Got(2, 20)));
    assert_eq!(queue.until(past).take(), Ok(Some((3, 30))));
    assert_eq!(queue.until(past).take(), Err(Error::Shut));
    assert_eq!(queue.until(past).take_due(), Err(Error::Shut));
    assert_eq!(member.try_take(), Err(Error::Shut));
    assert_eq!(queue.try_take_due(), Err(Error::Shut));
    // It listens no longer.
    assert!(!member.unlisten());
    drop(member);
    assert!(queue.close().is_ok());
}

/// The first part of a batch stays out.
#[test]
fn a_journal_that_fills_after_a_part() {
    const PART: u64 = 1024;
    let entries = 2 * PART as u32 + 1;
    let queue: Queue = Options::new()
        .keeping(Keeping::Fills(entries))
        .open()
        .unwrap();
    queue.push_many((0..=PART).map(|it| (it, it))).unwrap();
    let popped = queue.pop_due_many(PART, usize::MAX).unwrap();
    assert_eq!(popped.len() as u64, PART);
    assert_eq!(queue.pop(), Err(Error::JournalFull));
}
