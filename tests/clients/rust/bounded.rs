//! How many payloads a queue has, and queues with a bound: a push is refused at once or at its deadline, and its payload comes back; or it waits
//! until a payload is taken out, or the queue is shut. Futures that take are woken meanwhile.
mod executor;

use executor::run;
use flatpq::{Error, Options, Queue, TaskQueue, Until};
use std::sync::atomic::{AtomicBool, Ordering};
use std::thread;
use std::time::{Duration, Instant};

fn bounded<T: Send>(most_items: u64) -> TaskQueue<u64, T> {
    Options::new().most_items(most_items).open().unwrap()
}

#[test]
fn payloads_are_counted() {
    let queue: TaskQueue<u64, String> = TaskQueue::new().unwrap();
    let mut member = queue.join().unwrap();
    assert_eq!((queue.len(), queue.is_empty()), (Ok(0), Ok(true)));
    queue.push(5, "five".to_string()).unwrap();
    queue
        .push_many((6..9).map(|key| (key, key.to_string())))
        .unwrap();
    assert_eq!((member.len(), member.is_empty()), (Ok(4), Ok(false)));
    assert_eq!(queue.until(Until::NOW).len(), Ok(4));
    assert_eq!(member.until(Duration::from_secs(60)).is_empty(), Ok(false));
    assert_eq!(member.pop().unwrap().unwrap().0, 5);
    assert_eq!(queue.clear(), Ok(3));
    assert_eq!((queue.len(), member.number()), (Ok(0), 5));
}

// Pops don't lower it, and a reschedule doesn't raise it.
#[test]
fn the_peak_stays() {
    let queue = Options::new().tickets(true).open().unwrap();
    let mut member = queue.join().unwrap();
    assert_eq!((queue.peak_len(), member.peak_len()), (Ok(0), Ok(0)));
    let ticket = queue.push(5, "five").unwrap();
    queue.push_many([(6, "six"), (7, "seven")]).unwrap();
    assert!(queue.reschedule(ticket, 8).unwrap().is_some());
    assert_eq!((queue.len(), queue.peak_len()), (Ok(3), Ok(3)));
    assert_eq!(queue.pop(), Ok(Some((6, "six"))));
    assert_eq!(queue.pop(), Ok(Some((7, "seven"))));
    queue.push(9, "nine").unwrap();
    assert_eq!((member.len(), member.peak_len()), (Ok(2), Ok(3)));
    assert_eq!(queue.until(Until::NOW).peak_len(), Ok(3));
}

#[test]
fn a_full_queue_refuses() {
    let queue = bounded(2);
    assert_eq!(
        queue
            .push_many([(1, "one"), (2, "two")])
            .map(|it| (it.count, it.number))
            .map_err(|it| it.error),
        Ok((2, 1))
    );
    let refused = queue.until(Until::NOW).push(3, "three").unwrap_err();
    assert_eq!((refused.error, refused.payload), (Error::Full, "three"));
    let soon = Instant::now() + Duration::from_millis(20);
    let refused = queue.until(soon).push(3, "three").unwrap_err();
    assert_eq!((refused.error, refused.payload), (Error::Full, "three"));
    assert!(Instant::now() >= soon && queue.len() == Ok(2));
    assert_eq!(queue.pop(), Ok(Some((1, "one"))));
    let until = queue.until(Duration::from_millis(20));
    let refused = until.push_many([(3, "three"), (4, "four")]).unwrap_err();
    assert_eq!((refused.pushed.count, refused.pushed.number), (1, 4));
    assert_eq!(
        (refused.error, refused.payloads),
        (Error::Full, vec![(4, "four")])
    );
    assert!(Error::Full.to_string().contains("full"));
}

#[test]
fn a_push_waits_for_room() {
    let queue = bounded(1);
    queue.push(5, String::from("five")).unwrap();
    thread::scope(|scope| {
        let one = scope.spawn(|| queue.push(6, String::from("six")));
        thread::sleep(Duration::from_millis(20));
        assert!(!one.is_finished());
        assert_eq!(queue.take().unwrap().0, 5);
        assert!(one.join().unwrap().is_ok());
        assert_eq!(queue.take().unwrap().0, 6);
        let many = scope.spawn(|| queue.push_many((7..9).map(|key| (key, key.to_string()))));
        while queue.is_empty().unwrap() {
            thread::yield_now();
        }
        thread::sleep(Duration::from_millis(100));
        assert!(!many.is_finished());
        assert_eq!(queue.take().unwrap().0, 7);
        let pushed = many.join().unwrap().map_err(|it| it.error);
        assert_eq!(pushed.map(|it| (it.count, it.number)), Ok((2, 5)));
        let shut = scope.spawn(|| queue.push(9, String::from("nine")));
        thread::sleep(Duration::from_millis(20));
        queue.shut().unwrap();
        let refused = shut.join().unwrap().unwrap_err();
        assert_eq!(
            (refused.error, refused.payload.as_str()),
            (Error::Shut, "nine")
        );
    });
    assert_eq!(queue.len(), Ok(1));
}

/// A push that may wait for room is tried at once at first. Where another thread has the lock then, it waits for it.
#[test]
fn a_push_waits_for_the_lock() {
    const BATCH: u64 = 1000;
    let queue: Queue = bounded(100 * BATCH);
    let is_over = AtomicBool::new(false);
    thread::scope(|scope| {
        scope.spawn(|| {
            while !is_over.load(Ordering::Relaxed) {
                queue.push_many((0..BATCH).map(|it| (it, it))).unwrap();
                queue.clear().unwrap();
            }
        });
        let end = Instant::now() + Duration::from_millis(200);
        let pushed = (0..).take_while(|_| Instant::now() < end);
        let refused = pushed.map(|it| queue.push(it, it)).find(Result::is_err);
        is_over.store(true, Ordering::Relaxed);
        assert_eq!(refused, None);
    });
}

/// A producer that waits for room may be the one that has a future woken.
#[test]
fn futures_are_woken_while_producers_wait() {
    const EACH: u64 = 20_000;
    let queue: Queue = bounded(1);
    let sum = thread::scope(|scope| {
        for first in 0..4 {
            let queue = &queue;
            scope.spawn(move || {
                for it in 0..EACH {
                    queue.push(it, first * EACH + it).unwrap();
                }
            });
        }
        (0..4 * EACH).fold(0, |sum, _| sum + run(queue.take_async()).unwrap().1)
    });
    assert_eq!((sum, queue.len()), ((0..4 * EACH).sum(), Ok(0)));
}
