//! Each payload is dropped once, whatever way it goes: refused, popped, left in a journal, in a queue whose members outlive it, or in
//! the own member of a thread that does; and so where a drop panics, or a future goes half way.
use flatpq::{Due, Error, Keeping, Key, NotPushed, Options, TaskMember, TaskQueue};
use std::collections::BTreeSet;
use std::future::Future;
use std::panic::{catch_unwind, AssertUnwindSafe};
use std::pin::Pin;
use std::sync::atomic::{AtomicBool, AtomicU32, Ordering};
use std::sync::mpsc;
use std::sync::{Arc, Mutex};
use std::task::{Context, Poll, Wake, Waker};
use std::thread;
use std::time::Duration;

/// How often each payload was dropped, and whether one panics then. They outlive all payloads.
struct Drops {
    counts: Vec<AtomicU32>,
    panics: AtomicBool,
}

static ALL: Mutex<Vec<&'static Drops>> = Mutex::new(Vec::new());

/// A payload that counts its drops.
struct Counted {
    number: usize,
    drops: &'static Drops,
}

impl Drop for Counted {
    fn drop(&mut self) {
        self.drops.counts[self.number].fetch_add(1, Ordering::SeqCst);
        assert!(!self.drops.panics.swap(false, Ordering::SeqCst));
    }
}

impl Counted {
    /// It panics where it has this number.
    fn checked(self, number: usize) -> Counted {
        assert_ne!(self.number, number);
        self
    }
}

impl Drops {
    fn of(count: usize) -> &'static Drops {
        let drops: &'static Drops = Box::leak(Box::new(Drops {
            counts: (0..count).map(|_| AtomicU32::new(0)).collect(),
            panics: AtomicBool::new(false),
        }));
        // So that they are not taken for lost.
        ALL.lock().unwrap().push(drops);
        drops
    }

    fn payload(&'static self, number: usize) -> Counted {
        Counted {
            number,
            drops: self,
        }
    }

    /// Those that were dropped, each once.
    fn dropped(&self) -> BTreeSet<usize> {
        let count = |it: &AtomicU32| it.load(Ordering::SeqCst);
        assert!(self.counts.iter().all(|it| count(it) <= 1));
        let all = 0..self.counts.len();
        all.filter(|it| count(&self.counts[*it]) == 1).collect()
    }

    fn are(&self, numbers: impl IntoIterator<Item = usize>) -> bool {
        self.dropped() == numbers.into_iter().collect()
    }
}

/// A queue that has the first so many payloads, each of its number as its key.
fn filled(drops: &'static Drops, count: usize) -> TaskQueue<u64, Counted> {
    let queue = TaskQueue::new().unwrap();
    let mut member = queue.join().unwrap();
    (0..count).for_each(|it| assert!(member.push(it as u64, drops.payload(it)).is_ok()));
    queue
}

fn number_of(popped: Result<Option<(u64, Counted)>, Error>) -> Option<usize> {
    popped.unwrap().map(|(_, payload)| payload.number)
}

/// A push that was refused by this error gives this payload back, which is dropped here.
fn gives_back(number: usize, error: Error, pushed: Result<u64, NotPushed<Counted>>) {
    let refused = pushed.unwrap_err();
    assert_eq!((refused.payload.number, refused.error), (number, error));
    assert!(!refused.payload.drops.dropped().contains(&number));
}

#[test]
fn each_refusal_gives_back() {
    let drops = Drops::of(6);
    let options = Options::new().members(1).keeping(Keeping::Fills(1));
    let full = options.open().unwrap();
    let mut member = full.join().unwrap();
    member.push(0, drops.payload(0)).unwrap();
    gives_back(1, Error::JournalFull, member.push(0, drops.payload(1)));
    let soon = full.until(Duration::from_millis(1));
    gives_back(2, Error::TimedOut, soon.push(0, drops.payload(2)));
    member.shut().unwrap();
    gives_back(3, Error::JournalFull, member.push(0, drops.payload(3)));
    drop(member);
    let pair = |it| (0, drops.payload(it));
    let back = full.push_many([pair(4), pair(5)]).unwrap_err();
    assert!(back.error == Error::JournalFull && drops.are(1..4));
    assert_eq!(back.payloads.len(), 2);
    drop(back);
    assert!(drops.are(1..6));
    drop(full);
    assert!(drops.are(0..6));
    let (shut, drops) = (TaskQueue::new().unwrap(), Drops::of(3));
    shut.shut().unwrap();
    gives_back(0, Error::Shut, shut.push(0, drops.payload(0)));
    let back = shut.push_many([(0, drops.payload(1)), (0, drops.payload(2))]);
    assert!(matches!(back, Err(it) if it.error == Error::Shut && it.payloads.len() == 2));
    assert!(drops.are(0..3));
}

/// An iterator that panics costs its own payloads, and no other thread gets one.
#[test]
fn a_batch_that_panics_drops_its_payloads() {
    let drops = Drops::of(4);
    let queue = TaskQueue::new().unwrap();
    let payloads = (0..4).map(|it| (it, drops.payload(it).checked(3)));
    let push = AssertUnwindSafe(|| queue.push_many(payloads));
    assert!(catch_unwind(push).is_err());
    assert!(drops.are(0..4));
    assert_eq!(queue.peek(), Ok(None));
}

#[test]
fn a_close_leaves_them_to_the_journal() {
    let drops = Drops::of(5);
    let queue = filled(drops, 5);
    let mut member = queue.join().unwrap();
    let queue = queue.close().unwrap_err().queue;
    assert_eq!(number_of(member.pop()), Some(0));
    assert!(drops.are([0]));
    drop(member);
    let mut journal = queue.close().unwrap();
    assert!(drops.are([0]));
    let (key, payload) = journal.left().next().unwrap();
    assert_eq!((key, payload.number), (1, 1));
    assert_eq!(journal.len(), 6);
    drop(journal);
    assert!(drops.are([0, 2, 3, 4]));
    drop(payload);
    assert!(drops.are(0..5));
}

#[test]
fn the_last_of_queue_and_members_drops_them() {
    let drops = Drops::of(6);
    drop(filled(drops, 3));
    assert!(drops.are(0..3));
    let queue = TaskQueue::new().unwrap();
    let (mut first, second) = (queue.join().unwrap(), queue.join().unwrap());
    (3..6).for_each(|it| assert!(first.push(it as u64, drops.payload(it)).is_ok()));
    drop(queue);
    assert_eq!(number_of(first.pop()), Some(3));
    drop(first);
    assert!(drops.are(0..4));
    thread::spawn(move || drop(second)).join().unwrap();
    assert!(drops.are(0..6));
}

/// A thread that has called the queue lives on.
#[test]
fn a_queue_that_is_dropped_drops_them() {
    let drops = Drops::of(3);
    let queue = Arc::new(TaskQueue::new().unwrap());
    let (goes, waits) = mpsc::channel();
    let living = thread::spawn({
        let queue = Arc::clone(&queue);
        move || {
            (0..3).for_each(|it| assert!(queue.push(it as u64, drops.payload(it)).is_ok()));
            drop(queue);
            waits.recv().unwrap();
        }
    });
    while Arc::strong_count(&queue) > 1 {
        thread::yield_now();
    }
    assert_eq!(number_of(queue.pop()), Some(0));
    assert!(drops.are([0]));
    drop(queue);
    assert!(drops.are(0..3));
    goes.send(()).unwrap();
    living.join().unwrap();
}

/// A payload that calls another queue where it is dropped.
struct Calling(Arc<TaskQueue<u64, u64>>, u64);

impl Drop for Calling {
    fn drop(&mut self) {
        self.0.push(1, self.1).unwrap();
    }
}

#[test]
fn a_payload_that_is_dropped_may_call() {
    let called = Arc::new(TaskQueue::new().unwrap());
    let queue = TaskQueue::new().unwrap();
    queue.push(1, Calling(Arc::clone(&called), 1)).unwrap();
    assert_eq!(called.pop(), Ok(None));
    thread::spawn(move || drop(queue)).join().unwrap();
    assert_eq!(called.pop(), Ok(Some((1, 1))));
    // It calls by the member that this thread keeps, which another thread is about to end with.
    let queue = TaskQueue::new().unwrap();
    let there = Arc::clone(&called);
    let queue = thread::spawn(move || {
        queue.push(1, Calling(there, 2)).unwrap();
        queue
    });
    drop(queue.join().unwrap());
    assert_eq!(called.pop(), Ok(Some((1, 2))));
}

struct Nobody;

impl Wake for Nobody {
    fn wake(self: Arc<Nobody>) {}
}

#[test]
fn a_future_that_goes_half_way_takes_none() {
    let drops = Drops::of(2);
    let queue = TaskQueue::new().unwrap();
    let (mut taker, mut pusher) = (queue.join().unwrap(), queue.join().unwrap());
    let waker = Waker::from(Arc::new(Nobody));
    let mut context = Context::from_waker(&waker);
    let mut take = taker.take_async();
    assert!(Pin::new(&mut take).poll(&mut context).is_pending());
    pusher.push(1, drops.payload(0)).unwrap();
    drop(take);
    pusher.push(1, drops.payload(1)).unwrap();
    assert!(drops.are([]));
    let taken = taker.poll_take(&mut context);
    assert!(matches!(&taken, Poll::Ready(Ok((1, it))) if it.number == 0));
    drop((taken, taker, pusher));
    assert!(drops.are([0]));
    drop(queue);
    assert!(drops.are(0..2));
}

#[test]
fn what_is_due_and_what_is_cleared_goes_once() {
    let drops = Drops::of(6);
    let queue = filled(drops, 6);
    assert!(matches!(queue.pop_due(0), Ok(Due::Got(0, it)) if it.number == 0));
    assert!(matches!(queue.pop_due(0), Ok(Due::Later(1))));
    assert_eq!(queue.peek(), Ok(Some(1)));
    assert!(drops.are([0]));
    assert_eq!(number_of(queue.until(Duration::ZERO).take()), Some(1));
    queue.shut().unwrap();
    assert_eq!(queue.take().map(|(key, _)| key), Ok(2));
    assert_eq!(queue.clear(), Ok(3));
    assert!(drops.are(0..6));
    assert_eq!(queue.take().err(), Some(Error::Shut));
}

#[test]
fn a_drop_that_panics_leaves_none() {
    let drops = Drops::of(5);
    let queue = filled(drops, 5);
    drops.panics.store(true, Ordering::SeqCst);
    assert!(catch_unwind(AssertUnwindSafe(|| drop(queue))).is_err());
    assert!(drops.are(0..5));
    let drops = Drops::of(5);
    let journal = filled(drops, 5).close().unwrap();
    drops.panics.store(true, Ordering::SeqCst);
    assert!(catch_unwind(AssertUnwindSafe(|| drop(journal))).is_err());
    assert!(drops.are(0..5));
}

/// A key that can't come back.
#[derive(Clone, Copy)]
struct Silent;

impl Key for Silent {
    fn to_number(self) -> u64 {
        7
    }

    fn from_number(_: u64) -> Silent {
        panic!("it does not come back")
    }
}

#[test]
fn a_key_that_panics_costs_its_payload_alone() {
    let drops = Drops::of(2);
    let queue: TaskQueue<Silent, Counted> = TaskQueue::new().unwrap();
    let mut member = queue.join().unwrap();
    (0..2).for_each(|it| assert!(member.push(Silent, drops.payload(it)).is_ok()));
    assert!(catch_unwind(AssertUnwindSafe(|| member.pop().is_ok())).is_err());
    assert!(drops.are([0]));
    drop((member, queue));
    assert!(drops.are(0..2));
}

fn works(queue: &TaskQueue<u64, Counted>, drops: &'static Drops, numbers: std::ops::Range<usize>) {
    for number in numbers {
        queue
            .push(number as u64 % 7, drops.payload(number))
            .unwrap();
        // Each third is left.
        if number % 3 != 0 {
            assert!(queue.pop().unwrap().is_some());
        }
    }
}

#[test]
fn threads_drop_each_once() {
    const EACH: usize = 1000;
    let drops = Drops::of(4 * EACH);
    let queue = TaskQueue::new().unwrap();
    thread::scope(|scope| {
        let queue = &queue;
        for thread in 0..4 {
            scope.spawn(move || works(queue, drops, thread * EACH..(thread + 1) * EACH));
        }
    });
    assert_eq!(drops.dropped().len(), 4 * EACH * 2 / 3);
    let mut journal = queue.close().unwrap();
    assert_eq!(journal.left().take(EACH).count(), EACH);
    drop(journal);
    assert!(drops.are(0..4 * EACH));
}

#[derive(Clone, Copy, Debug, PartialEq)]
#[repr(align(16))]
struct Aligned(u128);

/// It has no bytes, and stands in a block all the same.
#[derive(Clone, Debug, PartialEq)]
#[repr(align(16))]
struct Wide;

/// A payload that fits into the value, and counts its drops.
struct Small(&'static AtomicU32);

impl Drop for Small {
    fn drop(&mut self) {
        self.0.fetch_add(1, Ordering::SeqCst);
    }
}

/// It has no bytes, and is dropped all the same.
struct Empty;

static EMPTIES: AtomicU32 = AtomicU32::new(0);

impl Drop for Empty {
    fn drop(&mut self) {
        EMPTIES.fetch_add(1, Ordering::SeqCst);
    }
}

/// Payloads come out as they went in: by a member, by the queue, and out of the journal.
fn come_out<T: Clone + PartialEq + std::fmt::Debug + Send + 'static>(payloads: &[T]) {
    let queue: TaskQueue<usize, T> = Options::new().members(2).open().unwrap();
    let mut member = queue.join().unwrap();
    for (key, payload) in payloads.iter().cycle().take(3 * payloads.len()).enumerate() {
        member.push(key, payload.clone()).unwrap();
    }
    for (key, payload) in payloads.iter().enumerate() {
        assert_eq!(member.pop(), Ok(Some((key, payload.clone()))));
    }
    for (key, payload) in payloads.iter().enumerate() {
        let key = key + payloads.len();
        assert_eq!(queue.pop(), Ok(Some((key, payload.clone()))));
    }
    drop(member);
    let mut journal = queue.close().unwrap();
    let left: Vec<T> = journal.left().map(|(_, payload)| payload).collect();
    assert_eq!(left, payloads);
}

#[test]
fn payloads_of_each_size_come_out() {
    static NUMBER: u32 = 5;
    come_out(&[(), ()]);
    come_out(&[Wide, Wide]);
    come_out(&[true, false]);
    come_out(&['a', char::MAX]);
    come_out(&[0, 1, u64::MAX]);
    come_out(&[-0.0, f64::MIN_POSITIVE]);
    come_out(&[(1_u32, 2_u32), (u32::MAX, 0)]);
    // Bytes that no field has.
    come_out(&[(u32::MAX, 7_u8), (0, 255)]);
    come_out(&[None, Some(7_u32)]);
    come_out(&[[1_u8, 2, 3], [255; 3]]);
    come_out(&[&NUMBER, &NUMBER]);
    come_out(&[Some(u8::count_ones as fn(u8) -> u32), None]);
    come_out(&["one", "two"]);
    come_out(&[u128::MAX, 1]);
    come_out(&["a string".to_string(), String::new()]);
    come_out(&[vec![1], vec![]]);
    come_out(&[Some(Box::new(5_u16)), None]);
    come_out(&[Arc::new(5), Arc::new(6)]);
    come_out(&[Aligned(1), Aligned(u128::MAX)]);
    come_out(&[[7_u8; 4096], [8; 4096]]);
}

#[test]
fn small_payloads_are_dropped_once() {
    static DROPS: AtomicU32 = AtomicU32::new(0);
    let drops = || DROPS.load(Ordering::SeqCst);
    let queue = TaskQueue::new().unwrap();
    let mut member = queue.join().unwrap();
    (0..5).for_each(|key| assert!(member.push(key, Small(&DROPS)).is_ok()));
    assert!(member.pop().unwrap().is_some());
    assert_eq!(drops(), 1);
    member.shut().unwrap();
    let refused = member.push(7, Small(&DROPS)).unwrap_err();
    assert_eq!((refused.error, drops()), (Error::Shut, 1));
    drop(refused);
    assert_eq!(drops(), 2);
    drop(member);
    let mut journal = queue.close().unwrap();
    assert!(journal.left().next().is_some());
    assert_eq!(drops(), 3);
    drop(journal);
    assert_eq!(drops(), 6);
}

#[test]
fn empty_payloads_and_closures_come_out() {
    let queue = TaskQueue::new().unwrap();
    (0..3).for_each(|key| assert!(queue.push(key, Empty).is_ok()));
    assert!(queue.pop().unwrap().is_some());
    assert_eq!(EMPTIES.load(Ordering::SeqCst), 1);
    drop(queue);
    assert_eq!(EMPTIES.load(Ordering::SeqCst), 3);
    let queue: TaskQueue<u64, Box<dyn FnOnce() -> usize + Send>> = TaskQueue::new().unwrap();
    let text = "text".to_string();
    queue.push(2, Box::new(move || text.len())).unwrap();
    queue.push(1, Box::new(|| 1)).unwrap();
    let called = [(); 2].map(|()| queue.pop().unwrap().map(|(_, closure)| closure()));
    assert_eq!(called, [Some(1), Some(4)]);
}

/// The text outlives the queue, and what is left in that.
#[test]
fn payloads_borrow() {
    let text = "some words that stay".to_string();
    let queue: TaskQueue<u64, &str> = TaskQueue::new().unwrap();
    queue.push_many((0..).zip(text.split(' '))).unwrap();
    let other = thread::scope(|scope| scope.spawn(|| queue.pop()).join().unwrap());
    assert_eq!(other, Ok(Some((0, "some"))));
    assert_eq!(queue.join().unwrap().pop(), Ok(Some((1, "words"))));
}

struct Job {
    _sign: Arc<()>,
    _own: TaskMember<u64, Job>,
}

/// A queue that is shut gives up those that hold a member of it.
#[test]
fn a_payload_that_holds_a_member_is_dropped() {
    let sign = Arc::new(());
    let queue = TaskQueue::new().unwrap();
    for key in 0..2 {
        let (_sign, _own) = (Arc::clone(&sign), queue.join().unwrap());
        queue.push(key, Job { _sign, _own }).unwrap();
    }
    queue.shut().unwrap();
    assert_eq!(Arc::strong_count(&sign), 3);
    assert_eq!(queue.clear(), Ok(2));
    assert_eq!(Arc::strong_count(&sign), 1);
    assert!(queue.close().is_ok());
}

/// Payloads in blocks of their own are freed, also those that need no drop; valgrind and the address sanitizer see whether they are.
#[test]
fn plain_payloads_in_blocks_are_freed_with_their_queue() {
    let queue: TaskQueue<usize, [u64; 4]> = TaskQueue::new().unwrap();
    let mut member = queue.join().unwrap();
    for key in 0..100 {
        member.push(key, [7; 4]).unwrap();
    }
    drop(member);
    drop(queue);
}
