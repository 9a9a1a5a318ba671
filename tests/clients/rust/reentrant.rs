//! Wakers are code of the user. They may call queues, also the one that wakes, drop members and the queue, run their tasks, and panic. No
//! call is under way meanwhile, so that none of it panics or waits for ever.
use flatpq::{Due, Error, Member, Options, Queue, TaskQueue};
use std::future::Future;
use std::panic::panic_any;
use std::pin::Pin;
use std::sync::{mpsc, Arc, Mutex};
use std::task::{Context, Poll, Wake, Waker};
use std::thread::{self, ThreadId};
use std::time::Duration;

/// Runs this in a thread of its own, which has to end in time.
fn in_time(run: impl FnOnce() + Send + 'static) {
    let (ends, ended) = mpsc::channel();
    let thread = thread::spawn(move || {
        run();
        ends.send(()).unwrap();
    });
    let result = ended.recv_timeout(Duration::from_secs(100));
    assert_ne!(result, Err(mpsc::RecvTimeoutError::Timeout), "it hangs");
    thread.join().unwrap();
}

/// Does something where it is woken.
struct Acting<F>(F);

impl<F: Fn() + Send + Sync + 'static> Wake for Acting<F> {
    fn wake(self: Arc<Self>) {
        (self.0)();
    }
}

fn waker(act: impl Fn() + Send + Sync + 'static) -> Waker {
    Waker::from(Arc::new(Acting(act)))
}

/// A member waits by this waker.
fn waits(member: &mut Member, waker: &Waker) {
    let polled = member.poll_take(&mut Context::from_waker(waker));
    assert_eq!(polled, Poll::Pending);
}

type Run = TaskQueue<u64, Arc<Task>>;
type Running = Pin<Box<dyn Future<Output = ()> + Send>>;

/// A task of an executor whose run queue is a queue: a wake pushes it there.
struct Task {
    run: Arc<Run>,
    future: Mutex<Option<Running>>,
}

impl Wake for Task {
    fn wake(self: Arc<Task>) {
        let run = Arc::clone(&self.run);
        run.push(1, self).unwrap();
    }
}

fn turn(run: &Run) {
    while let Some((_, task)) = run.pop().unwrap() {
        let waker = Waker::from(Arc::clone(&task));
        let mut future = task.future.lock().unwrap().take().unwrap();
        let polled = future.as_mut().poll(&mut Context::from_waker(&waker));
        if polled.is_pending() {
            *task.future.lock().unwrap() = Some(future);
        }
    }
}

#[test]
fn a_waker_pushes_by_its_thread_s_own_member() {
    let run: Arc<Run> = Arc::new(TaskQueue::new().unwrap());
    let data = Queue::new().unwrap();
    let (got, gets) = mpsc::channel();
    let mut member = data.join().unwrap();
    let future = async move {
        let taken = member.take_async().await;
        got.send(taken).unwrap();
    };
    let task = Arc::new(Task {
        run: Arc::clone(&run),
        future: Mutex::new(Some(Box::pin(future))),
    });
    run.push(1, task).unwrap();
    turn(&run);
    data.push(5, 7).unwrap();
    turn(&run);
    assert_eq!(gets.try_recv(), Ok(Ok((5, 7))));
}

/// It calls by its thread's own member, also inside of calls by that.
#[test]
fn a_waker_calls_the_same_queue() {
    in_time(|| {
        let queue = Arc::new(Queue::new().unwrap());
        let (sends, sent) = mpsc::channel();
        let sends = Mutex::new(sends);
        let there = Arc::clone(&queue);
        let waker = waker(move || {
            let pushed = there.push(9, 9).map_err(Error::from);
            there.leave();
            sends.lock().unwrap().send(pushed).unwrap();
        });
        let mut member = queue.join().unwrap();
        waits(&mut member, &waker);
        assert_eq!(queue.push(5, 6).unwrap(), 1);
        assert_eq!(sent.try_recv(), Ok(Ok(2)));
        assert_eq!(member.pop(), Ok(Some((5, 6))));
        assert_eq!(member.pop(), Ok(Some((9, 9))));
    });
}

/// An executor may run the task where it is woken: the member that listened is called inside of the waker.
#[test]
fn a_waker_runs_its_task() {
    in_time(|| {
        let queue: Queue = Queue::new().unwrap();
        let slot = Arc::new(Mutex::new((queue.join().unwrap(), Vec::new())));
        let there = Arc::clone(&slot);
        let waker = waker(move || {
            let (member, got) = &mut *there.lock().unwrap();
            assert!(!member.unlisten());
            got.extend(member.pop().unwrap());
        });
        waits(&mut slot.lock().unwrap().0, &waker);
        queue.push(5, 6).unwrap();
        assert_eq!(slot.lock().unwrap().1, [(5, 6)]);
        waits(&mut slot.lock().unwrap().0, &waker);
        assert_eq!(queue.push_many([(7, 8)]).unwrap().count, 1);
        assert_eq!(slot.lock().unwrap().1, [(5, 6), (7, 8)]);
    });
}

/// A take makes room, for which a push waits. It does not wait itself, and so runs that waker before it returns.
#[test]
fn a_take_that_never_waits_runs_the_waker() {
    in_time(|| {
        let queue: Queue = Options::new().most_items(1).open().unwrap();
        assert_eq!(queue.push(1, 2), Ok(1));
        let (wakes, woken) = mpsc::channel();
        let wakes = Mutex::new(wakes);
        let waker = waker(move || wakes.lock().unwrap().send(thread::current().id()).unwrap());
        let mut push = queue.push_async(3, 4);
        let polled = Pin::new(&mut push).poll(&mut Context::from_waker(&waker));
        assert!(polled.is_pending());
        assert_eq!(queue.try_take(), Ok(Some((1, 2))));
        assert_eq!(woken.try_recv(), Ok(thread::current().id()));
    });
}

#[test]
fn a_waker_that_panics_loses_no_ticket() {
    let queue = Queue::new().unwrap();
    let mut member = queue.join().unwrap();
    waits(&mut member, &waker(|| panic!("a waker panics")));
    assert_eq!(queue.push(1, 2), Ok(1));
    assert_eq!(queue.push(3, 4), Ok(2));
    assert_eq!(member.pop(), Ok(Some((1, 2))));
}

/// A task is dropped as it is woken, with the member by which it waits.
fn drops_a_member(wake: impl FnOnce(&Queue) + Send + 'static) {
    in_time(|| {
        let queue: Queue = Options::new().members(3).open().unwrap();
        let slot = Arc::new(Mutex::new(Some(queue.join().unwrap())));
        let there = Arc::clone(&slot);
        let waker = waker(move || drop(there.lock().unwrap().take()));
        let mut member = slot.lock().unwrap().take().unwrap();
        waits(&mut member, &waker);
        *slot.lock().unwrap() = Some(member);
        wake(&queue);
        assert!(slot.lock().unwrap().is_none());
    });
}

#[test]
fn a_waker_drops_its_member() {
    drops_a_member(|queue| queue.shut().unwrap());
    drops_a_member(|queue| queue.join().unwrap().shut().unwrap());
    drops_a_member(|queue| assert_eq!(queue.push(1, 2).unwrap(), 1));
}

#[test]
fn a_waker_drops_the_last_of_its_queue() {
    in_time(|| {
        let queue: Queue = Queue::new().unwrap();
        let (mut listening, mut pushing) = (queue.join().unwrap(), queue.join().unwrap());
        let slot = Arc::new(Mutex::new(None));
        let there = Arc::clone(&slot);
        waits(
            &mut listening,
            &waker(move || drop(there.lock().unwrap().take())),
        );
        *slot.lock().unwrap() = Some((queue, listening));
        assert_eq!(pushing.push(1, 2).unwrap(), 1);
        assert!(slot.lock().unwrap().is_none());
        assert_eq!(pushing.pop(), Ok(Some((1, 2))));
    });
}

/// Each waker says in which thread it runs. A thread that waits in a call passes a wake on to it, and can't run it: a thread of the crate does.
fn run_while_a_thread_waits(wakers: &[Waker], woken: &mpsc::Receiver<ThreadId>) {
    let queue = Options::new().most_items(1).open().unwrap();
    let mut listening = queue.join().unwrap();
    for waker in wakers {
        // The thread runs it itself where it did not wait yet: then once more, with more time for that.
        let (mut has_waited, mut patience) = (false, Duration::from_millis(10));
        while !has_waited {
            assert_eq!(queue.push(9, 1).map(|_| ()), Ok(()));
            let seen = listening.take_or_listen(5, &mut Context::from_waker(waker));
            assert_eq!(seen, Ok(Due::Later(9)));
            has_waited = thread::scope(|scope| {
                let waiting = scope.spawn(|| queue.push(3, 1).map(|_| ()));
                let pushes = waiting.thread().id();
                thread::sleep(patience);
                assert_eq!(queue.pop(), Ok(Some((9, 1))));
                let runs_in = woken.recv().unwrap();
                assert!(runs_in != thread::current().id());
                assert_eq!(waiting.join().unwrap(), Ok(()));
                runs_in != pushes
            });
            assert!(!listening.unlisten());
            assert_eq!(queue.clear(), Ok(1));
            patience *= 2;
        }
    }
}

#[test]
fn a_waker_runs_while_the_thread_that_wakes_waits() {
    in_time(|| {
        let (wakes, woken) = mpsc::channel();
        let wakes = Mutex::new(wakes);
        let good = waker(move || wakes.lock().unwrap().send(thread::current().id()).unwrap());
        run_while_a_thread_waits(&[good], &woken);
    });
}

/// Its panic's own drop panics.
#[test]
fn a_waker_whose_panic_panics_stops_no_other() {
    struct Bomb;
    impl Drop for Bomb {
        fn drop(&mut self) {
            panic!("the drop of a panic panics");
        }
    }
    in_time(|| {
        let (wakes, woken) = mpsc::channel();
        let [one, other] = [wakes.clone(), wakes].map(Mutex::new);
        let bomb = waker(move || {
            one.lock().unwrap().send(thread::current().id()).unwrap();
            panic_any(Bomb);
        });
        let good = waker(move || other.lock().unwrap().send(thread::current().id()).unwrap());
        run_while_a_thread_waits(&[bomb, good], &woken);
    });
}
