//! Takes and pushes that wait without a thread: by a waker, on any executor.
use crate::after::{self, locked};
use crate::clock::Until;
use crate::error::{Due, Error, NotPushed};
use crate::key::{Key, TimeKey};
use crate::raw::{self, Notify};
use crate::sync::Mutex;
use crate::tasks::{Shared, TaskMember, TaskQueue};
use crate::turns::{Line, Turn};
use std::collections::BTreeMap;
use std::future::Future;
use std::mem;
use std::os::raw::c_void;
use std::pin::Pin;
use std::sync::atomic::{AtomicU64, Ordering};
use std::sync::Arc;
use std::task::{Context, Poll, Waker};
use std::time::Instant;

/// The waker of a member that listens. No code of the user runs with its lock held.
#[derive(Debug, Default)]
pub struct Slot(Mutex<Option<Waker>>);

impl Slot {
    /// Takes the waker out, if one is left.
    pub fn take(&self) -> Option<Waker> {
        locked(&self.0).take()
    }

    fn set(&self, waker: &Waker) {
        let is_same = |own: &Waker| own.will_wake(waker);
        if !locked(&self.0).as_ref().map_or(false, is_same) {
            let waker = waker.clone();
            let before = locked(&self.0).replace(waker);
            after::drop_caught(before);
        }
    }

    /// What the library calls for this slot, and with what.
    fn notify(self: &Arc<Slot>) -> (Notify, *mut c_void) {
        (notified, Arc::as_ptr(self) as *mut c_void)
    }
}

/// The wakers of those who wait until entries are archived, each by the number of its entry and one of its own. Only calls of this crate
/// archive.
#[derive(Default)]
pub struct Archives(Mutex<BTreeMap<(u64, u64), Waker>>, AtomicU64);

impl Archives {
    /// Wakes those whose entries are among the first so many.
    pub fn wake(&self, archived: u64) {
        let mut all = locked(&self.0);
        let waiting = all.split_off(&(archived, u64::MAX));
        let over = mem::replace(&mut *all, waiting);
        drop(all);
        over.into_values().for_each(after::wake_caught);
    }
}

/// The library calls it once while a member listens. It may not call the library, as wakers may: they run later.
///
/// # Safety
///
/// The context is a slot that is there.
unsafe extern "C" fn notified(slot: *mut c_void) {
    // SAFETY: as the caller says.
    let slot = unsafe { &*slot.cast::<Slot>() };
    if let Some(waker) = slot.take() {
        after::wake(waker);
    }
}

/// Takes and pushes without a thread that waits.
impl<K: Key, T: Send> TaskMember<K, T> {
    /// Waits for a payload by a future, and takes the first one out, with its key.
    ///
    /// A push wakes one thread in a `take`. If no thread waits there, it wakes as many futures and other listeners as there are payloads, first
    /// come first served. The future is cancel-safe: dropped when it was woken, it wakes another, and no payload is lost with it. A poll that finds
    /// none leaves no journal entry.
    ///
    /// A waker runs in the thread that pushes, after its call, so it may call the queue. If that thread waits in its call, or pushes from C, a
    /// thread of this crate runs the waker. The first poll starts that thread. If a waker panics, the call goes on all
    /// the same. A poll doesn't sleep for the queue's lock: if others have it, the task is woken again.
    ///
    /// # Errors
    ///
    /// Those of [`TaskMember::take`], and [`Error::NoMemory`] if that thread can't start. [`Error::AllJoined`] if as many listen as may: 32, and up
    /// to 26 more, one fewer for each thread that waits. So too if all other members are joined, and wait or listen: calls need the last one.
    ///
    /// ```
    /// use std::future::Future;
    /// use std::pin::Pin;
    /// use std::sync::Arc;
    /// use std::task::{Context, Poll, Wake};
    ///
    /// struct Nobody;
    /// impl Wake for Nobody {
    ///     fn wake(self: Arc<Nobody>) {}
    /// }
    ///
    /// let queue = flatpq::TaskQueue::new()?;
    /// let waker = Arc::new(Nobody).into();
    /// let mut context = Context::from_waker(&waker);
    /// let mut take = queue.take_async();
    /// assert!(Pin::new(&mut take).poll(&mut context).is_pending());
    /// queue.push(5, "five")?;
    /// let taken = Pin::new(&mut take).poll(&mut context);
    /// assert_eq!(taken, Poll::Ready(Ok((5, "five"))));
    /// # Ok::<(), flatpq::Error>(())
    /// ```
    pub fn take_async(&mut self) -> Take<'_, K, T> {
        Take(Taker::Member(self))
    }

    /// Waits by a future until the first payload is due, and takes it out, with its key. The program gives a sleep until a moment, as of its
    /// executor's timer: `tokio::time::sleep_until(moment.into())`. What is due goes by the machine's clock: if tokio's is paused, the sleep
    /// ends at once, and the future is polled again and again.
    ///
    /// # Errors
    ///
    /// Those of [`TaskMember::take_async`].
    pub fn take_due_async<S, F>(&mut self, sleep: S) -> TakeDue<'_, K, T, S, F>
    where
        K: TimeKey,
        S: FnMut(Instant) -> F,
        F: Future<Output = ()>,
    {
        TakeDue::by(Taker::Member(self), sleep)
    }

    /// Puts a payload in, and returns the number of its journal entry. It waits by a future while the queue has no room
    /// ([`Options::most_items`](crate::Options::most_items)). A future that is dropped when it was woken wakes another, and drops its payload.
    ///
    /// # Errors
    ///
    /// Those of [`TaskMember::push`] and [`TaskMember::take_async`], each with the payload.
    pub fn push_async(&mut self, key: K, payload: T) -> Push<'_, K, T> {
        Push::by(Taker::Member(self), key, payload)
    }

    // Puts a payload in. If there is no room, `Error::Full`: the context's task is woken once there may be some, or the queue is shut.
    fn push_or_listen(
        &mut self,
        key: K,
        payload: T,
        cx: &mut Context<'_>,
    ) -> Result<u64, NotPushed<T>> {
        let (notify, context) = match self.listens_for(cx) {
            Ok(notify) => notify,
            Err(error) => return Err(NotPushed { payload, error }),
        };
        let priority = self.shared.times.priority_of(key);
        let call = self.until(Until::NOW).0;
        let pushed = after::calling(|| {
            // SAFETY: the member is there, in this call alone, and has the slot until it was given back; the number is borrowed for the call.
            call.pushed_by(priority, payload, |item, number| unsafe {
                raw::pq_push_or_listen(call.member, item, number, notify, context)
            })
        });
        if !matches!(&pushed, Err(refused) if refused.error == Error::Full) {
            // Of the payload's memory the library was not asked, so the member may listen.
            self.unlisten();
        }
        pushed
    }

    /// Takes the first payload out, if there is one; else has the context's task woken once there may be one, or the queue is shut. A
    /// program that polls no more then calls [`TaskMember::unlisten`], or drops the member.
    ///
    /// # Errors
    ///
    /// Those of [`TaskMember::take_async`].
    pub fn poll_take(&mut self, cx: &mut Context<'_>) -> Poll<Result<(K, T), Error>> {
        let found = self.found_or_listens(u64::MAX, cx)?;
        let taken = self.shared.keyed(found).got();
        taken.map_or(Poll::Pending, |it| Poll::Ready(Ok(it)))
    }

    /// Takes the first payload out if its key is at most this one. Else the context's task is woken once a payload comes that may be for it, or
    /// the queue is shut. After [`Due::Later`] the program calls it again once that key is within its bound: nothing wakes for that. While other
    /// threads have the lock it returns [`Due::Empty`], and the task is woken again.
    ///
    /// At one queue pass fixed bounds in all such calls, or the current time in all; `take_due_async` passes the current time. Else a payload that
    /// isn't due yet may wake only one with a fixed bound, which leaves it there. It may then stay in the queue once it is due.
    ///
    /// # Errors
    ///
    /// Those of [`TaskMember::take_async`].
    pub fn take_or_listen(&mut self, key: K, cx: &mut Context<'_>) -> Result<Due<K, T>, Error> {
        let priority = self.shared.times.priority_of(key);
        let found = self.found_or_listens(priority, cx)?;
        Ok(self.shared.keyed(found))
    }

    fn found_or_listens(
        &mut self,
        priority: u64,
        cx: &mut Context<'_>,
    ) -> Result<Due<u64, T>, Error> {
        let notify = self.listens_for(cx)?;
        // SAFETY: the member has the slot until it was given back.
        let found = unsafe { self.taken_or_listens(priority, notify) };
        if !matches!(found, Ok(Due::Later(_) | Due::Empty)) {
            after::drop_caught(self.slot.take());
        }
        found
    }

    // What the library is to call, that wakes the context's task.
    fn listens_for(&mut self, cx: &mut Context<'_>) -> Result<(Notify, *mut c_void), Error> {
        self.unless_forked()?;
        if !after::has_thread() {
            return Err(Error::NoMemory);
        }
        self.slot.set(cx.waker());
        Ok(self.slot.notify())
    }

    // Takes what is due, or listens, and has a sleep until the first is.
    fn poll_take_due<F: Future<Output = ()>>(
        &mut self,
        sleep: &mut impl FnMut(Instant) -> F,
        timer: &mut Option<(u64, Pin<Box<F>>)>,
        cx: &mut Context<'_>,
    ) -> Poll<Result<(K, T), Error>> {
        let now = self.shared.times.due_now();
        match self.found_or_listens(now, cx)? {
            Due::Got(priority, payload) => {
                let key = self.shared.times.key_of(priority);
                return Poll::Ready(Ok((key, payload)));
            }
            Due::Later(priority) => {
                if timer.as_ref().map(|it| it.0) != Some(priority) {
                    let moment = self.shared.times.moment_of(priority);
                    *timer = moment.map(|it| (priority, Box::pin(sleep(it))));
                }
            }
            Due::Empty => *timer = None,
        }
        if let Some((_, sleeping)) = timer {
            if sleeping.as_mut().poll(cx).is_ready() {
                *timer = None;
                cx.waker().wake_by_ref();
            }
        }
        Poll::Pending
    }
}

impl<K: Key, T: Send> TaskQueue<K, T> {
    /// Waits for a payload by a future, as [`TaskMember::take_async`] does. A future that is polled joins, and gives that member back when
    /// it is ready or dropped. One that gets none waits until another such future gives its own back, so any number may wait. Once
    /// woken, poll or drop a future promptly: later ones wait for it. If a task takes in a loop, join once and await by that member: each
    /// take then takes half the time.
    ///
    /// Futures of one kind (for any payload, for what is due, for room) need one member. So open the queue with one for each kind, besides those
    /// for the threads that call at once. Pending futures hold up to 58 members, and leave at least one for calls.
    ///
    /// # Errors
    ///
    /// Those of [`TaskMember::take_async`], except that [`Error::AllJoined`] comes only if no other such future has a member.
    pub fn take_async(&self) -> Take<'_, K, T> {
        Take(Taker::by_queue(self, &self.shared.lines.any))
    }

    /// Puts a payload in, and waits by a future while the queue has no room, as [`TaskMember::push_async`] does. It joins only if the
    /// queue has no room, or other threads have the lock or all members, and then waits for its turn as [`TaskQueue::take_async`] does. Unlike `push` it never blocks the thread, also without a bound.
    ///
    /// # Errors
    ///
    /// Those of [`TaskMember::push`] and [`TaskQueue::take_async`], each with the payload.
    ///
    /// ```
    /// use std::future::Future;
    /// use std::pin::Pin;
    /// use std::task::{Context, Poll, Waker};
    /// # use std::sync::Arc;
    /// # struct Nobody;
    /// # impl std::task::Wake for Nobody { fn wake(self: Arc<Nobody>) {} }
    /// # let waker = Waker::from(Arc::new(Nobody));
    ///
    /// let queue = flatpq::Options::new().most_items(1).open()?;
    /// queue.push(5, "five")?;
    /// let mut push = queue.push_async(3, "three");
    /// let mut context = Context::from_waker(&waker);
    /// assert!(Pin::new(&mut push).poll(&mut context).is_pending());
    /// assert_eq!(queue.pop()?, Some((5, "five")));
    /// assert_eq!(Pin::new(&mut push).poll(&mut context), Poll::Ready(Ok(3)));
    /// # Ok::<(), flatpq::Error>(())
    /// ```
    pub fn push_async(&self, key: K, payload: T) -> Push<'_, K, T> {
        Push::by(Taker::by_queue(self, &self.shared.lines.room), key, payload)
    }

    /// Waits by a future until the first payload is due, as [`TaskMember::take_due_async`] does. It joins as [`TaskQueue::take_async`] does, or
    /// waits for a member of another future that waits for what is due.
    ///
    /// # Errors
    ///
    /// Those of [`TaskQueue::take_async`].
    pub fn take_due_async<S, F>(&self, sleep: S) -> TakeDue<'_, K, T, S, F>
    where
        K: TimeKey,
        S: FnMut(Instant) -> F,
        F: Future<Output = ()>,
    {
        TakeDue::by(Taker::by_queue(self, &self.shared.lines.due), sleep)
    }
}

impl<K, T> TaskQueue<K, T> {
    /// Waits by a future until an archive has counted the entry of this number as archived, as [`TaskQueue::wait_archived`] does. The archive
    /// wakes, in its thread.
    ///
    /// # Errors
    ///
    /// [`Error::Forked`].
    pub fn wait_archived_async(&self, number: u64) -> WaitArchived<'_, T> {
        let own = self.shared.archives.1.fetch_add(1, Ordering::Relaxed);
        WaitArchived(&self.shared, (number, own))
    }
}

/// A wait until an entry is archived, by [`TaskQueue::wait_archived_async`].
#[must_use = "a future does nothing unless it is polled"]
pub struct WaitArchived<'a, T>(&'a Shared<T>, (u64, u64));

impl<T> Future for WaitArchived<'_, T> {
    type Output = Result<(), Error>;

    fn poll(self: Pin<&mut Self>, cx: &mut Context<'_>) -> Poll<Self::Output> {
        let WaitArchived(shared, own) = *self;
        let looks = || match Error::unless_ok(shared.wait_archived(own.0, 0)) {
            Err(Error::TimedOut) => Poll::Pending,
            done => Poll::Ready(done),
        };
        if looks().is_pending() {
            let waker = cx.waker().clone();
            let before = locked(&shared.archives.0).insert(own, waker);
            drop(before);
        }
        // An archive that came before the waker was there is seen now.
        looks()
    }
}

impl<T> Drop for WaitArchived<'_, T> {
    fn drop(&mut self) {
        // Another thread of the parent may have had the lock.
        if !self.0.is_forked() {
            let waker = locked(&self.0.archives.0).remove(&self.1);
            drop(waker);
        }
    }
}

debug_by_name!(WaitArchived<'a, T>);

/// By whom a future takes or pushes.
enum Taker<'a, K, T> {
    Member(&'a mut TaskMember<K, T>),
    Queue(ByQueue<'a, K, T>),
}

/// By a member that it joins, while it has a turn. The member is given back before that ends.
struct ByQueue<'a, K, T> {
    queue: &'a TaskQueue<K, T>,
    joined: Option<TaskMember<K, T>>,
    turn: Turn<'a>,
}

impl<'a, K, T> Taker<'a, K, T> {
    fn by_queue(queue: &'a TaskQueue<K, T>, line: &'a Line) -> Taker<'a, K, T> {
        Taker::Queue(ByQueue {
            queue,
            joined: None,
            turn: line.turn(),
        })
    }
}

impl<K, T> ByQueue<'_, K, T> {
    fn end(&mut self) {
        if let Some(mut joined) = self.joined.take() {
            // A waker whose drop panics keeps no turn.
            joined.unlisten();
        }
        // Another thread of the parent may have had the line's lock.
        if !self.queue.shared.is_forked() {
            self.turn.end();
        }
    }
}

impl<K, T> Drop for ByQueue<'_, K, T> {
    fn drop(&mut self) {
        self.end();
    }
}

impl<K: Key, T: Send> Taker<'_, K, T> {
    // The member, which it joins if it has none.
    fn member(&mut self) -> Result<&mut TaskMember<K, T>, Error> {
        match self {
            Taker::Member(member) => Ok(member),
            Taker::Queue(by) => match &mut by.joined {
                Some(joined) => Ok(joined),
                none => Ok(none.insert(by.queue.join()?)),
            },
        }
    }

    // Whether it has a turn, or needs none.
    fn begin(&mut self, waker: &Waker) -> Result<bool, Error> {
        match self {
            Taker::Member(_) => Ok(true),
            Taker::Queue(by) if by.queue.shared.is_forked() => Err(Error::Forked),
            Taker::Queue(by) => Ok(by.turn.begin(waker)),
        }
    }

    // Gives the member back that it joined, and waits until one is left, if another of its line has one.
    fn waits(&mut self, waker: &Waker) -> bool {
        match self {
            Taker::Member(_) => false,
            Taker::Queue(by) => {
                drop(by.joined.take());
                by.turn.waits(waker)
            }
        }
    }

    // Polls. Where no member is left it does so once more, as the last of its line that had one may have given it back meanwhile.
    fn poll<R>(
        &mut self,
        cx: &mut Context<'_>,
        mut poll: impl FnMut(&mut Self, &mut Context<'_>) -> Poll<Result<R, Error>>,
    ) -> Poll<Result<R, Error>> {
        if !self.begin(cx.waker())? {
            return Poll::Pending;
        }
        let mut polled = poll(self, cx);
        for tries_again in [true, false] {
            if !matches!(polled, Poll::Ready(Err(Error::AllJoined))) {
                break;
            }
            if self.waits(cx.waker()) {
                return Poll::Pending;
            }
            if tries_again {
                polled = poll(self, cx);
            }
        }
        if let (Taker::Queue(by), Poll::Ready(_)) = (self, &polled) {
            by.end();
        }
        polled
    }
}

impl<K, T> Drop for Taker<'_, K, T> {
    fn drop(&mut self) {
        if let Taker::Member(member) = self {
            member.unlisten();
        }
    }
}

/// A take of a payload, by [`TaskQueue::take_async`] or [`TaskMember::take_async`]. Once it is ready it takes another if it is polled
/// again.
#[must_use = "a future does nothing unless it is polled"]
pub struct Take<'a, K, T>(Taker<'a, K, T>);

impl<K: Key, T: Send> Future for Take<'_, K, T> {
    type Output = Result<(K, T), Error>;

    fn poll(mut self: Pin<&mut Self>, cx: &mut Context<'_>) -> Poll<Self::Output> {
        self.0.poll(cx, |by, cx| by.member()?.poll_take(cx))
    }
}

debug_by_name!(Take<'a, K, T>);

/// A take of a payload that is due, by [`TaskQueue::take_due_async`] or [`TaskMember::take_due_async`].
#[must_use = "a future does nothing unless it is polled"]
pub struct TakeDue<'a, K, T, S, F> {
    taker: Taker<'a, K, T>,
    sleep: S,
    // The priority that is first, and the sleep until it is due.
    timer: Option<(u64, Pin<Box<F>>)>,
}

impl<'a, K, T, S, F> TakeDue<'a, K, T, S, F> {
    fn by(taker: Taker<'a, K, T>, sleep: S) -> TakeDue<'a, K, T, S, F> {
        TakeDue {
            taker,
            sleep,
            timer: None,
        }
    }
}

// Only the sleep is pinned, in a box of its own.
impl<K, T, S, F> Unpin for TakeDue<'_, K, T, S, F> {}

impl<K: Key, T: Send, S, F> Future for TakeDue<'_, K, T, S, F>
where
    S: FnMut(Instant) -> F,
    F: Future<Output = ()>,
{
    type Output = Result<(K, T), Error>;

    fn poll(mut self: Pin<&mut Self>, cx: &mut Context<'_>) -> Poll<Self::Output> {
        let TakeDue {
            taker,
            sleep,
            timer,
        } = &mut *self;
        taker.poll(cx, |by, cx| by.member()?.poll_take_due(sleep, timer, cx))
    }
}

debug_by_name!(TakeDue<'a, K, T, S, F>);

/// A push of a payload, by [`TaskQueue::push_async`] or [`TaskMember::push_async`]. Polled once more after it is ready, it panics.
#[must_use = "a future does nothing unless it is polled"]
pub struct Push<'a, K, T> {
    by: Taker<'a, K, T>,
    key: K,
    payload: Option<T>,
}

impl<'a, K, T> Push<'a, K, T> {
    fn by(by: Taker<'a, K, T>, key: K, payload: T) -> Push<'a, K, T> {
        let payload = Some(payload);
        Push { by, key, payload }
    }
}

// The payload is moved, and never pinned.
impl<K, T> Unpin for Push<'_, K, T> {}

// Puts a payload in, at first without a member of its own. `Error::Full`: it listens.
fn pushed<K: Key, T: Send>(
    by: &mut Taker<'_, K, T>,
    key: K,
    payload: T,
    cx: &mut Context<'_>,
) -> Result<u64, NotPushed<T>> {
    let payload = match by {
        Taker::Queue(by) if by.joined.is_none() => {
            match by.queue.until(Until::NOW).push(key, payload) {
                Err(refused) if matches!(refused.error, Error::Full | Error::TimedOut) => {
                    refused.payload
                }
                done => return done,
            }
        }
        _ => payload,
    };
    match by.member() {
        Ok(member) => member.push_or_listen(key, payload, cx),
        Err(error) => Err(NotPushed { payload, error }),
    }
}

impl<K: Key, T: Send> Future for Push<'_, K, T> {
    type Output = Result<u64, NotPushed<T>>;

    fn poll(mut self: Pin<&mut Self>, cx: &mut Context<'_>) -> Poll<Self::Output> {
        const OVER: &str = "a push that is ready is over";
        let Push { by, key, payload } = &mut *self;
        let polled = by.poll(cx, |by, cx| {
            match pushed(by, *key, payload.take().expect(OVER), cx) {
                Ok(number) => Poll::Ready(Ok(number)),
                Err(refused) => {
                    *payload = Some(refused.payload);
                    match refused.error {
                        Error::Full => Poll::Pending,
                        error => Poll::Ready(Err(error)),
                    }
                }
            }
        });
        polled.map_err(|error| {
            let payload = payload.take().expect(OVER);
            NotPushed { payload, error }
        })
    }
}

debug_by_name!(Push<'a, K, T>);
