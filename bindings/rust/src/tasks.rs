//! A queue of payloads, and its members.
use crate::after;
use crate::batches::Pushed;
use crate::calls::{calls, found, takes, Call, Limited, Number};
use crate::clock::{Times, Until};
use crate::error::{Due, Error, NotAllPushed, NotClosed, NotPushed};
use crate::futures::{Archives, Slot};
use crate::journal::{Item, Journal, TaskJournal};
use crate::key::{Key, TimeKey};
use crate::options::Options;
use crate::payload;
use crate::raw::{self, RawMember, RawOptions, RawQueue};
use crate::turns::Lines;
use std::cell::Cell;
use std::marker::PhantomData;
use std::os::raw::c_void;
use std::os::unix::io::{AsRawFd, BorrowedFd};
use std::sync::{Arc, Mutex};
use std::{fmt, iter::FusedIterator};

/// What a queue and its members share. The last of them frees it, and drops the payloads that are left.
pub struct Shared<T> {
    pub queue: RawQueue,
    pub times: Times,
    /// A push may wait for room.
    pub is_bounded: bool,
    pub archives: Archives,
    pub lines: Lines,
    // Payloads go from thread to thread, and none is used by two at once.
    payloads: PhantomData<Mutex<T>>,
}

impl<T> Shared<T> {
    /// What a call found, by keys.
    pub fn keyed<K: Key>(&self, found: Due<u64, T>) -> Due<K, T> {
        match found {
            Due::Got(priority, payload) => Due::Got(self.times.key_of(priority), payload),
            Due::Later(priority) => Due::Later(self.times.key_of(priority)),
            Due::Empty => Due::Empty,
        }
    }

    /// Waits until the entry of this number is archived.
    pub fn wait_archived(&self, number: u64, until: u64) -> u32 {
        after::until(until, || self.queue.wait_archived(number, until))
    }

    fn shut(&self) -> Result<(), Error> {
        Error::unless_ok(after::calling(|| self.queue.shut()))
    }

    /// No entry has the number 0, so this never waits.
    pub fn is_forked(&self) -> bool {
        self.queue.wait_archived(0, 0) == Error::Forked as u32
    }
}

impl<T> Drop for Shared<T> {
    fn drop(&mut self) {
        let left: Option<raw::Left> = match payload::is_dropped::<T>() {
            true => Some(payload::left::<T>),
            false => None,
        };
        // SAFETY: all members were given back, and nobody uses it any more. All values of the queue are such payloads.
        after::calling(|| unsafe { self.queue.free(left) });
    }
}

/// A priority queue of payloads of any type, each by a [`Key`], which threads share. The smallest key comes out first, and payloads of
/// equal keys in the order in which they were pushed or moved there.
///
/// Any number of threads may call the queue itself. Each gets a member of its own at its first call. A thread keeps its member until the thread
/// ends, or until another thread's call takes it over while it is idle. If all members are in calls, a call waits for one. A thread that waits
/// for a payload or for room holds none meanwhile. A program that wants to move a member between threads joins one ([`TaskQueue::join`]).
///
/// A payload of at most eight bytes, as a number or a `Box<u32>`, lies in its item. Any other, as a `Box<dyn FnOnce()>`, has memory of its own.
/// Those that are left are dropped with the last of the queue and its members, or with the journal if the queue was closed. Box a payload
/// of more than some KiB: a call of a debug build needs up to 64 times its size of stack.
///
/// Without a named type bare numbers make `i32` keys, also by `Queue::new()`. Write `let queue: Queue = Queue::new()?` for `u64`.
///
/// ```
/// use flatpq::TaskQueue;
/// use std::thread;
///
/// let text = String::from("get up, sleep");
/// let queue: TaskQueue<u64, &str> = TaskQueue::new()?;
/// for (priority, task) in (0..).zip(text.split(", ")) {
///     queue.push(priority, task)?;
/// }
/// let first = thread::scope(|it| it.spawn(|| queue.pop()).join().unwrap());
/// assert_eq!(first?, Some((0, "get up")));
/// # Ok::<(), flatpq::Error>(())
/// ```
///
/// What a payload borrows has to outlive the queue and its members. So this doesn't compile:
///
/// ```compile_fail,E0505
/// let text = String::from("one two");
/// let queue: flatpq::TaskQueue<u64, &str> = flatpq::TaskQueue::new()?;
/// queue.push(1, &text)?;
/// drop(text);
/// # Ok::<(), flatpq::Error>(())
/// ```
///
/// # Errors
///
/// Unless its own text says otherwise, a call may return
///
/// - [`Error::JournalFull`] and [`Error::Unarchived`], if the queue was opened so ([`Options::keeping`]), and [`Error::Exhausted`];
/// - [`Error::NoMemory`], by the queue itself, for its thread's member;
/// - [`Error::TimedOut`], with a deadline: other threads had the lock, or all members, until then;
/// - [`Error::Forked`], in a forked child of a process that has opened a queue.
pub struct TaskQueue<K, T> {
    pub(crate) shared: Arc<Shared<T>>,
    keys: PhantomData<fn(K) -> K>,
}

/// A queue of integers by keys: as any [`TaskQueue`], and with calls that return numbers. Its journal has the values as they were
/// pushed, of signed ones their bits; what it leaves has both as they were.
pub type Queue<K = u64, V = u64> = TaskQueue<K, V>;

/// A member of a [`Queue`].
pub type Member<K = u64, V = u64> = TaskMember<K, V>;

calls!(() TaskQueue<K, T>,);
takes!(TaskQueue);

impl<K: Key, T: Send> TaskQueue<K, T> {
    /// Opens a queue for 64 members, with a journal of which memory keeps the last 1,024 entries. [`Options`] opens others.
    ///
    /// # Errors
    ///
    /// [`Error::NoMemory`], [`Error::Forked`], [`Error::Processor`].
    pub fn new() -> Result<TaskQueue<K, T>, Error> {
        Options::new().open()
    }

    pub(crate) fn opened(options: &RawOptions, times: Times) -> Result<TaskQueue<K, T>, Error> {
        let shared = Shared {
            queue: RawQueue::open(options)?,
            times,
            is_bounded: options.most_items > 0,
            archives: Archives::default(),
            lines: Lines::default(),
            payloads: PhantomData,
        };
        Ok(TaskQueue {
            shared: Arc::new(shared),
            keys: PhantomData,
        })
    }

    fn call(&self) -> Call<'_, K, T> {
        self.until(Until::FOREVER).0
    }

    /// Limits how long calls may wait for other threads, and for payloads. That is until a moment ([`Instant`](std::time::Instant)), for a
    /// time from now ([`Duration`](std::time::Duration)), or not at all ([`Until::NOW`]).
    pub fn until(&self, until: impl Into<Until>) -> Limited<'_, K, T> {
        Limited(Call {
            member: self.shared.queue.own(),
            until: until.into().time(),
            shared: &self.shared,
            number: None,
            keys: PhantomData,
        })
    }

    /// Joins the queue by a free member, or by an idle one that it takes over. Don't join all: calls by the queue itself need one, and wait until
    /// it is given back.
    ///
    /// # Errors
    ///
    /// [`Error::AllJoined`], [`Error::NoMemory`], [`Error::Forked`].
    pub fn join(&self) -> Result<TaskMember<K, T>, Error> {
        self.join_until(Until::NOW)
    }

    /// Joins the queue as [`TaskQueue::join`] does, or waits until the deadline for a member that another thread gives back.
    ///
    /// # Errors
    ///
    /// Those of [`TaskQueue::join`].
    pub fn join_until(&self, until: impl Into<Until>) -> Result<TaskMember<K, T>, Error> {
        let until = until.into().time();
        Ok(TaskMember {
            raw: after::until(until, || self.shared.queue.join(until))?,
            number: Cell::new(0),
            slot: Arc::default(),
            shared: Arc::clone(&self.shared),
            keys: PhantomData,
        })
    }

    /// Takes all payloads out, in order, until there is none or a call is refused. Each is a call of its own, so this may not end while others
    /// push.
    ///
    /// ```
    /// let queue = flatpq::TaskQueue::new()?;
    /// queue.push_many([(2, "two"), (1, "one")])?;
    /// for drained in queue.drain() {
    ///     let (key, text) = drained?;
    ///     println!("{key} {text}");
    /// }
    /// assert_eq!(queue.peek()?, None);
    /// # Ok::<(), flatpq::Error>(())
    /// ```
    pub fn drain(&self) -> Drain<'_, K, T> {
        Drain(Some(self))
    }

    /// Takes all payloads out as a drain does, drops them, and returns how many there were. A payload that holds a [`TaskMember`] of this queue
    /// keeps it alive: shut the queue and clear it to free both.
    ///
    /// # Errors
    ///
    /// Those of [`TaskQueue::pop`].
    pub fn clear(&self) -> Result<usize, Error> {
        self.drain()
            .try_fold(0, |count, drained| drained.map(|_| count + 1))
    }

    /// Ends the queue, and returns its journal and the payloads that are left. Own members of threads that are in no call are taken back. No
    /// thread that waits is woken: [`TaskQueue::shut`] does that first.
    ///
    /// # Errors
    ///
    /// [`Error::MembersLeft`], [`Error::NoMemory`] and [`Error::Forked`], with the queue, which stays open.
    pub fn close(self) -> Result<TaskJournal<K, T>, NotClosed<K, T>> {
        match after::calling(|| self.shared.queue.close()) {
            Ok(raw) => Ok(TaskJournal::new(raw, self.shared.times)),
            Err(error) => Err(NotClosed { queue: self, error }),
        }
    }
}

impl<K, T> TaskQueue<K, T> {
    /// Shuts the queue down for good: each push that begins from now on is refused. Threads that wait for a payload take what is left, and then
    /// return [`Error::Shut`]. The call waits for nothing, and the queue stays, until [`TaskQueue::close`] ends it.
    ///
    /// With [`Keeping::Refuses`](crate::Keeping::Refuses) the journal may lack room for the shut. The call returns `Ok` all the same. Until more is
    /// archived, each push, take, pop, removal or move returns [`Error::Unarchived`]; then the shut takes effect.
    ///
    /// # Errors
    ///
    /// [`Error::Forked`].
    pub fn shut(&self) -> Result<(), Error> {
        self.shared.shut()
    }

    /// Whether the queue is shut: each push that begins from now on is refused. `false`: it was not shut when the call began.
    ///
    /// ```
    /// let queue = flatpq::TaskQueue::new()?;
    /// queue.push(5, "five")?;
    /// assert!(!queue.is_shut());
    /// queue.shut()?;
    /// assert!(queue.is_shut());
    /// assert_eq!(queue.try_take()?, Some((5, "five")));
    /// assert_eq!(queue.try_take(), Err(flatpq::Error::Shut));
    /// # Ok::<(), flatpq::Error>(())
    /// ```
    pub fn is_shut(&self) -> bool {
        self.shared.queue.is_shut()
    }

    /// Waits until an archive has counted the entry of this number as archived ([`TaskQueue::archive`]).
    ///
    /// # Errors
    ///
    /// [`Error::Forked`].
    pub fn wait_archived(&self, number: u64) -> Result<(), Error> {
        Error::unless_ok(self.shared.wait_archived(number, u64::MAX))
    }

    /// Gives the calling thread's own member back now, if it has one.
    pub fn leave(&self) {
        after::calling(|| self.shared.queue.leave());
    }
}

debug_by_name!(TaskQueue<K, T>);

/// Takes all payloads out ([`TaskQueue::drain`]).
#[must_use = "what is not asked for stays in the queue"]
pub struct Drain<'a, K, T>(Option<&'a TaskQueue<K, T>>);

impl<K: Key, T: Send> Iterator for Drain<'_, K, T> {
    type Item = Result<(K, T), Error>;

    fn next(&mut self) -> Option<Self::Item> {
        let popped = self.0?.call().pop_up_to(u64::MAX).map(Due::got);
        if !matches!(popped, Ok(Some(_))) {
            self.0 = None;
        }
        popped.transpose()
    }
}

impl<K: Key, T: Send> FusedIterator for Drain<'_, K, T> {}

debug_by_name!(Drain<'a, K, T>);

/// A member of a [`TaskQueue`], which may move between threads. It is given back when it is dropped. It may outlive its queue.
///
/// ```compile_fail,E0277
/// fn is_sync<T: Sync>() {}
/// is_sync::<flatpq::TaskMember<u64, u32>>();
/// ```
pub struct TaskMember<K, T> {
    raw: RawMember,
    number: Cell<u64>,
    // It is there until the member was given back.
    pub(crate) slot: Arc<Slot>,
    pub(crate) shared: Arc<Shared<T>>,
    keys: PhantomData<fn(K) -> K>,
}

calls!(() TaskMember<K, T>, mut);
takes!(TaskMember mut);

impl<K: Key, T: Send> TaskMember<K, T> {
    fn call(&mut self) -> Call<'_, K, T> {
        self.until(Until::FOREVER).0
    }

    /// Limits how long calls may wait, as [`TaskQueue::until`] does.
    pub fn until(&mut self, until: impl Into<Until>) -> Limited<'_, K, T> {
        Limited(Call {
            member: self.raw.inside(),
            until: until.into().time(),
            shared: &self.shared,
            number: Some(&self.number),
            keys: PhantomData,
        })
    }

    /// The number of the journal entry of the member's last call that pushes, takes, removes or moves. Of a batch it is that of its first
    /// entry; 0 if there is none.
    ///
    /// ```
    /// let queue = flatpq::TaskQueue::new()?;
    /// let mut member = queue.join()?;
    /// assert_eq!(member.push(5, "five")?, 1);
    /// assert_eq!((member.pop()?, member.number()), (Some((5, "five")), 2));
    /// # Ok::<(), flatpq::Error>(())
    /// ```
    pub fn number(&self) -> u64 {
        self.number.get()
    }

    // Takes the first payload out if its priority is at most this one; else the member listens.
    //
    // SAFETY: notify may be called with the context until the member listens no longer.
    pub(crate) unsafe fn taken_or_listens(
        &mut self,
        priority: u64,
        (notify, context): (raw::Notify, *mut c_void),
    ) -> Result<Due<u64, T>, Error> {
        let (member, mut item, mut number) = (self.raw.inside(), Item::default(), 0);
        after::calling(|| {
            // SAFETY: the member is there, and in this call alone; as the caller says.
            let code = unsafe {
                raw::pq_take_or_listen(member, priority, &mut item, &mut number, notify, context)
            };
            self.number.set(number);
            // SAFETY: the call took it out of a queue of such payloads.
            unsafe { found(code, item) }
        })
    }

    // Takes the first payload out if it is due; else the member listens by this timer.
    pub(crate) fn taken_due_or_listens(
        &mut self,
        timer: BorrowedFd<'_>,
    ) -> Result<Due<u64, T>, Error> {
        let (member, timer) = (self.raw.inside(), timer.as_raw_fd());
        let (mut item, mut number) = (Item::default(), 0);
        after::calling(|| {
            // SAFETY: the member is there, and in this call alone; the others are borrowed for it.
            let code = unsafe { raw::pq_take_due_or_listen(member, timer, &mut item, &mut number) };
            self.number.set(number);
            // SAFETY: the call took it out of a queue of such payloads.
            unsafe { found(code, item) }
        })
    }
}

impl<K, T> TaskMember<K, T> {
    /// The place of the member, by which journal entries name it: 0 to 2079, or `u32::MAX` in a forked child.
    pub fn place(&self) -> u32 {
        // SAFETY: the member is there.
        unsafe { raw::pq_place(self.raw.inside()) }
    }

    /// Shuts the queue down, as [`TaskQueue::shut`] does.
    ///
    /// # Errors
    ///
    /// [`Error::Forked`].
    pub fn shut(&self) -> Result<(), Error> {
        self.shared.shut()
    }

    /// Whether the queue is shut, as [`TaskQueue::is_shut`] says.
    pub fn is_shut(&self) -> bool {
        self.shared.queue.is_shut()
    }

    pub(crate) fn unless_forked(&self) -> Result<(), Error> {
        match self.place() {
            u32::MAX => Err(Error::Forked),
            _ => Ok(()),
        }
    }

    /// Ends the listening, and drops the waker. Returns `true` if the member was listening and nothing had begun to wake its task. A wake that had
    /// begun may still come.
    pub fn unlisten(&mut self) -> bool {
        // SAFETY: the member is there, and in this call alone.
        let listened = after::calling(|| unsafe { raw::pq_unlisten(self.raw.inside()) } == 1);
        // Another thread of the parent may have had the slot's lock.
        if self.unless_forked().is_ok() {
            after::drop_caught(self.slot.take());
        }
        listened
    }
}

impl<K, T> fmt::Debug for TaskMember<K, T> {
    fn fmt(&self, f: &mut fmt::Formatter<'_>) -> fmt::Result {
        f.debug_struct("TaskMember")
            .field("place", &self.place())
            .finish_non_exhaustive()
    }
}
