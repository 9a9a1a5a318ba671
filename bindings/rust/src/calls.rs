//! The calls of a queue and of a member: what waits at most until a deadline, and the same without one.
use crate::after;
use crate::batches::Pushed;
use crate::error::{Due, Error, NotAllPushed, NotPushed};
use crate::journal::{Item, Journal};
use crate::key::{Key, TimeKey};
use crate::payload::{payload_of, value_of};
use crate::raw::{self, First, MemberInside, RawJournal};
use crate::tasks::Shared;
use std::cell::Cell;
use std::fmt;
use std::marker::PhantomData;
use std::ptr;

/// Integers of at most 64 bits, as payloads: a queue of them is a [`Queue`](crate::Queue).
pub trait Number: Copy + Send + sealed::Sealed {}

mod sealed {
    pub trait Sealed {}
}

macro_rules! numbers {
    ($($Number:ty),*) => {$(
        impl sealed::Sealed for $Number {}
        impl Number for $Number {}
    )*};
}

numbers!(u8, u16, u32, u64, usize, i8, i16, i32, i64, isize);

/// Calls by a member, or by the calling thread's own, until a time.
pub struct Call<'a, K, T> {
    pub member: *mut MemberInside,
    pub until: u64,
    pub shared: &'a Shared<T>,
    /// Where the number of the journal entry is kept.
    pub number: Option<&'a Cell<u64>>,
    pub keys: PhantomData<fn(K) -> K>,
}

impl<K: Key, T> Call<'_, K, T> {
    // Makes a call for the first item, which takes it out.
    fn taken(&self, call: impl FnOnce(&mut Item, &mut u64) -> u32) -> Result<Due<u64, T>, Error> {
        let (mut item, mut number) = (Item::default(), 0);
        let code = call(&mut item, &mut number);
        self.has_number(number);
        // SAFETY: the call took it out of a queue of such payloads.
        unsafe { found(code, item) }
    }

    pub(crate) fn has_number(&self, number: u64) {
        if let Some(last) = self.number {
            last.set(number);
        }
    }

    fn keyed(&self, found: Due<u64, T>) -> Due<K, T> {
        self.shared.keyed(found)
    }

    // A call that may wait for an item.
    fn waits(&self, call: First) -> Result<Due<u64, T>, Error> {
        let (member, until) = (self.member, self.until);
        // SAFETY: the member is there, and in this call alone; the others are borrowed for it.
        let taken = || self.taken(|item, number| unsafe { call(member, item, until, number) });
        after::until(until, taken)
    }

    fn peeked(&self) -> Result<Option<Item>, Error> {
        let mut item = Item::default();
        // SAFETY: as above.
        let code = after::calling(|| unsafe {
            raw::pq_peek(self.member, &mut item, self.until, ptr::null_mut())
        });
        match code {
            raw::EMPTY => Ok(None),
            code => Error::unless_ok(code).map(|()| Some(item)),
        }
    }

    // Takes the first payload out where its priority is at most this one.
    pub(crate) fn pop_up_to(&self, priority: u64) -> Result<Due<K, T>, Error> {
        let (member, until) = (self.member, self.until);
        let found = after::calling(|| {
            // SAFETY: as above.
            self.taken(|item, number| unsafe {
                raw::pq_pop_due(member, priority, item, until, number)
            })
        })?;
        Ok(self.keyed(found))
    }
}

/// What a call for the first item found.
///
/// # Safety
///
/// The code is that of a call that takes items out of a queue of such payloads. The payload is taken out this one time.
pub unsafe fn found<T>(code: u32, item: Item) -> Result<Due<u64, T>, Error> {
    match code {
        // SAFETY: all values of the queue are such payloads, and the call took this one out.
        raw::OK => Ok(Due::Got(item.priority, unsafe { payload_of(item.value) })),
        raw::NOT_DUE => Ok(Due::Later(item.priority)),
        raw::EMPTY => Ok(Due::Empty),
        code => Err(Error::of(code)),
    }
}

impl<K: Key, T: Send> Call<'_, K, T> {
    pub fn push(&self, key: K, payload: T) -> Result<u64, NotPushed<T>> {
        let priority = self.shared.times.priority_of(key);
        match self.shared.is_bounded {
            true => self.push_within(priority, payload),
            false => after::calling(|| self.pushed(priority, payload, self.until)),
        }
    }

    // Pushes to a queue with a bound.
    #[inline(never)]
    fn push_within(&self, priority: u64, payload: T) -> Result<u64, NotPushed<T>> {
        let refused = match after::calling(|| self.pushed(priority, payload, self.at_first())) {
            Err(refused) if self.waits_for_room(refused.error as u32) => refused.payload,
            pushed => return pushed,
        };
        after::waiting(|| self.pushed(priority, refused, self.until))
    }

    fn pushed(&self, priority: u64, payload: T, until: u64) -> Result<u64, NotPushed<T>> {
        // SAFETY: the member is there, and in this call alone; the number is borrowed for it.
        self.pushed_by(priority, payload, |item, number| unsafe {
            raw::pq_push(self.member, item, until, number)
        })
    }

    pub(crate) fn pushed_by(
        &self,
        priority: u64,
        payload: T,
        call: impl FnOnce(Item, &mut u64) -> u32,
    ) -> Result<u64, NotPushed<T>> {
        let value = value_of(payload).map_err(|payload| NotPushed {
            payload,
            error: Error::NoMemory,
        })?;
        let (item, mut number) = (Item { priority, value }, 0);
        let code = call(item, &mut number);
        self.has_number(number);
        let pushed = Error::unless_ok(code);
        pushed.map(|()| number).map_err(|error| {
            // SAFETY: no queue has the item.
            let payload = unsafe { payload_of(value) };
            NotPushed { payload, error }
        })
    }

    // A push that may wait for room is made at once at first: then wakers run in this thread.
    pub(crate) fn at_first(&self) -> u64 {
        match self.shared.is_bounded {
            true => 0,
            false => self.until,
        }
    }

    // Whether a push with this code is made again, and waits.
    pub(crate) fn waits_for_room(&self, code: u32) -> bool {
        let is_so = matches!(code, raw::FULL | raw::TIMED_OUT);
        is_so && self.shared.is_bounded && self.until != 0
    }

    pub fn pop(&self) -> Result<Option<(K, T)>, Error> {
        let (member, until) = (self.member, self.until);
        let found = after::calling(|| {
            // SAFETY: as of `waits`.
            self.taken(|item, number| unsafe { raw::pq_pop(member, item, until, number) })
        })?;
        Ok(self.keyed(found).got())
    }

    pub fn remove(&self, ticket: u64) -> Result<Option<(K, T)>, Error> {
        let (member, until) = (self.member, self.until);
        let removed = after::calling(|| {
            // SAFETY: as of `waits`.
            self.taken(|item, number| unsafe {
                match raw::pq_remove(member, ticket, item, until, number) {
                    raw::GONE => raw::EMPTY,
                    code => code,
                }
            })
        })?;
        Ok(self.keyed(removed).got())
    }

    pub fn reschedule(&self, ticket: u64, key: K) -> Result<Option<u64>, Error> {
        let (priority, mut number) = (self.shared.times.priority_of(key), 0);
        // SAFETY: the member is there, and in this call alone; the number is borrowed for it.
        let code = after::calling(|| unsafe {
            raw::pq_reschedule(self.member, ticket, priority, self.until, &mut number)
        });
        self.has_number(number);
        match code {
            raw::GONE => Ok(None),
            code => Error::unless_ok(code).map(|()| Some(number)),
        }
    }

    pub fn peek(&self) -> Result<Option<K>, Error> {
        let first = self.peeked()?;
        Ok(first.map(|it| self.shared.times.key_of(it.priority)))
    }

    pub fn pop_due(&self, key: K) -> Result<Due<K, T>, Error> {
        self.pop_up_to(self.shared.times.priority_of(key))
    }

    pub fn take(&self) -> Result<Option<(K, T)>, Error> {
        match self.waits(raw::pq_take) {
            Err(Error::TimedOut) => Ok(None),
            taken => Ok(self.keyed(taken?).got()),
        }
    }

    pub fn take_due(&self) -> Result<Due<K, T>, Error> {
        Ok(self.keyed(self.waits(raw::pq_take_due)?))
    }

    /// How many payloads there are, and the most that there were at once.
    fn counts(&self) -> Result<(usize, usize), Error> {
        let (mut size, mut peak) = (0, 0);
        // SAFETY: the member is there, and in this call alone; the numbers are borrowed for it.
        let sized = || unsafe { raw::pq_size(self.member, self.until, &mut size, &mut peak) };
        Error::unless_ok(after::calling(sized))?;
        let count = |number| usize::try_from(number).unwrap_or(usize::MAX);
        Ok((count(size), count(peak)))
    }

    pub fn len(&self) -> Result<usize, Error> {
        self.counts().map(|(len, _)| len)
    }

    pub fn peak_len(&self) -> Result<usize, Error> {
        self.counts().map(|(_, peak)| peak)
    }

    pub fn archive(&self, archived: u64) -> Result<Journal, Error> {
        let mut journal = ptr::null_mut();
        // SAFETY: the member is there, and in this call alone; the pointer is borrowed for it.
        Error::unless_ok(after::calling(|| unsafe {
            raw::pq_archive(self.member, archived, self.until, &mut journal)
        }))?;
        self.shared.archives.wake(archived);
        RawJournal::of(journal).map(Journal::new)
    }
}

impl<K: Key, T: Number> Call<'_, K, T> {
    pub fn peek_item(&self) -> Result<Option<(K, T)>, Error> {
        // SAFETY: the payload is a number.
        let payload = |value| unsafe { payload_of(value) };
        let first = self.peeked()?;
        Ok(first.map(|it| (self.shared.times.key_of(it.priority), payload(it.value))))
    }
}

/// Calls of a queue, of a member, or until a deadline.
macro_rules! calls {
    (($($life:lifetime)?) $Type:ty, $($mutable:tt)?) => {
        impl<$($life,)? K: Key, T: Send> $Type {
            /// Puts a payload in, and returns the number of its journal entry. With [`Options::tickets`](crate::Options::tickets) that is the
            /// payload's ticket. At a queue with a bound ([`Options::most_items`](crate::Options::most_items)) it waits for room.
            ///
            /// # Errors
            ///
            /// Those of [each call](crate::TaskQueue#errors), [`Error::Shut`] and [`Error::NoMemory`], each with the payload. [`Error::Full`] if
            /// there was no room until the deadline.
            pub fn push(&$($mutable)? self, key: K, payload: T) -> Result<u64, NotPushed<T>> {
                self.call().push(key, payload)
            }

            /// Takes the first payload out, with its key, if there is one: of the smallest key the payload that was pushed or
            /// moved there first. It doesn't wait for one. If there is none, it has a journal entry all the same; `try_take` has none.
            ///
            /// # Errors
            ///
            /// Those of [each call](crate::TaskQueue#errors).
            pub fn pop(&$($mutable)? self) -> Result<Option<(K, T)>, Error> {
                self.call().pop()
            }

            /// Removes the payload with this ticket, and returns it with its key. The ticket is what [`Self::push`] returned. `None` if no
            /// payload waits under it; that has a journal entry too.
            ///
            /// # Errors
            ///
            /// Those of [each call](crate::TaskQueue#errors), and [`Error::NoTickets`] unless the queue was opened for it
            /// ([`Options::tickets`](crate::Options::tickets)).
            ///
            /// ```
            /// let queue = flatpq::Options::new().tickets(true).open()?;
            /// let ticket = queue.push(5, "five")?;
            /// queue.push(6, "six")?;
            /// assert_eq!(queue.remove(ticket)?, Some((5, "five")));
            /// assert_eq!(queue.remove(ticket)?, None);
            /// assert_eq!(queue.pop()?, Some((6, "six")));
            /// # Ok::<(), flatpq::Error>(())
            /// ```
            pub fn remove(&$($mutable)? self, ticket: u64) -> Result<Option<(K, T)>, Error> {
                self.call().remove(ticket)
            }

            /// Moves the payload with this ticket to this key, after others of that key, in one step. Returns its new ticket, or `None` if no
            /// payload waits under the old one.
            ///
            /// # Errors
            ///
            /// Those of [`Self::remove`], and [`Error::NoMemory`]: the payload stays as it was.
            ///
            /// ```
            /// let queue = flatpq::Options::new().tickets(true).open()?;
            /// let ticket = queue.push(5, "late")?;
            /// queue.push(6, "first")?;
            /// let moved = queue.reschedule(ticket, 7)?.expect("it waits");
            /// assert_eq!(queue.reschedule(ticket, 8)?, None);
            /// assert_eq!(queue.pop()?, Some((6, "first")));
            /// assert_eq!(queue.remove(moved)?, Some((7, "late")));
            /// # Ok::<(), flatpq::Error>(())
            /// ```
            pub fn reschedule(&$($mutable)? self, ticket: u64, key: K) -> Result<Option<u64>, Error> {
                self.call().reschedule(ticket, key)
            }

            /// Returns the first key, if there is one. Its payload stays. It has no journal entry.
            ///
            /// # Errors
            ///
            /// Those of [`len`](Self::len).
            pub fn peek(&$($mutable)? self) -> Result<Option<K>, Error> {
                self.call().peek()
            }

            /// How many payloads the queue has, exactly, at one moment of the call. It has no journal entry.
            ///
            /// # Errors
            ///
            /// [`Error::Forked`]. With a deadline [`Error::TimedOut`], and by the queue itself [`Error::NoMemory`], for its thread's member.
            ///
            /// ```
            /// let queue = flatpq::TaskQueue::new()?;
            /// assert!(queue.is_empty()?);
            /// queue.push_many([(2, "two"), (1, "one")])?;
            /// assert_eq!(queue.len()?, 2);
            /// # Ok::<(), flatpq::Error>(())
            /// ```
            pub fn len(&$($mutable)? self) -> Result<usize, Error> {
                self.call().len()
            }

            /// Whether the queue has no payload, at one moment of the call.
            ///
            /// # Errors
            ///
            /// Those of [`Self::len`].
            pub fn is_empty(&$($mutable)? self) -> Result<bool, Error> {
                Ok(self.call().len()? == 0)
            }

            /// The most payloads that the queue has had at once, exactly, from when it was opened to one moment of the call. It has
            /// no journal entry.
            ///
            /// # Errors
            ///
            /// Those of [`Self::len`].
            ///
            /// ```
            /// let queue = flatpq::TaskQueue::new()?;
            /// queue.push_many([(2, "two"), (1, "one")])?;
            /// queue.pop()?;
            /// assert_eq!((queue.len()?, queue.peak_len()?), (1, 2));
            /// # Ok::<(), flatpq::Error>(())
            /// ```
            pub fn peak_len(&$($mutable)? self) -> Result<usize, Error> {
                self.call().peak_len()
            }

            /// Takes the first payload out if its key is at most this one. Only then it has a journal entry.
            ///
            /// # Errors
            ///
            /// Those of [each call](crate::TaskQueue#errors).
            pub fn pop_due(&$($mutable)? self, key: K) -> Result<Due<K, T>, Error> {
                self.call().pop_due(key)
            }

            /// Puts payloads in, in their order. Returns how many, and the number of the first one's journal entry. At a queue with a bound
            /// each waits for room. If the iterator panics, nothing is pushed.
            ///
            /// # Errors
            ///
            /// Those of [`Self::push`], which end the batch. All that were not pushed come back, with the count of those that were.
            ///
            /// ```
            /// let queue = flatpq::TaskQueue::new()?;
            /// let pushed = queue.push_many([(2, "two"), (1, "one")])?;
            /// assert_eq!((pushed.count, pushed.number), (2, 1));
            /// # Ok::<(), flatpq::Error>(())
            /// ```
            pub fn push_many(
                &$($mutable)? self,
                payloads: impl IntoIterator<Item = (K, T)>,
            ) -> Result<Pushed, NotAllPushed<K, T>> {
                self.call().push_many(payloads)
            }

            /// Takes the first payloads out whose keys are at most this one, and at most `most` of them; `usize::MAX` sets no limit, as room is
            /// asked for in parts. Up to 64 are taken under one lock if a payload has at most 1 KiB. A member's
            /// [`number`](crate::TaskMember::number) is then that of the first one's journal entry.
            ///
            /// # Errors
            ///
            /// Those of [each call](crate::TaskQueue#errors), if it took none out. If some were taken before a refusal, they are returned; the next
            /// call returns the refusal.
            pub fn pop_due_many(&$($mutable)? self, key: K, most: usize) -> Result<Vec<(K, T)>, Error> {
                self.call().pop_due_many(key, most)
            }

            /// Returns the journal entries after entry `archived`. Entries up to that one count as stored by the program, and may be forgotten
            /// from now on. An entry has a token for a payload that is no number ([`Item::value`](crate::Item::value)), so nobody gets that
            /// back from an archive.
            ///
            /// # Errors
            ///
            /// [`Error::BadOption`] if the journal has fewer entries than that, [`Error::Forgotten`], [`Error::NoMemory`], [`Error::Forked`], with
            /// a deadline [`Error::TimedOut`].
            pub fn archive(&$($mutable)? self, archived: u64) -> Result<Journal, Error> {
                self.call().archive(archived)
            }
        }

        /// Of numbers.
        impl<$($life,)? K: Key, T: Number> $Type {
            /// Returns the first key and number, if there is one. It stays. It has no journal entry.
            ///
            /// # Errors
            ///
            /// Those of [`len`](Self::len).
            pub fn peek_item(&$($mutable)? self) -> Result<Option<(K, T)>, Error> {
                self.call().peek_item()
            }
        }
    };
}

/// Those that wait for a payload as long as it takes, and those that never wait.
macro_rules! takes {
    ($Type:ident $($mutable:tt)?) => {
        impl<K: Key, T: Send> $Type<K, T> {
            /// Waits for a payload, and takes the first one out, with its key. A joined member is kept meanwhile. By the queue itself any number
            /// of threads may wait.
            ///
            /// # Errors
            ///
            /// Those of [each call](crate::TaskQueue#errors), and [`Error::Shut`] if the queue is shut and empty.
            pub fn take(&$($mutable)? self) -> Result<(K, T), Error> {
                self.call().take()?.ok_or(Error::TimedOut)
            }

            /// Takes the first payload out, with its key, and never waits. `None` if there is none, or if other threads had the lock, or all
            /// members. It has no journal entry then.
            ///
            /// # Errors
            ///
            /// Those of [`Self::take`].
            ///
            /// ```
            /// let queue = flatpq::TaskQueue::new()?;
            /// assert_eq!(queue.try_take()?, None);
            /// queue.push(5, "five")?;
            /// queue.shut()?;
            /// assert_eq!(queue.try_take()?, Some((5, "five")));
            /// assert_eq!(queue.try_take(), Err(flatpq::Error::Shut));
            /// # Ok::<(), flatpq::Error>(())
            /// ```
            pub fn try_take(&$($mutable)? self) -> Result<Option<(K, T)>, Error> {
                self.until(Until::NOW).take()
            }

            /// Waits until the first payload is due, also in a shut queue, and takes it out, with its key. It waits as [`Self::take`] does.
            ///
            /// # Errors
            ///
            /// Those of [`Self::take`].
            pub fn take_due(&$($mutable)? self) -> Result<(K, T), Error> where K: TimeKey {
                self.call().take_due()?.got().ok_or(Error::TimedOut)
            }

            /// Takes the first payload out, with its key, if it is due, and never waits.
            ///
            /// # Errors
            ///
            /// Those of [`Self::take`], and [`Error::TimedOut`] if other threads had the lock, or all members.
            pub fn try_take_due(&$($mutable)? self) -> Result<Due<K, T>, Error> where K: TimeKey {
                self.until(Until::NOW).take_due()
            }
        }
    };
}

pub(crate) use {calls, takes};

/// Calls that wait until a deadline at most: [`TaskQueue::until`](crate::TaskQueue::until), [`TaskMember::until`](crate::TaskMember::until).
/// The time counts from `until`, not from each call. One that returns [`Error::TimedOut`] has done nothing, and does nothing later. Of
/// a batch the pushes that [`NotAllPushed`] counts stay.
///
/// ```
/// use flatpq::{TaskQueue, Until};
/// use std::time::Duration;
///
/// let queue = TaskQueue::new()?;
/// let soon = Duration::from_millis(20);
/// queue.until(soon).push(5, "five")?;
/// assert_eq!(queue.until(Until::NOW).pop()?, Some((5, "five")));
/// assert_eq!(queue.until(soon).take()?, None);
/// # Ok::<(), flatpq::Error>(())
/// ```
#[must_use]
pub struct Limited<'a, K, T>(pub(crate) Call<'a, K, T>);

calls!(('a) Limited<'a, K, T>,);

impl<'a, K: Key, T: Send> Limited<'a, K, T> {
    fn call(&self) -> &Call<'a, K, T> {
        &self.0
    }

    /// Waits for a payload, and takes the first one out. `None` if it got none until the deadline: none was there, or other threads had the
    /// lock, or all members.
    ///
    /// # Errors
    ///
    /// Those of [`TaskQueue::take`](crate::TaskQueue::take), but never [`Error::TimedOut`].
    pub fn take(&self) -> Result<Option<(K, T)>, Error> {
        self.0.take()
    }

    /// Waits until the first payload is due, and takes it out. At its deadline it returns [`Due::Later`] or [`Due::Empty`].
    ///
    /// # Errors
    ///
    /// Those of [`TaskQueue::take`](crate::TaskQueue::take), and [`Error::TimedOut`].
    pub fn take_due(&self) -> Result<Due<K, T>, Error>
    where
        K: TimeKey,
    {
        self.0.take_due()
    }
}

impl<K, T> Limited<'_, K, T> {
    /// Waits until an archive has counted the entry of this number as archived.
    ///
    /// # Errors
    ///
    /// [`Error::TimedOut`] and [`Error::Forked`].
    pub fn wait_archived(&self, number: u64) -> Result<(), Error> {
        Error::unless_ok(self.0.shared.wait_archived(number, self.0.until))
    }
}

impl<K, T> fmt::Debug for Limited<'_, K, T> {
    fn fmt(&self, f: &mut fmt::Formatter<'_>) -> fmt::Result {
        f.debug_struct("Limited")
            .field("until", &self.0.until)
            .finish_non_exhaustive()
    }
}
