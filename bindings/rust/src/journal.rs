//! Entries of a journal.
use crate::calls::Number;
use crate::clock::Times;
use crate::error::{Error, NotReadBack};
use crate::key::Key;
use crate::payload;
use crate::raw::{self, RawEntry, RawJournal};
use std::iter::FusedIterator;
use std::marker::PhantomData;
use std::ops::Deref;
use std::os::raw::c_char;
use std::os::unix::io::{AsFd, AsRawFd};
use std::sync::Mutex;
use std::{fmt, io};

/// An item as a queue has it: the number of its key, and a number for its payload.
#[derive(Clone, Copy, Debug, Default, PartialEq, Eq, PartialOrd, Ord, Hash)]
#[repr(C)]
pub struct Item {
    /// The number of the key. If [`Options::times`](crate::Options::times) counts from a moment it may be by some number greater.
    pub priority: u64,
    /// The payload if it is an unsigned integer, and of a signed one its bits. Of other payloads a token: an address, which is used again, or
    /// the payload's own bytes. Bytes that it doesn't have are what memory had there.
    pub value: u64,
}

/// What a member asked of the queue.
#[derive(Clone, Copy, Debug, PartialEq, Eq, Hash)]
#[non_exhaustive]
pub enum Request {
    /// To put an item in.
    Push,
    /// To take the first item out.
    Pop,
    /// To return the first item, which stays. It is only in text of earlier versions.
    Peek,
    /// To take the item out that has this ticket, the number of the entry that put it in.
    Remove(u64),
    /// To move the item of this ticket to this priority.
    Reschedule {
        /// The ticket.
        ticket: u64,
        /// The number of the key, as [`Item::priority`].
        priority: u64,
    },
    /// To shut the queue: no push follows.
    Shut,
}

impl Request {
    // Its number, and the ticket and the priority where it has them.
    fn parts(self) -> (u32, u64, u64) {
        match self {
            Request::Push => (0, 0, 0),
            Request::Pop => (1, 0, 0),
            Request::Peek => (2, 0, 0),
            Request::Remove(ticket) => (3, ticket, 0),
            Request::Reschedule { ticket, priority } => (4, ticket, priority),
            Request::Shut => (5, 0, 0),
        }
    }
}

/// An entry of the journal. It is displayed as `7 3 2 push 5 1 pushed`: number, place, serial, request and reply.
#[derive(Clone, Copy, Debug, PartialEq, Eq, Hash)]
#[non_exhaustive]
pub struct Entry {
    /// Its number, from 1.
    pub number: u64,
    /// How many requests members at its place have made, this one and refused ones included.
    pub serial: u64,
    /// The place of its member.
    pub place: u32,
    /// What the member asked.
    pub request: Request,
    /// The item that a push put in, or that another request found, as it was then; none if there was none.
    pub item: Option<Item>,
}

impl Entry {
    fn of(raw: RawEntry) -> Entry {
        Entry {
            number: raw.number,
            serial: raw.serial,
            place: raw.place,
            request: match raw.request {
                0 => Request::Push,
                1 => Request::Pop,
                2 => Request::Peek,
                3 => Request::Remove(raw.ticket),
                4 => Request::Reschedule {
                    ticket: raw.ticket,
                    priority: raw.priority,
                },
                _ => Request::Shut,
            },
            item: (raw.reply == raw::OK).then_some(raw.item),
        }
    }

    fn raw(&self) -> RawEntry {
        let (request, ticket, priority) = self.request.parts();
        RawEntry {
            number: self.number,
            serial: self.serial,
            place: self.place,
            request,
            reply: self.item.map_or(raw::EMPTY, |_| raw::OK),
            unused: 0,
            item: self.item.unwrap_or_default(),
            ticket,
            priority,
        }
    }

    // The text, with the checksum and the line feed.
    fn text(&self) -> ([u8; raw::TEXT_ROOM], usize) {
        let mut text = [0_u8; raw::TEXT_ROOM];
        let at = text.as_mut_ptr().cast::<c_char>();
        // SAFETY: the text has the room that the call asks for.
        let length = unsafe { raw::pq_text(&self.raw(), at) };
        (text, length)
    }
}

impl fmt::Display for Entry {
    fn fmt(&self, f: &mut fmt::Formatter<'_>) -> fmt::Result {
        let (text, length) = self.text();
        let text = std::str::from_utf8(&text[..length]).map_err(|_| fmt::Error)?;
        let (text, _checksum) = text.rsplit_once(' ').ok_or(fmt::Error)?;
        f.write_str(text)
    }
}

/// Entries of a queue's journal, which [`TaskQueue::close`](crate::TaskQueue::close) or [`TaskQueue::archive`](crate::TaskQueue::archive)
/// copied. Threads may read it at the same time.
///
/// A journal of payloads that are no numbers is a record of what happened. In place of the payloads it has tokens ([`Item::value`]), also as
/// text. A program that has to survive a restart stores its payloads by ids of its own, and pushes the ids into a
/// [`Queue`](crate::Queue). [`TaskJournal::read_from`] reads that queue's journal back.
///
/// ```
/// let queue = flatpq::TaskQueue::new()?;
/// queue.push(5_u64, 1_u64)?;
/// queue.pop()?;
/// let journal = queue.archive(0)?;
/// let texts: Vec<String> = journal.iter().map(|entry| entry.to_string()).collect();
/// assert_eq!(texts, ["1 0 1 push 5 1 pushed", "2 0 2 pop got 5 1"]);
/// # Ok::<(), flatpq::Error>(())
/// ```
pub struct Journal(RawJournal);

impl Journal {
    pub(crate) fn new(raw: RawJournal) -> Journal {
        Journal(raw)
    }

    /// How many entries there are here.
    #[must_use]
    pub fn len(&self) -> usize {
        self.0.count().0
    }

    /// Whether there is none.
    #[must_use]
    pub fn is_empty(&self) -> bool {
        self.len() == 0
    }

    /// How many entries came before these.
    #[must_use]
    pub fn before(&self) -> u64 {
        self.0.count().1
    }

    /// The entry of this index, from 0.
    #[must_use]
    pub fn get(&self, index: usize) -> Option<Entry> {
        self.0.read(index).map(Entry::of)
    }

    /// All entries, in order.
    #[must_use]
    pub fn iter(&self) -> Iter<'_> {
        let (journal, next) = (self, 0);
        Iter { journal, next }
    }

    /// Writes all entries as text, each ended by a checksum and a line feed.
    ///
    /// # Errors
    ///
    /// Those of the writer: a part may be written.
    pub fn write_to(&self, out: impl io::Write) -> io::Result<()> {
        let mut out = io::BufWriter::new(out);
        for entry in self {
            let (text, length) = entry.text();
            io::Write::write_all(&mut out, &text[..length])?;
        }
        io::Write::flush(&mut out)
    }
}

impl fmt::Debug for Journal {
    fn fmt(&self, f: &mut fmt::Formatter<'_>) -> fmt::Result {
        f.debug_struct("Journal")
            .field("entries", &self.len())
            .finish_non_exhaustive()
    }
}

impl<'a> IntoIterator for &'a Journal {
    type Item = Entry;
    type IntoIter = Iter<'a>;

    fn into_iter(self) -> Iter<'a> {
        self.iter()
    }
}

/// The entries of a [`Journal`].
#[derive(Clone, Debug)]
pub struct Iter<'a> {
    journal: &'a Journal,
    next: usize,
}

impl Iterator for Iter<'_> {
    type Item = Entry;

    fn next(&mut self) -> Option<Entry> {
        let entry = self.journal.get(self.next)?;
        self.next += 1;
        Some(entry)
    }

    fn size_hint(&self) -> (usize, Option<usize>) {
        let left = self.journal.len().saturating_sub(self.next);
        (left, Some(left))
    }

    fn nth(&mut self, n: usize) -> Option<Entry> {
        self.next = self.next.saturating_add(n);
        self.next()
    }
}

impl ExactSizeIterator for Iter<'_> {}

impl FusedIterator for Iter<'_> {}

/// The journal of a closed queue, and the payloads that are left, which are dropped with it.
pub struct TaskJournal<K, T> {
    journal: Journal,
    times: Times,
    payloads: PhantomData<Mutex<T>>,
    keys: PhantomData<fn(K) -> K>,
}

impl<K, T> TaskJournal<K, T> {
    pub(crate) fn new(raw: RawJournal, times: Times) -> TaskJournal<K, T> {
        TaskJournal {
            journal: Journal(raw),
            times,
            payloads: PhantomData,
            keys: PhantomData,
        }
    }
}

impl<K: Key, T> TaskJournal<K, T> {
    /// Takes out the payloads that are left, each with its key, in order. What the iterator does not take out stays.
    ///
    /// ```
    /// let queue = flatpq::TaskQueue::new()?;
    /// queue.push(5, "five")?;
    /// let mut journal = queue.close()?;
    /// assert_eq!(journal.left().next(), Some((5, "five")));
    /// assert_eq!(journal.len(), 1);
    /// # Ok::<(), flatpq::Error>(())
    /// ```
    pub fn left(&mut self) -> Left<'_, K, T> {
        Left(self)
    }
}

/// Takes out the payloads that are left in the journal of a closed queue ([`TaskJournal::left`]).
#[must_use = "what is not asked for stays in the journal"]
pub struct Left<'a, K, T>(&'a mut TaskJournal<K, T>);

impl<K: Key, T> Iterator for Left<'_, K, T> {
    type Item = (K, T);

    fn next(&mut self) -> Option<(K, T)> {
        let item = self.0.journal.0.take_left()?;
        // SAFETY: all values of the queue are such payloads, and this one was taken out now.
        let payload = unsafe { payload::payload_of(item.value) };
        Some((self.0.times.key_of(item.priority), payload))
    }
}

impl<K: Key, T> FusedIterator for Left<'_, K, T> {}

debug_by_name!(Left<'a, K, T>);

/// A journal of numbers that was read back from its text.
#[derive(Debug)]
#[non_exhaustive]
pub struct ReadBack<K, T> {
    /// The journal, with the numbers that its entries leave.
    pub journal: TaskJournal<K, T>,
    /// How many lines were read.
    pub lines: u64,
    /// How many bytes these lines have. What follows is a torn line.
    pub bytes: u64,
    /// Whether the last line was cut off, as after a crash. It is left out.
    pub is_torn: bool,
}

impl<K: Key, T: Number> TaskJournal<K, T> {
    /// Reads a journal of numbers back from the text that [`Journal::write_to`] has written of one from entry 1 on, to the end of the
    /// file. Each line is checked. Memory keeps the last 65,536 entries. Keys are those of a queue without
    /// [`Options::times`](crate::Options::times).
    ///
    /// # Errors
    ///
    /// [`Error::NotLawful`] if a line is no entry that may come next, or its checksum is wrong, with its number, and where it begins.
    /// [`Error::NotRead`], [`Error::NoMemory`] and [`Error::Processor`].
    ///
    /// ```
    /// # fn main() -> Result<(), Box<dyn std::error::Error>> {
    /// use flatpq::TaskJournal;
    /// use std::fs::File;
    ///
    /// let mut read = TaskJournal::<u64, u64>::read_from(File::open("/dev/null")?)?;
    /// assert_eq!((read.lines, read.is_torn), (0, false));
    /// assert_eq!(read.journal.left().next(), None);
    /// # Ok(())
    /// # }
    /// ```
    pub fn read_from(file: impl AsFd) -> Result<ReadBack<K, T>, NotReadBack> {
        let times = Times {
            zero: K::TIME_ZERO,
            unit: K::TIME_UNIT.max(1),
            above: 0,
        };
        match RawJournal::read_from(file.as_fd().as_raw_fd()) {
            (code, Some(raw), lines, bytes) => Ok(ReadBack {
                journal: TaskJournal::new(raw, times),
                lines,
                bytes,
                is_torn: code == raw::TORN,
            }),
            (code, None, line, bytes) => Err(NotReadBack {
                line,
                bytes,
                error: Error::of(code),
            }),
        }
    }
}

impl<K, T> Deref for TaskJournal<K, T> {
    type Target = Journal;

    fn deref(&self) -> &Journal {
        &self.journal
    }
}

impl<'a, K, T> IntoIterator for &'a TaskJournal<K, T> {
    type Item = Entry;
    type IntoIter = Iter<'a>;

    fn into_iter(self) -> Iter<'a> {
        self.iter()
    }
}

impl<K, T> Drop for TaskJournal<K, T> {
    fn drop(&mut self) {
        if payload::is_dropped::<T>() {
            let left = std::iter::from_fn(|| self.journal.0.take_left());
            // SAFETY: all values of the queue are such payloads, and these were taken out now.
            let left: Vec<_> = left
                .map(|it| unsafe { payload::dropped::<T>(it.value) })
                .collect();
            drop(left);
        }
    }
}

impl<K, T> fmt::Debug for TaskJournal<K, T> {
    fn fmt(&self, f: &mut fmt::Formatter<'_>) -> fmt::Result {
        f.debug_struct("TaskJournal")
            .field("entries", &self.journal.len())
            .finish_non_exhaustive()
    }
}
