//! How a queue is opened.
use crate::clock::Times;
use crate::error::Error;
use crate::key::{Key, TickKey};
use crate::raw::RawOptions;
use crate::tasks::TaskQueue;
use std::time::{Duration, Instant};

/// What happens to the journal's older entries. An entry takes 64 bytes.
#[derive(Clone, Copy, Debug, PartialEq, Eq, Hash)]
#[non_exhaustive]
pub enum Keeping {
    /// Memory keeps the last N, 16 to 16,777,216; 0 is 1,024.
    Forgets(u32),
    /// The same, 0 is 65,536; but a request that would make memory forget an entry that is not archived is refused, by
    /// [`Error::Unarchived`].
    Refuses(u32),
    /// The journal has room for N, 1 to 1,048,576, and then stays full: [`Error::JournalFull`].
    Fills(u32),
}

/// How a queue is opened, and from what start keys count, if they are times ([`Options::times`]).
///
/// ```
/// use flatpq::{Error, Keeping, Options};
///
/// let queue = Options::new().members(8).keeping(Keeping::Fills(1)).open()?;
/// queue.push(5, "one")?;
/// assert_eq!(queue.pop(), Err(Error::JournalFull));
/// # Ok::<(), Error>(())
/// ```
#[derive(Clone, Copy, Debug, Default, PartialEq, Eq, Hash)]
#[must_use]
pub struct Options<S = ()> {
    raw: RawOptions,
    start: S,
}

impl Options {
    /// For 64 members, with a journal of which memory keeps the last 1,024 entries.
    pub fn new() -> Options {
        Options::default()
    }

    /// Keys are times: the key 0 is due at `start`, and each next key one unit later. A unit has 1 to 2^64 - 1 nanoseconds. The clock counts whole
    /// units, so items are due less than a unit later than that. Only a [`TickKey`] counts so: an [`Instant`] is a moment by itself. Keys above
    /// `u64::MAX - uptime / unit` count as `u64::MAX`, where the machine had run for `uptime` at `start`.
    ///
    /// ```
    /// use flatpq::Options;
    /// use std::time::{Duration, Instant};
    ///
    /// let start = Instant::now();
    /// let queue = Options::new().times(start, Duration::from_millis(1)).open()?;
    /// queue.push(20, "after 20 milliseconds")?;
    /// assert_eq!(queue.take_due()?, (20, "after 20 milliseconds"));
    /// assert!(start.elapsed() >= Duration::from_millis(20));
    /// # Ok::<(), flatpq::Error>(())
    /// ```
    pub fn times(self, start: Instant, unit: Duration) -> Options<(Instant, Duration)> {
        let (raw, start) = (self.raw, (start, unit));
        Options { raw, start }
    }

    /// Opens a queue. Keys that are times count as [`TimeKey`](crate::TimeKey) says: integers in nanoseconds of `CLOCK_MONOTONIC`.
    ///
    /// # Errors
    ///
    /// [`Error::BadOption`], [`Error::NoMemory`], [`Error::Forked`], [`Error::Processor`].
    pub fn open<K: Key, T: Send>(&self) -> Result<TaskQueue<K, T>, Error> {
        self.opened(Times {
            zero: K::TIME_ZERO,
            unit: K::TIME_UNIT.max(1),
            above: 0,
        })
    }
}

impl Options<(Instant, Duration)> {
    /// Opens a queue whose keys count from the start.
    ///
    /// # Errors
    ///
    /// Those of any opening.
    pub fn open<K: TickKey, T: Send>(&self) -> Result<TaskQueue<K, T>, Error> {
        let (start, unit) = self.start;
        let times = Times::since(K::TIME_ZERO, start, unit);
        self.opened(times.ok_or(Error::BadOption)?)
    }
}

impl<S> Options<S> {
    /// How many members there may be at once: 1 to 64; 0 is 64. More threads than that may call the queue itself.
    pub fn members(mut self, members: u32) -> Options<S> {
        self.raw.members = members;
        self
    }

    /// What happens to the journal's older entries.
    pub fn keeping(mut self, keeping: Keeping) -> Options<S> {
        (self.raw.keeping, self.raw.entries) = match keeping {
            Keeping::Forgets(entries) => (0, entries),
            Keeping::Refuses(entries) => (1, entries),
            Keeping::Fills(entries) => (2, entries),
        };
        self
    }

    /// How many items the queue may have; 0, the default, is no bound. A push to a queue that has so many waits for room,
    /// or until its deadline: [`Error::Full`]. A thread that waits so by the queue holds no member meanwhile, so any number may wait.
    ///
    /// ```
    /// use flatpq::{Error, Options, Until};
    ///
    /// let queue = Options::new().most_items(1).open()?;
    /// queue.push(5, "five")?;
    /// let refused = queue.until(Until::NOW).push(6, "six").unwrap_err();
    /// assert_eq!((refused.error, refused.payload), (Error::Full, "six"));
    /// # Ok::<(), Error>(())
    /// ```
    pub fn most_items(mut self, most_items: u64) -> Options<S> {
        self.raw.most_items = most_items;
        self
    }

    /// Whether payloads can be removed or moved by ticket ([`TaskQueue::remove`], [`TaskQueue::reschedule`]). Pushes and pops take longer then.
    pub fn tickets(mut self, tickets: bool) -> Options<S> {
        self.raw.tickets = tickets.into();
        self
    }

    fn opened<K: Key, T: Send>(&self, times: Times) -> Result<TaskQueue<K, T>, Error> {
        let options = RawOptions {
            time_zero: times.zero,
            time_unit: times.unit,
            ..self.raw
        };
        TaskQueue::opened(&options, times)
    }
}
