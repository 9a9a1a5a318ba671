//! What calls come to that don't succeed, and what a pop of what is due finds.
use crate::batches::Pushed;
use crate::raw;
use crate::tasks::TaskQueue;
use std::{fmt, io};

macro_rules! errors {
    ($($(#[$document:meta])+ $Name:ident = $code:literal,)+) => {
        /// Why a call was refused. A refused call changes nothing, unless its document says otherwise.
        #[derive(Clone, Copy, Debug, PartialEq, Eq, Hash)]
        #[non_exhaustive]
        pub enum Error {
            $($(#[$document])+ $Name = $code,)+
            /// The library returned a code that this crate does not expect.
            Unexpected = 255,
        }

        impl Error {
            #[cold]
            pub(crate) fn of(code: u32) -> Error {
                match code {
                    $($code => Error::$Name,)+
                    _ => Error::Unexpected,
                }
            }
        }
    };
}

errors! {
    /// An option is out of range, or `archived` is more than the journal has.
    BadOption = 5,
    /// Memory was refused.
    NoMemory = 6,
    /// The journal is full, and stays full.
    JournalFull = 10,
    /// The member has made all its requests: 2^56, or 2^24 - 1 if the journal fills.
    Exhausted = 11,
    /// A member was not given back, or is in a call.
    MembersLeft = 40,
    /// As many members are in use as the queue was opened for, or as many listen as may.
    AllJoined = 41,
    /// Some of these journal entries are no longer in memory.
    Forgotten = 49,
    /// To a push, also `push_async`: the queue is shut. To a take, a future, or any call of a listener, also its
    /// `pop_due`: it is shut and empty. Other pops, removals, moves and peeks never return it.
    Shut = 51,
    /// The request could make memory forget a journal entry that is not archived.
    Unarchived = 52,
    /// The queue has as many items as it may have ([`Options::most_items`](crate::Options::most_items)).
    Full = 53,
    /// A line of text is no journal entry that may come next.
    NotLawful = 54,
    /// A read failed.
    NotRead = 56,
    /// The queue was not opened with tickets ([`Options::tickets`](crate::Options::tickets)).
    NoTickets = 59,
    /// This process is a forked child of one that had opened a queue.
    Forked = 60,
    /// The processor has no SSE4.1.
    Processor = 61,
    /// Other threads had the lock, or all members, until the deadline; or the entry was not archived. A join returns [`Error::AllJoined`] then.
    TimedOut = 62,
}

impl Error {
    #[inline]
    pub(crate) fn unless_ok(code: u32) -> Result<(), Error> {
        match code {
            raw::OK => Ok(()),
            code => Err(Error::of(code)),
        }
    }
}

/// The library's text of the code.
impl fmt::Display for Error {
    fn fmt(&self, f: &mut fmt::Formatter<'_>) -> fmt::Result {
        f.write_str(raw::text_of(*self as u32))
    }
}

impl std::error::Error for Error {}

impl From<Error> for io::Error {
    fn from(error: Error) -> io::Error {
        let kind = match error {
            Error::TimedOut => io::ErrorKind::TimedOut,
            Error::NoMemory => io::ErrorKind::OutOfMemory,
            Error::Shut => io::ErrorKind::BrokenPipe,
            Error::Full => io::ErrorKind::WouldBlock,
            _ => io::ErrorKind::Other,
        };
        io::Error::new(kind, error)
    }
}

/// Why a payload was not pushed, and the payload. `?` turns it into its [`Error`], or an [`io::Error`], and `.map_err(Error::from)?` into
/// any error that an `Error` turns into.
#[derive(Clone, Copy, PartialEq, Eq)]
pub struct NotPushed<T> {
    /// The payload.
    pub payload: T,
    /// Why it was not pushed.
    pub error: Error,
}

/// Why a batch ended before all of it was pushed, and what was not. `?` turns it into its [`Error`], or an [`io::Error`].
#[derive(Clone, PartialEq, Eq)]
pub struct NotAllPushed<K, T> {
    /// All keys and payloads that were not pushed.
    pub payloads: Vec<(K, T)>,
    /// Why the first of them was not pushed.
    pub error: Error,
    /// What was pushed before them.
    pub pushed: Pushed,
}

/// Why a queue was not closed, and the queue, which stays open. `?` turns it into its [`Error`], or an [`io::Error`].
pub struct NotClosed<K, T> {
    /// The queue.
    pub queue: TaskQueue<K, T>,
    /// Why it was not closed.
    pub error: Error,
}

/// Why a journal was not read back from its text. `?` turns it into its [`Error`], or an [`io::Error`].
#[derive(Clone, Copy, Debug, PartialEq, Eq)]
pub struct NotReadBack {
    /// Of [`Error::NotLawful`] the number of the line that is refused, from 1; else how many lines were read.
    pub line: u64,
    /// How many bytes the lines before that one have: where a program cuts the file.
    pub bytes: u64,
    /// Why it was not read.
    pub error: Error,
}

impl fmt::Display for NotReadBack {
    fn fmt(&self, f: &mut fmt::Formatter<'_>) -> fmt::Result {
        write!(f, "line {}: {}", self.line, self.error)
    }
}

impl std::error::Error for NotReadBack {
    fn source(&self) -> Option<&(dyn std::error::Error + 'static)> {
        Some(&self.error)
    }
}

macro_rules! into_errors {
    ($($Refused:ident<$($Part:ident),*>),*) => {$(
        /// Drops what came back with the error.
        impl<$($Part),*> From<$Refused<$($Part),*>> for Error {
            fn from(refused: $Refused<$($Part),*>) -> Error {
                refused.error
            }
        }

        /// Drops what came back with the error.
        impl<$($Part),*> From<$Refused<$($Part),*>> for io::Error {
            fn from(refused: $Refused<$($Part),*>) -> io::Error {
                refused.error.into()
            }
        }
    )*};
}

into_errors!(NotPushed<T>, NotAllPushed<K, T>, NotClosed<K, T>, NotReadBack<>);

/// Texts of an error that gives something back, which needs none.
macro_rules! texts {
    ($Refused:ident<$($Part:ident),*>, $($field:ident),*; |$it:ident| $($text:expr),*) => {
        impl<$($Part),*> fmt::Debug for $Refused<$($Part),*> {
            fn fmt(&self, f: &mut fmt::Formatter<'_>) -> fmt::Result {
                let mut text = f.debug_struct(stringify!($Refused));
                $(text.field(stringify!($field), &self.$field);)*
                text.finish_non_exhaustive()
            }
        }

        impl<$($Part),*> fmt::Display for $Refused<$($Part),*> {
            fn fmt(&self, f: &mut fmt::Formatter<'_>) -> fmt::Result {
                let $it = self;
                write!(f, $($text),*)
            }
        }

        impl<$($Part),*> std::error::Error for $Refused<$($Part),*> {
            fn source(&self) -> Option<&(dyn std::error::Error + 'static)> {
                Some(&self.error)
            }
        }
    };
}

texts!(NotPushed<T>, error; |it| "not pushed: {}", it.error);
texts!(NotAllPushed<K, T>, error, pushed; |it| "pushed {} and no more: {}", it.pushed.count, it.error);
texts!(NotClosed<K, T>, error; |it| "not closed: {}", it.error);

/// What a pop of what is due found.
#[derive(Clone, Copy, Debug, PartialEq, Eq, Hash)]
pub enum Due<K, T> {
    /// It took out this payload, of this key.
    Got(K, T),
    /// The first payload has this key, and stays.
    Later(K),
    /// There is none; of a listener or `take_or_listen` also: other threads had the lock, or all members.
    Empty,
}

impl<K, T> Due<K, T> {
    /// The key and the payload that were taken out, if any.
    pub fn got(self) -> Option<(K, T)> {
        match self {
            Due::Got(key, payload) => Some((key, payload)),
            Due::Later(_) | Due::Empty => None,
        }
    }
}
