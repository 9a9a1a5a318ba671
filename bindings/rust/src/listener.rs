//! Takes that wait in an event loop: by a file descriptor, of an event or of a timer.
use crate::error::{Due, Error};
use crate::key::{Key, TimeKey};
use crate::raw;
use crate::tasks::{TaskMember, TaskQueue};
use std::fmt;
use std::fs::File;
use std::io::{self, Read};
use std::os::raw::{c_int, c_void};
use std::os::unix::io::{AsFd, AsRawFd, BorrowedFd, FromRawFd, RawFd};

extern "C" {
    fn eventfd(count: u32, flags: c_int) -> c_int;
    fn timerfd_create(clock: c_int, flags: c_int) -> c_int;
}

const CLOSE_ON_EXEC_AND_NONBLOCKING: c_int = 0o2_004_000;
const CLOCK_MONOTONIC: c_int = 1;

/// The file of a descriptor that a call has just made, if it made one.
fn file_of(descriptor: c_int) -> io::Result<File> {
    if descriptor < 0 {
        return Err(io::Error::last_os_error());
    }
    // SAFETY: nobody else has it.
    Ok(unsafe { File::from_raw_fd(descriptor) })
}

/// A member with a file descriptor that is readable once there may be a payload, for event loops: poll(2), mio, `tokio::io::unix::AsyncFd`.
///
/// Whenever the descriptor is readable the event loop takes payloads until there is none. It also does so once before it first waits.
///
/// ```
/// use std::os::unix::io::AsRawFd;
///
/// let queue = flatpq::TaskQueue::new()?;
/// let mut listener = queue.listener()?;
/// assert!(listener.as_raw_fd() >= 0);
/// assert_eq!(listener.try_take()?, None);
/// queue.push(5, "five")?;
/// // Now the descriptor is readable.
/// while let Some((key, text)) = listener.try_take()? {
///     assert_eq!((key, text), (5, "five"));
/// }
/// # Ok::<(), Box<dyn std::error::Error>>(())
/// ```
pub struct Listener<K, T> {
    // The member ends first: then nothing writes to the descriptor.
    member: TaskMember<K, T>,
    event: File,
}

impl<K: Key, T: Send> TaskQueue<K, T> {
    /// Joins the queue for an event loop.
    ///
    /// # Errors
    ///
    /// Those of [`TaskQueue::join`], and if there is no descriptor left.
    pub fn listener(&self) -> io::Result<Listener<K, T>> {
        let member = self.join()?;
        // SAFETY: the call makes a descriptor.
        let event = file_of(unsafe { eventfd(0, CLOSE_ON_EXEC_AND_NONBLOCKING) })?;
        Ok(Listener { member, event })
    }

    /// Joins the queue for an event loop that waits for what is due.
    ///
    /// # Errors
    ///
    /// Those of [`TaskQueue::listener`].
    pub fn due_listener(&self) -> io::Result<DueListener<K, T>>
    where
        K: TimeKey,
    {
        let member = self.join()?;
        // SAFETY: the call makes a descriptor.
        let timer =
            file_of(unsafe { timerfd_create(CLOCK_MONOTONIC, CLOSE_ON_EXEC_AND_NONBLOCKING) })?;
        Ok(DueListener { member, timer })
    }
}

impl<K: Key, T: Send> Listener<K, T> {
    /// Takes the first payload out, with its key, if there is one. Else the descriptor becomes readable once there may be one, or the queue
    /// is shut. The call never waits. After an error the member no longer listens until the next call.
    ///
    /// # Errors
    ///
    /// [`Error::Shut`] if the queue is shut and empty. [`Error::AllJoined`] as of [`TaskMember::take_async`]. Those of [each
    /// call](TaskQueue#errors), but for [`Error::TimedOut`]: then it returns `None`, and the descriptor is readable.
    pub fn try_take(&mut self) -> Result<Option<(K, T)>, Error> {
        let found = self.found(u64::MAX)?;
        Ok(self.member.shared.keyed(found).got())
    }

    /// The same, of a payload whose key is at most this one. After [`Due::Later`] the event loop calls it again once that key is within its
    /// bound: the descriptor doesn't say that. At one queue pass fixed bounds in all such calls, or the current time in all
    /// ([`TaskMember::take_or_listen`]).
    ///
    /// # Errors
    ///
    /// Those of [`Listener::try_take`]: [`Error::Shut`] if the queue is shut and empty.
    pub fn pop_due(&mut self, key: K) -> Result<Due<K, T>, Error> {
        let found = self.found(self.member.shared.times.priority_of(key))?;
        Ok(self.member.shared.keyed(found))
    }

    fn found(&mut self, priority: u64) -> Result<Due<u64, T>, Error> {
        // The parent has the event too.
        self.member.unless_forked()?;
        // It is nonblocking, and may have nothing to read.
        let _ = (&self.event).read(&mut [0; 8]);
        let context = self.event.as_raw_fd() as isize as *mut c_void;
        // SAFETY: the descriptor is there until the member was given back.
        unsafe {
            self.member
                .taken_or_listens(priority, (raw::pq_notify_fd, context))
        }
    }
}

macro_rules! has_descriptor {
    ($Type:ident, $file:ident) => {
        impl<K, T> AsFd for $Type<K, T> {
            fn as_fd(&self) -> BorrowedFd<'_> {
                self.$file.as_fd()
            }
        }

        impl<K, T> AsRawFd for $Type<K, T> {
            fn as_raw_fd(&self) -> RawFd {
                self.$file.as_raw_fd()
            }
        }

        impl<K, T> fmt::Debug for $Type<K, T> {
            fn fmt(&self, f: &mut fmt::Formatter<'_>) -> fmt::Result {
                f.debug_struct(stringify!($Type))
                    .field("member", &self.member)
                    .field(stringify!($file), &self.$file)
                    .finish()
            }
        }
    };
}

has_descriptor!(Listener, event);
has_descriptor!(DueListener, timer);

/// A member with a file descriptor that is readable once the first payload is due, for event loops: poll(2), mio,
/// `tokio::io::unix::AsyncFd`. So the loop needs no timer of its own.
///
/// Whenever the descriptor is readable the event loop takes payloads until none is due. It also does so once before it first waits. It never
/// reads the descriptor.
///
/// ```
/// use flatpq::{Due, TaskQueue};
/// use std::os::unix::io::AsRawFd;
/// use std::time::{Duration, Instant};
///
/// let queue = TaskQueue::new()?;
/// let mut listener = queue.due_listener()?;
/// assert!(listener.as_raw_fd() >= 0);
/// assert_eq!(listener.try_take_due()?, Due::Empty);
/// let later = Instant::now() + Duration::from_secs(3600);
/// queue.push(later, "in an hour")?;
/// // Now the descriptor is readable, and the call sets the timer.
/// assert!(matches!(listener.try_take_due()?, Due::Later(_)));
/// queue.push(Instant::now(), "now")?;
/// // Now it is readable again.
/// while let Due::Got(_, text) = listener.try_take_due()? {
///     assert_eq!(text, "now");
/// }
/// # Ok::<(), Box<dyn std::error::Error>>(())
/// ```
pub struct DueListener<K, T> {
    // The member ends first: then nothing sets the timer.
    member: TaskMember<K, T>,
    timer: File,
}

impl<K: Key, T: Send> DueListener<K, T> {
    /// Takes the first payload out, with its key, if it is due. Else the descriptor becomes readable once the first payload is due, an
    /// earlier one comes, or the queue is shut, or sometimes for nothing. The call never waits.
    ///
    /// # Errors
    ///
    /// Those of [`Listener::try_take`]: [`Error::Shut`] if the queue is shut and empty.
    pub fn try_take_due(&mut self) -> Result<Due<K, T>, Error> {
        let found = self.member.taken_due_or_listens(self.timer.as_fd())?;
        Ok(self.member.shared.keyed(found))
    }
}
