//! Keys: by what payloads are ordered.
use crate::clock;
use std::cmp::Reverse;
use std::num;
use std::time::{Duration, Instant};

/// By what a [`TaskQueue`](crate::TaskQueue) orders its payloads: the smallest key comes out first. The queue orders the numbers of keys,
/// and gives back the key of a number.
///
/// These are keys:
///
/// - integers of at most 64 bits, `NonZeroU32` and the like, `bool`, `char`, `f32` and `f64`;
/// - `(u32, u32)`, and an `Option` of `bool`, `char` or an integer of at most 32 bits;
/// - [`Duration`] and [`Instant`];
/// - [`Reverse`] of each, whose largest comes out first.
///
/// Those that are times are [`TimeKey`]s. A type of the program's own is a key by two functions that undo each other. If `to_number` panics, nothing
/// is pushed; if `from_number` does, the payload that was taken out is dropped.
///
/// ```
/// use flatpq::{Key, TaskQueue};
///
/// #[derive(Clone, Copy, Debug, PartialEq)]
/// struct Urgency(u8);
///
/// /// The most urgent comes out first.
/// impl Key for Urgency {
///     fn to_number(self) -> u64 {
///         u64::from(u8::MAX - self.0)
///     }
///
///     fn from_number(number: u64) -> Urgency {
///         Urgency(u8::MAX - number as u8)
///     }
/// }
///
/// let queue = TaskQueue::new()?;
/// queue.push(Urgency(1), "tidy up")?;
/// queue.push(Urgency(9), "fire")?;
/// assert_eq!(queue.pop()?, Some((Urgency(9), "fire")));
/// # Ok::<(), flatpq::Error>(())
/// ```
pub trait Key: Copy {
    /// The number of the key that is due at time 0. Only a [`TimeKey`] has a use for it.
    const TIME_ZERO: u64 = 0;

    /// How many nanoseconds two successive keys are due apart, unless [`Options::times`](crate::Options::times) says another unit. Only a
    /// [`TimeKey`] has a use for it.
    const TIME_UNIT: u64 = 1;

    /// The number of the key: of a smaller key a smaller number.
    fn to_number(self) -> u64;

    /// The key of a number that `to_number` returned. Of a [`TickKey`] it may also be called with `u64::MAX`.
    fn from_number(number: u64) -> Self;
}

/// Keys that are times, at which payloads are due: [`TaskQueue::take_due`](crate::TaskQueue::take_due).
///
/// An [`Instant`] is a moment. An integer counts from the start that [`Options::times`](crate::Options::times) gives, and without one
/// nanoseconds of `CLOCK_MONOTONIC`, mostly since the machine was started. Other keys are no times:
///
/// ```compile_fail,E0277
/// let queue = flatpq::TaskQueue::new()?;
/// queue.push(std::time::Duration::from_secs(1), "a delay, from when on?")?;
/// queue.take_due()?;
/// # Ok::<(), flatpq::Error>(())
/// ```
pub trait TimeKey: Key {}

/// Times that count from a start: those for which a queue may be opened by [`Options::times`](crate::Options::times). Their numbers are
/// as far apart as the times.
///
/// ```compile_fail,E0277
/// use flatpq::{Options, TaskQueue};
/// use std::time::{Duration, Instant};
/// let options = Options::new().times(Instant::now(), Duration::from_millis(1));
/// let queue: TaskQueue<std::cmp::Reverse<u32>, &str> = options.open()?;
/// # Ok::<(), flatpq::Error>(())
/// ```
pub trait TickKey: TimeKey {}

/// The bit that is turned so that negative numbers come first.
const TOP: u64 = 1 << 63;

macro_rules! integers {
    ($zero:expr; $($Number:ident, $NonZero:ident;)*) => {$(
        impl Key for $Number {
            const TIME_ZERO: u64 = $zero;

            fn to_number(self) -> u64 {
                self as i64 as u64 ^ $zero
            }

            fn from_number(number: u64) -> $Number {
                // A number that is greater than all of them is the last one's.
                (number.min($Number::MAX.to_number()) ^ $zero) as $Number
            }
        }

        impl TimeKey for $Number {}
        impl TickKey for $Number {}

        impl Key for num::$NonZero {
            fn to_number(self) -> u64 {
                self.get().to_number()
            }

            fn from_number(number: u64) -> Self {
                Self::new(<$Number>::from_number(number)).or(Self::new(1)).expect("1 is not 0")
            }
        }
    )*};
}

integers!(0; u8, NonZeroU8; u16, NonZeroU16; u32, NonZeroU32; u64, NonZeroU64; usize, NonZeroUsize;);
integers!(TOP; i8, NonZeroI8; i16, NonZeroI16; i32, NonZeroI32; i64, NonZeroI64; isize, NonZeroIsize;);

/// `false` comes out first.
impl Key for bool {
    fn to_number(self) -> u64 {
        self.into()
    }

    fn from_number(number: u64) -> bool {
        number != 0
    }
}

impl Key for char {
    fn to_number(self) -> u64 {
        self.into()
    }

    fn from_number(number: u64) -> char {
        char::from_u32(number as u32).unwrap_or(char::REPLACEMENT_CHARACTER)
    }
}

/// By the first number, and among equal ones by the second.
impl Key for (u32, u32) {
    fn to_number(self) -> u64 {
        u64::from(self.0) << 32 | u64::from(self.1)
    }

    fn from_number(number: u64) -> (u32, u32) {
        ((number >> 32) as u32, number as u32)
    }
}

macro_rules! options {
    ($($Key:ty),*) => {$(
        /// `None` comes out first.
        impl Key for Option<$Key> {
            fn to_number(self) -> u64 {
                self.map_or(0, |key| key.to_number() + 1)
            }

            fn from_number(number: u64) -> Self {
                number.checked_sub(1).map(<$Key>::from_number)
            }
        }
    )*};
}

options!(bool, char, u8, u16, u32, i8, i16, i32);

macro_rules! floats {
    ($($Float:ty: $Bits:ty),*) => {$(
        /// In the total order of IEEE 754: -0 comes before 0, and a NaN before or after all other numbers, by its sign. Each comes out with the
        /// bits that it was pushed with.
        impl Key for $Float {
            fn to_number(self) -> u64 {
                const TOP: $Bits = 1 << (<$Bits>::BITS - 1);
                let bits = self.to_bits();
                (if bits & TOP == 0 { bits ^ TOP } else { !bits }).into()
            }

            fn from_number(number: u64) -> $Float {
                const TOP: $Bits = 1 << (<$Bits>::BITS - 1);
                let bits = number as $Bits;
                <$Float>::from_bits(if bits & TOP == 0 { !bits } else { bits ^ TOP })
            }
        }
    )*};
}

floats!(f32: u32, f64: u64);

/// The largest comes out first.
impl<K: Key> Key for Reverse<K> {
    fn to_number(self) -> u64 {
        !self.0.to_number()
    }

    fn from_number(number: u64) -> Reverse<K> {
        Reverse(K::from_number(!number))
    }
}

/// By its nanoseconds. One of more than 2^64 - 1, which are 584 years, counts as one of so many, and comes out as that. A duration is no
/// [`TimeKey`], as it says no start. To take payloads out after a delay, push each by its moment:
///
/// ```
/// use flatpq::TaskQueue;
/// use std::time::{Duration, Instant};
///
/// let queue = TaskQueue::new()?;
/// let delay = Duration::from_millis(20);
/// let due = Instant::now() + delay;
/// queue.push(due, "after 20 milliseconds")?;
/// assert_eq!(queue.take_due()?, (due, "after 20 milliseconds"));
/// assert!(Instant::now() >= due);
/// # Ok::<(), flatpq::Error>(())
/// ```
impl Key for Duration {
    fn to_number(self) -> u64 {
        u64::try_from(self.as_nanos()).unwrap_or(u64::MAX)
    }

    fn from_number(number: u64) -> Duration {
        Duration::from_nanos(number)
    }
}

/// By its nanoseconds: what has the key of a moment is due then. One that is 292 years or more from the clock's time 0, which are 2^63
/// nanoseconds, is clamped to 2^63 - 1, and comes out clamped.
impl Key for Instant {
    const TIME_ZERO: u64 = TOP;

    fn to_number(self) -> u64 {
        const MOST: i128 = i64::MAX as i128;
        let nanoseconds = clock::nanoseconds(self);
        (nanoseconds.clamp(-MOST, MOST) as i64).to_number()
    }

    fn from_number(number: u64) -> Instant {
        let moment = clock::moment(i64::from_number(number).into());
        // The clock has each moment that was a key.
        moment.unwrap_or_else(Instant::now)
    }
}

impl TimeKey for Instant {}
