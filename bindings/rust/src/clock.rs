//! Deadlines, and moments as times of the library's clock.
use crate::key::Key;
use crate::raw;
use std::ptr;
use std::sync::atomic::{AtomicPtr, Ordering};
use std::time::{Duration, Instant};

/// Until when a call may wait for other threads, for a payload, or for room: a moment, or a time from now.
#[derive(Clone, Copy, Debug, PartialEq, Eq, Hash)]
pub struct Until(u64);

impl Until {
    /// The call never waits.
    pub const NOW: Until = Until(0);
    /// It waits as long as it takes.
    pub const FOREVER: Until = Until(u64::MAX);

    pub(crate) fn time(self) -> u64 {
        self.0
    }
}

impl From<Instant> for Until {
    fn from(moment: Instant) -> Until {
        Until(saturated(nanoseconds(moment)))
    }
}

impl From<Duration> for Until {
    fn from(time: Duration) -> Until {
        let nanoseconds = u64::try_from(time.as_nanos()).unwrap_or(u64::MAX);
        // SAFETY: the call reads the clock.
        Until(unsafe { raw::pq_after(nanoseconds) })
    }
}

/// The nearest number of 64 bits.
pub fn saturated(number: i128) -> u64 {
    u64::try_from(number).unwrap_or(if number < 0 { 0 } else { u64::MAX })
}

/// A moment, and the library's time then.
#[derive(Clone, Copy)]
struct Origin {
    moment: Instant,
    time: u64,
}

impl Origin {
    // The time is read after the moment, so that nothing is due too early: soon after it in one of some tries.
    fn taken() -> Origin {
        let read = || {
            // SAFETY: the calls read the clock.
            let before = unsafe { raw::pq_now() };
            let moment = Instant::now();
            // SAFETY: as above.
            let time = unsafe { raw::pq_now() };
            (time - before, Origin { moment, time })
        };
        let tries = (0..16).map(|_| read());
        tries.min_by_key(|it| it.0).expect("there are some").1
    }
}

/// The one of the process, which is taken when it is first asked for. No lock is held meanwhile, at which a forked child might hang.
fn origin() -> Origin {
    static ORIGIN: AtomicPtr<Origin> = AtomicPtr::new(ptr::null_mut());
    let mut at = ORIGIN.load(Ordering::Acquire);
    if at.is_null() {
        let own = Box::into_raw(Box::new(Origin::taken()));
        let set = ORIGIN.compare_exchange(at, own, Ordering::AcqRel, Ordering::Acquire);
        at = set.map_or_else(|first| first, |_| own);
        if at != own {
            // SAFETY: it was given up above, and nobody else has it.
            drop(unsafe { Box::from_raw(own) });
        }
    }
    // SAFETY: it was given up for good, and nobody writes it.
    unsafe { *at }
}

/// The time of a moment by the library's clock, in nanoseconds.
pub fn nanoseconds(moment: Instant) -> i128 {
    let origin = origin();
    let since = match moment.checked_duration_since(origin.moment) {
        Some(later) => later.as_nanos() as i128,
        None => -(origin.moment.duration_since(moment).as_nanos() as i128),
    };
    since + i128::from(origin.time)
}

/// The moment of this time; none if an `Instant` has none.
pub fn moment(nanoseconds: i128) -> Option<Instant> {
    const SECOND: u128 = 1_000_000_000;
    let origin = origin();
    let since = nanoseconds - i128::from(origin.time);
    let far = since.unsigned_abs();
    let far = Duration::new(u64::try_from(far / SECOND).ok()?, (far % SECOND) as u32);
    if since < 0 {
        origin.moment.checked_sub(far)
    } else {
        origin.moment.checked_add(far)
    }
}

/// When items are due: the one of priority `zero` at the clock's time 0, and each later one by a unit later.
#[derive(Clone, Copy, Debug, PartialEq, Eq)]
pub struct Times {
    pub zero: u64,
    /// In nanoseconds.
    pub unit: u64,
    /// By how much priorities are above the numbers of their keys.
    pub above: u64,
}

impl Times {
    /// Those by which the key of this number is due at this moment, rounded up to a whole unit of the clock. None if a unit is not of 1
    /// to 2^64 - 1 nanoseconds, or the moment too long ago.
    pub fn since(number: u64, start: Instant, unit: Duration) -> Option<Times> {
        let unit = u64::try_from(unit.as_nanos()).ok().filter(|it| *it > 0)?;
        let start = -(-nanoseconds(start)).div_euclid(unit.into());
        let zero = i128::from(number) - start;
        let above = saturated(-zero);
        let zero = u64::try_from(zero.max(0)).ok()?;
        Some(Times { zero, unit, above })
    }

    /// The priority of a key. Those of the last keys are the same if they would be too great.
    pub fn priority_of<K: Key>(&self, key: K) -> u64 {
        key.to_number().saturating_add(self.above)
    }

    /// The key of a priority. The last keys come out as the last of them.
    pub fn key_of<K: Key>(&self, priority: u64) -> K {
        K::from_number(match priority {
            u64::MAX => u64::MAX,
            _ => priority.saturating_sub(self.above),
        })
    }

    /// The moment at which items of this priority are due.
    pub fn moment_of(&self, priority: u64) -> Option<Instant> {
        let units = i128::from(priority) - i128::from(self.zero);
        moment(units.checked_mul(self.unit.into())?)
    }

    /// The greatest priority that is due now.
    pub fn due_now(&self) -> u64 {
        // SAFETY: the call reads the clock.
        let now = unsafe { raw::pq_now() };
        self.zero.saturating_add(now / self.unit)
    }
}

#[cfg(test)]
mod tests {
    use super::*;

    #[test]
    fn times_are_exact() {
        let start = Instant::now();
        let most = Duration::from_nanos(u64::MAX);
        for unit in [Duration::ZERO, most + Duration::from_nanos(1)] {
            assert_eq!(Times::since(0, start, unit), None);
        }
        // Below the clock's time 0 there is no priority.
        let times = Times::since(0, start, Duration::from_nanos(1)).unwrap();
        assert!(times.zero == 0 && times.above > 0);
        assert_eq!(times.moment_of(times.above), Some(start));
        for unit in [1, 999, 1500, 1_500_999] {
            let times = Times::since(1 << 63, start, Duration::from_nanos(unit)).unwrap();
            assert!(times.above == 0 && times.unit == unit);
            let first = times.moment_of(1 << 63).unwrap();
            assert!(first >= start && first < start + Duration::from_nanos(unit));
            let third = times.moment_of((1 << 63) + 3).unwrap();
            assert_eq!(third, first + Duration::from_nanos(3 * unit));
        }
        let longest = Times::since(5, start, most).unwrap();
        assert_eq!(longest.moment_of(u64::MAX), None);
        let past = start - Duration::from_secs(1 << 33);
        assert_eq!(
            Times::since(u64::MAX, past, Duration::from_nanos(1)).map(|it| it.zero),
            None
        );
    }

    #[test]
    fn what_is_due_now_was_due_until_now() {
        let start = Instant::now();
        for unit in [Duration::from_nanos(1), Duration::from_secs(3600)] {
            let times = Times::since(1 << 63, start, unit).unwrap();
            let moment = times.moment_of(times.due_now()).unwrap();
            assert!(moment > start - unit && moment <= Instant::now() + Duration::from_millis(1));
        }
    }
}
