//! Payloads come out in the order of their keys, and each key as it was pushed: of integers and floating-point numbers, durations and
//! moments, and of types of a program's own.
use flatpq::{Due, Key, Options, TaskQueue, TickKey, TimeKey};
use std::cmp::{Ordering, Reverse};
use std::fmt::Debug;
use std::marker::PhantomData;
use std::num::{NonZeroI8, NonZeroIsize, NonZeroU32, NonZeroU64};
use std::ops::Neg;
use std::thread;
use std::time::{Duration, Instant};

/// These keys, which ascend, come out in their order, by each call, and of a key that is there twice the payloads in the order of their
/// pushes.
fn are_in_order<K: Key + Debug>(keys: &[K]) {
    let numbers: Vec<u64> = keys.iter().map(|key| key.to_number()).collect();
    assert!(numbers.windows(2).all(|pair| pair[0] < pair[1]), "{keys:?}");
    let queue: TaskQueue<K, u32> = TaskQueue::new().unwrap();
    for turn in 0..3 {
        keys.iter()
            .rev()
            .for_each(|key| assert!(queue.push(*key, turn).is_ok()));
    }
    for (at, number) in numbers.iter().enumerate() {
        assert_eq!(queue.peek().unwrap().map(K::to_number), Some(*number));
        let (key, turn) = queue.pop().unwrap().unwrap();
        assert_eq!((key.to_number(), turn), (*number, 0));
        if at > 0 {
            let found = queue.pop_due(keys[at - 1]).unwrap();
            assert!(matches!(found, Due::Later(key) if key.to_number() == *number));
        }
        for turn in 1..3 {
            let found = queue.pop_due(keys[at]).unwrap();
            assert!(matches!(found, Due::Got(key, it) if (key.to_number(), it) == (*number, turn)));
        }
    }
    assert!(matches!(queue.peek(), Ok(None)));
    let pairs = keys.iter().rev().map(|key| (*key, 3));
    assert_eq!(queue.push_many(pairs).unwrap().count, keys.len());
    let mut journal = queue.close().unwrap();
    let left: Vec<u64> = journal.left().map(|(key, _)| key.to_number()).collect();
    assert_eq!(left, numbers);
}

/// Each key is that of its number, by what makes one of it that can be compared.
fn come_back<K: Key, B: PartialEq + Debug>(keys: &[K], bits: impl Fn(K) -> B) {
    for key in keys {
        assert_eq!(bits(K::from_number(key.to_number())), bits(*key));
    }
}

macro_rules! integers {
    ($($Number:ty: $keys:expr),* $(,)?) => {$(
        let keys: &[$Number] = &$keys;
        are_in_order(keys);
        come_back(keys, |key| key);
    )*};
}

#[test]
fn integers_are_in_order() {
    const HIGH: u64 = 1 << 32;
    integers! {
        u8: [0, 1, 127, 128, u8::MAX],
        u16: [0, 255, 256, u16::MAX],
        u32: [0, 1, u32::MAX - 1, u32::MAX],
        // Those differ in the upper half alone, or in the lower half alone.
        u64: [0, 1, HIGH - 1, HIGH, HIGH + 1, 2 * HIGH, 2 * HIGH + 1, u64::MAX - HIGH, u64::MAX - 1, u64::MAX],
        usize: [0, 1, 1 << 32, usize::MAX],
        i8: [i8::MIN, -1, 0, 1, i8::MAX],
        i16: [i16::MIN, -256, -1, 0, 1, i16::MAX],
        i32: [i32::MIN, -1, 0, 1, i32::MAX],
        i64: [i64::MIN, i64::MIN + 1, -(1 << 33), -(1 << 32), -2, -1, 0, 1, 1 << 32, i64::MAX],
        isize: [isize::MIN, -1, 0, isize::MAX],
    }
}

#[test]
fn other_keys_are_in_order() {
    integers! {
        bool: [false, true],
        char: ['\0', 'a', 'z', '\u{d7ff}', '\u{e000}', char::MAX],
        (u32, u32): [(0, 0), (0, 1), (0, u32::MAX), (1, 0), (u32::MAX, 0), (u32::MAX, u32::MAX)],
        Option<bool>: [None, Some(false), Some(true)],
        Option<u32>: [None, Some(0), Some(u32::MAX)],
        Option<i32>: [None, Some(i32::MIN), Some(-1), Some(i32::MAX)],
        Option<char>: [None, Some('\0'), Some(char::MAX)],
        NonZeroU32: [1, 2, u32::MAX].map(|it| NonZeroU32::new(it).unwrap()),
        NonZeroU64: [1, 2, u64::MAX].map(|it| NonZeroU64::new(it).unwrap()),
        NonZeroI8: [i8::MIN, -1, 1, i8::MAX].map(|it| NonZeroI8::new(it).unwrap()),
        NonZeroIsize: [isize::MIN, -1, 1, isize::MAX].map(|it| NonZeroIsize::new(it).unwrap()),
    }
    // Those of numbers that no key has, as of a text that another program wrote.
    assert_eq!(char::from_number(0xd800), char::REPLACEMENT_CHARACTER);
    assert_eq!(NonZeroU64::from_number(0).get(), 1);
}

/// These positive keys and their opposites are in the total order of their type, and come out in it.
fn signed_are_in_order<K, B>(positive: &[K], total: fn(&K, &K) -> Ordering, bits: fn(K) -> B)
where
    K: Key + Debug + Neg<Output = K>,
    B: PartialEq + Debug,
{
    let negative = positive.iter().rev().map(|it| -*it);
    let keys: Vec<K> = negative.chain(positive.iter().copied()).collect();
    assert!(keys
        .windows(2)
        .all(|pair| total(&pair[0], &pair[1]).is_lt()));
    are_in_order(&keys);
    come_back(&keys, bits);
}

/// A NaN is after infinity, or before the negative one.
#[test]
fn floating_point_numbers_are_in_the_total_order() {
    let positive = [
        0.0,
        f64::from_bits(1),
        f64::MIN_POSITIVE,
        1.0,
        1.0 + f64::EPSILON,
        f64::MAX,
        f64::INFINITY,
        f64::from_bits(0x7ff0_0000_0000_0001),
        f64::NAN.copysign(1.0),
        f64::from_bits(u64::MAX >> 1),
    ];
    signed_are_in_order(&positive, f64::total_cmp, f64::to_bits);
    let positive = [
        0.0,
        f32::from_bits(1),
        f32::MIN_POSITIVE,
        1.0,
        f32::MAX,
        f32::INFINITY,
        f32::NAN.copysign(1.0),
        f32::from_bits(u32::MAX >> 1),
    ];
    signed_are_in_order(&positive, f32::total_cmp, f32::to_bits);
}

#[test]
fn durations_are_in_order() {
    let longest = Duration::from_nanos(u64::MAX);
    let keys = [
        Duration::ZERO,
        Duration::from_nanos(1),
        Duration::from_secs(1),
        Duration::new(1, 1),
        Duration::from_secs(1 << 33),
        longest,
    ];
    are_in_order(&keys);
    come_back(&keys, |key| key);
    for longer in [longest + Duration::from_nanos(1), Duration::MAX] {
        assert_eq!(Duration::from_number(longer.to_number()), longest);
    }
}

#[test]
fn moments_are_in_order() {
    const HOUR: Duration = Duration::from_secs(3600);
    const NANOSECOND: Duration = Duration::from_nanos(1);
    let now = Instant::now();
    let keys = [
        now - 100_000 * HOUR,
        now - HOUR,
        now - NANOSECOND,
        now,
        now + NANOSECOND,
        now + 2 * NANOSECOND,
        now + Duration::from_secs(5),
        now + 100_000 * HOUR,
    ];
    are_in_order(&keys);
    come_back(&keys, |key| key);
    // They are the same numbers in each thread.
    let numbers = |keys: [Instant; 8]| keys.map(Key::to_number);
    let others = thread::spawn(move || numbers(keys)).join().unwrap();
    assert_eq!(numbers(keys), others);
    // Those that are further away than 292 years count as such.
    let far = 24 * 366 * 300 * HOUR;
    let (first, last) = (now - far, now + far);
    assert_eq!((first.to_number(), last.to_number()), (1, u64::MAX));
    assert_eq!((first - far).to_number(), first.to_number());
    let moment = Instant::from_number(last.to_number());
    assert!(moment < last && moment > now + far / 2);
    let moment = Instant::from_number(first.to_number());
    assert!(moment > first && moment < now - far / 2);
}

#[test]
fn of_reversed_keys_the_largest_comes_first() {
    let keys = [i32::MAX, 1, 0, -1, i32::MIN].map(Reverse);
    are_in_order(&keys);
    come_back(&keys, |key| key);
    let queue = TaskQueue::new().unwrap();
    queue
        .push_many([(Reverse(2.5), "slow"), (Reverse(7.5), "fast")])
        .unwrap();
    assert_eq!(queue.pop(), Ok(Some((Reverse(7.5), "fast"))));
}

/// Of two bytes, of which the second comes first.
#[derive(Clone, Copy, Debug, PartialEq)]
struct Version {
    patch: u8,
    minor: u8,
}

impl Key for Version {
    fn to_number(self) -> u64 {
        u64::from(self.minor) << 8 | u64::from(self.patch)
    }

    fn from_number(number: u64) -> Version {
        let [patch, minor, ..] = number.to_le_bytes();
        Version { patch, minor }
    }
}

#[test]
fn a_type_of_a_program_s_own_is_a_key() {
    let key = |minor, patch| Version { patch, minor };
    let keys = [key(0, 9), key(1, 0), key(1, 1), key(255, 0)];
    are_in_order(&keys);
    come_back(&keys, |key| key);
}

/// Whether a type has a trait: the type's own constant comes before that of a trait which all have.
macro_rules! has {
    ($Trait:ident: $($Type:ty),*) => {{
        struct Asked<K>(PhantomData<K>);
        #[allow(dead_code)]
        trait Otherwise {
            const HAS: bool = false;
        }
        impl<K> Otherwise for Asked<K> {}
        #[allow(dead_code)]
        impl<K: $Trait> Asked<K> {
            const HAS: bool = true;
        }
        [$(Asked::<$Type>::HAS),*]
    }};
}

/// Integers count from a start, and a moment is a time by itself. Other keys would never be due, or lose their order.
#[test]
fn only_integers_and_moments_are_times() {
    let all = [true; 10];
    assert_eq!(
        has!(TimeKey: u8, u16, u32, u64, usize, i8, i16, i32, i64, isize),
        all
    );
    assert_eq!(
        has!(TickKey: u8, u16, u32, u64, usize, i8, i16, i32, i64, isize),
        all
    );
    assert_eq!(
        (has!(TimeKey: Instant), has!(TickKey: Instant)),
        ([true], [false])
    );
    let none = [false; 9];
    assert_eq!(
        has!(TimeKey: f32, f64, Duration, Reverse<u32>, Reverse<Instant>, bool, (u32, u32), NonZeroU32, Version),
        none
    );
    assert_eq!(
        has!(TickKey: f32, f64, Duration, Reverse<u32>, Reverse<Instant>, bool, (u32, u32), NonZeroU32, Version),
        none
    );
}

/// Keys that would be later than the last priority count as the last key.
#[test]
fn keys_beyond_the_last_time_are_the_last() {
    fn last<K: TickKey + Debug + PartialEq>(start: Instant, keys: [K; 2], last: K) {
        let unit = Duration::from_nanos(1);
        let queue = Options::new().times(start, unit).open().unwrap();
        queue.push_many(keys.map(|key| (key, ()))).unwrap();
        for _ in keys {
            assert_eq!(queue.pop(), Ok(Some((last, ()))));
        }
    }
    let start = Instant::now() + Duration::from_secs(600 * 366 * 24 * 3600);
    last(start, [5, u64::MAX], u64::MAX);
    last(start, [5, u8::MAX], u8::MAX);
    last(start, [5, i64::MAX], i64::MAX);
    last(start, [-5, i32::MAX], i32::MAX);
    last(start, [-5, i8::MAX], i8::MAX);
}
