//! What goes to other threads, and what they share: that it does so is seen where this compiles.
use flatpq::{
    Due, DueListener, Entry, Error, Item, Iter, Journal, Limited, Listener, Member, NotClosed,
    NotPushed, Options, Queue, Take, TaskJournal, TaskMember, TaskQueue, TickKey, TimeKey, Until,
};
use std::cell::Cell;
use std::cmp::Reverse;
use std::mem::size_of;
use std::time::{Duration, Instant};

/// Goes to other threads, and is not shared by them: more than that no payload has to do.
type Payload = Cell<u32>;

fn is_send<T: Send>() {}
fn is_sync<T: Sync>() {}

/// A type that is not so has one function of this name, and any other two.
macro_rules! is_not {
    ($Type:ty: $Trait:ident) => {
        const _: fn() = || {
            trait Either<A> {
                fn is() {}
            }
            impl<T: ?Sized> Either<()> for T {}
            #[allow(dead_code)]
            struct So;
            impl<T: ?Sized + $Trait> Either<So> for T {}
            <$Type as Either<_>>::is()
        };
    };
}

is_not!(Member: Sync);
is_not!(Member: Clone);
is_not!(Queue: Clone);
is_not!(Journal: Clone);
is_not!(Limited<'static, u64, u64>: Send);
is_not!(Limited<'static, u64, u64>: Sync);
is_not!(Listener<u64, u64>: Sync);
is_not!(DueListener<u64, u64>: Sync);
is_not!(Take<'static, u64, u64>: Sync);
is_not!(NotPushed<Payload>: Sync);
is_not!(TaskQueue<u64, std::rc::Rc<u32>>: Send);
is_not!(TaskQueue<u64, std::rc::Rc<u32>>: Sync);
is_not!(TaskMember<u64, std::rc::Rc<u32>>: Send);
is_not!(TaskJournal<u64, std::rc::Rc<u32>>: Send);
is_not!(TaskJournal<u64, std::rc::Rc<u32>>: Sync);

// Such keys would lose their order by a start, or never be due.
is_not!(Reverse<u32>: TimeKey);
is_not!(Duration: TimeKey);
is_not!(f64: TimeKey);
is_not!(f32: TimeKey);
is_not!((u32, u32): TimeKey);
is_not!(std::num::NonZeroU64: TimeKey);
is_not!(Instant: TickKey);

#[test]
fn what_goes_to_other_threads() {
    is_send::<(TaskQueue<u64, Payload>, TaskQueue<Instant, Payload>)>();
    is_sync::<(TaskQueue<u64, Payload>, TaskQueue<Instant, Payload>)>();
    is_send::<(
        Queue,
        Member,
        TaskMember<u64, Payload>,
        Listener<u64, Payload>,
    )>();
    is_send::<(DueListener<u64, Payload>, DueListener<Instant, Payload>)>();
    is_send::<(Take<'_, u64, Payload>, TaskJournal<u64, Payload>)>();
    is_sync::<(TaskJournal<u64, Payload>, Journal, Iter<'_>)>();
    is_send::<(Journal, Iter<'_>)>();
    is_send::<(
        NotPushed<Payload>,
        NotClosed<u64, Payload>,
        Due<u64, Payload>,
    )>();
    is_send::<(Error, Entry, Item, Options, Until)>();
    is_sync::<(Error, Entry, Item, Options, Until)>();
}

#[test]
fn how_great_they_are() {
    assert_eq!(size_of::<Item>(), 16);
    assert_eq!(size_of::<TaskQueue<u64, String>>(), size_of::<usize>());
    assert_eq!(
        size_of::<Option<Listener<u64, u8>>>(),
        size_of::<Listener<u64, u8>>()
    );
}
