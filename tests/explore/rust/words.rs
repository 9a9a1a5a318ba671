//! Words of scenarios, by the crate: futures, listeners, and calls beside them. Each says to the explorer what its call came to.
use crate::clock;
use crate::error::{Due, Error, NotPushed};
use crate::explorer::{self, In, Word, Wrapper, FOREVER, MOST_THREADS, UNNUMBERED};
use crate::futures::WaitArchived;
use crate::journal::Item;
use crate::listener::{DueListener, Listener};
use crate::options::{Keeping, Options};
use crate::raw::{self, RawOptions};
use crate::sync::{self, Own};
use crate::tasks::{TaskMember, TaskQueue};
use crate::waker;
use std::cell::{Cell, RefCell};
use std::ffi::c_int;
use std::future::Future;
use std::os::unix::io::AsRawFd;
use std::pin::Pin;
use std::ptr;
use std::task::{Context, Poll, Waker};
use std::time::Instant;

type Queue = TaskQueue<u64, u64>;
type Taken = Result<(u64, u64), Error>;
type Pushed = Result<u64, NotPushed<u64>>;

const PUSH: u32 = 0;
const POP: u32 = 1;
/// In nanoseconds: another thread may have the lock, or the members, for so long.
const SOON: u64 = 100_000;

/// What a task awaits.
enum Awaited {
    /// By calls of the member, without a future.
    Polls,
    Take(Pin<Box<dyn Future<Output = Taken>>>),
    TakeDue(Pin<Box<dyn Future<Output = Taken>>>),
    Archived(WaitArchived<'static, u64>, u64),
    Push(Pin<Box<dyn Future<Output = Pushed>>>, Item),
}

/// What a thread has of the queue. A field that uses another comes before it.
#[derive(Default)]
struct Thread {
    /// The crate may have a waker of it.
    has_waker: bool,
    awaited: Option<Awaited>,
    /// When its sleep ends, and whom that wakes.
    timer: Option<(u64, Waker)>,
    waker: Option<Waker>,
    listener: Option<Box<Listener<u64, u64>>>,
    due_listener: Option<Box<DueListener<u64, u64>>>,
    member: Option<Box<TaskMember<u64, u64>>>,
}

static THREADS: Own<RefCell<Thread>> = Own([const {
    RefCell::new(Thread {
        has_waker: false,
        awaited: None,
        timer: None,
        waker: None,
        listener: None,
        due_listener: None,
        member: None,
    })
}; MOST_THREADS + 1]);

static QUEUE: Own<Cell<*mut Queue>> = Own([const { Cell::new(ptr::null_mut()) }; MOST_THREADS + 1]);

fn queue() -> &'static Queue {
    // SAFETY: it is there from the opening to the end.
    unsafe { &*QUEUE.0[0].get() }
}

/// Uses what the calling thread has: in no call by which another can go on.
fn own<R>(uses: impl FnOnce(&mut Thread) -> R) -> R {
    THREADS.with(|it| uses(&mut it.borrow_mut()))
}

/// The thread's member, which joins at first. It is there until the thread ends, or gives it back when it awaits nothing.
fn member() -> &'static mut TaskMember<u64, u64> {
    let joined = own(|it| it.member.is_some());
    if !joined {
        let made = queue()
            .join()
            .unwrap_or_else(|_| explorer::fail(c"no member"));
        own(|it| it.member = Some(Box::new(made)));
    }
    // SAFETY: it lies in a box, and the thread makes one call at a time.
    own(|it| unsafe { &mut *ptr::from_mut(it.member.as_deref_mut().expect("it joined")) })
}

fn ends(taken: Taken) -> Option<Error> {
    match taken {
        Ok((priority, value)) => explorer::ends(POP, raw::OK, Item { priority, value }, UNNUMBERED),
        Err(error) => explorer::ends(POP, error as u32, Item::default(), 0),
    }
    taken.err()
}

fn ends_push(pushed: Pushed, item: Item) -> Option<Error> {
    let (code, number) = match &pushed {
        Ok(number) => (raw::OK, *number),
        Err(refused) => (refused.error as u32, 0),
    };
    explorer::ends(PUSH, code, item, number);
    pushed.err().map(|it| it.error)
}

// A future goes on where another thread has the lock for long, or there is no room.
fn ends_push_async(pushed: Pushed, item: Item) -> Option<Error> {
    if matches!(&pushed, Err(refused) if matches!(refused.error, Error::TimedOut | Error::Full)) {
        explorer::fail(c"a future gives up its push");
    }
    ends_push(pushed, item)
}

fn stays(code: u32) {
    explorer::ends(POP, code, Item::default(), 0);
}

/*
 * Futures.
 */

/// A sleep of a task: its timer wakes by the waker of the last poll.
struct Sleep(u64);

impl Future for Sleep {
    type Output = ();

    fn poll(self: Pin<&mut Self>, cx: &mut Context<'_>) -> Poll<()> {
        if explorer::now() >= self.0 {
            waker::may_wake_more(cx.waker());
            return Poll::Ready(());
        }
        let before = own(|it| it.timer.replace((self.0, cx.waker().clone())));
        drop(before);
        Poll::Pending
    }
}

impl Drop for Sleep {
    fn drop(&mut self) {
        let over = own(|it| it.timer.take_if(|it| it.0 == self.0));
        drop(over);
    }
}

fn sleep_until(moment: Instant) -> Sleep {
    Sleep(u64::try_from(clock::nanoseconds(moment)).unwrap_or(0))
}

extern "C" fn take_async(_: c_int, _: *const u64) {
    let take = Box::pin(member().take_async());
    own(|it| it.awaited = Some(Awaited::Take(take)));
}

extern "C" fn take_by_polls(_: c_int, _: *const u64) {
    own(|it| it.awaited = Some(Awaited::Polls));
}

extern "C" fn take_async_by_queue(_: c_int, _: *const u64) {
    own(|it| it.awaited = Some(Awaited::Take(Box::pin(queue().take_async()))));
}

extern "C" fn take_due_async(_: c_int, _: *const u64) {
    let take = Box::pin(member().take_due_async(sleep_until));
    own(|it| it.awaited = Some(Awaited::TakeDue(take)));
}

extern "C" fn take_due_async_by_queue(_: c_int, _: *const u64) {
    let take = Box::pin(queue().take_due_async(sleep_until));
    own(|it| it.awaited = Some(Awaited::TakeDue(take)));
}

extern "C" fn wait_archived_async(_: c_int, numbers: *const u64) {
    let number = first_of(numbers);
    own(|it| {
        it.awaited = Some(Awaited::Archived(
            queue().wait_archived_async(number),
            number,
        ))
    });
}

fn new_item(priority: u64) -> Item {
    let value = explorer::next_value();
    Item { priority, value }
}

extern "C" fn push_async(_: c_int, numbers: *const u64) {
    let item = new_item(first_of(numbers));
    let push = Box::pin(member().push_async(item.priority, item.value));
    own(|it| it.awaited = Some(Awaited::Push(push, item)));
}

extern "C" fn push_async_by_queue(_: c_int, numbers: *const u64) {
    let item = new_item(first_of(numbers));
    let push = Box::pin(queue().push_async(item.priority, item.value));
    own(|it| it.awaited = Some(Awaited::Push(push, item)));
}

/// Polls what the thread awaits, by its waker: what that came to.
fn polled() -> Poll<Option<Error>> {
    let waker = own(|it| it.waker.take()).unwrap_or_else(waker::new);
    let Some(mut awaited) = own(|it| it.awaited.take()) else {
        explorer::fail(c"a thread polls, and awaits nothing")
    };
    let cx = &mut Context::from_waker(&waker);
    waker::polls(&waker);
    explorer::begins(In::ListensFor, 0, u64::MAX);
    let done = match &mut awaited {
        Awaited::Polls => member().poll_take(cx).map(ends),
        Awaited::Take(take) | Awaited::TakeDue(take) => take.as_mut().poll(cx).map(ends),
        Awaited::Archived(wait, _) => Pin::new(wait).poll(cx).map(Result::err),
        Awaited::Push(push, item) => push.as_mut().poll(cx).map(|it| ends_push_async(it, *item)),
    };
    if done.is_pending() {
        stays(raw::EMPTY);
    }
    explorer::begins(In::NoCall, FOREVER, 0);
    let has_waker = done.is_pending() || matches!(awaited, Awaited::Archived(..));
    own(|it| (it.has_waker, it.awaited, it.waker) = (has_waker, Some(awaited), Some(waker)));
    done
}

/// Sleeps until the task is woken, by its timer too, or this time.
fn sleep_while_pending(until: u64) {
    let (call, number) = own(|it| match &it.awaited {
        Some(Awaited::TakeDue(_)) => (In::ListensForDue, 0),
        Some(Awaited::Archived(_, number)) => (In::Awaits, *number),
        Some(Awaited::Push(..)) => (In::Pushes, 0),
        _ => (In::ListensFor, u64::MAX),
    });
    explorer::begins(call, FOREVER, number);
    while !waker::is_woken() && explorer::now() < until {
        let rings = own(|it| it.timer.as_ref().map_or(FOREVER, |it| it.0));
        explorer::sleep(waker::word(explorer::thread()), 0, until.min(rings));
        let rung = own(|it| it.timer.take_if(|it| it.0 <= explorer::now()));
        if let Some((_, waker)) = rung {
            waker::rings(&waker);
        }
    }
    explorer::begins(In::NoCall, FOREVER, 0);
}

extern "C" fn poll(_: c_int, _: *const u64) {
    let _ = polled();
}

/// Polls until that is ready, or this time. Where all members are in use it tries again.
fn awaited(until: u64) -> Option<Error> {
    loop {
        match polled() {
            Poll::Ready(Some(Error::AllJoined)) => explorer::nap(SOON),
            Poll::Ready(done) => return done,
            Poll::Pending if waker::is_woken() => explorer::nap(SOON),
            Poll::Pending => sleep_while_pending(until),
        }
        if explorer::now() >= until {
            return Some(Error::TimedOut);
        }
    }
}

extern "C" fn await_one(_: c_int, numbers: *const u64) {
    awaited(first_of(numbers));
}

extern "C" fn await_all(_: c_int, numbers: *const u64) {
    while awaited(first_of(numbers)).is_none() {}
}

/// Sleeps until the task is woken, and does not poll.
extern "C" fn await_wake(_: c_int, numbers: *const u64) {
    sleep_while_pending(first_of(numbers));
}

/// The next poll is by another waker.
extern "C" fn rewake(_: c_int, _: *const u64) {
    let before = own(|it| it.waker.replace(waker::new()));
    drop(before);
}

extern "C" fn drop_future(_: c_int, _: *const u64) {
    let over = own(|it| it.awaited.take());
    drop(over);
    own(|it| it.has_waker = false);
}

extern "C" fn unlisten(_: c_int, _: *const u64) {
    let listened = member().unlisten();
    own(|it| (it.has_waker, it.awaited) = (false, None));
    if let Some(waker) = own(|it| it.waker.take()) {
        if listened {
            waker::may_wake_once_less(&waker);
        }
    }
}

extern "C" fn give_back(which: c_int, _: *const u64) {
    thread_ends(which);
}

/*
 * Listeners.
 */

extern "C" fn listen(_: c_int, numbers: *const u64) {
    let own_one = own(|it| it.listener.take());
    let mut listener = own_one.unwrap_or_else(|| {
        Box::new(
            queue()
                .listener()
                .unwrap_or_else(|_| explorer::fail(c"no listener")),
        )
    });
    loop {
        explorer::begins(In::ListensFor, 0, u64::MAX);
        match listener.try_take() {
            Ok(Some(taken)) => {
                ends(Ok(taken));
                continue;
            }
            Ok(None) => stays(raw::EMPTY),
            Err(error) => {
                ends(Err(error));
                break;
            }
        }
        explorer::begins(In::ListensFor, FOREVER, u64::MAX);
        let is_readable = explorer::await_readable(listener.as_raw_fd(), first_of(numbers));
        explorer::begins(In::NoCall, FOREVER, 0);
        if !is_readable {
            break;
        }
    }
    own(|it| it.listener = Some(listener));
}

extern "C" fn listen_due(_: c_int, numbers: *const u64) {
    let own_one = own(|it| it.due_listener.take());
    let mut listener = own_one.unwrap_or_else(|| {
        Box::new(
            queue()
                .due_listener()
                .unwrap_or_else(|_| explorer::fail(c"no listener")),
        )
    });
    loop {
        explorer::begins(In::Calls, 0, 0);
        match listener.try_take_due() {
            Ok(Due::Got(priority, value)) => {
                ends(Ok((priority, value)));
                continue;
            }
            Ok(Due::Later(_)) => stays(raw::NOT_DUE),
            Ok(Due::Empty) => stays(raw::EMPTY),
            Err(error) => {
                ends(Err(error));
                break;
            }
        }
        if explorer::now() >= first_of(numbers) {
            break;
        }
        explorer::begins(In::HasAlarm, FOREVER, 0);
        explorer::await_readable(listener.as_raw_fd(), FOREVER);
    }
    explorer::begins(In::NoCall, FOREVER, 0);
    own(|it| it.due_listener = Some(listener));
}

/// The listeners go to other places in memory.
extern "C" fn move_listeners(_: c_int, _: *const u64) {
    own(|it| {
        it.listener = it.listener.take().map(|it| Box::new(*it));
        it.due_listener = it.due_listener.take().map(|it| Box::new(*it));
    });
}

extern "C" fn drop_listeners(_: c_int, _: *const u64) {
    let over = own(|it| (it.listener.take(), it.due_listener.take()));
    drop(over);
}

/*
 * Calls beside them.
 */

extern "C" fn push(_: c_int, numbers: *const u64) {
    let item = new_item(first_of(numbers));
    explorer::begins(In::Pushes, FOREVER, 0);
    ends_push(queue().push(item.priority, item.value), item);
}

/// A call that waits: wakers run in the thread that serves meanwhile.
extern "C" fn take(_: c_int, _: *const u64) {
    explorer::begins(In::Takes, FOREVER, 0);
    ends(queue().take());
}

extern "C" fn take_due(_: c_int, _: *const u64) {
    explorer::begins(In::TakesDue, FOREVER, 0);
    ends(queue().take_due());
}

extern "C" fn pop(_: c_int, _: *const u64) {
    explorer::begins(In::Calls, FOREVER, 0);
    match queue().pop() {
        Ok(None) => stays(raw::EMPTY),
        Ok(Some(taken)) => drop(ends(Ok(taken))),
        Err(error) => drop(ends(Err(error))),
    }
}

extern "C" fn archive(_: c_int, numbers: *const u64) {
    explorer::begins(In::Calls, FOREVER, 0);
    drop(queue().archive(first_of(numbers)));
    explorer::begins(In::NoCall, FOREVER, 0);
}

extern "C" fn shuts() -> u32 {
    queue()
        .shut()
        .map_or_else(|error| error as u32, |()| raw::OK)
}

extern "C" fn shut(_: c_int, _: *const u64) {
    shuts();
}

extern "C" fn serve(_: c_int, _: *const u64) {
    sync::serve();
}

/*
 * The table.
 */

fn first_of(numbers: *const u64) -> u64 {
    // SAFETY: there are three.
    unsafe { *numbers }
}

macro_rules! words {
    ($($text:literal: $does:ident,)*) => {
        static WORDS: &[Word] = &[
            $(Word { text: $text.as_ptr(), does: Some($does) },)*
            Word { text: ptr::null(), does: None },
        ];
    };
}

words! {
    c"take-async": take_async,
    c"take-async-by-queue": take_async_by_queue,
    c"take-due-async": take_due_async,
    c"take-due-async-by-queue": take_due_async_by_queue,
    c"take-by-polls": take_by_polls,
    c"wait-archived-async": wait_archived_async,
    c"poll": poll,
    c"await": await_one,
    c"await-all": await_all,
    c"await-wake": await_wake,
    c"rewake": rewake,
    c"drop": drop_future,
    c"unlisten": unlisten,
    c"give-back": give_back,
    c"listen": listen,
    c"listen-due": listen_due,
    c"move-listener": move_listeners,
    c"drop-listener": drop_listeners,
    c"push-async": push_async,
    c"push-async-by-queue": push_async_by_queue,
    c"push": push,
    c"pop": pop,
    c"take": take,
    c"take-due": take_due,
    c"archive": archive,
    c"shut": shut,
    c"serve": serve,
}

extern "C" fn opens(options: *const RawOptions) {
    // SAFETY: the explorer gives them for the call.
    let asked = unsafe { &*options };
    let keeping = match asked.keeping {
        0 => Keeping::Forgets(asked.entries),
        _ => Keeping::Fills(asked.entries),
    };
    clock::nanoseconds(Instant::now());
    let options = Options::new().members(asked.members).keeping(keeping);
    let opened = options
        .most_items(asked.most_items)
        .tickets(asked.tickets != 0)
        .open();
    if let Ok(opened) = opened {
        QUEUE.0[0].set(Box::into_raw(Box::new(opened)));
    }
}

extern "C" fn thread_ends(_: c_int) {
    drop_future(0, ptr::null());
    drop(own(|it| it.timer.take()));
    drop(own(|it| it.waker.take()));
    drop_listeners(0, ptr::null());
    drop(own(|it| it.member.take()));
}

/// Of a task whose future is ready, or gone, no waker is left in the crate.
extern "C" fn settles() {
    for (at, thread) in THREADS.0.iter().enumerate() {
        let Ok(it) = thread.try_borrow() else {
            continue;
        };
        let own = u32::from(it.waker.is_some()) + u32::from(it.timer.is_some());
        if !it.has_waker && waker::clones(at) > own {
            explorer::fail(c"a task waits no more, and a waker of it is left");
        }
    }
}

extern "C" fn frees() {
    // SAFETY: it was opened, and nobody uses it any more.
    drop(unsafe { Box::from_raw(QUEUE.0[0].get()) });
    settles();
}

#[no_mangle]
#[allow(non_upper_case_globals)]
pub static rust_wrapper: Wrapper = Wrapper {
    name: c"rust".as_ptr(),
    words: WORDS.as_ptr(),
    opens,
    thread_ends,
    settles,
    shuts,
    frees,
};
