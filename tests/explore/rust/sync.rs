//! In place of the crate's `sync.rs`: the same names, and each step is a point of the explorer. What is static begins each execution anew.
use crate::explorer::{self, point, Access, In, FOREVER, MOST_THREADS};
use std::cell::{Cell, RefCell, UnsafeCell};
use std::collections::VecDeque;
use std::mem::MaybeUninit;
use std::ops::{Deref, DerefMut};
use std::sync::atomic::Ordering;
use std::sync::{Arc, LockResult};
use std::{fmt, io, ptr};

/// What each thread has of its own.
pub struct Own<T>(pub [T; MOST_THREADS + 1]);

// SAFETY: the explorer runs one thread at a time.
unsafe impl<T> Sync for Own<T> {}

impl<T> Own<T> {
    pub fn with<R>(&self, uses: impl FnOnce(&T) -> R) -> R {
        uses(&self.0[explorer::thread()])
    }
}

macro_rules! own {
    ($(#[$about:meta])* static $NAME:ident: $Type:ty = const $made:block;) => {
        $(#[$about])*
        static $NAME: crate::sync::Own<$Type> = crate::sync::Own([const $made; crate::explorer::MOST_THREADS + 1]);
    };
}
pub(crate) use own as thread_local;

/// How many mutexes of the crate each thread has locked: no code of the user runs meanwhile.
static LOCKED: Own<Cell<u32>> = Own([const { Cell::new(0) }; MOST_THREADS + 1]);

/// Before code of the user.
pub fn user() {
    if LOCKED.with(Cell::get) > 0 {
        explorer::fail(c"code of the user runs with a lock held");
    }
}

/// A value, and the one that it began with, where it is static.
struct Renewed<T> {
    execution: Cell<u64>,
    first: UnsafeCell<MaybeUninit<T>>,
    value: UnsafeCell<T>,
}

impl<T> Renewed<T> {
    const fn new(value: T) -> Renewed<T> {
        Renewed {
            execution: Cell::new(0),
            first: UnsafeCell::new(MaybeUninit::uninit()),
            value: UnsafeCell::new(value),
        }
    }

    fn get(&self) -> *mut T {
        let execution = explorer::execution();
        // SAFETY: one thread runs at a time. Only a static outlives an execution, and what that begins with is constant, and owns nothing.
        unsafe {
            match self.execution.replace(execution) {
                0 => ptr::copy(self.value.get(), self.first.get().cast(), 1),
                before if before != execution => {
                    *self.value.get() = ptr::read(self.first.get().cast())
                }
                _ => {}
            }
        }
        self.value.get()
    }
}

pub struct AtomicBool(Renewed<u32>);

// SAFETY: as above.
unsafe impl Sync for AtomicBool {}

impl AtomicBool {
    pub const fn new(value: bool) -> AtomicBool {
        AtomicBool(Renewed::new(value as u32))
    }

    pub fn load(&self, _: Ordering) -> bool {
        point(c"load", self.0.get(), Access::Reads);
        // SAFETY: as above.
        unsafe { *self.0.get() != 0 }
    }

    pub fn store(&self, value: bool, _: Ordering) {
        point(c"store", self.0.get(), Access::Writes);
        // SAFETY: as above.
        unsafe { *self.0.get() = value.into() }
    }
}

/// No thread has this number.
const DROPPED: u32 = 1000;

pub struct Mutex<T> {
    owner: UnsafeCell<u32>,
    value: Renewed<T>,
}

// SAFETY: as above.
unsafe impl<T: Send> Sync for Mutex<T> {}

impl<T> Mutex<T> {
    pub const fn new(value: T) -> Mutex<T> {
        Mutex {
            owner: UnsafeCell::new(0),
            value: Renewed::new(value),
        }
    }

    pub fn lock(&self) -> LockResult<MutexGuard<'_, T>> {
        // SAFETY: as above.
        if unsafe { *self.owner.get() } == DROPPED {
            explorer::fail(c"a mutex is locked that was dropped");
        }
        explorer::lock(self.owner.get());
        LOCKED.with(|it| it.set(it.get() + 1));
        Ok(MutexGuard(self))
    }
}

impl<T: Default> Default for Mutex<T> {
    fn default() -> Mutex<T> {
        Mutex::new(T::default())
    }
}

impl<T> fmt::Debug for Mutex<T> {
    fn fmt(&self, f: &mut fmt::Formatter<'_>) -> fmt::Result {
        f.write_str("Mutex")
    }
}

impl<T> Drop for Mutex<T> {
    fn drop(&mut self) {
        let owner = self.owner.get();
        point(c"drop", owner, Access::Writes);
        // SAFETY: as above.
        if unsafe { owner.replace(DROPPED) } != 0 {
            explorer::fail(c"a mutex is dropped that is locked, or was dropped");
        }
    }
}

pub struct MutexGuard<'a, T>(&'a Mutex<T>);

impl<T> Deref for MutexGuard<'_, T> {
    type Target = T;

    fn deref(&self) -> &T {
        // SAFETY: this thread has the mutex.
        unsafe { &*self.0.value.get() }
    }
}

impl<T> DerefMut for MutexGuard<'_, T> {
    fn deref_mut(&mut self) -> &mut T {
        // SAFETY: as above.
        unsafe { &mut *self.0.value.get() }
    }
}

impl<T> Drop for MutexGuard<'_, T> {
    fn drop(&mut self) {
        LOCKED.with(|it| it.set(it.get() - 1));
        explorer::unlock(self.0.owner.get());
    }
}

struct Line<T> {
    sent: RefCell<VecDeque<T>>,
    count: Cell<u32>,
}

// SAFETY: as above.
unsafe impl<T: Send> Sync for Line<T> {}
// SAFETY: as above.
unsafe impl<T: Send> Send for Line<T> {}

pub struct Sender<T>(Arc<Line<T>>);
pub struct Receiver<T>(Arc<Line<T>>);

pub fn channel<T>() -> (Sender<T>, Receiver<T>) {
    let line = Arc::new(Line {
        sent: RefCell::default(),
        count: Cell::new(0),
    });
    (Sender(Arc::clone(&line)), Receiver(line))
}

impl<T> Sender<T> {
    pub fn send(&self, it: T) -> Result<(), T> {
        point(c"send", self.0.count.as_ptr(), Access::Writes);
        self.0.sent.borrow_mut().push_back(it);
        self.0.count.set(self.0.count.get() + 1);
        explorer::wake(self.0.count.as_ptr());
        Ok(())
    }
}

impl<T> Iterator for Receiver<T> {
    type Item = T;

    fn next(&mut self) -> Option<T> {
        let count = self.0.count.as_ptr();
        loop {
            point(c"receive", count, Access::Writes);
            let first = self.0.sent.borrow_mut().pop_front();
            if first.is_some() || explorer::is_over() {
                return first;
            }
            explorer::sleep(count, self.0.count.get(), FOREVER);
        }
    }
}

/// The thread that the crate starts is the one of the scenario that serves.
pub struct Builder;

type Started = RefCell<Option<Box<dyn FnOnce()>>>;
static STARTED: Own<Started> = Own([const { RefCell::new(None) }; MOST_THREADS + 1]);
static IS_STARTED: AtomicBool = AtomicBool::new(false);

impl Builder {
    pub fn new() -> Builder {
        Builder
    }

    pub fn name(self, _: String) -> Builder {
        self
    }

    pub fn spawn(self, does: impl FnOnce() + 'static) -> io::Result<()> {
        if IS_STARTED.load(Ordering::SeqCst) {
            explorer::fail(c"the crate starts two threads");
        }
        *STARTED.0[0].borrow_mut() = Some(Box::new(does));
        IS_STARTED.store(true, Ordering::SeqCst);
        explorer::wake(IS_STARTED.0.get());
        Ok(())
    }
}

/// Is the thread that the crate starts, until all others have ended.
pub fn serve() {
    explorer::begins(In::Serves, FOREVER, 0);
    while !IS_STARTED.load(Ordering::SeqCst) && !explorer::is_over() {
        explorer::sleep(IS_STARTED.0.get(), 0, FOREVER);
    }
    let does = STARTED.0[0].borrow_mut().take();
    if let Some(does) = does {
        does();
    }
}
