//! The C calls, and what frees a queue, a member and a journal.
use crate::after;
use crate::error::Error;
use crate::journal::Item;
use std::os::raw::{c_char, c_int, c_void};
use std::ptr::{self, NonNull};

/// A queue as the library has it.
pub enum QueueInside {}
/// A member as the library has it.
pub enum MemberInside {}
/// A journal as the library has it.
pub enum JournalInside {}

/// What the library calls once while a member listens.
pub type Notify = unsafe extern "C" fn(*mut c_void);
/// What it calls with each item that is left in a queue that it frees.
pub type Left = unsafe extern "C" fn(*mut c_void, Item);
/// A call for the first item.
pub type First = unsafe extern "C" fn(*mut MemberInside, *mut Item, u64, *mut u64) -> u32;

#[repr(C)]
#[derive(Clone, Copy, Debug, Default, PartialEq, Eq, Hash)]
pub struct RawOptions {
    pub members: u32,
    pub keeping: u32,
    pub entries: u32,
    pub tickets: u32,
    pub time_zero: u64,
    pub time_unit: u64,
    pub most_items: u64,
}

#[repr(C)]
#[derive(Clone, Copy, Debug, Default)]
pub struct RawEntry {
    pub number: u64,
    pub serial: u64,
    pub place: u32,
    pub request: u32,
    pub reply: u32,
    pub unused: u32,
    pub item: Item,
    pub ticket: u64,
    pub priority: u64,
}

/// Room for the text of an entry.
pub const TEXT_ROOM: usize = 160;

pub const OK: u32 = 0;
pub const EMPTY: u32 = 48;
pub const NOT_DUE: u32 = 50;
pub const FULL: u32 = 53;
pub const TORN: u32 = 55;
pub const GONE: u32 = 58;
pub const TIMED_OUT: u32 = 62;

#[rustfmt::skip]
extern "C" {
    pub fn pq_code_text(code: u32) -> *const c_char;
    pub fn pq_version() -> u32;
    pub fn pq_now() -> u64;
    pub fn pq_after(nanoseconds: u64) -> u64;
    fn pq_open(options: *const RawOptions, queue: *mut *mut QueueInside) -> u32;
    fn pq_shut(queue: *mut QueueInside) -> u32;
    fn pq_is_shut(queue: *mut QueueInside) -> c_int;
    fn pq_close(queue: *mut QueueInside, journal: *mut *mut JournalInside) -> u32;
    fn pq_free(queue: *mut QueueInside, left: Option<Left>, context: *mut c_void);
    fn pq_own(queue: *mut QueueInside) -> *mut MemberInside;
    fn pq_leave(queue: *mut QueueInside);
    fn pq_join(queue: *mut QueueInside, until: u64, member: *mut *mut MemberInside) -> u32;
    fn pq_give_back(member: *mut MemberInside);
    pub fn pq_place(member: *mut MemberInside) -> u32;
    pub fn pq_push(member: *mut MemberInside, item: Item, until: u64, number: *mut u64) -> u32;
    pub fn pq_pop(member: *mut MemberInside, item: *mut Item, until: u64, number: *mut u64) -> u32;
    pub fn pq_peek(member: *mut MemberInside, item: *mut Item, until: u64, entries: *mut u64) -> u32;
    pub fn pq_pop_due(member: *mut MemberInside, priority: u64, item: *mut Item, until: u64, number: *mut u64) -> u32;
    pub fn pq_take(member: *mut MemberInside, item: *mut Item, until: u64, number: *mut u64) -> u32;
    pub fn pq_take_due(member: *mut MemberInside, item: *mut Item, until: u64, number: *mut u64) -> u32;
    pub fn pq_push_many(member: *mut MemberInside, items: *const Item, count: usize, until: u64, done: *mut usize, number: *mut u64) -> u32;
    pub fn pq_pop_due_many(
        member: *mut MemberInside, priority: u64, items: *mut Item, room: usize, until: u64, done: *mut usize, number: *mut u64,
    ) -> u32;
    pub fn pq_remove(member: *mut MemberInside, ticket: u64, item: *mut Item, until: u64, number: *mut u64) -> u32;
    pub fn pq_reschedule(member: *mut MemberInside, ticket: u64, priority: u64, until: u64, number: *mut u64) -> u32;
    pub fn pq_size(member: *mut MemberInside, until: u64, size: *mut u64, peak: *mut u64) -> u32;
    pub fn pq_take_or_listen(
        member: *mut MemberInside, priority: u64, item: *mut Item, number: *mut u64, notify: Notify, context: *mut c_void,
    ) -> u32;
    pub fn pq_take_due_or_listen(member: *mut MemberInside, timer: c_int, item: *mut Item, number: *mut u64) -> u32;
    pub fn pq_push_or_listen(member: *mut MemberInside, item: Item, number: *mut u64, notify: Notify, context: *mut c_void) -> u32;
    pub fn pq_unlisten(member: *mut MemberInside) -> c_int;
    pub fn pq_notify_fd(context: *mut c_void);
    pub fn pq_archive(member: *mut MemberInside, archived: u64, until: u64, journal: *mut *mut JournalInside) -> u32;
    fn pq_wait_archived(queue: *mut QueueInside, number: u64, until: u64) -> u32;
    fn pq_journal_read(file: c_int, journal: *mut *mut JournalInside, line: *mut u64, bytes: *mut u64) -> u32;
    fn pq_count(journal: *const JournalInside, before: *mut u64) -> usize;
    fn pq_read(journal: *const JournalInside, index: usize, entry: *mut RawEntry) -> u32;
    pub fn pq_text(entry: *const RawEntry, text: *mut c_char) -> usize;
    fn pq_take_left(journal: *mut JournalInside, item: *mut Item) -> u32;
    fn pq_journal_free(journal: *mut JournalInside);
}

/// A queue. Its owner frees it.
#[derive(Debug)]
pub struct RawQueue(NonNull<QueueInside>);

// SAFETY: a queue may be in calls of many threads at once.
unsafe impl Send for RawQueue {}
// SAFETY: as above.
unsafe impl Sync for RawQueue {}

impl RawQueue {
    pub fn open(options: &RawOptions) -> Result<RawQueue, Error> {
        let mut queue = ptr::null_mut();
        // SAFETY: both are borrowed for this call.
        Error::unless_ok(unsafe { pq_open(options, &mut queue) })?;
        NonNull::new(queue).map(RawQueue).ok_or(Error::NoMemory)
    }

    /// The calling thread's own member.
    pub fn own(&self) -> *mut MemberInside {
        // SAFETY: the queue is there.
        unsafe { pq_own(self.0.as_ptr()) }
    }

    pub fn leave(&self) {
        // SAFETY: the queue is there.
        unsafe { pq_leave(self.0.as_ptr()) }
    }

    pub fn join(&self, until: u64) -> Result<RawMember, Error> {
        let mut member = ptr::null_mut();
        // SAFETY: the queue is there, and the pointer is borrowed for this call.
        Error::unless_ok(unsafe { pq_join(self.0.as_ptr(), until, &mut member) })?;
        NonNull::new(member).map(RawMember).ok_or(Error::NoMemory)
    }

    pub fn shut(&self) -> u32 {
        // SAFETY: the queue is there.
        unsafe { pq_shut(self.0.as_ptr()) }
    }

    pub fn is_shut(&self) -> bool {
        // SAFETY: the queue is there.
        unsafe { pq_is_shut(self.0.as_ptr()) == 1 }
    }

    pub fn wait_archived(&self, number: u64, until: u64) -> u32 {
        // SAFETY: the queue is there.
        unsafe { pq_wait_archived(self.0.as_ptr(), number, until) }
    }

    pub fn close(&self) -> Result<RawJournal, Error> {
        let mut journal = ptr::null_mut();
        // SAFETY: the queue is there, and the pointer is borrowed for this call.
        Error::unless_ok(unsafe { pq_close(self.0.as_ptr(), &mut journal) })?;
        RawJournal::of(journal)
    }

    /// Frees it.
    ///
    /// # Safety
    ///
    /// It is not used any more, and `left` takes all items that are left.
    pub unsafe fn free(&mut self, left: Option<Left>) {
        // SAFETY: as the caller says.
        unsafe { pq_free(self.0.as_ptr(), left, ptr::null_mut()) }
    }
}

/// A member that was joined, which is given back when this ends.
#[derive(Debug)]
pub struct RawMember(NonNull<MemberInside>);

// SAFETY: a member may move between threads.
unsafe impl Send for RawMember {}

impl RawMember {
    pub fn inside(&self) -> *mut MemberInside {
        self.0.as_ptr()
    }
}

impl Drop for RawMember {
    fn drop(&mut self) {
        // SAFETY: nobody else has it, and it is in no call.
        after::calling(|| unsafe {
            pq_unlisten(self.0.as_ptr());
            pq_give_back(self.0.as_ptr());
        });
    }
}

/// A journal, which is freed when this ends.
#[derive(Debug)]
pub struct RawJournal(NonNull<JournalInside>);

// SAFETY: a journal may move between threads.
unsafe impl Send for RawJournal {}
// SAFETY: many threads may read one.
unsafe impl Sync for RawJournal {}

impl RawJournal {
    /// The journal that a call has made.
    pub fn of(journal: *mut JournalInside) -> Result<RawJournal, Error> {
        NonNull::new(journal).map(RawJournal).ok_or(Error::NoMemory)
    }

    /// Reads one back from a file: the code, the journal if there is one, and how many lines were read. The last is how many bytes the lines
    /// have before a torn or refused one.
    pub fn read_from(file: c_int) -> (u32, Option<RawJournal>, u64, u64) {
        let (mut journal, mut line, mut bytes) = (ptr::null_mut(), 0, 0);
        // SAFETY: all are borrowed for this call.
        let code = unsafe { pq_journal_read(file, &mut journal, &mut line, &mut bytes) };
        (code, NonNull::new(journal).map(RawJournal), line, bytes)
    }

    /// How many entries it has, and how many came before them.
    pub fn count(&self) -> (usize, u64) {
        let mut before = 0;
        // SAFETY: the journal is there.
        let count = unsafe { pq_count(self.0.as_ptr(), &mut before) };
        (count, before)
    }

    pub fn read(&self, index: usize) -> Option<RawEntry> {
        let mut entry = RawEntry::default();
        // SAFETY: the journal is there.
        (unsafe { pq_read(self.0.as_ptr(), index, &mut entry) } == OK).then_some(entry)
    }

    pub fn take_left(&mut self) -> Option<Item> {
        let mut item = Item::default();
        // SAFETY: the journal is there, and in this call alone.
        (unsafe { pq_take_left(self.0.as_ptr(), &mut item) } == OK).then_some(item)
    }
}

impl Drop for RawJournal {
    fn drop(&mut self) {
        // SAFETY: nobody has it any more.
        unsafe { pq_journal_free(self.0.as_ptr()) }
    }
}

/// The text of a code.
pub fn text_of(code: u32) -> &'static str {
    // SAFETY: the library has texts of all codes, which end by a zero and stay.
    let text = unsafe { std::ffi::CStr::from_ptr(pq_code_text(code)) };
    text.to_str().unwrap_or("")
}
