//! Payloads as the values of items. One of at most eight bytes lies in the value itself. Any other lies in a block of memory of its own,
//! whose address is the value.
//!
//! The thread that took an item out has its payload, and no other. All values of a queue are payloads of one type, each in one item.
use crate::after::Dropped;
use crate::journal::Item;
use std::alloc::{alloc, Layout};
use std::arch::asm;
use std::mem::{align_of, needs_drop, size_of, MaybeUninit};
use std::os::raw::c_void;

/// Whether a payload of this type lies in the value itself.
const fn is_inside<T>() -> bool {
    size_of::<T>() <= size_of::<u64>() && align_of::<T>() <= align_of::<u64>()
}

/// Whether something is to be done with payloads of this type that nobody takes out.
pub const fn is_dropped<T>() -> bool {
    needs_drop::<T>() || !is_inside::<T>()
}

/// The value of a payload, or the payload if memory for its block is refused.
///
/// An instruction reads the payload's bytes, not the compiler. To that some may be uninitialised, and others part of a pointer. The first are
/// what memory has there, and the pointer is exposed, as by a cast to a number.
pub fn value_of<T>(payload: T) -> Result<u64, T> {
    if !is_inside::<T>() {
        return in_block(payload);
    }
    let mut word = MaybeUninit::<u64>::zeroed();
    let value;
    // SAFETY: the payload is not greater than the word, nor aligned otherwise; the instruction reads the word, and writes a register.
    unsafe {
        word.as_mut_ptr().cast::<T>().write(payload);
        asm!("mov {value}, [{word}]", word = in(reg) word.as_ptr(), value = lateout(reg) value,
            options(nostack, preserves_flags, readonly));
    }
    Ok(value)
}

fn in_block<T>(payload: T) -> Result<u64, T> {
    if size_of::<T>() == 0 {
        return Ok(Box::into_raw(Box::new(payload)) as u64);
    }
    // SAFETY: the type has a size.
    let block = unsafe { alloc(Layout::new::<T>()) }.cast::<T>();
    if block.is_null() {
        return Err(payload);
    }
    // SAFETY: the block has room for the payload, and nothing else.
    unsafe { block.write(payload) };
    Ok(block as u64)
}

/// The payload of this value.
///
/// # Safety
///
/// The value is one of `value_of` for this type, and its payload is taken out this one time. Or the payload is a number.
pub unsafe fn payload_of<T>(value: u64) -> T {
    if !is_inside::<T>() {
        // SAFETY: the block is as that of a box.
        return *unsafe { Box::from_raw(value as *mut T) };
    }
    let mut word = MaybeUninit::<u64>::uninit();
    // SAFETY: the instruction writes the word, whose bytes are then those of a payload; a pointer among them was exposed.
    unsafe {
        asm!("mov [{word}], {value}", word = in(reg) word.as_mut_ptr(), value = in(reg) value,
            options(nostack, preserves_flags));
        word.as_ptr().cast::<T>().read()
    }
}

/// Drops the payload of this value.
///
/// # Safety
///
/// As of `payload_of`.
unsafe fn drop_payload<T>(value: u64) {
    if is_inside::<T>() {
        // SAFETY: as the caller says.
        drop(unsafe { payload_of::<T>(value) });
    } else {
        // SAFETY: the same. It is dropped where it lies.
        drop(unsafe { Box::from_raw(value as *mut T) });
    }
}

/// A payload that nobody takes out, which is dropped with this.
///
/// # Safety
///
/// As of `payload_of`.
pub unsafe fn dropped<T>(value: u64) -> Dropped {
    // SAFETY: as the caller says.
    unsafe { Dropped::by(drop_payload::<T>, value) }
}

/// What the library calls with each item that is left in a queue that it frees.
///
/// # Safety
///
/// The item is one of a queue of such payloads, and nobody has taken it out.
pub unsafe extern "C" fn left<T>(_: *mut c_void, item: Item) {
    // SAFETY: as the caller says.
    unsafe { dropped::<T>(item.value) }.drop_after();
}
