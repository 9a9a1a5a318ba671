//! An event loop waits by a descriptor: it is readable once there may be a payload, or one is due, or the queue is shut.
use flatpq::{Due, Error, TaskQueue};
use std::os::raw::{c_int, c_short, c_ulong};
use std::os::unix::io::{AsFd, AsRawFd};
use std::time::{Duration, Instant};

#[repr(C)]
struct Polled {
    descriptor: c_int,
    events: c_short,
    has: c_short,
}

extern "C" {
    fn poll(all: *mut Polled, count: c_ulong, milliseconds: c_int) -> c_int;
    fn fcntl(descriptor: c_int, command: c_int) -> c_int;
}

/// Whether a program that the process becomes does not get the descriptor.
fn is_closed_by_exec(listener: &impl AsFd) -> bool {
    const GET_FLAGS: c_int = 1;
    // SAFETY: the call reads the flags.
    unsafe { fcntl(listener.as_fd().as_raw_fd(), GET_FLAGS) == 1 }
}

/// Whether the descriptor is readable in this time.
fn is_readable(listener: &impl AsFd, milliseconds: c_int) -> bool {
    const IN: c_short = 1;
    let mut polled = Polled {
        descriptor: listener.as_fd().as_raw_fd(),
        events: IN,
        has: 0,
    };
    // SAFETY: it is one, and borrowed for the call.
    unsafe { poll(&mut polled, 1, milliseconds) == 1 && polled.has == IN }
}

#[test]
fn a_push_and_a_shut_make_it_readable() {
    let queue = TaskQueue::new().unwrap();
    let mut listener = queue.listener().unwrap();
    assert!(is_closed_by_exec(&listener));
    assert!(listener.try_take() == Ok(None) && !is_readable(&listener, 0));
    queue.push(5, 50).unwrap();
    queue.push(6, 60).unwrap();
    assert!(is_readable(&listener, 0));
    assert_eq!(listener.try_take(), Ok(Some((5, 50))));
    assert_eq!(listener.pop_due(5), Ok(Due::Later(6)));
    assert!(!is_readable(&listener, 0));
    queue.push(4, 40).unwrap();
    assert!(is_readable(&listener, 0));
    assert_eq!(listener.pop_due(5), Ok(Due::Got(4, 40)));
    assert_eq!(listener.try_take(), Ok(Some((6, 60))));
    assert!(listener.pop_due(9) == Ok(Due::Empty) && !is_readable(&listener, 0));
    queue.shut().unwrap();
    assert!(is_readable(&listener, 0));
    assert_eq!(listener.try_take(), Err(Error::Shut));
    assert_eq!(queue.close().unwrap_err().error, Error::MembersLeft);
}

#[test]
fn a_timer_is_readable_once_the_first_is_due() {
    let queue = TaskQueue::new().unwrap();
    let mut listener = queue.due_listener().unwrap();
    assert!(is_closed_by_exec(&listener));
    let last = Instant::now() + Duration::from_secs(3600);
    assert!(listener.try_take_due() == Ok(Due::Empty) && !is_readable(&listener, 0));
    queue.push(last, String::from("last")).unwrap();
    assert!(is_readable(&listener, 60_000));
    assert_eq!(listener.try_take_due(), Ok(Due::Later(last)));
    queue.push(last, String::from("same")).unwrap();
    assert!(!is_readable(&listener, 10));
    let first = Instant::now() + Duration::from_millis(1500);
    queue.push(first, String::from("first")).unwrap();
    assert!(is_readable(&listener, 60_000));
    assert_eq!(listener.try_take_due(), Ok(Due::Later(first)));
    assert!(is_readable(&listener, 60_000) && Instant::now() >= first);
    assert_eq!(listener.try_take_due(), Ok(Due::Got(first, "first".into())));
    assert!(listener.try_take_due() == Ok(Due::Later(last)) && !is_readable(&listener, 10));
    queue.shut().unwrap();
    assert!(is_readable(&listener, 60_000));
    assert!(listener.try_take_due() == Ok(Due::Later(last)) && !is_readable(&listener, 10));
    assert_eq!(queue.clear(), Ok(2));
    assert!(is_readable(&listener, 60_000));
    assert_eq!(listener.try_take_due(), Err(Error::Shut));
}
