//! Futures of a queue that wait without a member, if all are in use.
//!
//! A future has a turn while it is polled, and while it listens. If it gets no member, and another has a turn, it gives its own up, and waits
//! in a line. The one whose turn ends, as it is ready or dropped, gives its member back, and hands its turn to the first in the line. So if some
//! wait there is one that has a turn, and each that is woken for its turn looks for itself.
//!
//! A line has those alone that wait for the same. So what comes while they wait wakes one that has a turn, and listens for that.
use crate::after::{self, locked};
use crate::sync::Mutex;
use std::collections::BTreeMap;
use std::task::Waker;

/// The lines of a queue: for any payload, for what is due, for room.
#[derive(Default)]
pub struct Lines {
    pub any: Line,
    pub due: Line,
    pub room: Line,
}

/// How many have a turn, and the wakers of those that wait.
#[derive(Default)]
pub struct Line(Mutex<Inside>);

#[derive(Default)]
struct Inside {
    turns: usize,
    /// How many were woken for their turn, and have not come yet.
    called: usize,
    waiting: BTreeMap<u64, Waker>,
    last: u64,
}

/// What a future has of its line.
pub struct Turn<'a> {
    line: &'a Line,
    has: Has,
    /// Its place in the line, which it keeps until it ends.
    place: Option<u64>,
}

#[derive(Clone, Copy, PartialEq)]
enum Has {
    Nothing,
    Turn,
    /// Its waker is in the line under this number. If it is not any more, it was woken for its turn.
    Number(u64),
}

impl Line {
    pub fn turn(&self) -> Turn<'_> {
        let (has, place) = (Has::Nothing, None);
        Turn {
            line: self,
            has,
            place,
        }
    }
}

impl Inside {
    // What a future had: its waker, if it waits, and whether it has a turn.
    fn take(&mut self, has: Has) -> (Option<Waker>, bool) {
        match has {
            Has::Nothing => (None, false),
            Has::Turn => (None, true),
            Has::Number(number) => {
                let waker = self.waiting.remove(&number);
                let is_woken = waker.is_none();
                self.called -= usize::from(is_woken);
                (waker, is_woken)
            }
        }
    }

    // The waker of the first that waits, which has a turn from now on.
    fn next(&mut self) -> Option<Waker> {
        let first = *self.waiting.keys().next()?;
        (self.turns, self.called) = (self.turns + 1, self.called + 1);
        self.waiting.remove(&first)
    }
}

// No waker is copied, dropped or woken with the lock held.
impl Turn<'_> {
    /// Whether it has a turn. If another was woken for its turn and has yet to come, this one waits until then.
    pub fn begin(&mut self, waker: &Waker) -> bool {
        let mut line = locked(&self.line.0);
        let comes_late = self.has == Has::Nothing && line.called > 0;
        let (own, has_turn) = line.take(self.has);
        line.turns += usize::from(!has_turn);
        self.has = Has::Turn;
        drop(line);
        drop(own);
        !(comes_late && self.waits(waker))
    }

    /// Gives the turn up, and waits in the line, if another has a turn.
    pub fn waits(&mut self, waker: &Waker) -> bool {
        let waker = waker.clone();
        let mut line = locked(&self.line.0);
        let may_wait = line.turns > 1;
        if may_wait {
            line.turns -= 1;
            line.last += 1;
            let number = *self.place.get_or_insert(line.last);
            self.has = Has::Number(number);
            line.waiting.insert(number, waker);
        }
        drop(line);
        may_wait
    }

    /// Hands a turn on, if it has one.
    pub fn end(&mut self) {
        if self.has == Has::Nothing {
            return;
        }
        let mut line = locked(&self.line.0);
        let (own, has_turn) = line.take(self.has);
        (self.has, self.place) = (Has::Nothing, None);
        line.turns -= usize::from(has_turn);
        let next = if has_turn { line.next() } else { None };
        drop(line);
        drop(own);
        next.into_iter().for_each(after::wake_caught);
    }
}
