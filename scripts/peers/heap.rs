//! A binary heap of the standard library and a ring of lines, for the programs in Rust: the same data as `heaps.hpp` has.
use std::cmp::Reverse;
use std::collections::BinaryHeap;
use std::mem::size_of;

#[repr(C)]
#[derive(Clone, Copy)]
pub struct Item {
    pub priority: u64,
    pub value: u64,
}

#[derive(Clone, Copy)]
enum Request {
    Push,
    Pop,
}

#[derive(Clone, Copy)]
enum Reply {
    Pushed,
    Got,
    Empty,
}

#[derive(Clone, Copy)]
#[repr(align(64))]
#[allow(dead_code)]
struct Line {
    serial: u64,
    place: u32,
    request: Request,
    pushed: Item,
    reply: Reply,
    got: Item,
}

/// By priority, and of equal ones by when they were pushed.
type Entry = Reverse<(u64, u64, u64)>;

const _: () = assert!(size_of::<Line>() == 64 && size_of::<Entry>() == 24);

pub const NONE: Item = Item {
    priority: 0,
    value: 0,
};

/// A heap, and the last lines of all where there are lines.
pub struct Heap {
    entries: BinaryHeap<Entry>,
    ring: Vec<Line>,
    /// How many calls there have been, each of which has a line where there are lines.
    pub calls: u64,
}

impl Heap {
    /// All of the ring is written once, so that none of its pages is new in the run.
    pub fn new(has_lines: bool) -> Heap {
        let line = Line {
            serial: 1,
            place: 1,
            request: Request::Pop,
            pushed: NONE,
            reply: Reply::Empty,
            got: NONE,
        };
        Heap {
            entries: BinaryHeap::new(),
            ring: vec![line; if has_lines { 1024 } else { 0 }],
            calls: 0,
        }
    }

    pub fn push(&mut self, place: u32, item: Item) {
        let entry = Reverse((item.priority, self.calls, item.value));
        self.entries.push(entry);
        self.add(place, (Request::Push, item), (Reply::Pushed, NONE));
    }

    pub fn pop(&mut self, place: u32) -> Option<Item> {
        let first = self
            .entries
            .pop()
            .map(|Reverse((priority, _, value))| Item { priority, value });
        let reply = first.map_or((Reply::Empty, NONE), |item| (Reply::Got, item));
        self.add(place, (Request::Pop, NONE), reply);
        first
    }

    fn add(&mut self, place: u32, (request, pushed): (Request, Item), (reply, got): (Reply, Item)) {
        self.calls += 1;
        if self.ring.is_empty() {
            return;
        }
        let at = (self.calls % self.ring.len() as u64) as usize;
        self.ring[at] = Line {
            serial: self.calls,
            place,
            request,
            pushed,
            reply,
            got,
        };
    }
}
