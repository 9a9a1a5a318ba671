//! Unverified Rust, to measure the queue against: a mutex of the standard library around its binary heap and a ring of lines, or without one.
//! `rust_mutex book|heap WORKERS PUSHES POPS` makes the run that `queue_bench` makes, and prints the same fields:
//! `rust-book,WORKERS,CALLS,NANOSECONDS,audit ok`, or `audit failed` as the last field.
mod heap;
mod load;

use heap::{Heap, Item};
use load::{priority_of, Load};
use std::sync::Mutex;

/// Whether the items that came out and those that are left are those that were pushed, and each call was made.
fn is_sound(load: Load, mut heap: Heap, out: u64) -> bool {
    let calls = heap.calls;
    let mut left = Vec::new();
    while let Some(item) = heap.pop(0) {
        left.push(item.priority);
    }
    out + left.iter().sum::<u64>() == load.pushed_sum()
        && left.len() as u32 == load.left()
        && calls == u64::from(load.calls())
}

fn main() {
    let (has_lines, load) = Load::read("rust_mutex", ["book", "heap"]);
    let shared = Mutex::new(Heap::new(has_lines));
    let worked = load.run(|worker| {
        let shared = &shared;
        move |number| {
            let mut heap = shared.lock().expect("nobody panics");
            if number < load.pushes {
                let (priority, value) = (priority_of(worker, number), number.into());
                heap.push(worker, Item { priority, value });
                return 0;
            }
            heap.pop(worker).map_or(0, |item| item.priority)
        }
    });
    let name = if has_lines { "rust-book" } else { "rust-heap" };
    let heap = shared.into_inner().expect("nobody panics");
    load.tell(name, worked, |out| is_sound(load, heap, out))
}
