//! Unverified Rust, to measure queues of payloads: `flatpq::TaskQueue`, by members, and a mutex of the standard library round its binary
//! heap, both of boxed closures. `rust_tasks queue|mutex WORKERS PUSHES POPS` has each worker push so many closures and pop so
//! many, each of which it calls, and prints the fields that `c_queue` prints: `rust-tasks,WORKERS,CALLS,NANOSECONDS,..`, or
//! `rust-closures,WORKERS,..`.
mod load;

use flatpq::{TaskMember, TaskQueue};
use load::{priority_of, Load, Worked};
use std::cmp::Ordering;
use std::collections::BinaryHeap;
use std::sync::Mutex;

/// A closure, which gives its priority when it is called.
type Closure = Box<dyn FnOnce() -> u64 + Send>;

/// By priority, and of equal ones by when they were pushed; the greatest comes out of the heap.
struct Entry {
    priority: u64,
    number: u64,
    closure: Closure,
}

impl Ord for Entry {
    fn cmp(&self, other: &Entry) -> Ordering {
        (other.priority, other.number).cmp(&(self.priority, self.number))
    }
}

impl PartialOrd for Entry {
    fn partial_cmp(&self, other: &Entry) -> Option<Ordering> {
        Some(self.cmp(other))
    }
}

impl PartialEq for Entry {
    fn eq(&self, other: &Entry) -> bool {
        self.cmp(other) == Ordering::Equal
    }
}

impl Eq for Entry {}

#[derive(Default)]
struct Heap {
    entries: BinaryHeap<Entry>,
    pushes: u64,
}

/// What a worker pushes and pops by.
trait Tasks {
    fn push(&mut self, priority: u64, closure: Closure);
    fn pop(&mut self) -> Option<Closure>;
}

impl Tasks for TaskMember<u64, Closure> {
    fn push(&mut self, priority: u64, closure: Closure) {
        TaskMember::push(self, priority, closure).expect("the queue takes all");
    }

    fn pop(&mut self) -> Option<Closure> {
        let first = TaskMember::pop(self).expect("the queue refuses no pop");
        first.map(|(_, closure)| closure)
    }
}

impl Tasks for &Mutex<Heap> {
    fn push(&mut self, priority: u64, closure: Closure) {
        let mut heap = self.lock().expect("nobody panics");
        heap.pushes += 1;
        let number = heap.pushes;
        heap.entries.push(Entry {
            priority,
            number,
            closure,
        });
    }

    fn pop(&mut self) -> Option<Closure> {
        let first = self.lock().expect("nobody panics").entries.pop();
        first.map(|entry| entry.closure)
    }
}

fn closure_of(priority: u64) -> Closure {
    Box::new(move || priority)
}

/// Has each worker push and pop by what it is given.
fn run<T: Tasks + Send>(load: Load, mut given: impl FnMut(u32) -> T) -> Vec<Worked> {
    load.run(|worker| {
        let mut tasks = given(worker);
        move |number| {
            if number < load.pushes {
                let priority = priority_of(worker, number);
                tasks.push(priority, closure_of(priority));
                0
            } else {
                tasks.pop().map_or(0, |closure| closure())
            }
        }
    })
}

/// The load over a queue of tasks: what the workers did, and the closures that are left.
fn run_queue(load: Load) -> (Vec<Worked>, Vec<Closure>) {
    let queue = TaskQueue::new().expect("there is memory");
    let worked = run(load, |_| queue.join().expect("each worker has a place"));
    let Ok(mut journal) = queue.close() else {
        panic!("all members have left");
    };
    let left = journal.left().map(|(_, closure)| closure).collect();
    (worked, left)
}

/// The same over a mutex.
fn run_mutex(load: Load) -> (Vec<Worked>, Vec<Closure>) {
    let heap = Mutex::new(Heap::default());
    let worked = run(load, |_| &heap);
    let heap = heap.into_inner().expect("nobody panics");
    let left = heap.entries.into_iter().map(|entry| entry.closure);
    (worked, left.collect())
}

/// Whether the closures that were called and those that are left are those that were pushed.
fn is_sound(load: Load, out: u64, left: Vec<Closure>) -> bool {
    let count = left.len() as u32;
    let sum: u64 = left.into_iter().map(|it| it()).sum();
    count == load.left() && out + sum == load.pushed_sum()
}

fn main() {
    let (is_queue, load) = Load::read("rust_tasks", ["queue", "mutex"]);
    let (name, (worked, left)) = if is_queue {
        ("rust-tasks", run_queue(load))
    } else {
        ("rust-closures", run_mutex(load))
    };
    load.tell(name, worked, |out| is_sound(load, out, left))
}
