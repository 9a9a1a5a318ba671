//! A `BinaryHeap` with a mutex and a condition variable, and the queue that takes its place: jobs of two threads come out of both alike.
use std::thread;
use std::time::Duration;

mod before {
    use std::cmp::Reverse;
    use std::collections::BinaryHeap;
    use std::sync::{Condvar, Mutex};

    #[derive(Default)]
    pub struct Jobs {
        heap: Mutex<BinaryHeap<(Reverse<i32>, String)>>,
        ready: Condvar,
    }

    impl Jobs {
        pub fn add(&self, key: i32, name: String) {
            self.heap.lock().unwrap().push((Reverse(key), name));
            self.ready.notify_one();
        }
        pub fn next(&self) -> (i32, String) {
            let heap = self.heap.lock().unwrap();
            let mut heap = self.ready.wait_while(heap, |it| it.is_empty()).unwrap();
            let (Reverse(key), name) = heap.pop().unwrap();
            (key, name)
        }
    }
}

mod after {
    use flatpq::TaskQueue;

    pub struct Jobs {
        pub queue: TaskQueue<i32, String>,
    }

    impl Jobs {
        pub fn add(&self, key: i32, name: String) {
            self.queue.push(key, name).unwrap();
        }
        pub fn next(&self) -> (i32, String) {
            self.queue.take().unwrap()
        }
    }
}

/// The first job is taken by a thread that waits for it, the others in their order.
fn come_out_in_order(add: impl Fn(i32, &str), next: impl Fn() -> (i32, String) + Sync) {
    let job = |key, name: &str| (key, name.to_string());
    thread::scope(|threads| {
        threads.spawn(|| assert_eq!(next(), job(5, "tea")));
        thread::sleep(Duration::from_millis(5));
        add(5, "tea");
    });
    add(30, "sleep");
    add(-10, "wake");
    assert_eq!((next(), next()), (job(-10, "wake"), job(30, "sleep")));
}

#[test]
fn a_heap_with_a_mutex() {
    let jobs = before::Jobs::default();
    come_out_in_order(|key, name| jobs.add(key, name.into()), || jobs.next());
}

#[test]
fn the_queue_that_takes_its_place() {
    let queue = flatpq::TaskQueue::new().unwrap();
    let jobs = after::Jobs { queue };
    come_out_in_order(|key, name| jobs.add(key, name.into()), || jobs.next());
}
