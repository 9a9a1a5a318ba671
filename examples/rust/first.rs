//! Two threads push three numbers each into one queue. Then all come out, those of smallest priority first.
use flatpq::{Error, Queue};
use std::thread;

fn push_three(queue: &Queue) -> Result<(), Error> {
    for priority in [10, 20, 30] {
        queue.push(priority, 7)?;
    }
    Ok(())
}

fn main() -> Result<(), Error> {
    let queue = Queue::new()?;
    thread::scope(|scope| {
        let other = scope.spawn(|| push_three(&queue));
        push_three(&queue)?;
        other.join().expect("the thread ends")
    })?;
    for popped in queue.drain() {
        let (priority, _) = popped?;
        println!("{priority}");
    }
    Ok(())
}
