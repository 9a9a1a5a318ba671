//! A scheduler. Threads share tasks, each with the hour at which it is due. A worker runs the task that is due first, and puts it in again
//! for its next hour. It ends once none is due today. At the end the journal shows when each task ran.
use flatpq::{Due, Error, Queue, Request};
use std::thread;

const END_OF_DAY: u64 = 24;
/// The tasks: the name, the first hour, and after how many it comes again.
const TASKS: [(&str, u64, u64); 3] = [("backup", 3, 12), ("mail", 0, 4), ("report", 8, 8)];

/// A key is the hour, its value the number of the task.
fn work(queue: &Queue) -> Result<(), Error> {
    while let Due::Got(hour, task) = queue.pop_due(END_OF_DAY - 1)? {
        let (_, _, period) = TASKS[task as usize];
        queue.push(hour + period, task)?;
    }
    Ok(())
}

fn main() -> Result<(), Error> {
    let queue = Queue::new()?;
    for (number, (_, first, _)) in (0..).zip(TASKS) {
        queue.push(first, number)?;
    }
    thread::scope(|scope| {
        let workers = [(); 4].map(|()| scope.spawn(|| work(&queue)));
        workers
            .into_iter()
            .try_for_each(|worker| worker.join().expect("a worker ends"))
    })?;
    let journal = queue.close()?;
    for (number, (name, _, _)) in (0..).zip(TASKS) {
        let runs = journal.iter().filter(|it| it.request == Request::Pop);
        let hours = runs.filter_map(|it| it.item.filter(|task| task.value == number));
        let hours: String = hours.map(|it| format!(" {}", it.priority)).collect();
        println!("{name} ran at{hours}");
    }
    Ok(())
}
