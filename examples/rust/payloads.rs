use flatpq::{Error, TaskQueue};
use std::thread;

fn main() -> Result<(), Error> {
    let queue = TaskQueue::new()?;
    for (priority, task) in [(30, "sleep"), (10, "get up")] {
        queue.push(priority, task)?;
    }
    let work = || -> Result<(), Error> {
        while let Some((priority, task)) = queue.pop()? {
            println!("{priority} {task}");
        }
        Ok(())
    };
    thread::scope(|it| it.spawn(work).join().expect("the thread ends"))
}
