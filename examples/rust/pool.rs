//! A thread pool. Forty threads share a queue that has members for eight at once. Each runs the jobs that come to it, and ends when none
//! came for a while.
use flatpq::{Error, Options, TaskQueue};
use std::sync::atomic::{AtomicU32, Ordering};
use std::sync::Arc;
use std::thread;
use std::time::Duration;

type Job = Box<dyn FnOnce() + Send>;

fn work(jobs: &TaskQueue<u64, Job>) -> Result<(), Error> {
    while let Some((_, job)) = jobs.until(Duration::from_millis(20)).take()? {
        job();
    }
    Ok(())
}

fn main() -> Result<(), Error> {
    let jobs = Options::new().members(8).open()?;
    let sum = Arc::new(AtomicU32::new(0));
    thread::scope(|scope| {
        let workers: Vec<_> = (0..40).map(|_| scope.spawn(|| work(&jobs))).collect();
        for number in 1..=1000 {
            let sum = Arc::clone(&sum);
            let job: Job = Box::new(move || {
                sum.fetch_add(number, Ordering::Relaxed);
            });
            jobs.push(u64::from(number % 3), job)?;
        }
        workers
            .into_iter()
            .try_for_each(|worker| worker.join().expect("a worker ends"))
    })?;
    for drained in jobs.drain() {
        let (_, job) = drained?;
        job();
    }
    println!("sum {}", sum.load(Ordering::Relaxed));
    Ok(())
}
