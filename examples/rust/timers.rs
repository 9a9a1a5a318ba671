//! A timer service. Closures are put in with the moment at which each is due, to the nanosecond. Workers sleep until the first is due and
//! call it, and it may put in others. Once the service is shut, what is left is called when it is due, and then the workers go.
use flatpq::{Error, TaskQueue};
use std::sync::Mutex;
use std::thread;
use std::time::{Duration, Instant};

type Timer = Box<dyn FnOnce(&Service) + Send>;

struct Service {
    timers: TaskQueue<Instant, Timer>,
    start: Instant,
    /// What was called, and for when that was due.
    called: Mutex<Vec<(Duration, &'static str)>>,
}

impl Service {
    fn put(
        &self,
        due: Duration,
        timer: impl FnOnce(&Service) + Send + 'static,
    ) -> Result<(), Error> {
        self.timers.push(self.start + due, Box::new(timer))?;
        Ok(())
    }

    fn note(&self, due: Duration, name: &'static str) {
        let is_due = self.start.elapsed() >= due;
        let name = if is_due { name } else { "too early" };
        let mut called = self.called.lock().expect("no timer panics");
        called.push((due, name));
    }

    fn work(&self) -> Result<(), Error> {
        loop {
            match self.timers.take_due() {
                Ok((_, timer)) => timer(self),
                Err(Error::Shut) => return Ok(()),
                Err(error) => return Err(error),
            }
        }
    }
}

/// It is called again after each one and a half milliseconds and a nanosecond. The last one shuts the service.
fn tick(service: &Service, due: Duration, left: u32) -> Result<(), Error> {
    service.note(due, "tick");
    if left == 0 {
        return service.timers.shut();
    }
    let next = due + Duration::from_nanos(1_500_001);
    service.put(next, move |it| {
        tick(it, next, left - 1).expect("it is not shut yet")
    })
}

fn main() -> Result<(), Error> {
    let service = Service {
        timers: TaskQueue::new()?,
        start: Instant::now(),
        called: Mutex::default(),
    };
    for (nanoseconds, name) in [
        (30_000_000, "after the shut"),
        (2_000_001, "a nanosecond later"),
        (2_000_000, "two milliseconds"),
    ] {
        let due = Duration::from_nanos(nanoseconds);
        service.put(due, move |it| it.note(due, name))?;
    }
    thread::scope(|scope| {
        let workers: Vec<_> = (0..3).map(|_| scope.spawn(|| service.work())).collect();
        tick(&service, Duration::ZERO, 3)?;
        workers
            .into_iter()
            .try_for_each(|worker| worker.join().expect("a worker ends"))
    })?;
    let mut called = service.called.into_inner().expect("no timer panics");
    called.sort();
    for (due, name) in called {
        println!("{:>8} {name}", due.as_nanos());
    }
    Ok(())
}
