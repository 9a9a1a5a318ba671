//! Timeouts of requests. A request that is sent sets a timeout, each part of its answer sets that anew, and the last part removes it. So a
//! request is either answered or times out, and never both. One thread receives answers, and another waits for timeouts.
use flatpq::{Error, Options, TaskQueue};
use std::collections::HashMap;
use std::thread;
use std::time::{Duration, Instant};

type Timeouts = TaskQueue<Instant, &'static str>;

/// What was sent: the tickets of the timeouts, and how long each request may take.
struct Requests<'a> {
    timeouts: &'a Timeouts,
    sent: HashMap<&'static str, (u64, Duration)>,
}

impl Requests<'_> {
    fn send(&mut self, name: &'static str, patience: Duration) -> Result<(), Error> {
        let ticket = self.timeouts.push(Instant::now() + patience, name)?;
        self.sent.insert(name, (ticket, patience));
        Ok(())
    }

    /// Whether the request has not timed out.
    fn receive_part(&mut self, name: &'static str) -> Result<bool, Error> {
        let (ticket, patience) = self.sent[name];
        let moved = self
            .timeouts
            .reschedule(ticket, Instant::now() + patience)?;
        if let Some(ticket) = moved {
            self.sent.insert(name, (ticket, patience));
        }
        Ok(moved.is_some())
    }

    fn receive_last(&self, name: &'static str) -> Result<&'static str, Error> {
        let removed = self.timeouts.remove(self.sent[name].0)?;
        Ok(removed.map_or("too late", |_| "answered"))
    }
}

/// Waits for timeouts until the queue is shut, and no request is left.
fn watch(timeouts: &Timeouts) -> Result<(), Error> {
    loop {
        match timeouts.take_due() {
            Ok((_, name)) => println!("{name}: timed out"),
            Err(Error::Shut) => return Ok(()),
            Err(error) => return Err(error),
        }
    }
}

fn main() -> Result<(), Error> {
    let timeouts = Options::new().tickets(true).open()?;
    let mut requests = Requests {
        timeouts: &timeouts,
        sent: HashMap::new(),
    };
    requests.send("search", Duration::from_millis(20))?;
    requests.send("login", Duration::from_secs(10))?;
    requests.send("download", Duration::from_secs(10))?;
    let (login, parts, download) = thread::scope(|threads| {
        let watcher = threads.spawn(|| watch(&timeouts));
        let login = requests.receive_last("login")?;
        let mut parts = 0;
        while parts < 3 && requests.receive_part("download")? {
            parts += 1;
        }
        let download = requests.receive_last("download")?;
        timeouts.shut()?;
        watcher.join().expect("the watcher ends")?;
        Ok::<_, Error>((login, parts, download))
    })?;
    println!("login: {login}");
    println!("download: {parts} parts, {download}");
    println!("search: {}", requests.receive_last("search")?);
    Ok(())
}
