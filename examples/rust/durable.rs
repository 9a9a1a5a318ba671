//! A job queue that survives a crash. The queue's journal is a file. At the start the file is read back, and the jobs that are left go into
//! a new queue, which begins a new file. An archiver appends what is new to the file, and syncs once for all of it. A job is acknowledged
//! once its entry is on disk: as pushed, and as taken out and done. So a job that was acknowledged as pushed is not lost before its pop
//! is on disk. One that was acknowledged as done doesn't come back. After its pop is on disk a crash loses a job, even unfinished.
//!
//! `durable [FILE [FIRST [JOBS]]]`: pushes so many jobs, with numbers from FIRST on, and does all that there are. FILE is in this folder.
use flatpq::{Error, Keeping, Options, Queue, ReadBack, TaskJournal};
use std::fmt::Display;
use std::fs::{self, File, OpenOptions};
use std::io::Seek;
use std::sync::atomic::{AtomicBool, AtomicU64, Ordering};
use std::time::Duration;
use std::{env, io, process, thread};

const PUSHERS: usize = 6;
const WORKERS: usize = 2;
const BESIDE: &str = "durable.new";

struct Jobs {
    queue: Queue,
    file: File,
    shows: bool,
    next: AtomicU64,
    end: u64,
    done: AtomicU64,
    is_over: AtomicBool,
}

fn must<T, E: Display>(result: Result<T, E>) -> T {
    result.unwrap_or_else(|why| {
        eprintln!("durable: {why}");
        process::exit(1)
    })
}

fn nap() {
    thread::sleep(Duration::from_micros(100));
}

/// Reads the old file back. A torn line was never acknowledged. A damaged one is cut off, with all that follows it: jobs may be lost.
fn read_back(old: &mut File) -> io::Result<ReadBack<u64, u64>> {
    match TaskJournal::read_from(&*old) {
        Err(refused) if refused.error == Error::NotLawful => {
            eprintln!("damaged line {}", refused.line);
            old.set_len(refused.bytes)?;
            old.rewind()?;
            Ok(TaskJournal::read_from(&*old)?)
        }
        read => Ok(read?),
    }
}

impl Jobs {
    /// Appends what is new, and syncs. Its next call says how many entries are on disk.
    fn archive(&self) -> io::Result<()> {
        let mut archived = 0;
        while !self.is_over.load(Ordering::Acquire) {
            let journal = self.queue.archive(archived)?;
            if journal.is_empty() {
                nap();
            } else {
                journal.write_to(&self.file)?;
                self.file.sync_all()?;
                archived += journal.len() as u64;
            }
        }
        Ok(())
    }

    /// Pushes a job: its entry. The queue refuses a request while too many entries wait for the archiver.
    fn push(&self, priority: u64, job: u64) -> u64 {
        loop {
            match self.queue.push(priority, job) {
                Err(refused) if refused.error == Error::Unarchived => nap(),
                pushed => return must(pushed),
            }
        }
    }

    /// It is shown where FILE is named; stderr has no buffer. Entry 0 needs no wait.
    fn acknowledge(&self, what: &str, job: u64, number: u64) {
        must(self.queue.wait_archived(number));
        if self.shows {
            eprintln!("{what} {job}");
        }
    }

    fn push_jobs(&self) {
        loop {
            let job = self.next.fetch_add(1, Ordering::Relaxed);
            if job >= self.end {
                return;
            }
            self.acknowledge("pushed", job, self.push(job % 7, job));
        }
    }

    fn work(&self) {
        let mut member = must(self.queue.join());
        loop {
            match member.take() {
                Err(Error::Shut) => return,
                Err(Error::Unarchived) => nap(),
                taken => {
                    let (_, job) = must(taken);
                    self.acknowledge("done", job, member.number());
                    self.done.fetch_add(1, Ordering::Relaxed);
                }
            }
        }
    }

    /// Moves what is left into the new queue, whose file takes the old one's place once it is on disk: how many jobs.
    fn recover(&self, name: &str) -> io::Result<u64> {
        let mut old = OpenOptions::new()
            .read(true)
            .append(true)
            .create(true)
            .open(name)?;
        let mut read = read_back(&mut old)?;
        let lines = if read.is_torn {
            "torn after line"
        } else {
            "lines"
        };
        self.acknowledge(lines, read.lines, 0);
        let (mut left, mut number) = (0, 0);
        for (priority, job) in read.journal.left() {
            number = self.push(priority, job);
            self.acknowledge("left", job, 0);
            left += 1;
        }
        self.queue.wait_archived(number)?;
        fs::rename(BESIDE, name)?;
        File::open(".")?.sync_all()?;
        Ok(left)
    }
}

fn main() -> io::Result<()> {
    let words: Vec<String> = env::args().skip(1).collect();
    let number = |at: usize, or: u64| words.get(at).map_or(or, |it| must(it.parse()));
    let (name, first) = (
        words.first().map_or("durable.journal", |it| it),
        number(1, 1),
    );
    let jobs = Jobs {
        queue: Options::new().keeping(Keeping::Refuses(0)).open()?,
        file: File::create(BESIDE)?,
        shows: !words.is_empty(),
        next: AtomicU64::new(first),
        end: first + number(2, 100),
        done: AtomicU64::new(0),
        is_over: AtomicBool::new(false),
    };
    let left = thread::scope(|scope| {
        scope.spawn(|| must(jobs.archive()));
        let left = must(jobs.recover(name));
        let pushers = [(); PUSHERS].map(|()| scope.spawn(|| jobs.push_jobs()));
        let workers = [(); WORKERS].map(|()| scope.spawn(|| jobs.work()));
        for pusher in pushers {
            pusher.join().expect("a pusher ends");
        }
        // All are pushed: workers end where no job is left.
        must(jobs.queue.shut());
        for worker in workers {
            worker.join().expect("a worker ends");
        }
        jobs.is_over.store(true, Ordering::Release);
        left
    });
    let done = jobs.done.into_inner();
    println!("{left} jobs were left, and {done} are done");
    Ok(())
}
