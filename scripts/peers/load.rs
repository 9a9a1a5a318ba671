//! What a run's workers do and what is told of it, for the programs in Rust, as `load.h` has it for those in C and C++.
use std::process::exit;
use std::sync::Barrier;
use std::thread;
use std::time::Instant;

#[derive(Clone, Copy)]
pub struct Load {
    pub workers: u32,
    pub pushes: u32,
    pub pops: u32,
}

/// What a worker did: when it began and ended, and the sum of the priorities that it took out.
pub struct Worked {
    began: Instant,
    ended: Instant,
    sum: u64,
}

pub fn priority_of(worker: u32, number: u32) -> u64 {
    let spread = 7919 * u64::from(worker) + 104_729 * u64::from(number);
    spread % 1_000_003
}

impl Load {
    /// Reads KIND WORKERS PUSHES POPS, of one of these kinds: whether it is the first of them, and the load. Other
    /// words end the program.
    pub fn read(program: &str, kinds: [&str; 2]) -> (bool, Load) {
        let words: Vec<String> = std::env::args().skip(1).collect();
        let Some((kind, load)) = read_words(&words).filter(|(kind, _)| kinds.contains(kind)) else {
            let kinds = kinds.join("|");
            eprintln!("usage: {program} {kinds} WORKERS PUSHES POPS");
            exit(2);
        };
        (kind == kinds[0], load)
    }

    /// How many calls all workers make.
    pub fn calls(self) -> u32 {
        self.workers * (self.pushes + self.pops)
    }

    /// How many items are left in the end.
    pub fn left(self) -> u32 {
        self.workers * (self.pushes - self.pops)
    }

    /// The sum of the priorities that are pushed.
    pub fn pushed_sum(self) -> u64 {
        (0..self.workers)
            .flat_map(|worker| (0..self.pushes).map(move |number| priority_of(worker, number)))
            .sum()
    }

    /// Has each worker make its calls in a thread of its own, once all have begun. A call gives the priority that came out, or 0.
    pub fn run<C: FnMut(u32) -> u64 + Send>(self, call_of: impl FnMut(u32) -> C) -> Vec<Worked> {
        let line = Barrier::new(self.workers as usize);
        let calls: Vec<C> = (0..self.workers).map(call_of).collect();
        thread::scope(|scope| {
            let start = |call| {
                let line = &line;
                scope.spawn(move || self.work(line, call))
            };
            let threads: Vec<_> = calls.into_iter().map(start).collect();
            threads
                .into_iter()
                .map(|it| it.join().expect("nobody panics"))
                .collect()
        })
    }

    fn work(self, line: &Barrier, mut call: impl FnMut(u32) -> u64) -> Worked {
        let mut sum = 0;
        line.wait();
        let began = Instant::now();
        for number in 0..self.pushes + self.pops {
            sum += call(number);
        }
        Worked {
            began,
            ended: Instant::now(),
            sum,
        }
    }

    /// Tells a run of this name, and ends the program. Whether it was sound is asked with the sum of what came out.
    pub fn tell(self, name: &str, worked: Vec<Worked>, is_sound: impl FnOnce(u64) -> bool) -> ! {
        let began = worked.iter().map(|it| it.began).min();
        let ended = worked.iter().map(|it| it.ended).max();
        let took = ended
            .zip(began)
            .map_or(0, |(ended, began)| (ended - began).as_nanos());
        let out = worked.iter().map(|it| it.sum).sum();
        let sound = is_sound(out);
        let audit = if sound { "ok" } else { "failed" };
        let (workers, calls) = (self.workers, self.calls());
        println!("{name},{workers},{calls},{took},audit {audit}");
        exit(i32::from(!sound));
    }
}

fn read_words(words: &[String]) -> Option<(&str, Load)> {
    let [kind, workers, pushes, pops] = words else {
        return None;
    };
    let load = Load {
        workers: workers.parse().ok()?,
        pushes: pushes.parse().ok()?,
        pops: pops.parse().ok()?,
    };
    ((1..=64).contains(&load.workers)
        && (1..=8192).contains(&load.pushes)
        && load.pops <= load.pushes)
        .then_some((kind, load))
}
