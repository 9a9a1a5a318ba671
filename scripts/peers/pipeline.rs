//! The pipeline of `pipeline.cpp` over a bounded channel of crossbeam-channel, which has no priorities.
//! `pipeline channel WORKERS ITEMS` prints `pipeline,channel,WORKERS,ITEMS,NANOSECONDS,audit ok`.
use crossbeam_channel::bounded;
use std::process::ExitCode;
use std::thread::scope;
use std::time::Instant;

const MOST_ITEMS: usize = 1024;

#[derive(Clone, Copy)]
struct Item {
    _priority: u64,
    value: u64,
}

/// How many nanoseconds it took, and the sum of the values.
fn run(workers: u64, items: u64) -> (u128, u64) {
    let began = Instant::now();
    let (sender, receiver) = bounded::<Item>(MOST_ITEMS);
    let sum = scope(|threads| {
        for worker in 0..workers {
            let sender = sender.clone();
            threads.spawn(move || {
                for value in (worker..items).step_by(workers as usize) {
                    let item = Item {
                        _priority: value.wrapping_mul(0x9E37_79B9_7F4A_7C15) >> 44,
                        value,
                    };
                    sender.send(item).expect("there are consumers");
                }
            });
        }
        drop(sender);
        let consumers: Vec<_> = (0..workers)
            .map(|_| threads.spawn(|| receiver.iter().map(|it| it.value).sum::<u64>()))
            .collect();
        consumers
            .into_iter()
            .map(|it| it.join().expect("nobody panics"))
            .sum()
    });
    (began.elapsed().as_nanos(), sum)
}

fn main() -> ExitCode {
    let words: Vec<String> = std::env::args().collect();
    let numbers: Vec<u64> = words
        .iter()
        .skip(2)
        .filter_map(|it| it.parse().ok())
        .collect();
    let [workers @ 1..=32, items @ 1..=100_000_000] = numbers[..] else {
        eprintln!("usage: pipeline channel WORKERS ITEMS");
        return ExitCode::from(2);
    };
    let (took, sum) = run(workers, items);
    let is_sound = sum == items * (items - 1) / 2;
    println!(
        "pipeline,channel,{workers},{items},{took},audit {}",
        if is_sound { "ok" } else { "failed" }
    );
    ExitCode::from(u8::from(!is_sound))
}
