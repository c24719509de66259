//! Compares the library, linked through its safe wrapper, with the second program on random and hostile cases.
//!   compare [COUNT] [SEED]        COUNT cases, a million where none is given
//!   compare case NUMBER SEED      one of them again
//! Case number k of a seed is the same whatever the count, and whatever the number of threads. Prints the seed, each
//! case on which the two differ, and how often each call gave an answer and each refusal; exits with status 1 where
//! they differ, or where of ten thousand cases or more some call never gave an answer or one of its refusals.

mod calls;
mod draw;
mod guard;
mod tally;

use std::process::ExitCode;
use std::thread;
use tally::Tally;

const COUNT: u64 = 1_000_000;
const SEED: u64 = 1999;

/// The cases of the numbers from, from + step, .. below count.
fn compare(from: u64, step: u64, count: u64, seed: u64) -> Tally {
    let mut tally = Tally::new();
    for number in (from..count).step_by(step as usize) {
        tally.enter(number, calls::case(number, seed));
    }
    tally
}

fn all(count: u64, seed: u64) -> ExitCode {
    println!("seed {seed}, {count} cases");
    let threads = thread::available_parallelism().map_or(1, |n| n.get() as u64);
    let workers: Vec<_> = (0..threads).map(|k| thread::spawn(move || compare(k, threads, count, seed))).collect();
    let mut tally = Tally::new();
    for worker in workers {
        tally.join(worker.join().expect("a worker ends"));
    }
    tally.print();
    let missing = if count < 10_000 { Vec::new() } else { tally.missing() };
    for what in &missing {
        println!("never seen: {what}");
    }
    let wrong = tally.different() + missing.len();
    println!("{}", if wrong == 0 { "the two agree" } else { "THE TWO DIFFER" });
    ExitCode::from((wrong > 0) as u8)
}

fn one(number: u64, seed: u64) -> ExitCode {
    let mut tally = Tally::new();
    let made = calls::case(number, seed);
    println!("{}\n  library: {}\n  second:  {}", made.call, made.library, made.second);
    tally.enter(number, made);
    ExitCode::from((tally.different() > 0) as u8)
}

fn main() -> ExitCode {
    let words: Vec<String> = std::env::args().skip(1).collect();
    let number = |k: usize, default: u64| words.get(k).map_or(Some(default), |word| word.parse().ok());
    if words.first().is_some_and(|word| word == "case") && words.len() == 3 {
        if let (Some(k), Some(seed)) = (number(1, 0), number(2, 0)) {
            return one(k, seed);
        }
    } else if words.len() <= 2 {
        if let (Some(count), Some(seed)) = (number(0, COUNT), number(1, SEED)) {
            return all(count, seed);
        }
    }
    eprintln!("usage: compare [COUNT] [SEED] | compare case NUMBER SEED");
    ExitCode::from(2)
}
