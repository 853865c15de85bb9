//! The Rust unchanged and the port's archive in one process, on the same inputs.
//!
//! `compare [COUNT] [SEED]`: all fixed cases, then COUNT random ones. It ends with 1 if there is a
//! difference. The cases depend on COUNT and SEED alone.

mod days;
mod encode;
mod entries;
mod grids;
mod lines;
mod random_numbers;
mod random_texts;
mod short_texts;
mod tally;

use std::process::ExitCode;
use std::sync::Mutex;
use std::sync::atomic::{AtomicUsize, Ordering};
use std::thread;
use std::time::Instant;

use oracle::{EPOCHS, Random};
use random_numbers::Bases;
use random_texts::Texts;
use tally::{NAMES, SPLITS, Tally};

const DEFAULT_COUNT: u64 = 2_000_000;
const DEFAULT_SEED: u64 = 1970;
const THREADS: usize = 2;

/// Random cases are made in parts of this many.
const PART: u64 = 100_000;

/// A part of the cases.
type Job = Box<dyn Fn(&mut Tally) + Send + Sync>;

fn main() -> ExitCode {
    let words: Vec<String> = std::env::args().skip(1).collect();
    let numbers: Option<Vec<u64>> = words.iter().map(|word| word.parse().ok()).collect();
    let (count, seed) = match numbers.as_deref() {
        Some([]) => (DEFAULT_COUNT, DEFAULT_SEED),
        Some(&[count]) => (count, DEFAULT_SEED),
        Some(&[count, seed]) => (count, seed),
        _ => {
            eprintln!("usage: compare [COUNT] [SEED]");
            return ExitCode::from(2);
        }
    };
    let start = Instant::now();
    let mut jobs = fixed_jobs();
    jobs.extend(random_jobs(count, seed));
    let tally = run(&jobs);
    report(&tally);
    println!("{:.1} s, seed {seed}", start.elapsed().as_secs_f64());
    ExitCode::from(u8::from(tally.all_differences() > 0))
}

/// The cases that are the same on every run.
fn fixed_jobs() -> Vec<Job> {
    let mut jobs: Vec<Job> = vec![Box::new(grids::counts), Box::new(short_texts::megabytes)];
    for epoch in EPOCHS {
        jobs.push(Box::new(move |tally| grids::epochs(tally, epoch)));
        jobs.push(Box::new(move |tally| grids::dates(tally, epoch)));
        jobs.push(Box::new(move |tally| grids::prints(tally, epoch)));
    }
    for year in days::CYCLES {
        jobs.push(Box::new(move |tally| days::every_day(tally, year)));
        jobs.push(Box::new(move |tally| days::every_date(tally, year)));
    }
    for year in days::YEARS {
        jobs.push(Box::new(move |tally| days::every_field(tally, year)));
    }
    for prefix in short_texts::PREFIXES {
        jobs.push(Box::new(move |tally| short_texts::behind(tally, prefix)));
    }
    jobs
}

/// So many random cases, each part from a seed of its own.
fn random_jobs(count: u64, seed: u64) -> impl Iterator<Item = Job> {
    let mut seeds = Random::new(seed);
    (0..count.div_ceil(PART)).map(move |part| {
        let (seed, cases) = (seeds.any(), PART.min(count - part * PART));
        Box::new(move |tally: &mut Tally| random_cases(tally, cases, seed)) as Job
    })
}

fn random_cases(tally: &mut Tally, cases: u64, seed: u64) {
    let mut random = Random::new(seed);
    let (bases, mut texts) = (Bases(grids::seconds()), Texts::default());
    while tally.all_cases() < cases {
        match random.below(8) {
            0..2 => bases.print(tally, &mut random),
            2..5 => texts.one(tally, &mut random),
            _ => bases.one(tally, &mut random),
        }
    }
}

/// Runs the jobs on all threads; what they counted is put together in their order.
fn run(jobs: &[Job]) -> Tally {
    let (next, done) = (AtomicUsize::new(0), Mutex::new(Vec::new()));
    thread::scope(|scope| {
        for _ in 0..THREADS {
            scope.spawn(|| {
                while let Some((place, job)) = {
                    let place = next.fetch_add(1, Ordering::Relaxed);
                    jobs.get(place).map(|job| (place, job))
                } {
                    let mut tally = Tally::default();
                    job(&mut tally);
                    done.lock().expect("no thread panics").push((place, tally));
                }
            });
        }
    });
    let mut done = done.into_inner().expect("no thread panics");
    done.sort_by_key(|&(place, _)| place);
    let mut sum = Tally::default();
    for (_, tally) in done {
        sum.take_in(tally);
    }
    sum
}

fn report(tally: &Tally) {
    println!("{:24} {:>13} {:>12}", "entry", "cases", "differences");
    for (place, name) in NAMES.iter().enumerate() {
        let (cases, differences) = (tally.cases[place], tally.differences[place]);
        println!("{name:24} {cases:>13} {differences:>12}");
    }
    let (cases, differences) = (tally.all_cases(), tally.all_differences());
    println!("{:24} {cases:>13} {differences:>12}", "all");
    println!(
        "no room: {} cases, each with the number of bytes that it wants offered, and one fewer",
        tally.offers
    );
    for (split, cases) in SPLITS.iter().zip(tally.splits) {
        println!("listed split: {cases} cases of {split}");
    }
    for difference in tally.first.iter().flatten() {
        println!("{difference}");
    }
}
