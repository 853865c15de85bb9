//! The clock: both sides in turn, nine rounds, and their medians.

use std::time::Duration;

const ROUNDS: usize = 9;

/// How often a round goes through all inputs on each side.
const PASSES: usize = 32;

/// Nanoseconds a call in each round, the port's and the other's.
struct Times {
    port: Vec<f64>,
    other: Vec<f64>,
}

/// What was measured: a line for each row at once, and all rounds at the end.
pub struct Report {
    calls: usize,
    rows: Vec<(String, Times)>,
}

impl Report {
    /// Names the processor, the build profile and the columns; a side makes `calls` in a pass.
    pub fn new(other: &str, calls: usize) -> Self {
        println!("{}", processor().unwrap_or("unknown processor".into()));
        println!("build profile: {}", profile().unwrap_or("unknown".into()));
        println!("nanoseconds of processor time a call, median of {ROUNDS} rounds\n");
        println!("{:34} {:>8} {other:>8} {:>8}", "", "port", "ratio");
        Report {
            calls,
            rows: Vec::new(),
        }
    }

    /// Times both sides; the first round only warms up.
    pub fn measure(&mut self, row: &str, mut port: impl FnMut(), mut other: impl FnMut()) {
        self.round(&mut port, &mut other);
        let rounds = (0..ROUNDS).map(|_| self.round(&mut port, &mut other));
        let (port, other) = rounds.unzip();
        let times = Times { port, other };
        let (port, other) = (median(&times.port), median(&times.other));
        println!("{row:34} {port:>8.1} {other:>8.1} {:>8.2}", port / other);
        self.rows.push((row.to_owned(), times));
    }

    /// Nanoseconds a call in one round, whose passes are the port's and the other's in turn.
    fn round(&self, port: &mut impl FnMut(), other: &mut impl FnMut()) -> (f64, f64) {
        let (mut port_time, mut other_time) = (Duration::ZERO, Duration::ZERO);
        for _ in 0..PASSES {
            port_time += time(port);
            other_time += time(other);
        }
        let a_call = |all: Duration| all.as_nanos() as f64 / (PASSES * self.calls) as f64;
        (a_call(port_time), a_call(other_time))
    }

    /// Every figure behind the medians.
    pub fn print_rounds(&self) {
        println!("\nthe {ROUNDS} rounds, the port's and below it the other's");
        for (row, times) in &self.rows {
            println!("{row:34} {}", figures(&times.port));
            println!("{:34} {}", "", figures(&times.other));
        }
    }
}

fn figures(times: &[f64]) -> String {
    times.iter().map(|time| format!("{time:>6.1}")).collect()
}

fn median(times: &[f64]) -> f64 {
    let mut times = times.to_vec();
    times.sort_by(f64::total_cmp);
    times[times.len() / 2]
}

fn processor() -> Option<String> {
    let info = std::fs::read_to_string("/proc/cpuinfo").ok()?;
    let line = info.lines().find(|line| line.starts_with("model name"))?;
    Some(line.split_once(": ")?.1.to_owned())
}

/// Cargo puts a program into a folder that has its profile's name.
fn profile() -> Option<String> {
    let program = std::env::current_exe().ok()?;
    Some(program.parent()?.file_name()?.to_str()?.to_owned())
}

fn time(side: &mut impl FnMut()) -> Duration {
    let start = processor_time();
    side();
    processor_time() - start
}

#[repr(C)]
struct TimeSpec {
    secs: i64,
    nanos: i64,
}

const THREAD_CPUTIME: i32 = 3;

unsafe extern "C" {
    fn clock_gettime(clock: i32, time: *mut TimeSpec) -> i32;
}

/// The time that a processor has spent on this thread, as 64-bit Linux counts it; other programs
/// that run meanwhile do not add to it.
fn processor_time() -> Duration {
    let mut time = TimeSpec { secs: 0, nanos: 0 };
    // SAFETY: the call fills the struct, which has the layout of C's.
    let failed = unsafe { clock_gettime(THREAD_CPUTIME, &mut time) };
    assert_eq!(failed, 0, "the thread's clock cannot be read");
    Duration::new(time.secs as u64, time.nanos as u32)
}
