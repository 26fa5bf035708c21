//! Medians of interleaved runs, one line for each figure.

use std::fs;
use std::hint::black_box;
use std::time::Instant;

/// How long the call takes, in ns. Dropping the result is not counted, nor is waiting for a core that another process has.
pub fn timed<T>(call: impl FnOnce() -> T) -> u128 {
    let waited = waited();
    let start = Instant::now();
    let value = black_box(call());
    let took = start.elapsed().as_nanos();
    drop(value);
    took.saturating_sub(self::waited() - waited)
}

/// How long this thread has been ready to run without a core, in ns; 0 where the system does not tell.
fn waited() -> u128 {
    let text = fs::read_to_string("/proc/thread-self/schedstat").unwrap_or_default();
    let second = text.split_whitespace().nth(1);
    second.and_then(|word| word.parse().ok()).unwrap_or(0)
}

/// The system's load, so that figures of a busy machine can be told.
pub fn load() {
    let text = fs::read_to_string("/proc/loadavg").unwrap_or_default();
    let first = text.split_whitespace().next();
    println!("# load: {}", first.unwrap_or("unknown"));
}

pub struct Table {
    pub runs: usize,
}

impl Table {
    pub fn head(&self) {
        println!(
            "# medians of {} interleaved runs after one warm-up",
            self.runs
        );
        println!(
            "{:<20} {:<10} {:>7} {:>10} {:>10} {:>6}",
            "CALL", "MATRIX", "ACTIVE%", "OURS_NS", "RUST_NS", "RATIO"
        );
    }

    /// Runs both sides in turn, the first of each pair changing, and prints the line.
    pub fn line(
        &self,
        (call, matrix, active): (&str, &str, &str),
        mut ours: impl FnMut() -> u128,
        mut rust: impl FnMut() -> u128,
    ) {
        ours();
        rust();
        let (mut a, mut b) = (Vec::new(), Vec::new());
        for run in 0..self.runs {
            if run % 2 == 0 {
                a.push(ours());
                b.push(rust());
            } else {
                b.push(rust());
                a.push(ours());
            }
        }
        let (a, b) = (median(a), median(b));
        let ratio = a as f64 / b as f64;
        println!("{call:<20} {matrix:<10} {active:>7} {a:>10} {b:>10} {ratio:>6.2}");
    }
}

/// The middle of an odd number of times.
fn median(mut times: Vec<u128>) -> u128 {
    times.sort_unstable();
    times[times.len() / 2]
}
