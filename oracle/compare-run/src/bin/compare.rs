//! `compare --seed N --seconds S [--library none] [--break FAULT]`: the tiny inputs whole, some random ones, the named cases, the
//! edge of the domain, then random calls until the seconds are over. With `--library none` the model is held against hybit's
//! Rust alone. `compare --faults` lists the named faults, each with its call; the name of a call is a fault too.

use compare_run::make::Judge;
use compare_run::run::{Run, Tally, summary};
use compare_run::{Sink, cases, edge, exhaustive, fault, random, rng::Rng};
use judges::ours;
use std::process::ExitCode;
use std::time::{Duration, Instant};

const THREADS: usize = 2;
/// Random rounds before the large calls at the edge of the domain: most faults show in small calls, which shrink fast.
const FIRST_ROUNDS: usize = 10_000;
static TALLIES: [Tally; THREADS] = [const { Tally::new() }; THREADS];

struct Options {
    seed: u64,
    seconds: u64,
    library: Judge,
    fault: Option<String>,
}

fn options() -> Result<Options, String> {
    let mut options = Options {
        seed: 1,
        seconds: 60,
        library: ours::judge,
        fault: None,
    };
    let mut args = std::env::args().skip(1);
    while let Some(name) = args.next() {
        let value = args.next().ok_or(format!("{name} needs a value"))?;
        let number = || value.parse().map_err(|_| format!("{value} is no number"));
        match name.as_str() {
            "--seed" => options.seed = number()?,
            "--seconds" => options.seconds = number()?,
            "--library" if value == "none" => options.library = model::judge,
            "--break" => options.fault = Some(value),
            _ => return Err(format!("no option {name}")),
        }
    }
    Ok(options)
}

fn work(thread: usize, options: &Options, end: Instant) {
    let mut run = Run {
        tallies: &TALLIES,
        thread,
        library: options.library,
        fault: options.fault.as_deref(),
        end,
    };
    let mut share = exhaustive::Share::new(thread, THREADS);
    exhaustive::all(&mut run, options.library, &mut share);
    let seed = options.seed.wrapping_mul(THREADS as u64) + thread as u64;
    let mut rng = Rng::new(seed);
    for _ in 0..FIRST_ROUNDS {
        random::round(&mut run, options.library, &mut rng);
        run.demand(&mut rng, 1);
    }
    for call in cases::calls().iter().skip(thread).step_by(THREADS) {
        run.call(call);
    }
    edge::all(&mut run, options.library, thread);
    while !run.done() {
        random::round(&mut run, options.library, &mut rng);
        run.demand(&mut rng, 1);
    }
}

fn main() -> ExitCode {
    if std::env::args().nth(1).as_deref() == Some("--faults") {
        fault::named().for_each(|(name, call, _)| println!("{name} {call}"));
        return ExitCode::SUCCESS;
    }
    let options = match options() {
        Ok(options) => options,
        Err(message) => {
            eprintln!("{message}");
            return ExitCode::from(2);
        }
    };
    let end = Instant::now() + Duration::from_secs(options.seconds);
    std::thread::scope(|scope| {
        for thread in 0..THREADS {
            let options = &options;
            scope.spawn(move || work(thread, options, end));
        }
    });
    print!("{}", summary(&TALLIES, 0));
    match options.fault {
        Some(name) => {
            eprintln!("the fault in {name} was not found, or there is no such call");
            ExitCode::from(3)
        }
        None => ExitCode::SUCCESS,
    }
}
