//! Holds the library's outcome of each call against hybit's and the model's, and counts.

use crate::demand::{self, Pair, ROUTES};
use crate::fault::alter;
use crate::make::Judge;
use crate::parts::{KINDS, kind};
use crate::rng::Rng;
use crate::{Sink, shrink};
use calls::{Call, Outcome};
use judges::hybit::{self, Reason};
use std::sync::atomic::{AtomicU64, Ordering::Relaxed};
use std::sync::{Mutex, OnceLock};
use std::time::Instant;

/// What was compared so far, by kind of call.
pub struct Tally {
    rust: [AtomicU64; KINDS],
    model: [AtomicU64; KINDS],
    reasons: [AtomicU64; Reason::ALL.len()],
    names: [OnceLock<&'static str>; KINDS],
    demand_rust: [AtomicU64; ROUTES.len()],
    demand_model: [AtomicU64; ROUTES.len()],
}

impl Tally {
    pub const fn new() -> Tally {
        Tally {
            rust: [const { AtomicU64::new(0) }; KINDS],
            model: [const { AtomicU64::new(0) }; KINDS],
            reasons: [const { AtomicU64::new(0) }; Reason::ALL.len()],
            names: [const { OnceLock::new() }; KINDS],
            demand_rust: [const { AtomicU64::new(0) }; ROUTES.len()],
            demand_model: [const { AtomicU64::new(0) }; ROUTES.len()],
        }
    }

    fn count_demand(&self, (rust, model): demand::Compared) {
        for route in 0..ROUTES.len() {
            self.demand_rust[route].fetch_add(rust[route], Relaxed);
            self.demand_model[route].fetch_add(model[route], Relaxed);
        }
    }

    fn count(&self, call: &Call, judged: &Judged) {
        let n = kind(call);
        self.names[n].get_or_init(|| call.name());
        self.model[n].fetch_add(1, Relaxed);
        match &judged.hybit {
            Ok(_) => self.rust[n].fetch_add(1, Relaxed),
            Err(reason) => self.reasons[*reason as usize].fetch_add(1, Relaxed),
        };
    }
}

impl Default for Tally {
    fn default() -> Self {
        Tally::new()
    }
}

/// The sum of the threads' tallies, as lines; the last has all comparisons and the differences found.
pub fn summary(tallies: &[Tally], differences: u64) -> String {
    let sum = |counter: &dyn Fn(&Tally) -> u64| tallies.iter().map(counter).sum::<u64>();
    let mut text = String::new();
    let mut total = 0;
    for n in 0..KINDS {
        let rust = sum(&|t| t.rust[n].load(Relaxed));
        let model = sum(&|t| t.model[n].load(Relaxed));
        let name = tallies.iter().find_map(|t| t.names[n].get());
        if let Some(name) = name {
            text += &format!("{name} {rust} {model}\n");
        }
        total += rust + model;
    }
    for (route, name) in ROUTES.iter().enumerate() {
        let rust = sum(&|t| t.demand_rust[route].load(Relaxed));
        let model = sum(&|t| t.demand_model[route].load(Relaxed));
        text += &format!("{name} {rust} {model}\n");
        total += rust + model;
    }
    for reason in Reason::ALL {
        let count = sum(&|t| t.reasons[reason as usize].load(Relaxed));
        let why = reason.text();
        text += &format!("the Rust was no judge: {reason:?} ({why}): {count}\n");
    }
    text + &format!("{total} comparisons, {differences} unlisted differences\n")
}

/// The outcomes of one call.
pub struct Judged {
    pub ours: Outcome,
    pub model: Outcome,
    pub hybit: Result<Outcome, Reason>,
}

impl Judged {
    /// Where the Rust can't judge for a refusal of document 01, the library must give that refusal.
    pub fn differ(&self) -> bool {
        let from_hybit = match &self.hybit {
            Ok(outcome) => *outcome != self.ours,
            Err(reason) => reason.number().is_some_and(|n| n != self.ours.number),
        };
        from_hybit || self.model != self.ours
    }
}

/// The outcomes of a call, the library's by the judge that stands for it and altered where a fault is asked for.
pub fn judge(call: &Call, library: Judge, fault: Option<&str>) -> Judged {
    let mut ours = library(call);
    if let Some(name) = fault {
        alter(call, name, &mut ours);
    }
    Judged {
        ours,
        model: model::judge(call),
        hybit: hybit::judge(call),
    }
}

/// One thread of the comparison. The first difference that any thread finds ends the program.
pub struct Run<'a> {
    pub tallies: &'a [Tally],
    pub thread: usize,
    /// `ours::judge`, or the model's where it is held against hybit's Rust alone.
    pub library: Judge,
    pub fault: Option<&'a str>,
    pub end: Instant,
}

static FOUND: Mutex<()> = Mutex::new(());

impl Run<'_> {
    fn stop(&self, call: &Call) -> ! {
        let _only_one = FOUND.lock();
        let small = shrink::smallest(call, &|c| judge(c, self.library, self.fault).differ());
        let judged = judge(&small, self.library, self.fault);
        println!("difference in {}", small.name());
        println!("call:  {small:?}");
        println!("ours:  {:?}", judged.ours);
        match &judged.hybit {
            Ok(outcome) => println!("hybit: {outcome:?}"),
            Err(reason) => println!("hybit: no judge: {reason:?} ({})", reason.text()),
        }
        println!("model: {:?}", judged.model);
        print!("{}", summary(self.tallies, 1));
        std::process::exit(1);
    }
}

impl Run<'_> {
    /// Some pairs of demand 3.
    pub fn demand(&mut self, rng: &mut Rng, pairs: usize) {
        for _ in 0..pairs {
            let pair = demand::pair(rng);
            match demand::compare(self.library, &pair, self.fault) {
                Ok(compared) => self.tallies[self.thread].count_demand(compared),
                Err(_) => self.stop_demand(&pair),
            }
        }
    }

    fn stop_demand(&self, pair: &Pair) -> ! {
        let _only_one = FOUND.lock();
        let found = |pair: &Pair| demand::compare(self.library, pair, self.fault).err();
        let small = demand::smallest(pair, &|pair| found(pair).is_some());
        let difference = found(&small).expect("the smallest differs too");
        println!("difference in {}", difference.route);
        println!("call:  {small:?}");
        println!("{}", difference.text);
        print!("{}", summary(self.tallies, 1));
        std::process::exit(1);
    }
}

impl Sink for Run<'_> {
    fn call(&mut self, call: &Call) {
        let judged = judge(call, self.library, self.fault);
        self.tallies[self.thread].count(call, &judged);
        if judged.differ() {
            self.stop(call);
        }
    }

    fn done(&self) -> bool {
        Instant::now() >= self.end
    }
}
