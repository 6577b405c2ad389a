//! The comparison: one function an operation, each a stream of cases that ends at the first difference.

mod audio;
mod bins;
mod filter;
mod gate;
mod histogram;
mod interleaved;
mod interp;
mod queue;
mod range;
mod records;
mod sets;
mod tally;
mod true_peak;

use std::panic;
use std::sync::atomic::{AtomicUsize, Ordering};
use std::sync::Mutex;
use std::thread;
use std::time::{Duration, Instant};

use driver::energies;
use driver::rng::Rng;

use tally::{Difference, Operation};

/// One operation, or several that are asked about the same inputs, with its name for the command line.
type Job = (&'static str, fn(u64) -> Result<(), Difference>);

/// The longest first, so that the threads of a round end at about the same time.
const CHECKS: &[Job] = &[
    ("audio", audio::run),
    ("filter", filter::run),
    ("queue", queue::run),
    ("gate", gate::run),
    ("true_peak", true_peak::run),
    ("range", range::run),
    ("histogram", histogram::run),
    ("interp", interp::run),
    ("interleaved", interleaved::run),
    ("bins", bins::run),
    ("records", records::run),
];

/// How long to compare: so much time, as near as whole rounds come to it, or until so many inputs were the
/// same.
pub enum Length {
    Time(Duration),
    Cases(u64),
}

pub struct Plan {
    /// The checks of a round, by their places; all of them where this is empty.
    only: Vec<usize>,
    pub length: Length,
    pub seed: u64,
}

impl Plan {
    /// A minute of all checks.
    pub fn new(seed: u64) -> Self {
        Plan {
            only: Vec::new(),
            length: Length::Time(Duration::from_secs(60)),
            seed,
        }
    }

    /// Adds a check by its name, if there is one of that name.
    pub fn add(&mut self, name: &str) -> bool {
        let place = CHECKS.iter().position(|(check, _)| *check == name);
        self.only.extend(place);
        place.is_some()
    }

    fn checks(&self) -> Vec<Job> {
        match self.only.is_empty() {
            true => CHECKS.to_vec(),
            false => self.only.iter().map(|&place| CHECKS[place]).collect(),
        }
    }
}

/// The names that `Plan::add` knows.
pub fn names() -> String {
    let names: Vec<&str> = CHECKS.iter().map(|(name, _)| *name).collect();
    names.join(" ")
}

/// Rounds of all checks, each with a seed of its own: a round that differs is run again by its seed. At
/// least one is run, and all are run to their end, so a number of cases gives the same run every time.
pub fn run(plan: &Plan) -> Result<(), Difference> {
    let (start, checks) = (Instant::now(), plan.checks());
    for number in 0.. {
        let seed = plan.seed.wrapping_add(number);
        let began = Instant::now();
        let before = tally::cases();
        round(&checks, seed, number == 0)?;
        let (all, seconds) = (tally::cases(), began.elapsed().as_secs_f64());
        let cases = tally::grouped(all - before);
        println!(
            "round {}, seed {seed}: {cases} same, {seconds:.0} s",
            number + 1
        );
        let done = match plan.length {
            Length::Time(time) => start.elapsed() + began.elapsed() / 2 >= time,
            Length::Cases(cases) => all >= cases,
        };
        if done {
            break;
        }
    }
    tally::table()
}

/// Every check once, as many side by side as there are processors.
fn round(checks: &[Job], seed: u64, shown: bool) -> Result<(), Difference> {
    let next = AtomicUsize::new(0);
    let first: Mutex<Option<Difference>> = Mutex::new(None);
    let work = || {
        while let Some((name, check)) = checks.get(next.fetch_add(1, Ordering::Relaxed)) {
            let began = Instant::now();
            let answer = panic::catch_unwind(|| check(seed));
            let answer = answer.unwrap_or_else(|_| Err(Difference("it panicked".to_string())));
            if let Err(difference) = answer {
                let again = format!("\nrun it again: compare/run {name} 1 --seed {seed}");
                let mut first = first.lock().expect("no thread panics");
                first.get_or_insert(Difference(format!("{name}: {difference}{again}")));
                next.store(checks.len(), Ordering::Relaxed);
            } else if shown {
                println!("{name}: same, {:.1} s", began.elapsed().as_secs_f64());
            }
        }
    };
    let threads = thread::available_parallelism().map_or(1, usize::from);
    thread::scope(|scope| (0..threads).for_each(|_| drop(scope.spawn(work))));
    first
        .into_inner()
        .expect("no thread panics")
        .map_or(Ok(()), Err)
}

fn shown(energy: f64) -> String {
    format!("energy {energy:e} (pattern {:016x})", energy.to_bits())
}

/// The same float; every NaN is the same.
fn same_float(a: f64, b: f64) -> bool {
    a.to_bits() == b.to_bits() || a.is_nan() && b.is_nan()
}

/// The same floats, place by place.
fn same_floats(a: &[f64], b: &[f64]) -> bool {
    a.len() == b.len() && a.iter().zip(b).all(|(&a, &b)| same_float(a, b))
}

/// As `same_floats`; a float of 32 bits is the same after it was made wider.
fn same_narrow(a: &[f32], b: &[f32]) -> bool {
    let mut pairs = a.iter().zip(b);
    a.len() == b.len() && pairs.all(|(&a, &b)| same_float(f64::from(a), f64::from(b)))
}

/// What stands in a place that a question does not write.
const UNTOUCHED: f64 = -12345.678;

/// The fixed energies, then `number` random floats of any kind and as many within the table.
fn inputs(number: usize, rng: &mut Rng) -> impl Iterator<Item = f64> + '_ {
    let random = (0..2 * number).map(move |i| match i % 2 {
        0 => energies::any(rng),
        _ => energies::in_table(rng),
    });
    energies::fixed().into_iter().chain(random)
}
