//! compare [CHECK..] [LENGTH] [--seed N]: the proved library and the Rust on the same inputs.
//! compare bench [--seed N]: their times on the same inputs.

mod bench;
mod check;
mod ours;

use std::process::ExitCode;
use std::time::Duration;

use check::{Length, Plan};
use driver::libebur128;

const SEED: u64 = 20_260_115;

fn main() -> ExitCode {
    let mut words = std::env::args().skip(1).peekable();
    let bench = words.next_if(|word| word == "bench").is_some();
    let Some(plan) = plan(words, bench) else {
        eprintln!("usage: compare [CHECK..] [LENGTH] [--seed N]");
        eprintln!("       compare bench [--seed N]");
        eprintln!(
            "LENGTH: a time (60s, 10m, 1h) or a number of inputs; CHECK: {}",
            check::names()
        );
        return ExitCode::from(2);
    };
    println!("seed {}; {}", plan.seed, libebur128::status());
    if bench {
        bench::run(plan.seed);
        return ExitCode::SUCCESS;
    }
    match check::run(&plan) {
        Ok(()) => {
            println!("no difference");
            ExitCode::SUCCESS
        }
        Err(difference) => {
            println!("{difference}");
            ExitCode::FAILURE
        }
    }
}

/// What the command line asks for, if it can be read. The benchmark takes a seed alone.
fn plan(mut words: impl Iterator<Item = String>, bench: bool) -> Option<Plan> {
    let mut plan = Plan::new(SEED);
    while let Some(word) = words.next() {
        if word == "--seed" {
            plan.seed = words.next()?.parse().ok()?;
        } else if bench {
            return None;
        } else if word.starts_with(|first: char| first.is_ascii_digit()) {
            plan.length = length(&word)?;
        } else if !plan.add(&word) {
            return None;
        }
    }
    Some(plan)
}

/// A time, or a number of inputs.
fn length(word: &str) -> Option<Length> {
    let (number, seconds) = match word.strip_suffix(['s', 'm', 'h']) {
        None => return Some(Length::Cases(word.parse().ok()?)),
        Some(number) if word.ends_with('s') => (number, 1),
        Some(number) if word.ends_with('m') => (number, 60),
        Some(number) => (number, 3600),
    };
    let seconds = number.parse::<u64>().ok()?.checked_mul(seconds)?;
    Some(Length::Time(Duration::from_secs(seconds)))
}
