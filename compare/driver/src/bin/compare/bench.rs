//! The benchmark: each operation on both sides, over the same input in one run. Rounds of the two
//! sides alternate, so that a change in the machine's pace meets both. The best round counts: other
//! work on the machine can only add to a time.

mod bins;
mod filter;
mod histories;
mod questions;
mod records;

use std::hint::black_box;
use std::time::Instant;

use driver::energies;
use driver::rng::Rng;

const ROUNDS: usize = 41;

/// One round of so many has libebur128 in it: its true peak takes longer than all the rest.
const IN_C: usize = 4;

/// The energies of a round.
const ITEMS: usize = 100_000;

pub fn run(seed: u64) {
    let in_c = (ROUNDS + IN_C - 1) / IN_C;
    println!("the best of {ROUNDS} rounds, {in_c} of libebur128's, sides alternating\n");
    println!("| nanoseconds an item | ours | the Rust | libebur128 | ours/Rust |");
    println!("|---|---:|---:|---:|---:|");
    let mut rng = Rng::new(seed);
    let spread: Vec<f64> = (0..ITEMS)
        .map(|_| energies::log_uniform(&mut rng))
        .collect();
    let one_bin: Vec<f64> = (0..ITEMS)
        .map(|_| energies::in_bin(470, &mut rng))
        .collect();
    for (inputs, energies) in [("-70 to +30 LUFS", &spread), ("all in one bin", &one_bin)] {
        bins::run(inputs, energies);
        histories::adds(inputs, energies);
    }
    histories::run(&mut rng);
    questions::run(&mut rng);
    records::run(&mut rng);
    filter::run(&mut rng);
}

/// As `row_in_c`, where libebur128 has no such function.
fn row(name: &str, items: usize, ours: impl FnMut(), rust: impl FnMut()) {
    row_in_c(name, items, ours, rust, None::<fn()>);
}

/// Times all sides, which each do `items` items a call, and prints the row; a dash where there is no third
/// side.
fn row_in_c(
    name: &str,
    items: usize,
    mut ours: impl FnMut(),
    mut rust: impl FnMut(),
    mut c: Option<impl FnMut()>,
) {
    let mut best = [f64::INFINITY; 3];
    for round in 0..ROUNDS {
        best[0] = best[0].min(timed(&mut ours));
        best[1] = best[1].min(timed(&mut rust));
        match &mut c {
            Some(c) if round % IN_C == 0 => best[2] = best[2].min(timed(c)),
            _ => {}
        }
    }
    let [ours, rust, in_c] = best.map(|time| time / items as f64);
    let in_c = c.map_or("-".to_string(), |_| format!("{in_c:.2}"));
    println!(
        "| {name} | {ours:.2} | {rust:.2} | {in_c} | {:.2} |",
        ours / rust
    );
}

/// Asks so many times.
fn asked<T>(times: usize, question: impl Fn() -> T) {
    for _ in 0..times {
        black_box(question());
    }
}

/// Nanoseconds of one round.
fn timed(side: &mut impl FnMut()) -> f64 {
    let start = Instant::now();
    side();
    start.elapsed().as_nanos() as f64
}
