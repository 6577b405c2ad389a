//! Adding to histories, merging and clearing them.

use std::hint::black_box;

use driver::rng::Rng;
use ebur128::history::History;

use super::row;
use crate::ours;

/// Merges and resets a round.
const TIMES: usize = 1000;

const LONGEST: usize = 36_000;

/// Adding to a histogram, and to a queue that is full from the first round on.
pub fn adds(inputs: &str, energies: &[f64]) {
    let mut counters = [0; 1000];
    let mut history = History::new(true, 0);
    row(
        &format!("histogram add, {inputs}"),
        energies.len(),
        || {
            for &energy in energies {
                black_box(ours::histogram_add(&mut counters, energy));
            }
        },
        || {
            for &energy in energies {
                black_box(&mut history).add(energy);
            }
        },
    );
    let (mut head, mut held, mut store) = (0, 0, vec![0.0; LONGEST]);
    let mut history = History::new(false, LONGEST);
    row(
        &format!("queue add, full at 36,000, {inputs}"),
        energies.len(),
        || {
            for &energy in energies {
                let number = ours::queue_add(LONGEST, &mut head, &mut held, &mut store, energy);
                black_box(number);
            }
        },
        || {
            for &energy in energies {
                black_box(&mut history).add(energy);
            }
        },
    );
}

pub fn run(rng: &mut Rng) {
    merge(rng);
    reset();
}

/// The Rust has no merge: its side looks with `checked_add` at each pair of counters and then adds.
#[inline(never)]
fn rust_merge(into: &mut [u32; 1000], from: &[u32; 1000]) -> bool {
    let mut sums = [0; 1000];
    for ((sum, a), b) in sums.iter_mut().zip(into.iter()).zip(from) {
        match a.checked_add(*b) {
            Some(c) => *sum = c,
            None => return false,
        }
    }
    *into = sums;
    true
}

/// As many blocks in each bin as leave room for all rounds.
fn merge(rng: &mut Rng) {
    let from: [u32; 1000] = std::array::from_fn(|_| rng.below(1 << 15) as u32);
    let mut into = [[0; 1000]; 2];
    let [ours, rust] = &mut into;
    row(
        "merge of two histograms, a merge",
        TIMES,
        || {
            for _ in 0..TIMES {
                assert!(ours::histogram_merge(black_box(ours), black_box(&from)) == 0);
            }
        },
        || {
            for _ in 0..TIMES {
                assert!(rust_merge(black_box(rust), black_box(&from)));
            }
        },
    );
}

fn reset() {
    let mut counters = [1; 1000];
    let mut history = History::new(true, 0);
    row(
        "reset of a histogram, a reset",
        TIMES,
        || {
            for _ in 0..TIMES {
                black_box(ours::histogram_reset(&mut counters));
            }
        },
        || {
            for _ in 0..TIMES {
                black_box(&mut history).reset();
            }
        },
    );
}
