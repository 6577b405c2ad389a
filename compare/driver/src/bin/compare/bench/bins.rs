//! The search for a bin, and the reading.

use std::hint::black_box;

use driver::oracle;

use super::row;
use crate::ours;

pub fn run(inputs: &str, energies: &[f64]) {
    find_histogram_index(inputs, energies);
    reading(inputs, energies);
}

fn find_histogram_index(inputs: &str, energies: &[f64]) {
    row(
        &format!("find_histogram_index, {inputs}"),
        energies.len(),
        || {
            for &energy in energies {
                black_box(ours::find_histogram_index(energy));
            }
        },
        || {
            for &energy in energies {
                black_box(oracle::bin(energy));
            }
        },
    );
}

/// The Rust has no readings: its side is change request 1's words over its search and tables, as one call.
fn reading(inputs: &str, energies: &[f64]) {
    row(
        &format!("reading, {inputs}"),
        energies.len(),
        || {
            let mut tenths = 0;
            for &energy in energies {
                black_box(ours::reading(energy, &mut tenths));
                black_box(tenths);
            }
        },
        || {
            for &energy in energies {
                let _ = black_box(oracle::reading(energy));
            }
        },
    );
}
