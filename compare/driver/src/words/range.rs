//! Document 01's step 9. The Rust answers the difference of two loudnesses; here are the two energies
//! it is taken from, and whether there are any.

use crate::oracle::{self, BOUNDARIES, ENERGIES};

/// "Low rank = floor((n+5)/10), high rank = floor((19n+10)/20)", where n + 1 blocks are left.
pub fn ranks(n: u64) -> (u64, u64) {
    ((n + 5) / 10, (19 * n + 10) / 20)
}

/// The two energies of energies in rising order, or none.
pub fn of_energies(rising: &[f64]) -> Option<(f64, f64)> {
    let sum = rising.iter().fold(0.0, |sum, energy| sum + energy);
    let gate = 0.01 * (sum / rising.len() as f64);
    let skipped = rising.iter().take_while(|&&energy| energy < gate).count();
    let left = &rising[skipped..];
    let (low, high) = ranks((left.len() as u64).checked_sub(1)?);
    Some((left[low as usize], left[high as usize]))
}

/// The two energies of the counters of all histograms, or none.
pub fn of_counters(counters: &[u64; 1000]) -> Option<(f64, f64)> {
    let blocks: u64 = counters.iter().sum();
    if blocks == 0 {
        return None;
    }
    let below: u64 = counters[..start(gate_of_counters(counters))].iter().sum();
    let (low, high) = ranks((blocks - below).checked_sub(1)?);
    let energy = |rank| ENERGIES[first_past(counters, rank + below)];
    Some((energy(low), energy(high)))
}

/// Where a gate starts in a histogram: "from the threshold's bin, or the next if the threshold is above that
/// bin's energy; below boundary 0 from bin 0; the start may be 1000."
fn start(gate: f64) -> usize {
    let bin = oracle::bin(gate);
    match starting(gate) {
        BELOW => 0,
        NEXT | LAST => bin + 1,
        _ => bin,
    }
}

/// Which of these it is.
pub const BELOW: &str = "gate below boundary 0, from bin 0";
pub const OWN: &str = "gate not above its bin's energy, from that bin";
pub const NEXT: &str = "gate above its bin's energy, from the next bin";
pub const LAST: &str = "gate above the last energy, from 1000";

pub fn starting(gate: f64) -> &'static str {
    let bin = oracle::bin(gate);
    if gate < BOUNDARIES[0] {
        BELOW
    } else if gate <= ENERGIES[bin] {
        OWN
    } else if bin < 999 {
        NEXT
    } else {
        LAST
    }
}

/// The gate of a range of histograms with blocks, which a mean of their energies keeps below 1000.
pub fn gate_of_counters(counters: &[u64; 1000]) -> f64 {
    let blocks: u64 = counters.iter().sum();
    let bins = counters.iter().zip(&ENERGIES);
    let sum = bins.fold(0.0, |sum, (&count, energy)| sum + count as f64 * energy);
    0.01 * (sum / blocks as f64)
}

/// The first bin whose running count passes the rank.
fn first_past(counters: &[u64; 1000], rank: u64) -> usize {
    let running = counters.iter().scan(0, |sum, count| {
        *sum += count;
        Some(*sum)
    });
    running.take_while(|&sum| sum <= rank).count()
}
