//! The cases of questions: the gate, the range and gated energy of a set of up to 4 histories, and the first's relative threshold.

use driver::energies;
use driver::oracle::BOUNDARIES;
use driver::refusals::{MODE, NAN, NONE, ROOM};
use driver::rng::Rng;
use driver::sets::Set;
use driver::words;
use ebur128::energy_to_loudness;
use ebur128::history::{History, HistoryError};

use super::SEED;

const QUESTIONS: usize = 512;
const ENERGIES: usize = 24;
const NOTHING: u8 = 128;
const NOT_A_NUMBER: u8 = 129;
const EMPTY: u8 = 130;

/// Operation 7: u16 number of histories; 4 times u16 kind, start, maximum, head and held; 8 times u16
/// bin and u32 count, all other counters being 0; u64 patterns of 24 energies. Then u16 refusal of the
/// gate, u64 blocks, u64 pattern of their sum; u16 code of the range, u64 patterns of low and high; u64
/// patterns of the 24 places to work in, which are 0 before; u16 refusal of gated energy, u64 pattern of
/// it; u16 code of the first history's relative threshold (130: a loudness), u64 pattern. What is not
/// answered is 0.
pub fn questions() -> Vec<Vec<u8>> {
    let mut rng = Rng::new(SEED);
    (0..QUESTIONS).map(|i| case(i, &mut rng)).collect()
}

fn case(i: usize, rng: &mut Rng) -> Vec<u8> {
    let number = rng.below(5) as usize;
    let kinds = rng.below(3);
    let mut entries = Vec::new();
    for _ in 0..4 {
        let kind = match kinds {
            2 => rng.below(2),
            kind => kind,
        };
        entries.extend(entry(kind as usize, i % 8 == 7, rng));
    }
    let blocks: Vec<(u16, u32)> = (0..8).map(|k| block(k, rng)).collect();
    let mut counters = vec![0; 1000];
    for &(bin, count) in &blocks {
        counters[usize::from(bin)] = count;
    }
    let energies: Vec<f64> = (0..ENERGIES).map(|_| energy(i, rng)).collect();

    let mut case = (number as u16).to_le_bytes().to_vec();
    case.extend(entries.iter().flat_map(|&n| (n as u16).to_le_bytes()));
    for (bin, count) in blocks {
        case.extend(bin.to_le_bytes());
        case.extend(count.to_le_bytes());
    }
    case.extend(patterns(&energies));
    let mut set = Set {
        entries,
        counters,
        energies,
    };
    let mut first = set.clone();
    first.entries.truncate(5);
    set.entries.truncate(5 * number);
    answers(&set, &mut case);
    threshold(&first, &mut case);
    case
}

/// An entry within its slice, or one that may break a rule.
fn entry(kind: usize, broken: bool, rng: &mut Rng) -> [usize; 5] {
    let mut off = |n: u64| if broken { rng.below(n) as usize } else { 0 };
    if kind == 0 {
        return [0, off(2), 0, 0, 0];
    }
    let (later, longer, further, more) = (off(2), off(2), off(3), off(3));
    let maximum = 1 + rng.below(12) as usize;
    let start = rng.below((ENERGIES - maximum) as u64 + 1) as usize;
    let head = rng.below(maximum as u64) as usize;
    let held = rng.below(maximum as u64 + 1) as usize;
    [
        1,
        start + later,
        maximum + longer,
        head + further,
        held + more,
    ]
}

/// A bin and its count, in the k-th part of the histogram.
fn block(k: u64, rng: &mut Rng) -> (u16, u32) {
    let count = match rng.below(6) {
        0 => u64::from(u32::MAX),
        1 => rng.below(1 << 32),
        2 => 0,
        _ => rng.below(30),
    };
    ((125 * k + rng.below(125)) as u16, count as u32)
}

/// Mostly within the table; now and then an infinity, a NaN, or an energy that no queue may hold.
fn energy(i: usize, rng: &mut Rng) -> f64 {
    match rng.below(400) {
        0 => f64::INFINITY,
        1 => f64::NAN,
        2 if i % 8 == 7 => energies::below(BOUNDARIES[0]),
        3..=20 => BOUNDARIES[rng.below(1001) as usize],
        21..=200 => energies::in_bin(400 + rng.below(200) as usize, rng),
        _ => energies::log_uniform(rng),
    }
}

fn patterns(energies: &[f64]) -> impl Iterator<Item = u8> + '_ {
    energies
        .iter()
        .flat_map(|energy| energy.to_bits().to_le_bytes())
}

/// The answers of the Rust, and document 01's refusals.
fn answers(set: &Set, case: &mut Vec<u8>) {
    let refusal = set.refusal();
    let rust = if refusal == 0 { set.rust() } else { Vec::new() };
    let rust: Vec<&History> = rust.iter().collect();
    let (number, blocks, sum) = match History::gating_block_count_and_energy_multiple(&rust) {
        _ if refusal != 0 => (refusal, 0, 0.0),
        Ok((blocks, sum)) => (0, blocks, sum),
        Err(HistoryError::NoBlocksAboveThreshold) => (NONE, 0, 0.0),
        Err(HistoryError::RelativeThresholdIsNan) => (NAN, 0, 0.0),
    };
    case.extend(u16::from(number).to_le_bytes());
    case.extend(blocks.to_le_bytes());
    case.extend(patterns(&[sum]));
    let mut work = [0.0; ENERGIES];
    let (code, low, high) = match History::loudness_range_multiple(&rust) {
        _ if refusal != 0 => (refusal, 0.0, 0.0),
        Err(_) => (MODE, 0.0, 0.0),
        Ok(range) => span(set, range, &mut work),
    };
    case.extend(u16::from(code).to_le_bytes());
    case.extend(patterns(&[low, high]));
    case.extend(patterns(&work));
    let energy = if number == 0 { sum / blocks as f64 } else { 0.0 };
    if number == 0 {
        same(History::gated_loudness_multiple(&rust), energy);
    }
    case.extend(u16::from(number).to_le_bytes());
    case.extend(patterns(&[energy]));
}

/// The relative threshold of a single history, in document 01's words, beside the Rust's loudness.
fn threshold(alone: &Set, case: &mut Vec<u8>) {
    let (code, value) = match alone.refusal() {
        0 => level(alone),
        refusal => (refusal, 0.0),
    };
    case.extend(u16::from(code).to_le_bytes());
    case.extend(patterns(&[value]));
}

fn level(alone: &Set) -> (u8, f64) {
    let loudness = alone.rust()[0].relative_threshold();
    match alone.threshold() {
        Some(energy) => {
            same(loudness, energy);
            (0, energy)
        }
        None if loudness.is_nan() => (NAN, 0.0),
        None => (EMPTY, loudness),
    }
}

/// A loudness of the Rust is that of an energy, infinities and NaN among them.
fn same(loudness: f64, energy: f64) {
    let ours = energy_to_loudness(energy);
    assert!(ours == loudness || ours.is_nan() && loudness.is_nan());
}

/// The two energies that the Rust's range is taken from, in document 01's words.
fn span(set: &Set, range: f64, work: &mut [f64]) -> (u8, f64, f64) {
    let mut rising = set.held();
    if rising.len() > work.len() {
        return (ROOM, 0.0, 0.0);
    }
    if rising.iter().any(|energy| energy.is_nan()) {
        assert!(range.is_nan());
        return (NOT_A_NUMBER, 0.0, 0.0);
    }
    rising.sort_by(f64::total_cmp);
    work[..rising.len()].copy_from_slice(&rising);
    let span = match rising.is_empty() {
        true => words::range::of_counters(&set.counted()),
        false => words::range::of_energies(&rising),
    };
    let Some((low, high)) = span else {
        assert!(range == 0.0);
        return (NOTHING, 0.0, 0.0);
    };
    let difference = energy_to_loudness(high) - energy_to_loudness(low);
    assert!(difference == range || difference.is_nan() && range.is_nan());
    (0, low, high)
}
