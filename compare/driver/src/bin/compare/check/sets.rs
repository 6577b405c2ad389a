//! The sets of histories that questions are asked about.

use driver::energies::{self, above, below};
use driver::oracle::{BOUNDARIES, ENERGIES};
use driver::rng::{pick, Rng};
use driver::sets::Set;
use driver::words::{self, range::ranks};

use super::Difference;

const LONGEST: usize = 36_000;

const SMALL_QUEUES: usize = 500_000;
const SPARSE: usize = 50_000;
const MIXED: usize = 7_000;
const REFUSED: usize = 100_000;

/// Asks about each set that every question is asked about.
pub fn each(
    rng: &mut Rng,
    mut ask: impl FnMut(&Set, &mut Rng) -> Result<(), Difference>,
) -> Result<(), Difference> {
    for _ in 0..SMALL_QUEUES {
        ask(&small_queues(rng), rng)?;
    }
    for _ in 0..SPARSE {
        ask(&sparse_histograms(rng), rng)?;
    }
    for i in 0..MIXED {
        ask(&mixed(i % 17, rng), rng)?;
    }
    for _ in 0..REFUSED {
        ask(&perhaps_refused(rng), rng)?;
    }
    for set in large(rng) {
        ask(&set, rng)?;
    }
    Ok(())
}

/// An energy that a queue can hold: mostly within the table, at its values, or next to them; now and
/// then any float, an infinity or a NaN.
fn energy(rng: &mut Rng) -> f64 {
    loop {
        let energy = match rng.below(64) {
            0 => energies::any(rng),
            1 => pick(&[f64::INFINITY, f64::MAX, 1e308, f64::NAN], rng),
            2..=20 => energies::log_uniform(rng),
            21..=40 => energies::in_table(rng),
            41..=48 => pick(&energies::with_neighbours(pick(&BOUNDARIES, rng)), rng),
            49..=56 => pick(&energies::with_neighbours(pick(&ENERGIES, rng)), rng),
            _ => BOUNDARIES[0] * (1.0 + 20.0 * rng.fraction()),
        };
        if !words::dropped(energy) {
            return energy;
        }
    }
}

/// A queue of up to `most` places, with any head and any number held.
fn push_queue(set: &mut Set, most: u64, rng: &mut Rng) {
    let maximum = 1 + rng.below(most) as usize;
    let held = match rng.below(3) {
        0 => maximum,
        _ => rng.below(maximum as u64 + 1) as usize,
    };
    let held: Vec<f64> = (0..held).map(|_| energy(rng)).collect();
    let head = rng.below(maximum as u64) as usize;
    set.push_held(maximum, head, &held);
}

/// A histogram with few counters that are not 0, small, large, or the largest.
fn push_sparse(set: &mut Set, rng: &mut Rng) {
    let mut counters = [0; 1000];
    let first = rng.below(1000);
    let spread = pick(&[1, 3, 20, 1000], rng);
    for _ in 0..rng.below(8) {
        let bin = (first + rng.below(spread)).min(999) as usize;
        counters[bin] = match rng.below(4) {
            0 => u32::MAX,
            1 => rng.below(1 << 32) as u32,
            _ => rng.below(20) as u32,
        };
    }
    set.push_histogram(&counters);
}

/// A histogram with a count in most bins.
fn push_dense(set: &mut Set, rng: &mut Rng) {
    let largest = pick(&[4, 1000, 1 << 20, 1 << 32], rng);
    let counters: Vec<u32> = (0..1000).map(|_| rng.below(largest) as u32).collect();
    set.push_histogram(&counters);
}

/// One to three queues of up to 12 energies.
fn small_queues(rng: &mut Rng) -> Set {
    let mut set = Set::default();
    for _ in 0..1 + rng.below(3) {
        push_queue(&mut set, 12, rng);
    }
    set
}

/// One or two histograms.
fn sparse_histograms(rng: &mut Rng) -> Set {
    let mut set = Set::default();
    for _ in 0..1 + rng.below(2) {
        match rng.below(4) {
            0 => push_dense(&mut set, rng),
            _ => push_sparse(&mut set, rng),
        }
    }
    set
}

/// So many histories, of both kinds or of one; an entry may repeat another, or overlap it.
fn mixed(number: usize, rng: &mut Rng) -> Set {
    let kinds = rng.below(3);
    let mut set = Set::default();
    for i in 0..number {
        if i > 0 && rng.below(8) == 0 {
            repeat(&mut set, rng);
        } else if kinds == 0 || kinds == 1 && rng.below(2) == 0 {
            push_queue(&mut set, 60, rng);
        } else {
            push_sparse(&mut set, rng);
        }
    }
    set
}

/// An entry over the same memory as an earlier one, a histogram perhaps some bins further on.
fn repeat(set: &mut Set, rng: &mut Rng) {
    let earlier = rng.below(set.entries.len() as u64 / 5) as usize * 5;
    let mut entry = set.entries[earlier..earlier + 5].to_vec();
    let room = set.counters.len().saturating_sub(entry[1] + 1000);
    if entry[0] == 0 && room > 0 {
        entry[1] += rng.below(room as u64 + 1) as usize;
    }
    set.entries.extend(entry);
}

/// A threshold that falls on an energy of a queue, on a bin's energy, or on a boundary: exactly, or
/// next to it. One energy of a queue is chosen so that a tenth of the mean is the target; beside the
/// set, whether that was reached.
pub fn threshold_on_an_energy(i: usize, rng: &mut Rng) -> (Set, bool) {
    let bin = 1 + rng.below(850) as usize;
    let target = match i % 3 {
        0 => ENERGIES[bin],
        1 => BOUNDARIES[bin],
        _ => energies::in_bin(bin, rng),
    };
    let mut set = Set::default();
    let mut held = vec![target, target];
    held.extend(energies::with_neighbours(target));
    held.truncate(1 + rng.below(5) as usize);
    let mut counters = [0; 1000];
    if rng.below(2) == 0 {
        counters[bin - 1] = rng.below(4) as u32;
        counters[bin] = 1 + rng.below(4) as u32;
        counters[bin + 1] = rng.below(4) as u32;
        set.push_histogram(&counters);
    }
    // As the gate adds them: the histogram first, then the queue with the chosen energy at its end.
    let blocks = counters.iter().zip(&ENERGIES);
    let counted: f64 = blocks.fold(0.0, |sum, (&count, energy)| sum + f64::from(count) * energy);
    let number = counters.iter().sum::<u32>() as usize + held.len() + 1;
    let sum: f64 = held.iter().fold(0.0, |sum, energy| sum + energy);
    let threshold = |last: f64| (counted + (sum + last)) / number as f64 * 0.1;
    let guess = 10.0 * target * number as f64 - counted - sum;
    let last = nearest(target, guess, threshold);
    held.push(last);
    set.push_held(held.len(), rng.below(held.len() as u64) as usize, &held);
    (set, threshold(last) == target)
}

/// A queue of so many energies, none below the gate of the range, in any order.
pub fn so_many_in_a_queue(number: usize, rng: &mut Rng) -> Set {
    let held: Vec<f64> = (0..number).map(|_| 1.0 + rng.fraction()).collect();
    let mut set = Set::default();
    set.push_held(number.max(1), 0, &held);
    set
}

/// A histogram of so many blocks, none below the gate of the range.
pub fn so_many_in_a_histogram(number: usize, rng: &mut Rng) -> Set {
    let mut counters = [0; 1000];
    for _ in 0..number {
        counters[500 + rng.below(100) as usize] += 1;
    }
    let mut set = Set::default();
    set.push_histogram(&counters);
    set
}

/// Three bins of one to sixteen histograms, with so many blocks that the ranks fall on the last block
/// of a bin, or next to it.
pub fn ranks_on_an_edge(rng: &mut Rng) -> Set {
    let most = (4 << 32) >> rng.below(34);
    let number = 1 + rng.below(most);
    let (low, high) = ranks(number - 1);
    let mut edge = |rank: u64| (rank + rng.below(3)).saturating_sub(1).min(number);
    let (first, second) = (edge(low), edge(high));
    let mut left = [
        first,
        second.saturating_sub(first),
        number - second.max(first),
    ];
    let mut set = Set::default();
    while left.iter().any(|&blocks| blocks > 0) || set.entries.is_empty() {
        let mut counters = [0; 1000];
        for (i, blocks) in left.iter_mut().enumerate() {
            let count = (*blocks).min(u64::from(u32::MAX));
            counters[500 + 60 * i] = count as u32;
            *blocks -= count;
        }
        set.push_histogram(&counters);
    }
    set
}

/// A gate of the range that falls on an energy of a queue exactly, or next to it: the largest energy
/// is chosen so that a hundredth of the mean is the target. Beside the set, whether that was reached.
pub fn range_gate_on_an_energy(rng: &mut Rng) -> (Set, bool) {
    let target = energies::in_bin(1 + rng.below(700) as usize, rng);
    let mut held = vec![below(target), target, target, above(target)];
    held.truncate(2 + rng.below(3) as usize);
    let number = held.len() + 1;
    let sum = held.iter().fold(0.0, |sum, energy| sum + energy);
    let gate = |last: f64| 0.01 * ((sum + last) / number as f64);
    let last = nearest(target, 100.0 * target * number as f64 - sum, gate);
    held.push(last);
    held.rotate_left(rng.below(number as u64) as usize);
    let mut set = Set::default();
    set.push_held(number, rng.below(number as u64) as usize, &held);
    (set, gate(last) == target)
}

/// The energy, from a first guess on, for which a rising function reaches the target, or is next to it.
fn nearest(target: f64, guess: f64, function: impl Fn(f64) -> f64) -> f64 {
    let mut energy = guess;
    for _ in 0..64 {
        match function(energy) {
            reached if reached < target => energy = above(energy),
            reached if reached > target => energy = below(energy),
            _ => break,
        }
    }
    energy
}

/// A small set with a number changed, or a held energy, or with more entries than a set has.
fn perhaps_refused(rng: &mut Rng) -> Set {
    let mut set = Set::default();
    for _ in 0..1 + rng.below(3) {
        match rng.below(8) {
            0 => push_sparse(&mut set, rng),
            _ => push_queue(&mut set, 6, rng),
        }
    }
    for _ in 0..1 + rng.below(2) {
        let place = rng.below(set.entries.len() as u64) as usize;
        match rng.below(6) {
            0 if !set.energies.is_empty() => {
                let place = rng.below(set.energies.len() as u64) as usize;
                set.energies[place] = pick(
                    &[
                        below(BOUNDARIES[0]),
                        0.0,
                        -0.0,
                        f64::NEG_INFINITY,
                        BOUNDARIES[0],
                    ],
                    rng,
                );
            }
            1 => set.entries.truncate(place),
            2 => {
                (0..14 + rng.below(3)).for_each(|_| set.entries.extend_from_within(..5.min(place)))
            }
            3 => set.entries[place] = pick(&[0, 1, 2, LONGEST, LONGEST + 1, usize::MAX], rng),
            _ => {
                let number = &mut set.entries[place];
                *number = if rng.below(2) == 0 {
                    number.wrapping_sub(1)
                } else {
                    *number + 1
                };
            }
        }
        if set.entries.is_empty() {
            break;
        }
    }
    set
}

/// The largest sets: sixteen full histograms, and sixteen full queues.
fn large(rng: &mut Rng) -> Vec<Set> {
    let (mut full, mut dense, mut queues) = (Set::default(), Set::default(), Set::default());
    for i in 0..16 {
        full.push_histogram(&[u32::MAX; 1000]);
        push_dense(&mut dense, rng);
        let held: Vec<f64> = (0..LONGEST).map(|_| energies::log_uniform(rng)).collect();
        queues.push_held(LONGEST, i * 2000, &held);
    }
    vec![full, dense, queues]
}
