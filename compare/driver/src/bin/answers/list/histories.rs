//! The cases of histories. Energies are NaN in one pattern only, since `replay` keeps no payload.

use driver::energies;
use driver::oracle::{self, BOUNDARIES};
use driver::rng::Rng;
use driver::words::{self, Queue};

use super::SEED;

const HISTOGRAMS: usize = 64;
const MERGES: usize = 256;
const QUEUES: usize = 256;

/// The bin of an energy that is dropped: past the last.
const NO_BIN: u16 = u16::MAX;

/// Energies around boundaries, specials, and random ones of any kind and within the table, in turn.
fn energy(rng: &mut Rng) -> f64 {
    let specials = energies::specials();
    let energy = match rng.below(4) {
        0 => energies::with_neighbours(BOUNDARIES[rng.below(1001) as usize])[rng.below(3) as usize],
        1 => specials[rng.below(specials.len() as u64) as usize],
        2 => energies::any(rng),
        _ => energies::in_table(rng),
    };
    if energy.is_nan() {
        f64::NAN
    } else {
        energy
    }
}

/// Operation 4: 64 times u64 pattern of an energy, u16 its bin, u16 the count there afterwards; then
/// u16 how many bins have a count.
pub fn histogram_adds() -> Vec<Vec<u8>> {
    let mut rng = Rng::new(SEED);
    (0..HISTOGRAMS).map(|_| adds(&mut rng)).collect()
}

fn adds(rng: &mut Rng) -> Vec<u8> {
    let mut counters = [0u16; 1000];
    let mut case = Vec::new();
    for _ in 0..64 {
        let energy = energy(rng);
        let (bin, count) = if words::dropped(energy) {
            (NO_BIN, 0)
        } else {
            let bin = oracle::bin(energy);
            counters[bin] += 1;
            (bin as u16, counters[bin])
        };
        case.extend(energy.to_bits().to_le_bytes());
        case.extend(bin.to_le_bytes());
        case.extend(count.to_le_bytes());
    }
    let hit = counters.iter().filter(|&&count| count > 0).count();
    case.extend((hit as u16).to_le_bytes());
    case
}

/// Operation 5: u16 refusal, u16 how many counters are added; then 16 times u16 bin, u32 its count in
/// the one histogram, in the other, and in the one afterwards. All other counters are 0.
pub fn merges() -> Vec<Vec<u8>> {
    let mut rng = Rng::new(SEED);
    (0..MERGES).map(|i| merge(i, &mut rng)).collect()
}

fn merge(i: usize, rng: &mut Rng) -> Vec<u8> {
    let (mut into, mut from) = ([0u32; 1000], [0u32; 1000]);
    // 16 bins, none of them twice.
    let bins: Vec<usize> = (0..16).map(|k| k * 62 + rng.below(62) as usize).collect();
    for &bin in &bins {
        into[bin] = (rng.bits() >> (rng.below(32) + 32)) as u32;
        from[bin] = rng.below(u64::from(u32::MAX - into[bin]) + 1) as u32;
    }
    // Every other case has a pair at the largest count, and every fourth one past it.
    let edge = bins[rng.below(16) as usize];
    if i % 2 == 0 {
        into[edge] = into[edge].max(1);
        from[edge] = u32::MAX - into[edge] + (i % 4 / 2) as u32;
    }
    let length = if i % 8 == 7 { 999 } else { 1000 };
    let before = into;
    let number = words::histogram_merge(&mut into, &from[..length]);
    let mut case = u16::from(number).to_le_bytes().to_vec();
    case.extend((length as u16).to_le_bytes());
    for bin in bins {
        case.extend((bin as u16).to_le_bytes());
        for count in [before[bin], from[bin], into[bin]] {
            case.extend(count.to_le_bytes());
        }
    }
    case
}

/// Operation 6: u16 maximum, u16 places of the store, all 0, u16 head, u16 held; then 12 times u64
/// pattern of an energy, u16 refusal, u16 head and u16 held afterwards; then the patterns of the 8
/// places that the store is the first part of.
pub fn queue_adds() -> Vec<Vec<u8>> {
    let mut rng = Rng::new(SEED);
    (0..QUEUES).map(|i| queue(i, &mut rng)).collect()
}

fn queue(i: usize, rng: &mut Rng) -> Vec<u8> {
    let places = rng.below(9) as usize;
    // Every fourth case may break a rule.
    let off = |rng: &mut Rng| if i % 4 == 3 { rng.below(3) as usize } else { 0 };
    let maximum = places + off(rng);
    let mut queue = Queue {
        maximum,
        head: rng.below(maximum.max(1) as u64) as usize + off(rng),
        held: rng.below(maximum as u64 + 1) as usize + off(rng),
        store: vec![0.0; places],
    };
    let mut case = Vec::new();
    let put = |case: &mut Vec<u8>, number: usize| case.extend((number as u16).to_le_bytes());
    for number in [maximum, places, queue.head, queue.held] {
        put(&mut case, number);
    }
    for _ in 0..12 {
        let energy = energy(rng);
        let number = queue.add(energy);
        case.extend(energy.to_bits().to_le_bytes());
        for number in [usize::from(number), queue.head, queue.held] {
            put(&mut case, number);
        }
    }
    queue.store.resize(8, 0.0);
    let patterns = queue.store.iter().map(|energy| energy.to_bits());
    case.extend(patterns.flat_map(u64::to_le_bytes));
    case
}
