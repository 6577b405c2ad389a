//! Histograms: add, merge and reset. The Rust's counters are of 64 bits and it merges nothing: what
//! is done at 4,294,967,295, with other lengths, and in a merge, is document 01's word.

use driver::energies;
use driver::histories;
use driver::oracle::ENERGIES;
use driver::refusals::{Check, FULL, STORE};
use driver::rng::Rng;
use driver::words;
use ebur128::history::History;

use super::{inputs, shown, Difference, Operation};
use crate::ours;

const RANDOM_ADDS: usize = 500_000;
const RANDOM_MERGES: usize = 17_000;
const RANDOM_RESETS: usize = 3_000;
const DEALT: usize = 700;
const OTHER_LENGTHS: [usize; 6] = [0, 1, 999, 1001, 2000, 36_000];

pub fn run(seed: u64) -> Result<(), Difference> {
    view(&mut Rng::new(seed))?;
    adds(&mut Rng::new(seed))?;
    adds_to_full(&mut Rng::new(seed))?;
    merges(&mut Rng::new(seed))?;
    merges_of_dealt(&mut Rng::new(seed))?;
    resets(&mut Rng::new(seed))
}

fn same_counters(ours: &[u32], rust: &mut History) -> bool {
    let rust = histories::counters(rust);
    ours.len() == 1000 && ours.iter().zip(rust).all(|(a, b)| u64::from(*a) == *b)
}

/// Counters of any size, small ones, or 0: each bin as the stream decides.
fn random_counters(rng: &mut Rng, length: usize) -> Vec<u32> {
    let largest = [1, 16, 1 << 16, 1 << 31, 1 << 32][rng.below(5) as usize];
    let empty = rng.below(2) == 0;
    let mut counter = || match empty && rng.below(2) == 0 {
        true => 0,
        false => rng.below(largest) as u32,
    };
    (0..length).map(|_| counter()).collect()
}

/// What is written through the view of the Rust's counters is what its public question answers.
fn view(rng: &mut Rng) -> Result<(), Difference> {
    let mut op = Operation::new("the view of the Rust's counters");
    for (bin, energy) in ENERGIES.iter().enumerate() {
        let count = 1 + rng.below(u64::from(u32::MAX));
        let mut history = History::new(true, 0);
        histories::counters(&mut history)[bin] = count;
        let answer = history.gating_block_count_and_energy().ok();
        let expected = Some((count, count as f64 * energy));
        op.case(|| format!("{count} blocks in bin {bin}"), answer, expected)?;
    }
    op.same("what it writes, the Rust's History answers", &[])
}

/// What an add comes to that is not refused.
const ADDED: [&str; 4] = [
    "counted",
    "dropped, below boundary 0",
    "NaN, counted in bin 0",
    "infinity, counted in bin 999",
];

fn added(energy: f64) -> &'static str {
    ADDED[if energy.is_nan() {
        2
    } else if words::dropped(energy) {
        1
    } else if energy == f64::INFINITY {
        3
    } else {
        0
    }]
}

/// One long run of adds: after each, all counters are those of the Rust's histogram.
fn adds(rng: &mut Rng) -> Result<(), Difference> {
    let mut op = Operation::new("histogram_add").can(&ADDED);
    let mut counters = [0; 1000];
    let mut history = History::new(true, 0);
    for energy in inputs(RANDOM_ADDS, rng) {
        let number = ours::histogram_add(&mut counters, energy);
        history.add(energy);
        op.answer(|| shown(energy), number, 0)?;
        op.saw(added(energy));
        let same = same_counters(&counters, &mut history);
        op.also(|| shown(energy), "the counters", same)?;
    }
    let hit = counters.iter().filter(|&&count| count > 0).count();
    op.also(String::new, "all bins hit", hit == 1000)?;
    op.same(
        "the Rust's histogram, all counters after each; all 1000 bins hit each round",
        &[],
    )
}

/// Counters around the largest, and slices that are no histogram.
fn adds_to_full(rng: &mut Rng) -> Result<(), Difference> {
    let mut op = Operation::new("histogram_add");
    let mut try_one = |given: Vec<u32>, energy| {
        let (mut counters, mut expected) = (given.clone(), given.clone());
        let number = ours::histogram_add(&mut counters, energy);
        let input = || format!("{}, {} counters", shown(energy), given.len());
        op.answer(input, number, words::histogram_add(&mut expected, energy))?;
        op.also(input, "the counters", counters == expected)?;
        if number == 0 {
            op.saw(added(energy));
            let mut history = histories::histogram(&given);
            history.add(energy);
            let same = same_counters(&counters, &mut history);
            op.also(input, "the Rust's counters", same)?;
        }
        Ok(())
    };
    let near = [0, 1, u32::MAX - 2, u32::MAX - 1, u32::MAX];
    for count in near {
        for bin in 0..1000 {
            for others in [0, u32::MAX] {
                let mut counters = vec![others; 1000];
                counters[bin] = count;
                try_one(counters, energies::in_bin(bin, rng))?;
            }
        }
        for energy in energies::specials() {
            let mut counters = random_counters(rng, 1000);
            counters[0] = count;
            counters[999] = near[rng.below(5) as usize];
            try_one(counters, energy)?;
        }
    }
    for length in OTHER_LENGTHS {
        for energy in energies::specials() {
            try_one(random_counters(rng, length), energy)?;
        }
        try_one(random_counters(rng, length), energies::in_table(rng))?;
    }
    op.same(
        "document 01 and the Rust: counters at 0, 1 and the last three; other lengths",
        &[STORE, FULL],
    )
}

/// The checks of STORE in a merge.
const INTO: Check = Check::new(STORE, "into is not 1,000 counters");
const FROM: Check = Check::new(STORE, "from is not 1,000 counters");

/// Merges one pair, and looks at all counters of both.
fn merge_one(op: &mut Operation, into: &[u32], from: &[u32]) -> Result<(), Difference> {
    let (mut counters, mut expected, lent) = (into.to_vec(), into.to_vec(), from.to_vec());
    let number = ours::histogram_merge(&mut counters, &lent);
    let input = || format!("into {into:?}, from {from:?}");
    op.answer(input, number, words::histogram_merge(&mut expected, from))?;
    if number == STORE {
        op.saw(if into.len() == 1000 { FROM } else { INTO });
    }
    op.also(input, "the counters", counters == expected && lent == from)
}

fn merges(rng: &mut Rng) -> Result<(), Difference> {
    let mut op = Operation::new("histogram_merge").can(&[INTO, FROM]);
    for _ in 0..RANDOM_MERGES {
        let (into, from) = (random_counters(rng, 1000), random_counters(rng, 1000));
        merge_one(&mut op, &into, &from)?;
        // The same with every pair of bins at the largest count or below it, then one of them past it.
        let mut from: Vec<u32> = into
            .iter()
            .map(|a| rng.below(1 << 32) as u32 & !a)
            .collect();
        let bin = rng.below(1000) as usize;
        from[bin] = u32::MAX - into[bin];
        merge_one(&mut op, &into, &from)?;
        if into[bin] > 0 {
            from[bin] += 1;
            merge_one(&mut op, &into, &from)?;
        }
    }
    for bin in 0..1000 {
        for (a, b) in [
            (1, u32::MAX),
            (u32::MAX, 1),
            (1, u32::MAX - 1),
            (u32::MAX, 0),
            (1 << 31, 1 << 31),
        ] {
            let (mut into, mut from) = (vec![u32::MAX; 1000], vec![0; 1000]);
            (into[bin], from[bin]) = (a, b);
            merge_one(&mut op, &into, &from)?;
        }
    }
    for length in OTHER_LENGTHS.into_iter().chain([1000]) {
        for other in OTHER_LENGTHS {
            let (one, two) = (random_counters(rng, length), random_counters(rng, other));
            merge_one(&mut op, &one, &two)?;
            merge_one(&mut op, &two, &one)?;
        }
    }
    op.same("document 01, all counters of both", &[STORE, FULL])
}

/// Energies dealt to two histograms that are then merged: the counters are those of the Rust's
/// histogram of all of them.
fn merges_of_dealt(rng: &mut Rng) -> Result<(), Difference> {
    let mut op = Operation::new("histogram_merge");
    for i in 0..DEALT {
        let mut histograms = [vec![0; 1000], vec![0; 1000]];
        let mut history = History::new(true, 0);
        for _ in 0..500 {
            let energy = energies::log_uniform(rng);
            ours::histogram_add(&mut histograms[rng.below(2) as usize], energy);
            history.add(energy);
        }
        let [mut into, from] = histograms;
        op.answer(
            || format!("deal {i}"),
            ours::histogram_merge(&mut into, &from),
            0,
        )?;
        let same = same_counters(&into, &mut history);
        op.also(|| format!("deal {i}"), "the counters", same)?;
    }
    op.same(
        "the Rust's histogram of all, 500 energies dealt to two",
        &[],
    )
}

fn resets(rng: &mut Rng) -> Result<(), Difference> {
    let mut op = Operation::new("histogram_reset");
    for i in 0..RANDOM_RESETS {
        let length = if i % 2 == 0 {
            1000
        } else {
            OTHER_LENGTHS[i / 2 % 6]
        };
        let given = random_counters(rng, length);
        let (mut counters, mut expected) = (given.clone(), given.clone());
        let number = ours::histogram_reset(&mut counters);
        let input = || format!("{length} counters, number {i}");
        op.answer(input, number, words::histogram_reset(&mut expected))?;
        op.also(input, "the counters", counters == expected)?;
        if number == 0 {
            let mut history = histories::histogram(&given);
            history.reset();
            let same = same_counters(&counters, &mut history);
            op.also(input, "the Rust's counters", same)?;
        }
    }
    op.same("document 01 and the Rust, all counters", &[STORE])
}
