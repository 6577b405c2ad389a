//! The gate question, gated energy and the relative threshold, of sets that the Rust's `History` is
//! asked about too. Where a set is refused the other side is document 01's table.

use driver::refusals::{self, Check, NAN, NONE, SET, STORE};
use driver::rng::Rng;
use driver::sets::{self as histories, Set};
use driver::words::range::{starting, BELOW, LAST, NEXT, OWN};
use ebur128::energy_to_loudness;
use ebur128::history::{History, HistoryError};

use super::sets;
use super::{same_float, Difference, Operation, UNTOUCHED};
use crate::ours;

const EXACT: usize = 70_000;

pub fn run(seed: u64) -> Result<(), Difference> {
    let mut asked = Asked::new();
    let rng = &mut Rng::new(seed);
    sets::each(rng, |set, _| asked.all(set))?;
    for i in 0..EXACT {
        let (set, exact) = sets::threshold_on_an_energy(i, rng);
        asked.all(&set)?;
        asked.gate.saw_times(EXACT_GATE, u64::from(exact));
    }
    asked.same()
}

/// What stands where no blocks are written.
const UNTOUCHED_BLOCKS: u64 = 0x0BAD_CAFE;

/// The checks of NONE.
const NO_BLOCKS: Check = Check::new(NONE, "no blocks");
const NONE_LEFT: Check = Check::new(NONE, "none at or above the gate");

/// Sets whose threshold falls on an energy or a boundary.
const EXACT_GATE: &str = "threshold on an energy or a boundary";

/// What a threshold answers. NONE is no case of it: an empty history answers -70.0. Nor are the two
/// checks on a set of several: it is asked of one entry.
const EMPTY: &str = "-70.0, empty";
const THRESHOLD: &str = "a threshold energy";
const NOT_ONE: Check = Check::new(SET, "not the five numbers of an entry");

struct Asked {
    gate: Operation,
    gated_energy: Operation,
    relative_threshold: Operation,
}

impl Asked {
    fn new() -> Self {
        let none = [NO_BLOCKS, NONE_LEFT];
        let gate = Operation::new("gate").can(&[BELOW, OWN, NEXT, LAST, EXACT_GATE]);
        let threshold = Operation::new("relative_threshold").can(&[EMPTY, THRESHOLD]);
        Asked {
            gate: gate.can(&histories::CHECKS).can(&none),
            gated_energy: Operation::new("gated_energy")
                .can(&histories::CHECKS)
                .can(&none),
            relative_threshold: threshold.can(&[NOT_ONE]).can(&histories::CHECKS[2..]),
        }
    }

    fn same(self) -> Result<(), Difference> {
        let refusals = [SET, STORE, NONE, NAN];
        let loudness = "the Rust's loudness, after the logarithm";
        self.gate.same("the Rust's counts and sums", &refusals)?;
        self.gated_energy.same(loudness, &refusals)?;
        self.relative_threshold.same(loudness, &[SET, STORE, NAN])
    }

    /// All questions about a set, and the last about its first entry alone.
    fn all(&mut self, set: &Set) -> Result<(), Difference> {
        let check = set.check();
        let refusal = refusals::number(check);
        let rust = if refusal == 0 { set.rust() } else { Vec::new() };
        let rust: Vec<&History> = rust.iter().collect();
        if refusal == 0 && set.has_histogram() {
            if let Some(threshold) = set.threshold() {
                self.gate.saw(starting(threshold));
            }
        }
        self.gate(set, refusal, &rust)?;
        self.gated_energy(set, refusal, &rust)?;
        for op in [&mut self.gate, &mut self.gated_energy] {
            op.saw_check(check);
        }
        self.relative_threshold(set)
    }

    /// Why there was none.
    fn none(set: &Set) -> Check {
        let counted = set.counted().iter().any(|&count| count > 0);
        match counted || !set.held().is_empty() {
            true => NONE_LEFT,
            false => NO_BLOCKS,
        }
    }

    fn gate(&mut self, set: &Set, refusal: u8, rust: &[&History]) -> Result<(), Difference> {
        let (mut blocks, mut sum) = (UNTOUCHED_BLOCKS, UNTOUCHED);
        let number = ours::gate(set, &mut blocks, &mut sum);
        let untouched = |number| (number, UNTOUCHED_BLOCKS, UNTOUCHED);
        let expected = match refusal {
            0 => match History::gating_block_count_and_energy_multiple(rust) {
                Ok((blocks, sum)) => (0, blocks, sum),
                Err(HistoryError::NoBlocksAboveThreshold) => untouched(NONE),
                Err(HistoryError::RelativeThresholdIsNan) => untouched(NAN),
            },
            _ => untouched(refusal),
        };
        let input = || format!("{set:?}: {number} {blocks} {sum:e}, not {expected:?}");
        self.gate.answer(input, number, expected.0)?;
        if number == NONE {
            self.gate.saw(Asked::none(set));
        }
        self.gate.also(input, "the blocks", blocks == expected.1)?;
        self.gate
            .also(input, "the sum", same_float(sum, expected.2))
    }

    fn gated_energy(
        &mut self,
        set: &Set,
        refusal: u8,
        rust: &[&History],
    ) -> Result<(), Difference> {
        let mut energy = UNTOUCHED;
        let number = ours::gated_energy(set, &mut energy);
        let loudness = History::gated_loudness_multiple(rust);
        let expected = match refusal {
            0 if loudness.is_nan() => NAN,
            0 if loudness == f64::NEG_INFINITY => NONE,
            _ => refusal,
        };
        let ours = match number {
            0 => energy_to_loudness(energy),
            _ => energy,
        };
        let rust = if expected == 0 { loudness } else { UNTOUCHED };
        let input = || format!("{set:?}: {number} {ours:e}, not {expected} {rust:e}");
        self.gated_energy.answer(input, number, expected)?;
        if number == NONE {
            self.gated_energy.saw(Asked::none(set));
        }
        self.gated_energy
            .also(input, "the loudness", same_float(ours, rust))
    }

    fn relative_threshold(&mut self, set: &Set) -> Result<(), Difference> {
        let mut alone = set.clone();
        // now and then with a number more than an entry has
        alone
            .entries
            .truncate(5 + usize::from(set.entries.len() % 3 == 2));
        let check = match alone.entries.len() {
            5 => alone.check(),
            _ => Some(NOT_ONE),
        };
        let refusal = refusals::number(check);
        let mut value = UNTOUCHED;
        let number = ours::relative_threshold(&alone, &mut value);
        let (expected, rust) = match refusal {
            0 => {
                let loudness = alone.rust()[0].relative_threshold();
                let number = if loudness.is_nan() { NAN } else { 0 };
                (number, if number == 0 { loudness } else { UNTOUCHED })
            }
            _ => (refusal, UNTOUCHED),
        };
        let ours = match number {
            0 if value != -70.0 => energy_to_loudness(value),
            _ => value,
        };
        let input = || format!("{alone:?}: {number} {ours:e}, not {expected} {rust:e}");
        self.relative_threshold.answer(input, number, expected)?;
        self.relative_threshold.saw_check(check);
        if number == 0 {
            let answer = if value == -70.0 { EMPTY } else { THRESHOLD };
            self.relative_threshold.saw(answer);
        }
        self.relative_threshold
            .also(input, "the loudness", same_float(ours, rust))
    }
}
