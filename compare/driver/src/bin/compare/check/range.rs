//! The range, of sets that the Rust's `History` is asked about too. The Rust answers the difference of
//! two loudnesses; our two energies are document 01's bit for bit, and their difference, after the
//! logarithm, is the Rust's.

use driver::energies;
use driver::refusals::{self, MODE, ROOM, SET, STORE};
use driver::rng::Rng;
use driver::sets::{self as histories, Set};
use driver::words;
use ebur128::energy_to_loudness;
use ebur128::history::History;

use super::{same_float, sets, Difference, Operation, UNTOUCHED};
use crate::ours::{self, NOTHING, NOT_A_NUMBER};

const SO_MANY: usize = 2_100;
const EDGES: usize = 17_000;
const EXACT: usize = 70_000;

pub fn run(seed: u64) -> Result<(), Difference> {
    let mut asked = Asked::new();
    let rng = &mut Rng::new(seed);
    sets::each(rng, |set, rng| asked.range(set, rng))?;
    for i in 0..SO_MANY {
        asked.range(&sets::so_many_in_a_queue(i % 300, rng), rng)?;
        asked.range(&sets::so_many_in_a_histogram(i % 300, rng), rng)?;
    }
    for _ in 0..EDGES {
        asked.range(&sets::ranks_on_an_edge(rng), rng)?;
    }
    for _ in 0..EXACT {
        let (set, exact) = sets::range_gate_on_an_energy(rng);
        asked.range(&set, rng)?;
        asked.op.saw_times(EXACT_GATE, u64::from(exact));
    }
    asked.same()
}

/// What a range answers, and why it is nothing.
const FOUND: &str = "Found";
const NO_HISTORIES: &str = "Nothing: no histories";
const NO_BLOCKS: &str = "Nothing: no blocks";
const NONE_LEFT: &str = "Nothing: all energies below the gate";
const NAN_HELD: &str = "NotANumber";
/// Where the gate of histograms starts. From 1000 on it cannot: it is a hundredth of a mean of bins.
const STARTS: [&str; 3] = [words::range::BELOW, words::range::OWN, words::range::NEXT];
/// Sets whose gate falls on an energy.
const EXACT_GATE: &str = "gate on an energy";

struct Asked {
    op: Operation,
}

/// The number, the two energies, and what the work slice holds afterwards.
struct Answer {
    number: u8,
    low: f64,
    high: f64,
    work: Vec<f64>,
}

impl Asked {
    fn new() -> Self {
        Asked {
            op: Operation::new("loudness_range")
                .can(&[FOUND, NO_HISTORIES, NO_BLOCKS, NONE_LEFT, NAN_HELD])
                .can(&[EXACT_GATE])
                .can(&STARTS)
                .can(&histories::CHECKS),
        }
    }

    fn same(self) -> Result<(), Difference> {
        self.op.same(
            "document 01's two energies, and the Rust's range of them",
            &[SET, STORE, MODE, ROOM],
        )
    }

    fn range(&mut self, set: &Set, rng: &mut Rng) -> Result<(), Difference> {
        let check = set.check();
        let refusal = refusals::number(check);
        let held = if refusal == 0 { set.held() } else { Vec::new() };
        // The work slice: as long as it has to be, longer, or now and then too short.
        let length = match rng.below(8) {
            0 => rng.below(held.len() as u64 + 1) as usize,
            1..=4 => held.len(),
            _ => held.len() + rng.below(4) as usize,
        };
        let mut ours = Answer {
            number: 0,
            low: UNTOUCHED,
            high: UNTOUCHED,
            work: (0..length).map(|_| energies::in_table(rng)).collect(),
        };
        let expected = expected(set, refusal, held, ours.work.clone());
        ours.number = ours::loudness_range(set, &mut ours.work, &mut ours.low, &mut ours.high);
        let input = || format!("{set:?} with {length} places to work in");
        self.op.case(input, ours.number, expected.number)?;
        self.op.saw_check(check);
        match ours.number {
            0 => {
                self.op.saw(FOUND);
                if set.has_histogram() {
                    let gate = words::range::gate_of_counters(&set.counted());
                    self.op.saw(words::range::starting(gate));
                }
            }
            NOTHING => self.op.saw(nothing(set)),
            NOT_A_NUMBER => self.op.saw(NAN_HELD),
            number => self.op.saw(number),
        }
        self.op
            .also(input, "low", same_float(ours.low, expected.low))?;
        self.op
            .also(input, "high", same_float(ours.high, expected.high))?;
        let mut places = ours.work.iter().zip(&expected.work);
        let same = places.all(|(a, b)| a.to_bits() == b.to_bits());
        self.op.also(input, "the work slice", same)?;
        let rust = match refusal {
            0 => rust_agrees(set, &ours),
            _ => true,
        };
        self.op.also(input, "the Rust's range", rust)
    }
}

/// Why there is nothing.
fn nothing(set: &Set) -> &'static str {
    let counted = || set.counted().iter().any(|&count| count > 0);
    if set.entries.is_empty() {
        NO_HISTORIES
    } else if counted() || !set.held().is_empty() {
        NONE_LEFT
    } else {
        NO_BLOCKS
    }
}

/// Whether the Rust answers the same, for a set that is a set. It knows no lack of room, and nothing
/// is a range of 0 to it.
fn rust_agrees(set: &Set, ours: &Answer) -> bool {
    let rust = set.rust();
    let rust: Vec<&History> = rust.iter().collect();
    match History::loudness_range_multiple(&rust) {
        Err(_) => ours.number == MODE,
        Ok(range) => match ours.number {
            0 => {
                let ours = energy_to_loudness(ours.high) - energy_to_loudness(ours.low);
                same_float(ours, range)
            }
            NOTHING => range == 0.0,
            NOT_A_NUMBER => range.is_nan(),
            number => number == ROOM,
        },
    }
}

/// Document 01's answer.
fn expected(set: &Set, refusal: u8, held: Vec<f64>, given: Vec<f64>) -> Answer {
    let answer = |number, work| Answer {
        number,
        low: UNTOUCHED,
        high: UNTOUCHED,
        work,
    };
    if refusal != 0 {
        return answer(refusal, given);
    }
    if set.is_mixed() {
        return answer(MODE, given);
    }
    if given.len() < held.len() {
        return answer(ROOM, given);
    }
    if held.iter().any(|energy| energy.is_nan()) {
        return answer(NOT_A_NUMBER, given);
    }
    let (mut rising, mut work) = (held, given);
    rising.sort_by(f64::total_cmp);
    work[..rising.len()].copy_from_slice(&rising);
    let span = match rising.is_empty() {
        true => words::range::of_counters(&set.counted()),
        false => words::range::of_energies(&rising),
    };
    match span {
        None => answer(NOTHING, work),
        Some((low, high)) => Answer {
            number: 0,
            low,
            high,
            work,
        },
    }
}
