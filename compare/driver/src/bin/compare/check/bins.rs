//! Tables, bins and readings.

use driver::oracle::{self, BOUNDARIES, ENERGIES};
use driver::refusals::{Check, SCALE};
use driver::rng::Rng;

use super::{inputs, shown, Difference, Operation};
use crate::ours;

const RANDOM_SEARCHES: usize = 3_300_000;
const RANDOM_HISTORIES: usize = 17_000;
const RANDOM_READINGS: usize = 170_000;

pub fn run(seed: u64) -> Result<(), Difference> {
    tables()?;
    past_the_end()?;
    find_histogram_index(&mut Rng::new(seed))?;
    find_histogram_index_through_history(&mut Rng::new(seed))?;
    reading(&mut Rng::new(seed))
}

/// Both tables, bit for bit.
fn tables() -> Result<(), Difference> {
    let mut op = Operation::new("tables");
    for (i, boundary) in BOUNDARIES.iter().enumerate() {
        let ours = ours::boundary(i).to_bits();
        op.case(|| format!("boundary {i}"), ours, boundary.to_bits())?;
        op.saw("a boundary");
    }
    for (i, energy) in ENERGIES.iter().enumerate() {
        let ours = ours::energy(i).to_bits();
        op.case(|| format!("energy {i}"), ours, energy.to_bits())?;
        op.saw("an energy");
    }
    op.same("the Rust's, bit for bit", &[])
}

/// Past its end a table answers NaN, where the Rust would panic: the header's word, not the Rust's.
fn past_the_end() -> Result<(), Difference> {
    let mut op = Operation::new("tables").can(&["past the end"]);
    let far = [1002, 1 << 16, 1 << 32, usize::MAX / 8, usize::MAX];
    for i in [1001].into_iter().chain(far) {
        op.case(|| format!("boundary {i}"), ours::boundary(i).is_nan(), true)?;
        op.saw("past the end");
    }
    for i in [1000, 1001].into_iter().chain(far) {
        op.case(|| format!("energy {i}"), ours::energy(i).is_nan(), true)?;
        op.saw("past the end");
    }
    op.same("the header's NaN", &[])
}

/// Where an energy lies; none of these is left out.
const WITHIN: &str = "within the table";
const OUTSIDE: [&str; 3] = ["NaN", "below boundary 0", "at or above boundary 1000"];

fn place(energy: f64) -> &'static str {
    if energy.is_nan() {
        OUTSIDE[0]
    } else if energy < BOUNDARIES[0] {
        OUTSIDE[1]
    } else if energy >= BOUNDARIES[1000] {
        OUTSIDE[2]
    } else {
        WITHIN
    }
}

fn find_histogram_index(rng: &mut Rng) -> Result<(), Difference> {
    let mut op = Operation::new("find_histogram_index").can(&[WITHIN]);
    op = op.can(&OUTSIDE);
    let mut hit = [false; 1000];
    for energy in inputs(RANDOM_SEARCHES, rng) {
        let rust = oracle::bin(energy);
        op.case(|| shown(energy), ours::find_histogram_index(energy), rust)?;
        op.saw(place(energy));
        hit[rust] = true;
    }
    let hit = hit.iter().filter(|&&hit| hit).count();
    if hit < 1000 {
        return Err(Difference(format!("only {hit} of 1000 bins were hit")));
    }
    op.same(
        "the Rust's own loop, cut from history.rs; all 1000 bins hit each round",
        &[],
    )
}

/// As far as a histogram shows it: an energy below boundary 0 is dropped, and its bin stays unseen.
fn find_histogram_index_through_history(rng: &mut Rng) -> Result<(), Difference> {
    let mut op = Operation::new("find_histogram_index");
    let mut history = oracle::SingleBlock::new();
    for energy in inputs(RANDOM_HISTORIES, rng) {
        let dropped = energy < ours::boundary(0);
        let ours = (!dropped).then(|| ours::find_histogram_index(energy));
        op.case(|| shown(energy), ours, history.bin(energy))?;
    }
    op.same("the Rust's History, one block each", &[])
}

/// Where an energy of the scale lies within its bin.
const HALVES: [&str; 3] = [
    "below its bin's table energy",
    "at its bin's table energy",
    "above its bin's table energy",
];

fn half(energy: f64) -> &'static str {
    let middle = ENERGIES[oracle::bin(energy)];
    if energy < middle {
        HALVES[0]
    } else if energy == middle {
        HALVES[1]
    } else {
        HALVES[2]
    }
}

/// Whether the reading is a tenth nearest the loudness, by BS.1770's logarithm and no table: half a tenth
/// off at most, and what the tables and the logarithm are off by.
fn nearest(tenths: i32, energy: f64) -> bool {
    let loudness = -0.691 + 10.0 * energy.log10();
    (f64::from(tenths) - 10.0 * loudness).abs() <= 0.5 + 1e-10
}

/// On a refusal `tenths` stays as it was. Each of the 1,001 readings has to be seen in each round.
fn reading(rng: &mut Rng) -> Result<(), Difference> {
    const UNTOUCHED: i32 = 0x5E17_1E55;
    let scale = OUTSIDE.map(|why| Check::new(SCALE, why));
    let mut op = Operation::new("reading").can(&HALVES).can(&scale);
    let mut read = [false; 1001];
    for energy in inputs(RANDOM_READINGS, rng) {
        let mut tenths = UNTOUCHED;
        let number = ours::reading(energy, &mut tenths);
        let (expected, written) = match oracle::reading(energy) {
            Ok(tenths) => (0, tenths),
            Err(number) => (number, UNTOUCHED),
        };
        op.answer(|| shown(energy), number, expected)?;
        op.also(|| shown(energy), "the tenths", tenths == written)?;
        if number == 0 {
            op.also(|| shown(energy), "nearest", nearest(tenths, energy))?;
            op.saw(half(energy));
            read[(tenths + 700) as usize] = true;
        } else {
            op.saw(Check::new(number, place(energy)));
        }
    }
    let read = read.iter().filter(|&&read| read).count();
    if read < 1001 {
        return Err(Difference(format!(
            "only {read} of 1001 readings were seen"
        )));
    }
    op.same(
        "change request 1 over the Rust's own loop and tables; all 1001 readings seen each round",
        &[SCALE],
    )
}
