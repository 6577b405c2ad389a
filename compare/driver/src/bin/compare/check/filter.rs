//! The filter: document 01's worked cases, runs beside the Rust's `Filter` on the coefficients that it
//! designs, and single calls beside document 01's words on any.

mod any;
mod pair;
mod runs;
mod worked;

use std::any::type_name;

use driver::words::filter::{self, Call, Kept, Sample, LOUDNESS, SAMPLE_PEAK, TRUE_PEAK};

use super::{same_floats, same_narrow, Difference, Operation};

pub fn run(seed: u64) -> Result<(), Difference> {
    worked::run()?;
    runs::run(seed)?;
    any::run(seed)
}

/// What a rate is to the true peak.
pub const FACTORS: [&str; 3] = ["factor 4", "factor 2", "no true peak at the rate"];

pub fn factor(rate: u32) -> &'static str {
    match filter::factor(rate) {
        Some(4) => FACTORS[0],
        Some(_) => FACTORS[1],
        None => FACTORS[2],
    }
}

/// How many samples there were in all calls.
pub const SAMPLES: &str = "samples";

/// A call that was not refused: its kind of sample, its factor, and each switch that is off.
fn saw<T: Sample>(op: &mut Operation, call: &Call<T>) {
    op.saw(type_name::<T>());
    op.saw(factor(call.rate));
    op.saw_times(SAMPLES, call.data.len() as u64);
    for (switch, name) in OFF {
        op.saw_times(name, u64::from(call.on & switch == 0));
    }
}

const OFF: [(u8, &str); 3] = [
    (LOUDNESS, "loudness off"),
    (SAMPLE_PEAK, "sample peak off"),
    (TRUE_PEAK, "true peak off"),
];

/// One of the two calls, with all that `saw` can see.
fn operation(name: &'static str) -> Operation {
    let op = Operation::new(name).can(&["i16", "f32"]).can(&FACTORS);
    op.can(&OFF.map(|(_, name)| name))
}

/// What of all that passes from call to call is not the same on both sides, if anything.
pub fn parted(ours: &Kept, expected: &Kept) -> Option<&'static str> {
    let same = [
        ("state", same_floats(&ours.state, &expected.state)),
        ("sample peaks", same_floats(&ours.peaks, &expected.peaks)),
        ("memory", same_narrow(&ours.memory, &expected.memory)),
        (
            "true peaks",
            same_narrow(&ours.true_peaks, &expected.true_peaks),
        ),
    ];
    same.iter().find(|(_, same)| !same).map(|(name, _)| *name)
}

/// A call in words; the samples themselves where they are few.
fn shown<T: Sample>(call: &Call<T>) -> String {
    if call.data.len() <= 64 {
        return format!("{call:?}");
    }
    let samples = call.data.len();
    format!(
        "{:?} and {samples} samples in all",
        Call {
            data: &call.data[..64],
            ..call.clone()
        }
    )
}
