//! The interpolator's phases, beside the Rust's `InterpF` and document 01's words over the printed
//! coefficients.

use driver::rng::{pick, Rng};
use driver::sounds::{self, Kind};
use driver::words;
use ebur128::interp::InterpF;
use ebur128::utils::FrameAccumulator;

use super::{same_narrow, Difference, Operation};
use crate::ours;

const STRETCHES: usize = 1_300;
const FRAMES: usize = 200;

pub fn run(seed: u64) -> Result<(), Difference> {
    let fourfold = |samples: &[f32; 12]| ours::filter::phases_fourfold(samples);
    let twofold = |samples: &[f32; 24]| ours::filter::phases_twofold(samples);
    factor("phases_fourfold", seed, fourfold)?;
    factor("phases_twofold", seed, twofold)
}

/// Frames of one channel and of several: those of one channel are a sum each, of eight they stand side
/// by side in the Rust.
fn factor<const TAPS: usize, const FACTOR: usize>(
    name: &'static str,
    seed: u64,
    ours: impl Fn(&[f32; TAPS]) -> [f32; FACTOR],
) -> Result<(), Difference> {
    let mut op = Operation::new(name);
    let rng = &mut Rng::new(seed);
    for _ in 0..STRETCHES {
        stretch::<TAPS, FACTOR, 1>(&mut op, &ours, rng)?;
        stretch::<TAPS, FACTOR, 2>(&mut op, &ours, rng)?;
        stretch::<TAPS, FACTOR, 6>(&mut op, &ours, rng)?;
        stretch::<TAPS, FACTOR, 8>(&mut op, &ours, rng)?;
    }
    op.same(
        "the Rust's InterpF of 1, 2, 6 and 8 channels, and document 01",
        &[],
    )
}

/// From silence on, some frames of one sound after another.
fn stretch<const TAPS: usize, const FACTOR: usize, const CHANNELS: usize>(
    op: &mut Operation,
    ours: impl Fn(&[f32; TAPS]) -> [f32; FACTOR],
    rng: &mut Rng,
) -> Result<(), Difference>
where
    [f32; CHANNELS]: FrameAccumulator + Default,
{
    let mut interp = InterpF::<TAPS, FACTOR, [f32; CHANNELS]>::new();
    let mut samples = [[0.0; TAPS]; CHANNELS];
    let mut sound = pick(&sounds::ALL, rng);
    for _ in 0..FRAMES {
        if rng.below(40) == 0 {
            sound = pick(&sounds::ALL, rng);
        }
        let frame = [0.0; CHANNELS].map(|_| f32::sample(sound, rng));
        let phases = interp.interpolate(frame);
        for (c, samples) in samples.iter_mut().enumerate() {
            samples.rotate_right(1);
            samples[0] = frame[c];
            let ours = ours(samples);
            let rust = phases.map(|frame| frame[c]);
            let words: Vec<f32> = words::filter::phases(FACTOR, samples).collect();
            let input = || format!("{samples:?}: {ours:?}, not {rust:?} and {words:?}");
            let same = same_narrow(&ours, &rust) && same_narrow(&ours, &words);
            op.case(input, same, true)?;
        }
    }
    Ok(())
}
