//! The true peak alone, beside the Rust's `TruePeak`, which takes any stored peak: its peaks after each
//! call, and its rolling buffer beside our memory.

use driver::filters;
use driver::rng::{pick, Rng};
use driver::sounds::{self, Kind};
use driver::words::filter::{self, Call, Kept, PAST, TRUE_PEAK};
use ebur128::true_peak::TruePeak;
use ebur128::Interleaved;

use super::filter::{factor, parted, FACTORS, SAMPLES};
use super::{Difference, Operation, UNTOUCHED};
use crate::ours::filter::Lent;

const RUNS: usize = 10_000;
const CALLS: usize = 6;
const RATES: [u32; 10] = [
    1, 8_000, 44_100, 48_000, 95_999, 96_000, 176_400, 191_999, 192_000, 384_000,
];

pub fn run(seed: u64) -> Result<(), Difference> {
    let mut op = Operation::new("true peak").can(&FACTORS);
    let rng = &mut Rng::new(seed);
    for _ in 0..RUNS {
        let mut pair = Pair::new(rng);
        for _ in 0..CALLS {
            match rng.below(2) {
                0 => pair.call::<i16>(&mut op, rng)?,
                _ => pair.call::<f32>(&mut op, rng)?,
            };
        }
    }
    op.same("the Rust's TruePeak and its buffers after each call", &[])
}

struct Pair {
    channels: usize,
    rate: u32,
    rust: Option<TruePeak>,
    peaks: Vec<f64>,
    kept: Kept,
}

impl Pair {
    /// From silence on, with any stored peaks in half of all runs.
    fn new(rng: &mut Rng) -> Self {
        let channels = 1 + rng.below(8) as usize;
        let rate = pick(&RATES, rng);
        let mut kept = Kept::new(channels, UNTOUCHED as f32);
        if rng.below(2) == 0 {
            let stored = |_| f32::sample(pick(&sounds::ALL, rng), rng);
            let stored: Vec<f32> = (0..channels).map(stored).collect();
            kept.true_peaks[..channels].copy_from_slice(&stored);
        }
        Pair {
            channels,
            rate,
            rust: TruePeak::new(rate, channels as u32),
            peaks: kept.true_peaks[..channels]
                .iter()
                .map(|&peak| f64::from(peak))
                .collect(),
            kept,
        }
    }

    /// A call on both sides, `process` or `seed`.
    fn call<T: Kind + Lent>(
        &mut self,
        op: &mut Operation,
        rng: &mut Rng,
    ) -> Result<(), Difference> {
        let frames = pick(&[0, 1, 2, 5, 11, 12, 13, 23, 24, 60, 300], rng);
        let data: Vec<T> = sounds::of(pick(&sounds::ALL, rng), frames * self.channels, rng);
        let call = Call {
            channels: self.channels,
            rate: self.rate,
            on: TRUE_PEAK,
            a: [f64::NAN; 5],
            b: [f64::NAN; 5],
            data: &data,
            map: &vec![rng.below(2) as u8; self.channels],
            start: usize::MAX,
        };
        let lent = || Interleaved::new(&data, self.channels).expect("whole frames");
        let number = if rng.below(4) == 0 {
            if let Some(rust) = &mut self.rust {
                rust.seed(lent());
            }
            T::seed(&call, &mut self.kept)
        } else {
            if let Some(rust) = &mut self.rust {
                rust.check_true_peak(lent(), &mut self.peaks);
            }
            T::process(&call, &mut self.kept, &mut [])
        };
        let input = || format!("{call:?}");
        op.answer(input, number, 0)?;
        let parted = parted(&self.kept, &self.expected());
        op.also(input, parted.unwrap_or_default(), parted.is_none())?;
        op.saw(factor(self.rate));
        op.saw_times(SAMPLES, data.len() as u64);
        Ok(())
    }

    /// The Rust's peaks and buffers, and all else as it was. The Rust keeps as many samples as the rate has
    /// taps, the last frame's among them: at factor 2 one more than ours, at factor 4 eleven fewer.
    fn expected(&self) -> Kept {
        let mut kept = Kept::new(self.channels, UNTOUCHED as f32);
        for (ours, &rust) in kept.true_peaks.iter_mut().zip(&self.peaks) {
            *ours = rust as f32;
        }
        let Some(rust) = &self.rust else {
            return kept;
        };
        let taps = 48 / filter::factor(self.rate).expect("the Rust has a true peak");
        let buffers = filters::buffers(rust, taps);
        assert_eq!(buffers.len(), self.channels);
        let channels = PAST * self.channels;
        kept.memory[..channels].copy_from_slice(&self.kept.memory[..channels]);
        for (ours, rust) in kept.memory.chunks_mut(PAST).zip(&buffers) {
            let shown = taps.min(PAST);
            ours[..shown].copy_from_slice(&rust[..shown]);
        }
        kept
    }
}
