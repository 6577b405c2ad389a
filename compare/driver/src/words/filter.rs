//! Document 01's steps 2 to 6 and the first four rows of its table, channel by channel and frame by
//! frame. The Rust designs its own coefficients, starts from silence and has asserts for refusals:
//! where it cannot be brought to a state, the other side is these words.

use std::sync::OnceLock;

use crate::refusals::{self, Check, CHANNELS, DEST, MAP, SAMPLES};

/// "Steps 3, 4 and 6 are switched on separately": the switches of a call, added up.
pub const LOUDNESS: u8 = 1;
pub const SAMPLE_PEAK: u8 = 2;
pub const TRUE_PEAK: u8 = 4;

pub const MOST_CHANNELS: usize = 8;

/// The checks of both calls, and those of `process` alone.
pub const CHECKS: [Check; 5] = [
    Check::new(CHANNELS, "none"),
    Check::new(CHANNELS, "above 8"),
    Check::new(SAMPLES, "not whole frames"),
    Check::new(MAP, "another length"),
    Check::new(MAP, "a byte neither 0 nor 1"),
];
pub const DEST_CHECKS: [Check; 3] = [
    Check::new(DEST, "empty"),
    Check::new(DEST, "not a multiple of channels"),
    Check::new(DEST, "start + frames past its part"),
];

/// The samples before a frame's own that 24 taps reach.
pub const PAST: usize = 23;

/// Step 2: "i16 becomes s/32768, exact in f32 and f64. f32 becomes f64 exactly."
pub trait Sample: Copy + std::fmt::Debug {
    fn wide(self) -> f64;
    fn narrow(self) -> f32;
}

impl Sample for i16 {
    fn wide(self) -> f64 {
        f64::from(self) / 32768.0
    }

    fn narrow(self) -> f32 {
        f32::from(self) / 32768.0
    }
}

impl Sample for f32 {
    fn wide(self) -> f64 {
        f64::from(self)
    }

    fn narrow(self) -> f32 {
        self
    }
}

/// What passes from call to call, with places for eight channels: s0 to s4 of each, the peaks, and the
/// last 23 samples of each, newest first.
#[derive(Clone, Debug)]
pub struct Kept {
    pub state: [f64; 5 * MOST_CHANNELS],
    pub peaks: [f64; MOST_CHANNELS],
    pub memory: [f32; PAST * MOST_CHANNELS],
    pub true_peaks: [f32; MOST_CHANNELS],
}

impl Kept {
    /// Before the start, with `rest` in all places past so many channels.
    pub fn new(channels: usize, rest: f32) -> Self {
        let mut kept = Kept {
            state: [0.0; 5 * MOST_CHANNELS],
            peaks: [0.0; MOST_CHANNELS],
            memory: [0.0; PAST * MOST_CHANNELS],
            true_peaks: [0.0; MOST_CHANNELS],
        };
        kept.state[5 * channels..].fill(f64::from(rest));
        kept.peaks[channels..].fill(f64::from(rest));
        kept.memory[PAST * channels..].fill(rest);
        kept.true_peaks[channels..].fill(rest);
        kept
    }
}

/// What a call is given beside what passes from call to call.
#[derive(Clone, Debug)]
pub struct Call<'a, T> {
    pub channels: usize,
    pub rate: u32,
    pub on: u8,
    pub a: [f64; 5],
    pub b: [f64; 5],
    pub data: &'a [T],
    pub map: &'a [u8],
    /// Where the destination is written from; `seed` has none.
    pub start: usize,
}

impl<T: Sample> Call<'_, T> {
    fn is_on(&self, switch: u8) -> bool {
        self.on & switch != 0
    }

    fn frames(&self) -> usize {
        self.data.len() / self.channels
    }

    /// A channel's own samples.
    fn column(&self, c: usize) -> impl Iterator<Item = T> + '_ {
        self.data.iter().skip(c).step_by(self.channels).copied()
    }

    /// The numbers of `process`, and all that it alters.
    pub fn process(&self, kept: &mut Kept, dest: &mut [f64]) -> u8 {
        let number = refusals::number(self.check_process(dest.len()));
        if number != 0 {
            return number;
        }
        if self.is_on(SAMPLE_PEAK) {
            self.sample_peak(&mut kept.peaks);
        }
        if self.is_on(LOUDNESS) {
            let part = dest.len() / self.channels;
            self.weigh(&mut kept.state, |c, k, y| {
                dest[c * part + self.start + k] = y
            });
        }
        if self.is_on(TRUE_PEAK) {
            self.true_peak(&mut kept.memory, &mut kept.true_peaks);
        }
        0
    }

    /// "`seed` moves filter and interpolator state and writes no peak and no destination."
    pub fn seed(&self, kept: &mut Kept) -> u8 {
        let number = refusals::number(self.check_seed());
        if number != 0 {
            return number;
        }
        if self.is_on(LOUDNESS) {
            self.weigh(&mut kept.state, |_, _, _| {});
        }
        if self.is_on(TRUE_PEAK) {
            self.true_peak(&mut kept.memory, &mut kept.true_peaks.clone());
        }
        0
    }

    /// What refuses `seed`: the first of the checks that holds.
    pub fn check_seed(&self) -> Option<Check> {
        let first = if self.channels == 0 {
            0
        } else if self.channels > MOST_CHANNELS {
            1
        } else if self.data.len() % self.channels != 0 {
            2
        } else if self.map.len() != self.channels {
            3
        } else if self.map.iter().any(|&byte| byte > 1) {
            4
        } else {
            return None;
        };
        Some(CHECKS[first])
    }

    /// What refuses `process` with a destination of so many places: with loudness on, "the destination is
    /// empty, not a multiple of channels, or start + frames exceeds its per-channel part."
    pub fn check_process(&self, places: usize) -> Option<Check> {
        self.check_seed().or_else(|| {
            let end = || self.start as u128 + self.frames() as u128;
            let first = if !self.is_on(LOUDNESS) {
                return None;
            } else if places == 0 {
                0
            } else if places % self.channels != 0 {
                1
            } else if end() > (places / self.channels) as u128 {
                2
            } else {
                return None;
            };
            Some(DEST_CHECKS[first])
        })
    }

    /// Step 3: "Per channel, unused ones too: start at 0, take the largest absolute value; NaN never
    /// wins. It replaces the stored peak only if greater."
    fn sample_peak(&self, peaks: &mut [f64]) {
        for (c, peak) in peaks.iter_mut().enumerate().take(self.channels) {
            let values = self.column(c).map(|sample| sample.wide().abs());
            *peak = greater(*peak, values.fold(0.0, greater));
        }
    }

    /// Step 4, and what is done with output y of frame k of channel c. "At the end of each call every
    /// state value of magnitude below 2^-1022, negative zero too, becomes +0. An unused channel keeps
    /// state and destination."
    fn weigh(&self, state: &mut [f64], mut output: impl FnMut(usize, usize, f64)) {
        let (a, b) = (&self.a, &self.b);
        for c in (0..self.channels).filter(|&c| self.map[c] == 1) {
            let s = &mut state[5 * c..5 * c + 5];
            for (k, x) in self.column(c).enumerate() {
                s[0] = x.wide() - a[1] * s[1] - a[2] * s[2] - a[3] * s[3] - a[4] * s[4];
                let y = b[0] * s[0] + b[1] * s[1] + b[2] * s[2] + b[3] * s[3] + b[4] * s[4];
                output(c, k, y);
                s.copy_within(0..4, 1);
            }
            for value in s.iter_mut().filter(|value| value.abs() < f64::MIN_POSITIVE) {
                *value = 0.0;
            }
        }
    }

    /// Step 6: "Per channel, unused ones too: largest absolute phase so far, kept as f32; NaN never
    /// wins." The memory is moved where the rate has a true peak.
    fn true_peak(&self, memory: &mut [f32], peaks: &mut [f32]) {
        let Some(factor) = factor(self.rate) else {
            return;
        };
        for c in 0..self.channels {
            let past = &mut memory[PAST * c..PAST * c + PAST];
            for x in self.column(c) {
                let mut samples = [x.narrow(); PAST + 1];
                samples[1..].copy_from_slice(past);
                for phase in phases(factor, &samples) {
                    peaks[c] = greater(peaks[c], phase.abs());
                }
                past.copy_from_slice(&samples[..PAST]);
            }
        }
    }
}

/// The new value where it is greater.
fn greater<F: PartialOrd>(old: F, new: F) -> F {
    if new > old {
        new
    } else {
        old
    }
}

/// Step 5: "Rate below 96,000: factor 4, 12 taps; below 192,000: factor 2, 24 taps; else no true peak."
pub fn factor(rate: u32) -> Option<usize> {
    match rate {
        0..=95_999 => Some(4),
        96_000..=191_999 => Some(2),
        _ => None,
    }
}

/// "Phase f is the f32 sum, from 0, over i = 0, 1, .. of the sample i frames back times coefficient
/// i·factor + f." The samples stand newest first.
pub fn phases(factor: usize, samples: &[f32]) -> impl Iterator<Item = f32> + '_ {
    let coefficients = coefficients(factor);
    (0..factor).map(move |f| {
        let taps = coefficients.iter().skip(f).step_by(factor);
        let products = taps.zip(samples).map(|(tap, sample)| sample * tap);
        products.fold(0.0, |sum, product| sum + product)
    })
}

/// "48 coefficients per factor, f32, printed once by the oracle and then constant."
fn coefficients(factor: usize) -> &'static [f32] {
    static TABLES: OnceLock<[Vec<f32>; 2]> = OnceLock::new();
    let tables = TABLES.get_or_init(|| [printed("4 "), printed("2 ")]);
    &tables[usize::from(factor == 2)]
}

fn printed(factor: &str) -> Vec<f32> {
    let lines = include_str!("../../../coefficients.txt").lines();
    let patterns = lines.filter_map(|line| line.strip_prefix(factor)?.split(' ').nth(1));
    patterns
        .map(|pattern| u32::from_str_radix(pattern, 16).expect("a pattern"))
        .map(f32::from_bits)
        .collect()
}
