//! Sounds as programmes have them, made here: parts one after the other, and what can go wrong with them.

use std::f64::consts::TAU;

use crate::rng::{pick, Rng};
use crate::sounds::Kind;

/// What a part of a programme sounds like.
#[derive(Clone, Copy, Debug, PartialEq)]
pub enum Part {
    Tone,
    Noise,
    /// Syllables of a few harmonics and breath, with pauses between them.
    Speech,
    Silence,
    /// A square wave at full scale, whatever the programme's level.
    Square,
    Sweep,
}

pub const PARTS: [(Part, &str); 6] = [
    (Part::Tone, "tone"),
    (Part::Noise, "noise"),
    (Part::Speech, "speech-like bursts"),
    (Part::Silence, "silence"),
    (Part::Square, "full-scale square"),
    (Part::Sweep, "sweep"),
];

/// The amplitude of a level in dBFS.
pub fn amplitude(level: f64) -> f64 {
    f64::powf(10.0, level / 20.0)
}

/// Frame k of a sine.
pub fn sine(hz: f64, rate: u32, k: usize, phase: f64) -> f64 {
    (TAU * (hz * k as f64 / f64::from(rate)).fract() + phase).sin()
}

/// So many frames of a part, interleaved, with a gain for each channel.
pub fn part(part: Part, rate: u32, frames: usize, gains: &[f64], rng: &mut Rng) -> Vec<f64> {
    let hz = 30.0 * f64::powf(400.0, rng.fraction());
    let level = amplitude(-60.0 * rng.fraction());
    let mono: Vec<f64> = match part {
        Part::Tone => (0..frames).map(|k| sine(hz, rate, k, 0.0)).collect(),
        Part::Sweep => sweep(rate, frames).collect(),
        Part::Square => (0..frames).map(|k| square(hz, rate, k) / level).collect(),
        Part::Speech => speech(rate, frames, rng),
        // each channel has a noise of its own
        Part::Noise | Part::Silence => vec![0.0; frames],
    };
    let mut samples = Vec::with_capacity(frames * gains.len());
    for x in mono {
        for gain in gains {
            let own = match part {
                Part::Noise => 2.0 * rng.fraction() - 1.0,
                _ => x,
            };
            samples.push(gain * level * own);
        }
    }
    samples
}

fn square(hz: f64, rate: u32, k: usize) -> f64 {
    if sine(hz, rate, k, 0.0) < 0.0 {
        -1.0
    } else {
        1.0
    }
}

/// From 20 Hz up to 0.45 of the rate, each octave as long as any other.
fn sweep(rate: u32, frames: usize) -> impl Iterator<Item = f64> {
    let last = 0.45 * f64::from(rate);
    let step = f64::powf(last / 20.0, 1.0 / frames.max(1) as f64);
    let (mut hz, mut turns) = (20.0, 0.0f64);
    (0..frames).map(move |_| {
        turns = (turns + hz / f64::from(rate)).fract();
        hz *= step;
        (TAU * turns).sin()
    })
}

/// Bursts of 80 to 300 ms with pauses of 20 to 400 ms; now and then a longer one, as between sentences.
fn speech(rate: u32, frames: usize, rng: &mut Rng) -> Vec<f64> {
    let mut samples = Vec::with_capacity(frames);
    let seconds = |from: f64, to: f64, rng: &mut Rng| {
        ((from + (to - from) * rng.fraction()) * f64::from(rate)) as usize
    };
    while samples.len() < frames {
        let (pitch, breath) = (90.0 + 160.0 * rng.fraction(), 0.3 * rng.fraction());
        let length = seconds(0.08, 0.3, rng);
        for k in 0..length {
            let envelope = (0.5 * TAU * k as f64 / length as f64).sin();
            let harmonic = |h: usize| sine(h as f64 * pitch, rate, k, 0.0) / h as f64;
            let voiced: f64 = (1..5).map(harmonic).sum();
            let noise = breath * (2.0 * rng.fraction() - 1.0);
            samples.push(0.4 * envelope * (voiced + noise));
        }
        let pause = match rng.below(8) {
            0 => seconds(0.4, 1.5, rng),
            _ => seconds(0.02, 0.4, rng),
        };
        samples.extend((0..pause).map(|_| 0.0));
    }
    samples.truncate(frames);
    samples
}

/// What goes wrong with a programme.
#[derive(Clone, Copy, Debug, PartialEq)]
pub enum Mutation {
    Nothing,
    /// The gain changes, at once, in the middle of it.
    Gain,
    /// Too loud, and cut off at full scale.
    Clipped,
    /// A stretch is silent.
    Muted,
    /// A stretch is missing.
    Dropped,
    /// Single samples are anything up to full scale.
    Errors,
    /// Single samples are NaN or infinite; integers have none, and get errors.
    NotFinite,
}

pub const MUTATIONS: [(Mutation, &str); 7] = [
    (Mutation::Nothing, "unharmed"),
    (Mutation::Gain, "gain changes"),
    (Mutation::Clipped, "clipped"),
    (Mutation::Muted, "a block silent"),
    (Mutation::Dropped, "a block dropped"),
    (Mutation::Errors, "sample errors"),
    (Mutation::NotFinite, "NaN or infinity"),
];

/// Harms a programme of so many channels.
pub fn mutate(mutation: Mutation, samples: &mut Vec<f64>, channels: usize, rng: &mut Rng) {
    let frames = samples.len() / channels;
    let first = rng.below(frames as u64 + 1) as usize;
    let last = first + rng.below((frames - first) as u64 + 1) as usize;
    let block = first * channels..last * channels;
    match mutation {
        Mutation::Nothing => {}
        Mutation::Gain => {
            let gain = amplitude(30.0 * rng.fraction() - 20.0);
            samples[block].iter_mut().for_each(|x| *x *= gain);
        }
        Mutation::Clipped => {
            let gain = amplitude(24.0 * rng.fraction());
            let clip = |x: &mut f64| *x = (*x * gain).clamp(-1.0, 1.0);
            samples.iter_mut().for_each(clip);
        }
        Mutation::Muted => samples[block].fill(0.0),
        Mutation::Dropped => drop(samples.drain(block)),
        Mutation::Errors => scatter(samples, |rng| 2.0 * rng.fraction() - 1.0, rng),
        Mutation::NotFinite => {
            let odd = [f64::NAN, f64::INFINITY, f64::NEG_INFINITY];
            scatter(samples, |rng| pick(&odd, rng), rng);
        }
    }
}

/// Up to a dozen samples anew.
fn scatter(samples: &mut [f64], mut anew: impl FnMut(&mut Rng) -> f64, rng: &mut Rng) {
    for _ in 0..1 + rng.below(12) {
        let place = rng.below(samples.len().max(1) as u64) as usize;
        if let Some(sample) = samples.get_mut(place) {
            *sample = anew(rng);
        }
    }
}

/// A sample of either kind, from full scale as 1.
pub trait Scaled: Kind {
    fn scaled(x: f64) -> Self;
}

impl Scaled for i16 {
    /// To the nearest, and no further than the largest; a NaN is 0.
    fn scaled(x: f64) -> i16 {
        (x * 32768.0).round() as i16
    }
}

impl Scaled for f32 {
    fn scaled(x: f64) -> f32 {
        x as f32
    }
}
