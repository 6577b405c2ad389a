//! Runs of calls beside the Rust's `Filter`, from silence on: every map, calls of any length cut at
//! random places, long calls, and silence after sound until the states are subnormal and then 0.

use driver::rng::{pick, Rng};
use driver::sounds::{self, Kind, Sound};
use driver::words::filter::{LOUDNESS, MOST_CHANNELS};

use super::pair::{Asked, Pair};
use crate::check::Difference;
use crate::ours::filter::Lent;

const RANDOM: usize = 12_000;
const LONG: usize = 50;
const TAILS: usize = 2;

/// Of all three classes, at their edges, and odd ones.
const RATES: [u32; 20] = [
    1,
    7,
    100,
    3_364,
    8_000,
    11_025,
    22_050,
    32_000,
    44_100,
    48_000,
    88_200,
    95_999,
    96_000,
    96_001,
    176_400,
    191_999,
    192_000,
    192_001,
    384_000,
    u32::MAX,
];

pub fn run(seed: u64) -> Result<(), Difference> {
    every_map(&mut Rng::new(seed))?;
    random(&mut Rng::new(seed))?;
    long(&mut Rng::new(seed))?;
    tails(&mut Rng::new(seed))
}

/// Every map of every number of channels, with all switches, at a rate of each class, in both kinds.
fn every_map(rng: &mut Rng) -> Result<(), Difference> {
    let mut asked = Asked::new();
    for channels in 1..=MOST_CHANNELS {
        for bits in 0..1 << channels {
            let map: Vec<u8> = (0..channels)
                .map(|c| bits >> c & 1)
                .map(|bit| bit as u8)
                .collect();
            for on in 0..8 {
                for rate in [44_100, 96_000, 192_000] {
                    mapped::<i16>(&mut asked, Pair::new(rate, channels, on), &map, rng)?;
                    mapped::<f32>(&mut asked, Pair::new(rate, channels, on), &map, rng)?;
                }
            }
        }
    }
    asked.same("the Rust's Filter: all 510 maps, with all switches")
}

/// Sound, a few samples more that only move states, and sound again.
fn mapped<T: Kind + Lent>(
    asked: &mut Asked,
    mut pair: Pair,
    map: &[u8],
    rng: &mut Rng,
) -> Result<(), Difference> {
    let data: Vec<T> = sounds::of(Sound::Noise, 32 * pair.channels, rng);
    let (seed, sound) = data.split_at(5 * pair.channels);
    pair.process(asked, sound, map, 30 * pair.channels, 2)?;
    pair.seed(asked, seed, map)?;
    pair.process(asked, sound, map, 27 * pair.channels, 0)
}

fn random(rng: &mut Rng) -> Result<(), Difference> {
    let mut asked = Asked::new();
    for _ in 0..RANDOM {
        let mut pair = any_pair(rng);
        let sounds = pick(&[&sounds::TAME[..], &sounds::TAME, &sounds::ALL], rng);
        for _ in 0..1 + rng.below(10) {
            let frames = match rng.below(8) {
                0 => 0,
                1 => 1,
                2 | 3 => rng.below(40),
                4..=6 => rng.below(1_000),
                _ => rng.below(5_000),
            };
            any_call(&mut asked, &mut pair, frames as usize, sounds, rng)?;
        }
    }
    asked.same("the Rust's Filter: any rate, calls of 0 to 5,000 frames")
}

/// Up to a second and a half at the usual rates.
fn long(rng: &mut Rng) -> Result<(), Difference> {
    let mut asked = Asked::new();
    for _ in 0..LONG {
        let mut pair = any_pair(rng);
        for _ in 0..3 {
            let frames = rng.below(72_000) as usize;
            any_call(&mut asked, &mut pair, frames, &sounds::TAME, rng)?;
        }
    }
    asked.same("the Rust's Filter: calls of up to 72,000 frames")
}

/// Any number of channels, and any switches with any bits above them, which mean nothing.
fn any_pair(rng: &mut Rng) -> Pair {
    let rate = match rng.below(8) {
        0 => 1 + rng.below(u64::from(u32::MAX)) as u32,
        1 => 1 + rng.below(200_000) as u32,
        _ => pick(&RATES, rng),
    };
    let on = match rng.below(3) {
        0 => 7,
        1 => rng.below(8),
        _ => rng.below(256),
    };
    Pair::new(rate, 1 + rng.below(8) as usize, on as u8)
}

/// A call of so many frames, in either kind.
fn any_call(
    asked: &mut Asked,
    pair: &mut Pair,
    frames: usize,
    sounds: &[Sound],
    rng: &mut Rng,
) -> Result<(), Difference> {
    let sound = pick(sounds, rng);
    match rng.below(2) {
        0 => call::<i16>(asked, pair, frames, sound, rng),
        _ => call::<f32>(asked, pair, frames, sound, rng),
    }
}

/// With any map; to a destination with room to spare or none, from any place on. Where loudness is off
/// any destination will do.
fn call<T: Kind + Lent>(
    asked: &mut Asked,
    pair: &mut Pair,
    frames: usize,
    sound: Sound,
    rng: &mut Rng,
) -> Result<(), Difference> {
    let data: Vec<T> = sounds::of(sound, frames * pair.channels, rng);
    let map: Vec<u8> = match rng.below(3) {
        0 => vec![1; pair.channels],
        _ => (0..pair.channels).map(|_| rng.below(2) as u8).collect(),
    };
    if rng.below(5) == 0 {
        return pair.seed(asked, &data, &map);
    }
    if !pair.weighs() {
        let (places, start) = (rng.below(30) as usize, rng.bits() as usize);
        return pair.process(asked, &data, &map, places, start);
    }
    let start = pick(&[0, 1, 17], rng);
    let part = (start + frames + pick(&[0, 0, 1, 30], rng)).max(1);
    pair.process(asked, &data, &map, part * pair.channels, start)
}

/// What is left of a sound falls to 2^-1022 of full scale in about three seconds at any rate: in a call
/// that ends near there, and in short ones.
fn tails(rng: &mut Rng) -> Result<(), Difference> {
    let mut asked = Asked::new();
    for rate in [8_000, 11_025, 44_100, 48_000, 96_000] {
        for i in 0..TAILS {
            let near = (2.9 + 0.5 * rng.fraction()) * f64::from(rate);
            let short = 1 + rng.below(u64::from(rate) / 10);
            for frames in [near as usize, short as usize] {
                tail::<i16>(
                    &mut asked,
                    Pair::new(rate, 1 + i % 2, LOUDNESS),
                    frames,
                    rng,
                )?;
                tail::<f32>(
                    &mut asked,
                    Pair::new(rate, 1 + i % 2, LOUDNESS),
                    frames,
                    rng,
                )?;
            }
        }
    }
    if asked.subnormal == 0 {
        return Err(Difference("no tail went subnormal".to_string()));
    }
    asked.same("the Rust's Filter: silence after sound until all states are 0")
}

/// Sound, and then calls of so many frames of silence until all states are 0, or for ten seconds.
fn tail<T: Kind + Lent>(
    asked: &mut Asked,
    mut pair: Pair,
    frames: usize,
    rng: &mut Rng,
) -> Result<(), Difference> {
    let map = vec![1; pair.channels];
    let sound: Vec<T> = sounds::of(Sound::Noise, 100 * pair.channels, rng);
    pair.process(asked, &sound, &map, sound.len(), 0)?;
    let silence: Vec<T> = sounds::of(Sound::Silence, frames * pair.channels, rng);
    let seconds = 10;
    let calls = seconds * pair.rate as usize / frames;
    for i in 0..calls {
        if pair.is_silent() {
            return Ok(());
        }
        match i % 4 {
            3 => pair.seed(asked, &silence, &map)?,
            _ => pair.process(asked, &silence, &map, silence.len(), 0)?,
        }
    }
    // Calls of one frame flush at every frame, and a tail may then never end: on both sides alike.
    if frames == 1 {
        return Ok(());
    }
    let rate = pair.rate;
    Err(Difference(format!(
        "at {rate} a tail lasts longer than {seconds} s in calls of {frames} frames"
    )))
}
