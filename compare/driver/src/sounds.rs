//! The samples that are tried, of both kinds.

use crate::rng::{pick, Rng};
use crate::words::filter::Sample;

/// What a stretch of samples is like.
#[derive(Clone, Copy, Debug, PartialEq)]
pub enum Sound {
    /// Anything up to full scale.
    Noise,
    /// Full scale and zeros, of both signs.
    FullScale,
    /// The smallest samples: for floats, down to and within the subnormal ones.
    Quiet,
    /// Mostly silence.
    Clicks,
    Silence,
    /// Noise with a NaN, an infinity or the like now and then. Integers have none of them.
    Odd,
    /// Any pattern.
    Wild,
}

/// The sounds that leave a filter's state finite.
pub const TAME: [Sound; 5] = [
    Sound::Noise,
    Sound::FullScale,
    Sound::Quiet,
    Sound::Clicks,
    Sound::Silence,
];

pub const ALL: [Sound; 7] = [
    Sound::Noise,
    Sound::FullScale,
    Sound::Quiet,
    Sound::Clicks,
    Sound::Silence,
    Sound::Odd,
    Sound::Wild,
];

/// A kind of sample that both sides take.
pub trait Kind: Sample + ebur128::utils::Sample {
    fn sample(sound: Sound, rng: &mut Rng) -> Self;
}

impl Kind for i16 {
    fn sample(sound: Sound, rng: &mut Rng) -> i16 {
        match sound {
            Sound::Noise | Sound::Odd | Sound::Wild => rng.bits() as i16,
            Sound::FullScale => pick(&[i16::MIN, i16::MAX, 0], rng),
            Sound::Quiet => rng.below(5) as i16 - 2,
            Sound::Clicks => rarely(16, rng).unwrap_or(0),
            Sound::Silence => 0,
        }
    }
}

impl Kind for f32 {
    fn sample(sound: Sound, rng: &mut Rng) -> f32 {
        match sound {
            Sound::Noise => (rng.bits() >> 40) as f32 / (1 << 23) as f32 - 1.0,
            Sound::FullScale => pick(&[-1.0, 1.0, 0.0, -0.0], rng),
            Sound::Quiet => f32::from_bits(rng.bits() as u32 & 0x80FF_FFFF),
            Sound::Clicks => rarely(16, rng).unwrap_or(0.0),
            Sound::Silence => pick(&[0.0, -0.0], rng),
            Sound::Odd if rng.below(64) == 0 => f32::from_bits(pick(&ODD, rng)),
            Sound::Odd => f32::sample(Sound::Noise, rng),
            Sound::Wild => f32::from_bits(rng.bits() as u32),
        }
    }
}

/// Noise in one sample of so many.
fn rarely<T: Kind>(times: u64, rng: &mut Rng) -> Option<T> {
    (rng.below(times) == 0).then(|| T::sample(Sound::Noise, rng))
}

/// Patterns of infinities, NaNs with odd payloads, zeros and both ends of the normal range and the
/// subnormal one.
const ODD: [u32; 12] = [
    0x7F80_0000, // infinity
    0xFF80_0000,
    0x7FC0_0000, // the usual NaN
    0x7FA0_1234, // a signalling NaN
    0xFFD5_AAAA, // a quiet NaN with a sign and a payload
    0x7F7F_FFFF, // largest finite
    0xFF7F_FFFF,
    0x0080_0000, // smallest normal
    0x807F_FFFF, // largest subnormal, negative
    0x0000_0001, // smallest subnormal
    0x0000_0000,
    0x8000_0000,
];

/// So many samples.
pub fn of<T: Kind>(sound: Sound, number: usize, rng: &mut Rng) -> Vec<T> {
    (0..number).map(|_| T::sample(sound, rng)).collect()
}
