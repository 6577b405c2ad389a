//! The energies that are tried: the tables and their neighbours, the odd corners of f64, and random
//! ones. Neighbours are one unit in the last place away: one step in the bit pattern.

use crate::oracle::{BOUNDARIES, ENERGIES};
use crate::rng::Rng;

/// The float one unit in the last place nearer to 0; `energy` is positive.
pub fn below(energy: f64) -> f64 {
    f64::from_bits(energy.to_bits() - 1)
}

/// The float one unit in the last place further from 0; `energy` is positive and finite.
pub fn above(energy: f64) -> f64 {
    f64::from_bits(energy.to_bits() + 1)
}

/// All 2,001 table values, boundaries first.
pub fn table_values() -> impl Iterator<Item = f64> {
    BOUNDARIES.iter().chain(&ENERGIES).copied()
}

/// A value with its neighbours on both sides.
pub fn with_neighbours(energy: f64) -> [f64; 3] {
    [energy, below(energy), above(energy)]
}

/// Zeros, subnormals, the ends of the normal range, one, infinities and NaNs, each with both signs.
pub fn specials() -> Vec<f64> {
    const MAGNITUDES: [u64; 20] = [
        0x0000_0000_0000_0000, // zero
        0x0000_0000_0000_0001, // smallest subnormal
        0x0000_0000_0000_0002,
        0x0000_0000_DEAD_BEEF,
        0x0008_0000_0000_0000,
        0x000F_FFFF_FFFF_FFFF, // largest subnormal
        0x0010_0000_0000_0000, // smallest normal
        0x3FF0_0000_0000_0000, // one
        0x4092_51DC_0000_0000, // in the last bins, and their negative
        0x7FEF_FFFF_FFFF_FFFF, // largest finite
        0x7FF0_0000_0000_0000, // infinity
        0x7FF0_0000_0000_0001, // signalling NaNs
        0x7FF4_0000_0000_0000,
        0x7FF5_DEAD_BEEF_0BAD,
        0x7FF7_FFFF_FFFF_FFFF,
        0x7FF8_0000_0000_0000, // the usual NaN
        0x7FF8_0000_0000_0001, // quiet NaNs with a payload
        0x7FFA_5A5A_A5A5_5A5B,
        0x7FFD_EAD0_0000_BEEF,
        0x7FFF_FFFF_FFFF_FFFF,
    ];
    const SIGN: u64 = 1 << 63;
    MAGNITUDES
        .iter()
        .flat_map(|&bits| [f64::from_bits(bits), f64::from_bits(bits | SIGN)])
        .collect()
}

/// All that is not random: each table value and its neighbours, their negatives, and the specials.
pub fn fixed() -> Vec<f64> {
    table_values()
        .flat_map(with_neighbours)
        .flat_map(|energy| [energy, -energy])
        .chain(specials())
        .collect()
}

/// Any float: every bit pattern as likely as any other.
pub fn any(rng: &mut Rng) -> f64 {
    f64::from_bits(rng.bits())
}

/// A float from boundary 0 to boundary 1000: every bit pattern between them as likely as any other.
pub fn in_table(rng: &mut Rng) -> f64 {
    let first = BOUNDARIES[0].to_bits();
    let last = BOUNDARIES[1000].to_bits();
    f64::from_bits(first + rng.below(last - first + 1))
}

/// An energy as programmes have them: from -70 to +30 LUFS, each loudness as likely as any other.
pub fn log_uniform(rng: &mut Rng) -> f64 {
    BOUNDARIES[0] * f64::powf(BOUNDARIES[1000] / BOUNDARIES[0], rng.fraction())
}

/// An energy of this bin.
pub fn in_bin(bin: usize, rng: &mut Rng) -> f64 {
    let first = BOUNDARIES[bin].to_bits();
    f64::from_bits(first + rng.below(BOUNDARIES[bin + 1].to_bits() - first))
}
