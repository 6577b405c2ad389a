//! The histogram's bins, and the readings of energies.

use crate::refusal::{answered, Refusal};
use crate::sys;

// Safety, of each: the function is total, and is lent no memory but a number of its own.

/// Boundary `i` of the histogram, in energy: it stands at -70 + i/10 LUFS. NaN past the last, number 1000.
pub fn boundary(i: usize) -> f64 {
    unsafe { sys::xel_boundary(i) }
}

/// The energy that stands for all energies of bin `i`, at -69.95 + i/10 LUFS. NaN past the last, number 999.
pub fn energy(i: usize) -> f64 {
    unsafe { sys::xel_energy(i) }
}

/// The histogram's bin of an energy, 0 to 999: the last bin whose boundary is not above it. 0 for NaN and for all below
/// boundary 0.
pub fn find_histogram_index(energy: f64) -> usize {
    unsafe { sys::xel_find_histogram_index(energy) }
}

/// The reading of an energy: the nearest tenth of a LUFS, in tenths. It is -700 + the energy's bin where the energy is below
/// that bin's table energy, else one more, so -700 to 300.
///
/// Refuses [`Refusal::Scale`] where the energy is NaN, below boundary 0, or at or above boundary 1000.
pub fn reading(energy: f64) -> Result<i32, Refusal> {
    let mut tenths = 0;
    answered(unsafe { sys::xel_reading(energy, &mut tenths) })?;
    Ok(tenths)
}
