//! The Rust's answers on bins and readings. Its tables are the file histogram_bins.rs; its search
//! `find_histogram_index` is private and is reached in two ways: by the function's own text, which
//! compare/assemble cut out of history.rs, and through the public `History`.

use ebur128::history::{History, HistoryError};

use crate::refusals::SCALE;

#[path = "../../target/oracle/ebur128/histogram_bins.rs"]
#[allow(clippy::excessive_precision)]
mod histogram_bins;

use histogram_bins::BOUNDARIES as HISTOGRAM_BOUNDARIES;
pub use histogram_bins::{BOUNDARIES, ENERGIES};

include!("../../target/oracle/find_histogram_index.rs");

/// The bin of an energy: the Rust's own search, as one call.
#[inline(never)]
pub fn bin(energy: f64) -> usize {
    find_histogram_index(energy)
}

/// The reading of an energy in tenths, or SCALE. The Rust has no readings: these are the words of
/// document 01 on SCALE and of change request 1 on the tenths, over the Rust's own search and tables.
#[inline(never)]
pub fn reading(energy: f64) -> Result<i32, u8> {
    if energy.is_nan() || energy < BOUNDARIES[0] || energy >= BOUNDARIES[1000] {
        return Err(SCALE);
    }
    let bin = find_histogram_index(energy);
    let tenths = -700 + bin as i32;
    Ok(if energy < ENERGIES[bin] {
        tenths
    } else {
        tenths + 1
    })
}

/// A histogram that is asked about one energy at a time.
pub struct SingleBlock(History);

impl SingleBlock {
    #[allow(clippy::new_without_default)]
    pub fn new() -> Self {
        SingleBlock(History::new(true, 0))
    }

    /// The bin that the histogram counts this energy in, or none where it drops it. A single block
    /// is always above its own gate, so the histogram answers a count of 1 and that bin's energy.
    pub fn bin(&mut self, energy: f64) -> Option<usize> {
        self.0.reset();
        self.0.add(energy);
        match self.0.gating_block_count_and_energy() {
            Ok((1, answer)) => Some(
                ENERGIES
                    .binary_search_by(|entry| entry.total_cmp(&answer))
                    .expect("a single block has the energy of a bin"),
            ),
            Err(HistoryError::NoBlocksAboveThreshold) => None,
            other => panic!("a single block of energy {energy:e} gave {other:?}"),
        }
    }
}
