//! The measuring core of a loudness logger, proved in Rattle, safe to call: peaks and weighting of samples, histories of
//! block energies, gate and range, records. Every operation answers for every input, or refuses with a [`Refusal`] and
//! alters nothing. Nothing here allocates or panics, and there is no `std` beneath.
//!
//! Energies are those of ITU-R BS.1770: loudness = -0.691 + 10 log10(energy), in LUFS.
//!
//! ```
//! use xelamphoun::{Histogram, Range, Refusal, Set};
//!
//! let mut histogram = Histogram::new();
//! assert_eq!(Set::from(&histogram).gated_energy(), Err(Refusal::None));
//! for _ in 0..10 {
//!     histogram.add(xelamphoun::energy(300))?;
//!     histogram.add(xelamphoun::energy(400))?;
//! }
//! let range = Set::from(&histogram).loudness_range(&mut [])?;
//! assert_eq!(range, Range::Found { low: xelamphoun::energy(300), high: xelamphoun::energy(400) });
//! # Ok::<(), Refusal>(())
//! ```
#![no_std]
#![warn(missing_docs)]

mod bins;
mod filter;
mod histories;
mod interleaved;
mod questions;
mod refusal;
#[allow(missing_docs)]
pub mod sys;

pub use bins::{boundary, energy, find_histogram_index, reading};
pub use filter::{phases_fourfold, phases_twofold, Channel, Coefficients, Filter, Switches};
pub use histories::{convert_record, Histogram, Queue, QueueNumbers};
pub use interleaved::{Interleaved, Sample};
pub use questions::{Entry, Gated, Range, Set, Threshold};
pub use refusal::Refusal;

// The constants of the header, without its XEL_.

/// The bins of the histogram.
pub const BINS: usize = 1000;
/// The boundaries around them.
pub const BOUNDARIES: usize = 1001;
/// The most energies that a queue can hold: an hour of blocks, one every 100 ms.
pub const LONGEST_QUEUE: usize = 36_000;
/// The most histories of a set.
pub const MOST_HISTORIES: usize = 16;
const ENTRY_NUMBERS: usize = 5;
const HISTOGRAM: usize = 0;
const QUEUE: usize = 1;
const NOTHING: u8 = 128;
const NOT_A_NUMBER: u8 = 129;
const PAST_THE_END: u8 = 130;
const LOUDNESS: u8 = 1;
const SAMPLE_PEAK: u8 = 2;
const TRUE_PEAK: u8 = 4;
/// The most channels of a filter.
pub const MOST_CHANNELS: usize = 8;
/// The places of its state, five a channel.
pub const STATE: usize = 40;
/// The places of its memory, 23 a channel.
pub const MEMORY: usize = 184;
/// The bytes of a histogram's record.
pub const HISTOGRAM_RECORD: usize = 4006;
/// Those of a queue's record without its energies, 8 bytes each.
pub const QUEUE_RECORD_HEAD: usize = 14;
