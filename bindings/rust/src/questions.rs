//! Questions over a set of histories.

use crate::histories::{Histogram, QueueNumbers};
use crate::refusal::{answered, Refusal};
use crate::{sys, ENTRY_NUMBERS, HISTOGRAM, NOTHING, NOT_A_NUMBER, QUEUE};

/// One history of a set: its kind, and where it lies in what the set lends. The archive takes it as five numbers in this
/// order.
#[derive(Clone, Copy, Debug, PartialEq, Eq)]
#[repr(C)]
pub struct Entry {
    kind: usize,
    start: usize,
    maximum: usize,
    head: usize,
    held: usize,
}

impl Entry {
    /// A histogram: 1000 counters of the set from place `start` on.
    pub const fn histogram(start: usize) -> Entry {
        Entry {
            kind: HISTOGRAM,
            start,
            maximum: 0,
            head: 0,
            held: 0,
        }
    }

    /// A queue, whose store is the set's energies from place `start` on.
    pub const fn queue(start: usize, numbers: QueueNumbers) -> Entry {
        Entry {
            kind: QUEUE,
            start,
            maximum: numbers.maximum,
            head: numbers.head,
            held: numbers.held,
        }
    }
}

/// Histories to ask over: all histograms lie in one slice of counters, all queues in one of energies. They may overlap or
/// repeat, since a question only reads.
///
/// Every question refuses first [`Refusal::Set`] where there are more than 16 or one reaches outside its slice, then
/// [`Refusal::Store`] where a queue breaks a rule or holds an energy below boundary 0.
#[derive(Clone, Copy, Debug, PartialEq)]
pub struct Set<'a> {
    /// The histories, at most 16.
    pub entries: &'a [Entry],
    /// Where the histograms lie.
    pub counters: &'a [u32],
    /// Where the queues' stores lie.
    pub energies: &'a [f64],
}

/// The blocks at or above the relative gate, and the sum of their energies.
#[derive(Clone, Copy, Debug, PartialEq)]
pub struct Gated {
    /// How many there are.
    pub blocks: u64,
    /// The sum of their energies.
    pub sum: f64,
}

/// The relative threshold of a history.
#[derive(Clone, Copy, Debug, PartialEq)]
pub enum Threshold {
    /// The threshold's energy, 10 LU below the mean of the blocks.
    Energy(f64),
    /// There is no block: -70.0, a loudness in LUFS.
    Loudness(f64),
}

/// A range: the two energies whose loudnesses the loudness range lies between.
#[derive(Clone, Copy, Debug, PartialEq)]
pub enum Range {
    /// Those of the 10th and the 95th percentile.
    Found {
        /// That of the 10th.
        low: f64,
        /// That of the 95th.
        high: f64,
    },
    /// There is no block, or none at or above the gate.
    Nothing,
    /// A queue holds NaN.
    NotANumber,
}

/// The set of one histogram.
const ALONE: &[Entry] = &[Entry::histogram(0)];

impl<'a> From<&'a Histogram> for Set<'a> {
    fn from(histogram: &'a Histogram) -> Set<'a> {
        Set {
            entries: ALONE,
            counters: &histogram.counters,
            energies: &[],
        }
    }
}

/// The entries as numbers. `Entry` is five of them and nothing between, so they are there already; a slice has fewer bytes
/// than `usize` counts, so their number does not wrap.
fn numbers(entries: &[Entry]) -> (*const usize, usize) {
    (entries.as_ptr().cast(), entries.len() * ENTRY_NUMBERS)
}

// Safety, of each call below: the slices are lent with their lengths, and what may be written is borrowed mutably, so it
// overlaps nothing else.

impl Set<'_> {
    /// The blocks at or above the relative gate, 10 LU below the mean of all blocks of the set.
    ///
    /// Refuses [`Refusal::None`] where there is no such block, [`Refusal::Nan`] where the sum of all energies is NaN.
    pub fn gate(&self) -> Result<Gated, Refusal> {
        let (entries, entries_len) = numbers(self.entries);
        let (mut blocks, mut sum) = (0, 0.0);
        answered(unsafe {
            sys::xel_gate(
                entries,
                entries_len,
                self.counters.as_ptr(),
                self.counters.len(),
                self.energies.as_ptr(),
                self.energies.len(),
                &mut blocks,
                &mut sum,
            )
        })?;
        Ok(Gated { blocks, sum })
    }

    /// The mean energy of those blocks: integrated loudness, as an energy. Refuses as [`Set::gate`].
    pub fn gated_energy(&self) -> Result<f64, Refusal> {
        let (entries, entries_len) = numbers(self.entries);
        let mut energy = 0.0;
        answered(unsafe {
            sys::xel_gated_energy(
                entries,
                entries_len,
                self.counters.as_ptr(),
                self.counters.len(),
                self.energies.as_ptr(),
                self.energies.len(),
                &mut energy,
            )
        })?;
        Ok(energy)
    }

    /// The relative threshold of a set of one history; [`Refusal::Set`] where there are others.
    ///
    /// Refuses [`Refusal::Nan`] where the sum of the energies is NaN.
    pub fn relative_threshold(&self) -> Result<Threshold, Refusal> {
        let (entry, entry_len) = numbers(self.entries);
        let mut value = 0.0;
        answered(unsafe {
            sys::xel_relative_threshold(
                entry,
                entry_len,
                self.counters.as_ptr(),
                self.counters.len(),
                self.energies.as_ptr(),
                self.energies.len(),
                &mut value,
            )
        })?;
        // an energy is never below 0
        Ok(if value < 0.0 {
            Threshold::Loudness(value)
        } else {
            Threshold::Energy(value)
        })
    }

    /// The two energies of the loudness range, of a set of histograms or of queues. Over queues `work` has at least as many
    /// places as they hold energies, and its first places then hold these in rising order.
    ///
    /// Refuses [`Refusal::Mode`] where the set has both kinds, [`Refusal::Room`] where `work` is too short.
    pub fn loudness_range(&self, work: &mut [f64]) -> Result<Range, Refusal> {
        let (entries, entries_len) = numbers(self.entries);
        let (mut low, mut high) = (0.0, 0.0);
        let code = unsafe {
            sys::xel_loudness_range(
                entries,
                entries_len,
                self.counters.as_ptr(),
                self.counters.len(),
                self.energies.as_ptr(),
                self.energies.len(),
                work.as_mut_ptr(),
                work.len(),
                &mut low,
                &mut high,
            )
        };
        match code {
            NOTHING => Ok(Range::Nothing),
            NOT_A_NUMBER => Ok(Range::NotANumber),
            code => answered(code).map(|()| Range::Found { low, high }),
        }
    }
}
