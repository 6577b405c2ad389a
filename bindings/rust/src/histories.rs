//! Histories of block energies: a histogram, which owns its counters, and a queue over a lent store; their records.

use crate::refusal::{answered, Refusal};
use crate::{sys, BINS, HISTOGRAM_RECORD};

// Safety, of each call below: the memory is the history's own or lent with its length, and what may be written is
// borrowed mutably, so it overlaps nothing else.

/// Whose records: those of the third model have their fields high byte first.
#[derive(Clone, Copy)]
enum Model {
    Ours,
    Third,
}

/// A histogram: a counter a bin. Of 4000 bytes, with no memory elsewhere.
#[derive(Clone, Debug, PartialEq, Eq)]
#[repr(transparent)]
pub struct Histogram {
    /// How many blocks each bin has.
    pub counters: [u32; BINS],
}

impl Default for Histogram {
    fn default() -> Histogram {
        Histogram::new()
    }
}

impl Histogram {
    /// One with no blocks.
    pub const fn new() -> Histogram {
        Histogram {
            counters: [0; BINS],
        }
    }

    /// Counts a block of this energy in its bin. An energy below boundary 0 is dropped; NaN is counted in bin 0.
    ///
    /// Refuses [`Refusal::Full`] where the bin's counter is at its limit.
    pub fn add(&mut self, energy: f64) -> Result<(), Refusal> {
        let counters = &mut self.counters;
        answered(unsafe { sys::xel_histogram_add(counters.as_mut_ptr(), counters.len(), energy) })
    }

    /// Adds the counters of another, bin by bin: all of them, or none.
    ///
    /// Refuses [`Refusal::Full`] where any sum would pass the limit.
    pub fn merge(&mut self, from: &Histogram) -> Result<(), Refusal> {
        let (into, from) = (&mut self.counters, &from.counters);
        answered(unsafe {
            sys::xel_histogram_merge(into.as_mut_ptr(), into.len(), from.as_ptr(), from.len())
        })
    }

    /// Sets every counter to 0.
    pub fn reset(&mut self) -> Result<(), Refusal> {
        let counters = &mut self.counters;
        answered(unsafe { sys::xel_histogram_reset(counters.as_mut_ptr(), counters.len()) })
    }

    /// Reads a record of kind 1: these bytes and nothing after it.
    ///
    /// Refuses [`Refusal::Length`], [`Refusal::Kind`].
    pub fn read(&mut self, bytes: &[u8]) -> Result<(), Refusal> {
        self.read_of(Model::Ours, bytes)
    }

    /// The same of the third model's record, kind 257.
    pub fn read_third(&mut self, bytes: &[u8]) -> Result<(), Refusal> {
        self.read_of(Model::Third, bytes)
    }

    fn read_of(&mut self, model: Model, bytes: &[u8]) -> Result<(), Refusal> {
        let read = match model {
            Model::Ours => sys::xel_histogram_read,
            Model::Third => sys::xel_third_histogram_read,
        };
        let counters = &mut self.counters;
        answered(unsafe {
            read(
                bytes.as_ptr(),
                bytes.len(),
                counters.as_mut_ptr(),
                counters.len(),
            )
        })
    }

    /// Writes the record, of kind 1, to the first places of `out`, the others stay, and answers how many bytes it has.
    ///
    /// Refuses [`Refusal::Room`] where there are fewer than 4006 places.
    pub fn write(&self, out: &mut [u8]) -> Result<usize, Refusal> {
        self.write_of(Model::Ours, out)
    }

    /// The same of the third model's record, kind 257.
    pub fn write_third(&self, out: &mut [u8]) -> Result<usize, Refusal> {
        self.write_of(Model::Third, out)
    }

    fn write_of(&self, model: Model, out: &mut [u8]) -> Result<usize, Refusal> {
        let write = match model {
            Model::Ours => sys::xel_histogram_write,
            Model::Third => sys::xel_third_histogram_write,
        };
        let (counters, mut written) = (&self.counters, 0);
        answered(unsafe {
            write(
                counters.as_ptr(),
                counters.len(),
                out.as_mut_ptr(),
                out.len(),
                &mut written,
            )
        })?;
        Ok(written)
    }

    /// The record of kind 1, in as many bytes as it has.
    pub fn record(&self) -> Result<[u8; HISTOGRAM_RECORD], Refusal> {
        let mut out = [0; HISTOGRAM_RECORD];
        self.write(&mut out)?;
        Ok(out)
    }
}

/// The numbers of a queue, beside its store: the oldest energy stands at `head`, and `held` of them on from there, round
/// the store.
#[derive(Clone, Copy, Debug, PartialEq, Eq)]
pub struct QueueNumbers {
    /// The most energies that it holds: 1 to 36000, and the length of the store.
    pub maximum: usize,
    /// Below the maximum.
    pub head: usize,
    /// At most the maximum.
    pub held: usize,
}

/// A queue of the last energies, over a lent store that is as long as its maximum. Numbers that break a rule are refused
/// at their use.
#[derive(Debug, PartialEq)]
pub struct Queue<'a> {
    /// Where in the store its energies stand.
    pub numbers: QueueNumbers,
    /// As many places as the maximum says.
    pub store: &'a mut [f64],
}

impl<'a> Queue<'a> {
    /// One with no energies, over the whole store.
    pub fn new(store: &'a mut [f64]) -> Queue<'a> {
        let numbers = QueueNumbers {
            maximum: store.len(),
            head: 0,
            held: 0,
        };
        Queue { numbers, store }
    }

    /// Puts an energy in as the newest; a full queue drops its oldest. An energy below boundary 0 is dropped.
    ///
    /// Refuses [`Refusal::Store`] where the numbers or the store break a rule.
    pub fn add(&mut self, energy: f64) -> Result<(), Refusal> {
        let QueueNumbers {
            maximum,
            head,
            held,
        } = &mut self.numbers;
        answered(unsafe {
            sys::xel_queue_add(
                *maximum,
                head,
                held,
                self.store.as_mut_ptr(),
                self.store.len(),
                energy,
            )
        })
    }

    /// Reads a record of kind 2: its energies, oldest first, to the store's first places; the others stay.
    ///
    /// Refuses [`Refusal::Length`]; [`Refusal::Kind`]; [`Refusal::Content`]; [`Refusal::Store`] where the store is not as
    /// long as the record's maximum.
    pub fn read(&mut self, bytes: &[u8]) -> Result<(), Refusal> {
        self.read_of(Model::Ours, bytes)
    }

    /// The same of the third model's record, kind 258.
    pub fn read_third(&mut self, bytes: &[u8]) -> Result<(), Refusal> {
        self.read_of(Model::Third, bytes)
    }

    fn read_of(&mut self, model: Model, bytes: &[u8]) -> Result<(), Refusal> {
        let read = match model {
            Model::Ours => sys::xel_queue_read,
            Model::Third => sys::xel_third_queue_read,
        };
        let QueueNumbers {
            maximum,
            head,
            held,
        } = &mut self.numbers;
        answered(unsafe {
            read(
                bytes.as_ptr(),
                bytes.len(),
                maximum,
                head,
                held,
                self.store.as_mut_ptr(),
                self.store.len(),
            )
        })
    }

    /// Writes the record, of kind 2, to the first places of `out`, oldest energy first, and answers how many bytes it has:
    /// 14, and 8 for each energy held.
    ///
    /// Refuses [`Refusal::Store`] where the queue breaks a rule or holds an energy below boundary 0; [`Refusal::Room`].
    pub fn write(&self, out: &mut [u8]) -> Result<usize, Refusal> {
        self.write_of(Model::Ours, out)
    }

    /// The same of the third model's record, kind 258.
    pub fn write_third(&self, out: &mut [u8]) -> Result<usize, Refusal> {
        self.write_of(Model::Third, out)
    }

    fn write_of(&self, model: Model, out: &mut [u8]) -> Result<usize, Refusal> {
        let write = match model {
            Model::Ours => sys::xel_queue_write,
            Model::Third => sys::xel_third_queue_write,
        };
        let QueueNumbers {
            maximum,
            head,
            held,
        } = self.numbers;
        let mut written = 0;
        answered(unsafe {
            write(
                maximum,
                head,
                held,
                self.store.as_ptr(),
                self.store.len(),
                out.as_mut_ptr(),
                out.len(),
                &mut written,
            )
        })?;
        Ok(written)
    }
}

/// Converts a record of this kind to the other kind of the same content, between 1 and 257 or between 2 and 258, and keeps
/// every count and energy. It goes to the first places of `out`, the others stay; answers how many bytes it has.
///
/// Refuses [`Refusal::Length`], [`Refusal::Kind`] and [`Refusal::Content`] as the reader of the kind, and
/// [`Refusal::Kind`] for any other kind; [`Refusal::Room`].
pub fn convert_record(kind: u16, bytes: &[u8], out: &mut [u8]) -> Result<usize, Refusal> {
    let mut written = 0;
    answered(unsafe {
        sys::xel_record_convert(
            kind,
            bytes.as_ptr(),
            bytes.len(),
            out.as_mut_ptr(),
            out.len(),
            &mut written,
        )
    })?;
    Ok(written)
}
