//! The filter: sample peak, weighting and true peak over interleaved samples.

use crate::refusal::{answered, Refusal};
use crate::{sys, MEMORY, MOST_CHANNELS, STATE};
use crate::{LOUDNESS, SAMPLE_PEAK, TRUE_PEAK};

/// The weighting's coefficients.
#[derive(Clone, Copy, Debug, PartialEq)]
pub struct Coefficients {
    /// They weigh the state; `a[0]` is not looked at.
    pub a: [f64; 5],
    /// They weigh the output.
    pub b: [f64; 5],
}

/// What a call works out. What is off alters nothing.
#[derive(Clone, Copy, Debug, PartialEq, Eq)]
pub struct Switches {
    /// The weighting, into the destination.
    pub loudness: bool,
    /// Each channel's largest magnitude.
    pub sample_peak: bool,
    /// The same between the samples, by the interpolator.
    pub true_peak: bool,
}

impl Switches {
    /// Everything.
    pub const ALL: Switches = Switches {
        loudness: true,
        sample_peak: true,
        true_peak: true,
    };

    fn sum(self) -> u8 {
        let on = |switch: bool, bit: u8| if switch { bit } else { 0 };
        on(self.loudness, LOUDNESS)
            | on(self.sample_peak, SAMPLE_PEAK)
            | on(self.true_peak, TRUE_PEAK)
    }
}

/// A channel's place in the map.
#[derive(Clone, Copy, Debug, PartialEq, Eq)]
#[repr(u8)]
pub enum Channel {
    /// The weighting leaves it out, and the peaks do not.
    Unused = 0,
    /// It is weighed.
    Used = 1,
}

/// A measurement's filter, with what it keeps between calls. All fields may be set to anything.
#[derive(Clone, Debug, PartialEq)]
pub struct Filter {
    /// 1 to 8, else calls refuse [`Refusal::Channels`].
    pub channels: usize,
    /// Samples a second: below 96000 the true peak looks four times a frame, below 192000 twice, else it is off.
    pub rate: u32,
    /// What its calls work out.
    pub on: Switches,
    /// The weighting's.
    pub coefficients: Coefficients,
    /// Channel c's five values stand from 5c on.
    pub state: [f64; STATE],
    /// Channel c's sample peak stands at c.
    pub peaks: [f64; MOST_CHANNELS],
    /// Channel c's last 23 samples stand from 23c on, newest first.
    pub memory: [f32; MEMORY],
    /// Channel c's true peak stands at c.
    pub true_peaks: [f32; MOST_CHANNELS],
}

/// The map's bytes. `Channel` is one byte of 0 or 1, so they are there already.
fn bytes(map: &[Channel]) -> *const u8 {
    map.as_ptr().cast()
}

// Safety, of each call below: the arrays are the filter's own, the slices are lent with their lengths, and what may be
// written is borrowed mutably, so it overlaps nothing else.

impl Filter {
    /// A filter at rest: no sample has been heard.
    pub fn new(channels: usize, rate: u32, on: Switches, coefficients: Coefficients) -> Filter {
        Filter {
            channels,
            rate,
            on,
            coefficients,
            state: [0.0; STATE],
            peaks: [0.0; MOST_CHANNELS],
            memory: [0.0; MEMORY],
            true_peaks: [0.0; MOST_CHANNELS],
        }
    }

    /// One call over interleaved samples; a sample s counts as s/32768.
    ///
    /// `dest` is looked at where loudness is on: an equal part for each channel, one after the other. The weighted frames
    /// go to each used channel's part from its place `start` on; all other places stay.
    ///
    /// Refuses [`Refusal::Channels`]; [`Refusal::Samples`]; [`Refusal::Map`] where the map has not a place a channel;
    /// [`Refusal::Dest`] where loudness is on and `dest` is empty, no multiple of the channels, or a part has no room.
    pub fn process_i16(
        &mut self,
        data: &[i16],
        map: &[Channel],
        dest: &mut [f64],
        start: usize,
    ) -> Result<(), Refusal> {
        answered(unsafe {
            sys::xel_process_i16(
                self.channels,
                self.rate,
                self.on.sum(),
                &self.coefficients.a,
                &self.coefficients.b,
                &mut self.state,
                &mut self.peaks,
                &mut self.memory,
                &mut self.true_peaks,
                data.as_ptr(),
                data.len(),
                bytes(map),
                map.len(),
                dest.as_mut_ptr(),
                dest.len(),
                start,
            )
        })
    }

    /// The same over float samples, of any value.
    pub fn process_f32(
        &mut self,
        data: &[f32],
        map: &[Channel],
        dest: &mut [f64],
        start: usize,
    ) -> Result<(), Refusal> {
        answered(unsafe {
            sys::xel_process_f32(
                self.channels,
                self.rate,
                self.on.sum(),
                &self.coefficients.a,
                &self.coefficients.b,
                &mut self.state,
                &mut self.peaks,
                &mut self.memory,
                &mut self.true_peaks,
                data.as_ptr(),
                data.len(),
                bytes(map),
                map.len(),
                dest.as_mut_ptr(),
                dest.len(),
                start,
            )
        })
    }

    /// Moves state and memory as [`Filter::process_i16`] would, and writes no peak and no destination.
    ///
    /// Refuses [`Refusal::Channels`], [`Refusal::Samples`], [`Refusal::Map`].
    pub fn seed_i16(&mut self, data: &[i16], map: &[Channel]) -> Result<(), Refusal> {
        answered(unsafe {
            sys::xel_seed_i16(
                self.channels,
                self.rate,
                self.on.sum(),
                &self.coefficients.a,
                &mut self.state,
                &mut self.memory,
                data.as_ptr(),
                data.len(),
                bytes(map),
                map.len(),
            )
        })
    }

    /// The same over float samples.
    pub fn seed_f32(&mut self, data: &[f32], map: &[Channel]) -> Result<(), Refusal> {
        answered(unsafe {
            sys::xel_seed_f32(
                self.channels,
                self.rate,
                self.on.sum(),
                &self.coefficients.a,
                &mut self.state,
                &mut self.memory,
                data.as_ptr(),
                data.len(),
                bytes(map),
                map.len(),
            )
        })
    }
}

/// The interpolator's four phases at a frame of a rate below 96000, from the frame's own sample and the 11 before it,
/// newest first. Their largest magnitude is what the true peak keeps.
pub fn phases_fourfold(samples: &[f32; 12]) -> [f32; 4] {
    let mut out = [0.0; 4];
    unsafe { sys::xel_phases_fourfold(samples, &mut out) };
    out
}

/// The two phases at a frame of a rate from 96000 to below 192000, from its own sample and the 23 before it.
pub fn phases_twofold(samples: &[f32; 24]) -> [f32; 2] {
    let mut out = [0.0; 2];
    unsafe { sys::xel_phases_twofold(samples, &mut out) };
    out
}
