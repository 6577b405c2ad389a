//! Interleaved samples as frames.

use crate::refusal::{answered, Refusal};
use crate::{sys, PAST_THE_END};

/// Interleaved samples, i16 or f32, of which a part is asked about: the frames from `first` on and before `end`. A part
/// ends where the samples do, and is empty where it begins there or at `end`.
#[derive(Clone, Copy, Debug, PartialEq)]
pub struct Interleaved<'a, S> {
    /// The samples, channel after channel within a frame.
    pub data: &'a [S],
    /// 1 to 8, else the questions refuse [`Refusal::Channels`].
    pub channels: usize,
    /// The part's first frame, counted in the whole.
    pub first: usize,
    /// The frame that the part ends before, counted in the whole.
    pub end: usize,
}

impl<'a, S> Interleaved<'a, S> {
    /// All frames.
    pub const fn new(data: &'a [S], channels: usize) -> Interleaved<'a, S> {
        Interleaved {
            data,
            channels,
            first: 0,
            end: usize::MAX,
        }
    }
}

/// A channel's sample in a frame.
#[derive(Clone, Copy, Debug, PartialEq)]
pub enum Sample {
    /// The sample; an i16 s counts as s/32768.
    At(f64),
    /// There is no such channel or frame.
    PastTheEnd,
}

/// The questions over one kind of sample.
macro_rules! kind {
    ($kind:ty, $channels:ident, $frames:ident, $sample:ident) => {
        // Safety, of each call: the samples are lent with their length, and the number to write is the caller's own.
        impl Interleaved<'_, $kind> {
            /// The number of channels: the one that was given, whatever it is.
            pub fn channels(&self) -> usize {
                let (data, length) = (self.data.as_ptr(), self.data.len());
                unsafe { sys::$channels(data, length, self.channels, self.first, self.end) }
            }

            /// How many frames the part has.
            ///
            /// Refuses [`Refusal::Channels`]; [`Refusal::Samples`] where the part's samples are not whole frames.
            pub fn frames(&self) -> Result<usize, Refusal> {
                let (data, length, mut frames) = (self.data.as_ptr(), self.data.len(), 0);
                answered(unsafe {
                    sys::$frames(
                        data,
                        length,
                        self.channels,
                        self.first,
                        self.end,
                        &mut frames,
                    )
                })?;
                Ok(frames)
            }

            /// A channel's sample in a frame, which is counted in the part. Refuses as `frames`.
            pub fn sample(&self, channel: usize, frame: usize) -> Result<Sample, Refusal> {
                let (data, length, mut sample) = (self.data.as_ptr(), self.data.len(), 0.0);
                let code = unsafe {
                    sys::$sample(
                        data,
                        length,
                        self.channels,
                        self.first,
                        self.end,
                        channel,
                        frame,
                        &mut sample,
                    )
                };
                match code {
                    PAST_THE_END => Ok(Sample::PastTheEnd),
                    code => answered(code).map(|()| Sample::At(sample)),
                }
            }
        }
    };
}

kind!(
    i16,
    xel_interleaved_channels_i16,
    xel_interleaved_frames_i16,
    xel_interleaved_sample_i16
);
kind!(
    f32,
    xel_interleaved_channels_f32,
    xel_interleaved_frames_f32,
    xel_interleaved_sample_f32
);
