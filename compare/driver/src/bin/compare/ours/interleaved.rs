//! `Interleaved` of both kinds.

/// A part of interleaved samples: its frames are those from `first` on and before `end` of the whole.
#[derive(Debug)]
pub struct Part<'a, T> {
    pub data: &'a [T],
    pub channels: usize,
    pub first: usize,
    pub end: usize,
}

/// The code of a channel or a frame past the end.
pub const PAST_THE_END: u8 = 130;

/// The functions of one kind of sample.
pub trait Shown: Sized {
    fn channels(part: &Part<Self>) -> usize;
    fn frames(part: &Part<Self>, frames: &mut usize) -> u8;
    fn sample_at(part: &Part<Self>, channel: usize, frame: usize, sample: &mut f64) -> u8;
}

macro_rules! kinds {
    ($($kind:ty: $channels:ident, $frames:ident, $sample:ident;)*) => {
        mod c {
            extern "C" {
                $(pub fn $channels(
                    data: *const $kind,
                    data_len: usize,
                    channels: usize,
                    first: usize,
                    end: usize,
                ) -> usize;
                pub fn $frames(
                    data: *const $kind,
                    data_len: usize,
                    channels: usize,
                    first: usize,
                    end: usize,
                    frames: *mut usize,
                ) -> u8;
                pub fn $sample(
                    data: *const $kind,
                    data_len: usize,
                    channels: usize,
                    first: usize,
                    end: usize,
                    channel: usize,
                    frame: usize,
                    sample: *mut f64,
                ) -> u8;)*
            }
        }

        $(impl Shown for $kind {
            #[inline]
            fn channels(part: &Part<$kind>) -> usize {
                unsafe {
                    c::$channels(
                        part.data.as_ptr(),
                        part.data.len(),
                        part.channels,
                        part.first,
                        part.end,
                    )
                }
            }

            #[inline]
            fn frames(part: &Part<$kind>, frames: &mut usize) -> u8 {
                unsafe {
                    c::$frames(
                        part.data.as_ptr(),
                        part.data.len(),
                        part.channels,
                        part.first,
                        part.end,
                        frames,
                    )
                }
            }

            #[inline]
            fn sample_at(part: &Part<$kind>, channel: usize, frame: usize, sample: &mut f64) -> u8 {
                unsafe {
                    c::$sample(
                        part.data.as_ptr(),
                        part.data.len(),
                        part.channels,
                        part.first,
                        part.end,
                        channel,
                        frame,
                        sample,
                    )
                }
            }
        })*
    };
}

// Safety, of each: the function is total and touches no memory beyond what its pointers lend.
kinds! {
    i16: xel_interleaved_channels_i16, xel_interleaved_frames_i16, xel_interleaved_sample_i16;
    f32: xel_interleaved_channels_f32, xel_interleaved_frames_f32, xel_interleaved_sample_f32;
}
