//! A stand-in for the crate `dasp_frame`: the trait `Frame`, as far as ebur128 0.1.11 uses it, for
//! arrays of samples. It is ours and no copy of that crate; it moves samples and computes nothing.

use dasp_sample::Sample;

/// One sample of each channel at one instant.
pub trait Frame: Copy + PartialEq {
    type Sample: Sample;

    const CHANNELS: usize;

    /// The frame whose channel `c` holds `from(c)`.
    fn from_fn<M>(from: M) -> Self
    where
        M: FnMut(usize) -> Self::Sample;

    /// The frame of the next samples, or none where they run out.
    fn from_samples<I>(samples: &mut I) -> Option<Self>
    where
        I: Iterator<Item = Self::Sample>;

    /// The sample of this channel, or none past the last.
    fn channel(&self, c: usize) -> Option<&Self::Sample>;

    /// The frame with `map` of each sample.
    #[inline]
    fn map<F, M>(self, mut map: M) -> F
    where
        F: Frame,
        M: FnMut(Self::Sample) -> F::Sample,
    {
        assert_eq!(Self::CHANNELS, F::CHANNELS);
        F::from_fn(|c| map(*self.channel(c).expect("both have as many channels")))
    }
}

impl<S: Sample, const N: usize> Frame for [S; N] {
    type Sample = S;

    const CHANNELS: usize = N;

    #[inline]
    fn from_fn<M>(from: M) -> Self
    where
        M: FnMut(usize) -> S,
    {
        std::array::from_fn(from)
    }

    #[inline]
    fn from_samples<I>(samples: &mut I) -> Option<Self>
    where
        I: Iterator<Item = S>,
    {
        let first = samples.next()?;
        let mut frame = [first; N];
        for place in frame.iter_mut().skip(1) {
            *place = samples.next()?;
        }
        Some(frame)
    }

    #[inline]
    fn channel(&self, c: usize) -> Option<&S> {
        self.get(c)
    }
}
