//! A stand-in for the crate `dasp_sample`: the three traits that ebur128 0.1.11 names, and the
//! conversions between the sample kinds that it uses. It is ours, written from document 01's
//! step 2 and change request 2, and no copy of that crate.

/// A sample of sound.
pub trait Sample: Copy + PartialOrd {
    /// This sample as one of the kind `S`.
    #[inline]
    fn to_sample<S>(self) -> S
    where
        Self: ToSample<S>,
    {
        self.to_sample_()
    }
}

/// How a sample becomes one of the kind `S`.
pub trait ToSample<S> {
    fn to_sample_(self) -> S;
}

/// Named by ebur128 for conversions both ways. It never converts back from a float, so there is
/// no way back here.
pub trait Duplex<S>: ToSample<S> {}

impl<S, T: ToSample<S>> Duplex<S> for T {}

macro_rules! conversions {
    ($($from:ty: |$s:ident| f32 $to_f32:expr, f64 $to_f64:expr;)*) => {$(
        impl Sample for $from {}

        impl ToSample<f32> for $from {
            #[inline]
            fn to_sample_(self) -> f32 {
                let $s = self;
                $to_f32
            }
        }

        impl ToSample<f64> for $from {
            #[inline]
            fn to_sample_(self) -> f64 {
                let $s = self;
                $to_f64
            }
        }
    )*};
}

// An `as` to a float rounds to nearest, ties to even; a division by a power of two is exact here.
conversions! {
    // Exact in both.
    i16: |s| f32 s as f32 / 32_768.0, f64 s as f64 / 32_768.0;
    // Nearest f32 first, then the division; exact in f64.
    i32: |s| f32 s as f32 / 2_147_483_648.0, f64 s as f64 / 2_147_483_648.0;
    // Exact in f64, subnormals included.
    f32: |s| f32 s, f64 s as f64;
    // Nearest f32.
    f64: |s| f32 s as f32, f64 s;
}

#[cfg(test)]
mod tests {
    use super::Sample;

    #[test]
    fn both_ends_and_the_ties() {
        assert_eq!(i16::MIN.to_sample::<f32>(), -1.0);
        assert_eq!(i16::MAX.to_sample::<f64>(), 32_767.0 / 32_768.0);
        assert_eq!(i32::MIN.to_sample::<f64>(), -1.0);
        assert_eq!(i32::MAX.to_sample::<f32>(), 1.0);
        // 2^24 + 1 lies midway between two f32: ties go to the even one.
        assert_eq!(16_777_217_i32.to_sample::<f32>(), 2f32.powi(-7));
        assert_eq!(
            16_777_219_i32.to_sample::<f32>(),
            16_777_220.0 / 2_147_483_648.0
        );
        assert_eq!(f32::from_bits(1).to_sample::<f64>(), 2f64.powi(-149));
        assert_eq!(f64::MAX.to_sample::<f32>(), f32::INFINITY);
    }
}
