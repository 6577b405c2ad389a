//! The filter and the interpolator's phases.

use driver::words::filter::{Call, Kept};

/// The functions of one kind of sample.
pub trait Lent: Sized {
    fn process(call: &Call<Self>, kept: &mut Kept, dest: &mut [f64]) -> u8;
    fn seed(call: &Call<Self>, kept: &mut Kept) -> u8;
}

macro_rules! kinds {
    ($($kind:ty: $process:ident, $seed:ident;)*) => {
        mod c {
            extern "C" {
                $(pub fn $process(
                    channels: usize,
                    rate: u32,
                    on: u8,
                    a: *const f64,
                    b: *const f64,
                    state: *mut f64,
                    peaks: *mut f64,
                    memory: *mut f32,
                    true_peaks: *mut f32,
                    data: *const $kind,
                    data_len: usize,
                    map: *const u8,
                    map_len: usize,
                    dest: *mut f64,
                    dest_len: usize,
                    start: usize,
                ) -> u8;
                pub fn $seed(
                    channels: usize,
                    rate: u32,
                    on: u8,
                    a: *const f64,
                    state: *mut f64,
                    memory: *mut f32,
                    data: *const $kind,
                    data_len: usize,
                    map: *const u8,
                    map_len: usize,
                ) -> u8;)*
                pub fn xel_phases_fourfold(samples: *const f32, phases: *mut f32);
                pub fn xel_phases_twofold(samples: *const f32, phases: *mut f32);
            }
        }

        $(impl Lent for $kind {
            #[inline]
            fn process(call: &Call<$kind>, kept: &mut Kept, dest: &mut [f64]) -> u8 {
                unsafe {
                    c::$process(
                        call.channels,
                        call.rate,
                        call.on,
                        call.a.as_ptr(),
                        call.b.as_ptr(),
                        kept.state.as_mut_ptr(),
                        kept.peaks.as_mut_ptr(),
                        kept.memory.as_mut_ptr(),
                        kept.true_peaks.as_mut_ptr(),
                        call.data.as_ptr(),
                        call.data.len(),
                        call.map.as_ptr(),
                        call.map.len(),
                        dest.as_mut_ptr(),
                        dest.len(),
                        call.start,
                    )
                }
            }

            #[inline]
            fn seed(call: &Call<$kind>, kept: &mut Kept) -> u8 {
                unsafe {
                    c::$seed(
                        call.channels,
                        call.rate,
                        call.on,
                        call.a.as_ptr(),
                        kept.state.as_mut_ptr(),
                        kept.memory.as_mut_ptr(),
                        call.data.as_ptr(),
                        call.data.len(),
                        call.map.as_ptr(),
                        call.map.len(),
                    )
                }
            }
        })*
    };
}

// Safety, of each: the function is total and touches no memory beyond what its pointers lend.
kinds! {
    i16: xel_process_i16, xel_seed_i16;
    f32: xel_process_f32, xel_seed_f32;
}

/// The phases of a frame at factor 4; the samples stand newest first.
#[inline]
pub fn phases_fourfold(samples: &[f32; 12]) -> [f32; 4] {
    let mut phases = [0.0; 4];
    unsafe { c::xel_phases_fourfold(samples.as_ptr(), phases.as_mut_ptr()) };
    phases
}

/// The same at factor 2.
#[inline]
pub fn phases_twofold(samples: &[f32; 24]) -> [f32; 2] {
    let mut phases = [0.0; 2];
    unsafe { c::xel_phases_twofold(samples.as_ptr(), phases.as_mut_ptr()) };
    phases
}
