//! The filter: weighting, sample peak and true peak alone, and all three. A round is a second of noise,
//! in one call or in a hundred.

use std::hint::black_box;

use driver::filters;
use driver::libebur128::{self, Frames, MODE_M, MODE_SAMPLE_PEAK, MODE_TRUE_PEAK};
use driver::rng::Rng;
use driver::sounds::{self, Kind, Sound};
use driver::words::filter::{Call, Kept, LOUDNESS, SAMPLE_PEAK, TRUE_PEAK};
use ebur128::{Channel, Interleaved};

use super::row_in_c;
use crate::ours::filter::Lent;

/// What is measured, with which switches, and at which rates: only the true peak has another factor at
/// another one.
const MEASURED: [(&str, u8, &[u32]); 4] = [
    ("weighting", LOUDNESS, &[48_000]),
    ("sample peak", SAMPLE_PEAK, &[48_000]),
    ("true peak", TRUE_PEAK, &[48_000, 96_000]),
    (
        "all three",
        LOUDNESS + SAMPLE_PEAK + TRUE_PEAK,
        &[48_000, 96_000],
    ),
];

const CHANNELS: [usize; 4] = [1, 2, 6, 8];

/// Calls a second.
const CALLS: [(&str, usize); 2] = [("1 s", 1), ("10 ms", 100)];

pub fn run(rng: &mut Rng) {
    for (name, on, rates) in MEASURED {
        for &rate in rates {
            for channels in CHANNELS {
                for (length, calls) in CALLS {
                    let name = format!("{name}, {rate} Hz, {channels} ch, {length} a call");
                    second::<i16>(&format!("{name}, i16"), on, rate, channels, calls, rng);
                    second::<f32>(&format!("{name}, f32"), on, rate, channels, calls, rng);
                }
            }
        }
    }
}

/// libebur128's mode for these switches. Its peaks have the weighting in them, and its true peak the sample
/// peak.
fn mode(on: u8) -> std::ffi::c_int {
    match on {
        LOUDNESS => MODE_M,
        SAMPLE_PEAK => MODE_SAMPLE_PEAK,
        _ => MODE_TRUE_PEAK,
    }
}

/// A row of so many calls to a second, nanoseconds a sample. Nothing of it is known to any side before.
#[inline(never)]
fn second<T: Kind + Lent + Frames>(
    name: &str,
    on: u8,
    rate: u32,
    channels: usize,
    calls: usize,
    rng: &mut Rng,
) {
    let frames = rate as usize;
    let data: Vec<T> = sounds::of(Sound::Noise, frames * channels, rng);
    let map = vec![1; channels];
    let mut rust = filters::new(rate, channels, on);
    let (a, b) = filters::coefficients(&rust);
    let mut kept = Kept::new(channels, 0.0);
    let mut dest = vec![0.0; data.len()];
    let mut rust_dest = dest.clone();
    let rust_map = filters::map(&map);
    let mut in_c = libebur128::Meter::new(channels, rate, mode(on));
    if let Some(in_c) = &mut in_c {
        (0..channels).for_each(|c| in_c.set_channel(c, Channel::Center));
    }
    let parts = || data.chunks(data.len() / calls).enumerate();
    row_in_c(
        name,
        data.len(),
        || {
            for (i, data) in parts() {
                let call = Call {
                    channels,
                    rate,
                    on,
                    a,
                    b,
                    data,
                    map: &map,
                    start: i * frames / calls,
                };
                let number = T::process(black_box(&call), &mut kept, &mut dest);
                assert!(number == 0);
            }
        },
        || {
            for (i, data) in parts() {
                let frames_of = Interleaved::new(black_box(data), channels).expect("whole frames");
                black_box(&mut rust).process(
                    frames_of,
                    &mut rust_dest,
                    i * frames / calls,
                    &rust_map,
                );
            }
        },
        in_c.as_mut().map(|in_c| {
            || {
                for (_, data) in parts() {
                    T::add(in_c, black_box(data));
                }
            }
        }),
    );
}
