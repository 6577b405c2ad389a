//! The Rust's `Filter` and `TruePeak`, and what they keep to themselves: coefficients, states, and the
//! interpolators' buffers. No public function shows them; their `Debug` forms do.

use ebur128::filter::Filter;
use ebur128::true_peak::TruePeak;
use ebur128::Channel;

use crate::shown;
use crate::words::filter::{LOUDNESS, SAMPLE_PEAK, TRUE_PEAK};

/// A new filter with these switches on.
pub fn new(rate: u32, channels: usize, on: u8) -> Filter {
    let is_on = |switch| on & switch != 0;
    Filter::new(
        rate,
        channels as u32,
        is_on(SAMPLE_PEAK),
        is_on(TRUE_PEAK),
        is_on(LOUDNESS),
    )
}

/// The coefficients a and b that the filter designed from its rate.
pub fn coefficients(filter: &Filter) -> ([f64; 5], [f64; 5]) {
    let form = format!("{filter:?}");
    let five = |name| shown::list(&form, name).try_into();
    let five = |name| five(name).expect("five coefficients");
    (five(" a"), five(" b"))
}

/// Five values a channel.
pub fn state(filter: &Filter) -> Vec<f64> {
    shown::list(&format!("{filter:?}"), "filter_state")
}

/// The samples that each channel's interpolator looks back at, newest first. An interpolator of several
/// channels buffers frames; a rolling buffer of `taps` frames begins at its position.
pub fn buffers(true_peak: &TruePeak, taps: usize) -> Vec<Vec<f32>> {
    let form = format!("{true_peak:?}");
    let positions = shown::places(&form, "position");
    let interpolators = shown::lists(&form, "buf").into_iter().zip(positions);
    interpolators
        .flat_map(|(samples, position): (Vec<f32>, usize)| {
            let channels = samples.len() / 48;
            let frames = position..position + taps;
            let channel = |c| frames.clone().map(|k| samples[channels * k + c]).collect();
            (0..channels).map(channel).collect::<Vec<_>>()
        })
        .collect()
}

/// A map of bytes as the Rust's map: all used channels are weighted alike.
pub fn map(bytes: &[u8]) -> Vec<Channel> {
    let channel = |&byte| match byte {
        0 => Channel::Unused,
        _ => Channel::Center,
    };
    bytes.iter().map(channel).collect()
}
