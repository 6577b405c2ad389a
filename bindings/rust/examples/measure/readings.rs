//! The readings of a measurement, a line each. A question that is refused is a reading too: its line has the refusal's
//! number and name.

use crate::measurement::Measurement;
use crate::sound::Kind;
use std::fmt::{Error, Write};
use xelamphoun::{reading, Histogram, Range, Refusal, Set, Threshold};

pub fn loudness(energy: f64) -> f64 {
    10.0 * energy.log10() - 0.691
}

fn decibels(peak: f64) -> f64 {
    20.0 * peak.log10()
}

/// A reading in some unit, and the bits of the float that it was made from, which show it to the last one.
fn bits(reading: f64, unit: &str, from: f64) -> String {
    format!("{reading:.2} {unit}  {:016x}", from.to_bits())
}

fn lufs(energy: f64) -> String {
    bits(loudness(energy), "LUFS", energy)
}

fn line(out: &mut String, name: &str, reading: Result<String, Refusal>) -> Result<(), Error> {
    match reading {
        Ok(reading) => writeln!(out, "{name:<16}{reading}"),
        Err(refusal) => writeln!(out, "{name:<16}refused: {refusal}"),
    }
}

fn peaks(out: &mut String, m: &Measurement) -> Result<(), Error> {
    let peaks = &m.filter.peaks[..m.filter.channels];
    for (c, &peak) in (1..).zip(peaks) {
        let shown = bits(decibels(peak), "dBFS", peak);
        line(out, &format!("sample peak {c}"), Ok(shown))?;
    }
    for (c, (&peak, &true_peak)) in (1..).zip(peaks.iter().zip(&m.filter.true_peaks)) {
        // as the crate tells it: a true peak is not below the sample peak
        let peak = peak.max(f64::from(true_peak));
        let shown = bits(decibels(peak), "dBTP", peak);
        line(out, &format!("true peak {c}"), Ok(shown))?;
    }
    Ok(())
}

/// The loudest block of each length: momentary and short-term loudness at their most.
fn loudest(out: &mut String, m: &Measurement) -> Result<(), Error> {
    line(out, "momentary max", Ok(lufs(m.blocks.loudest)))?;
    line(out, "short-term max", Ok(lufs(m.short_blocks.loudest)))
}

fn gate(out: &mut String, histogram: &Histogram) -> Result<(), Error> {
    let set = Set::from(histogram);
    let gated = set.gate();
    let shown = gated.map(|gated| format!("{} blocks  {:016x}", gated.blocks, gated.sum.to_bits()));
    line(out, "gate", shown)?;
    let threshold = set.relative_threshold().map(|threshold| match threshold {
        Threshold::Energy(energy) => lufs(energy),
        Threshold::Loudness(loudness) => bits(loudness, "LUFS", loudness),
    });
    line(out, "threshold", threshold)?;
    let integrated = set.gated_energy();
    line(out, "integrated", integrated.map(lufs))?;
    match integrated.map(reading) {
        Ok(tenths) => line(
            out,
            "reading",
            tenths.map(|tenths| format!("{tenths} tenths")),
        ),
        Err(_) => Ok(()),
    }
}

fn range(out: &mut String, histogram: &Histogram) -> Result<(), Error> {
    let range = Set::from(histogram).loudness_range(&mut []);
    let shown = range.map(|range| match range {
        Range::Found { low, high } => {
            let (from, to) = (loudness(low), loudness(high));
            let (low, high) = (low.to_bits(), high.to_bits());
            format!(
                "{:.2} LU, {from:.2} to {to:.2} LUFS  {low:016x} {high:016x}",
                to - from
            )
        }
        Range::Nothing => "nothing".into(),
        Range::NotANumber => "not a number".into(),
    });
    line(out, "range", shown)
}

/// All readings but the records'.
pub fn readings(m: &Measurement, kind: Kind) -> Result<String, Error> {
    let mut out = String::new();
    let (channels, rate, frames) = (m.filter.channels, m.filter.rate, m.frames);
    let kind = match kind {
        Kind::I16 => "i16",
        Kind::F32 => "f32",
    };
    let sound = format!("{kind}, channels {channels}, {rate} Hz, {frames} frames");
    let blocks = format!(
        "{} of 400 ms, {} of 3 s",
        m.blocks.number, m.short_blocks.number
    );
    line(&mut out, "sound", Ok(sound))?;
    line(&mut out, "blocks", Ok(blocks))?;
    peaks(&mut out, m)?;
    loudest(&mut out, m)?;
    gate(&mut out, &m.blocks.histogram)?;
    range(&mut out, &m.short_blocks.histogram)?;
    Ok(out)
}
