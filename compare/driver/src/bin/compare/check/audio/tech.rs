//! Test signals after EBU Tech 3341 and Tech 3342, with the readings that these papers expect. Those of
//! their signals that are recordings are left out.

use driver::rng::{pick, Rng};
use driver::signals::{amplitude, sine};
use driver::words::filter::{LOUDNESS, SAMPLE_PEAK, TRUE_PEAK};
use ebur128::Channel;

use super::meter::{Meter, Setting};
use super::sides::{decibels, Asked, Fed, Sides, Tolerance, TOLERANCE};
use crate::check::tally::{Difference, Operation};

/// What is read, and how far it may be off.
enum Expected {
    Integrated(f64),
    Range(f64),
    /// At every 100 ms from the first window that is full on.
    ShortTerm(f64),
    Momentary(f64),
    TruePeak(f64),
}

struct Signal {
    name: &'static str,
    expected: Expected,
    /// Cycles a frame where it is not 1 kHz, and the phase.
    cycles: Option<(f64, f64)>,
    /// Levels in dBFS, one for all channels or one each, and seconds.
    parts: Vec<(Vec<f64>, f64)>,
}

/// Parts of one level in all channels.
fn levels(parts: &[(f64, f64)]) -> Vec<(Vec<f64>, f64)> {
    let part = |&(level, seconds): &(f64, f64)| (vec![level], seconds);
    parts.iter().map(part).collect()
}

fn tones(name: &'static str, expected: Expected, parts: &[(f64, f64)]) -> Signal {
    Signal {
        name,
        expected,
        cycles: None,
        parts: levels(parts),
    }
}

/// A sine of so many cycles a frame, from a phase in degrees on, at an amplitude.
fn peak(name: &'static str, cycles: f64, degrees: f64, amplitude: f64, expected: f64) -> Signal {
    Signal {
        name,
        expected: Expected::TruePeak(expected),
        cycles: Some((cycles, degrees.to_radians())),
        parts: levels(&[(20.0 * amplitude.log10(), 1.0)]),
    }
}

fn signals() -> Vec<Signal> {
    use Expected::{Integrated, Momentary, Range, ShortTerm};
    let five = Signal {
        name: "3341 case 6",
        expected: Integrated(-23.0),
        cycles: None,
        parts: vec![(vec![-28.0, -28.0, -24.0, -30.0, -30.0], 20.0)],
    };
    vec![
        tones("3341 case 1", Integrated(-23.0), &[(-23.0, 20.0)]),
        tones("3341 case 2", Integrated(-33.0), &[(-33.0, 20.0)]),
        tones(
            "3341 case 3",
            Integrated(-23.0),
            &[(-36.0, 10.0), (-23.0, 60.0), (-36.0, 10.0)],
        ),
        tones(
            "3341 case 4",
            Integrated(-23.0),
            &[
                (-72.0, 10.0),
                (-36.0, 10.0),
                (-23.0, 60.0),
                (-36.0, 10.0),
                (-72.0, 10.0),
            ],
        ),
        tones(
            "3341 case 5",
            Integrated(-23.0),
            &[(-26.0, 20.0), (-20.0, 20.1), (-26.0, 20.0)],
        ),
        five,
        tones(
            "3341 case 9",
            ShortTerm(-23.0),
            &[(-20.0, 1.34), (-30.0, 1.66)].repeat(5),
        ),
        tones(
            "3341 case 12",
            Momentary(-23.0),
            &[(-20.0, 0.18), (-30.0, 0.22)].repeat(25),
        ),
        peak("3341 case 15", 1.0 / 4.0, 0.0, 0.5, -6.0),
        peak("3341 case 16", 1.0 / 4.0, 45.0, 0.5, -6.0),
        peak("3341 case 17", 1.0 / 6.0, 60.0, 0.5, -6.0),
        peak("3341 case 18", 1.0 / 8.0, 67.5, 0.5, -6.0),
        peak("3341 case 19", 1.0 / 4.0, 45.0, 1.41, 3.0),
        tones("3342 case 1", Range(10.0), &[(-20.0, 20.0), (-30.0, 20.0)]),
        tones("3342 case 2", Range(5.0), &[(-20.0, 20.0), (-15.0, 20.0)]),
        tones("3342 case 3", Range(20.0), &[(-40.0, 20.0), (-20.0, 20.0)]),
        tones(
            "3342 case 4",
            Range(15.0),
            &[
                (-50.0, 20.0),
                (-35.0, 20.0),
                (-20.0, 20.0),
                (-35.0, 20.0),
                (-50.0, 20.0),
            ],
        ),
    ]
}

/// Each signal once, in histogram or queue mode, as either kind of sample, at any of the rates. The true
/// peak's are for four looks a frame: at 44,100 and 48,000 Hz.
pub fn run(asked: &mut Asked, rng: &mut Rng) -> Result<(), Difference> {
    let mut op = Operation::new("audio, Tech 3341 and 3342");
    for signal in signals() {
        let rate = match signal.expected {
            Expected::TruePeak(_) => pick(&[44_100, 48_000], rng),
            _ => pick(&[44_100, 48_000, 48_000, 48_000, 96_000, 192_000], rng),
        };
        let map = match signal.parts[0].0.len() {
            1 => vec![Channel::Left, Channel::Right],
            _ => vec![
                Channel::Left,
                Channel::Right,
                Channel::Center,
                Channel::LeftSurround,
                Channel::RightSurround,
            ],
        };
        let setting = Setting {
            rate,
            map,
            on: LOUDNESS | SAMPLE_PEAK | TRUE_PEAK,
            gated: true,
            ranged: true,
            histogram: rng.below(2) == 0,
        };
        let sides = Sides::new(setting, true);
        // 16 bits are too few for 1.41 of full scale
        match signal.name == "3341 case 19" || rng.below(2) == 0 {
            true => played::<f32>(&signal, sides, &mut op, asked, rng)?,
            false => played::<i16>(&signal, sides, &mut op, asked, rng)?,
        }
        op.saw(signal.name);
    }
    op.same(&format!("the papers' readings: {TOLERANCE}"), &[])
}

fn played<T: Fed>(
    signal: &Signal,
    mut sides: Sides,
    op: &mut Operation,
    asked: &mut Asked,
    rng: &mut Rng,
) -> Result<(), Difference> {
    let rate = sides.setting.rate;
    let setting = sides.setting.clone();
    let input = || format!("{} {setting:?}", signal.name);
    let step = rate as usize / 10;
    let windowed = matches!(
        signal.expected,
        Expected::ShortTerm(_) | Expected::Momentary(_)
    );
    let (cycles, phase) = signal.cycles.unwrap_or((1000.0 / f64::from(rate), 0.0));
    let channels = sides.channels();
    let levels = ends(signal, rate);
    let frames = levels.last().map_or(0, |(_, end)| *end);
    let mut now = 0;
    while now < frames {
        let length = match windowed {
            true => step,
            false => 1 + rng.below(10 * step as u64) as usize,
        };
        let end = (now + length).min(frames);
        let mut data: Vec<T> = Vec::with_capacity(length * channels);
        for k in now..end {
            let x = fade(signal, frames, k) * sine(cycles, 1, k, phase);
            let (levels, _) = levels.iter().find(|(_, end)| k < *end).expect("a part");
            let level = |c: usize| levels[c % levels.len()];
            data.extend((0..channels).map(|c| T::scaled(level(c) * x)));
        }
        sides.add(asked, &data, input)?;
        now = end;
        if windowed {
            sides.windows(asked, input)?;
        }
        let window = match signal.expected {
            Expected::ShortTerm(level) if now >= 30 * step => Some((sides.ours.shortterm(), level)),
            Expected::Momentary(level) if now >= 10 * step => Some((sides.ours.momentary(), level)),
            _ => None,
        };
        if let Some((reading, level)) = window {
            within(op, reading, level, Tolerance::Loudness, input)?;
        }
    }
    sides.end(asked, input)?;
    let meter = &sides.ours;
    let (reading, expected, tolerance) = match signal.expected {
        Expected::Integrated(level) => (Meter::integrated(&[meter]), level, Tolerance::Loudness),
        Expected::Range(range) => {
            let found = Meter::range(&[meter]).told();
            (found.expect("one history"), range, Tolerance::Range)
        }
        Expected::TruePeak(level) => (decibels(meter.true_peaks[0]), level, Tolerance::TruePeak),
        Expected::ShortTerm(_) | Expected::Momentary(_) => return Ok(()),
    };
    within(op, reading, expected, tolerance, input)
}

/// A true peak's signal fades in and out over 50 ms: cut off, it has a higher one of its own.
fn fade(signal: &Signal, frames: usize, k: usize) -> f64 {
    match signal.expected {
        Expected::TruePeak(_) => (k.min(frames - 1 - k) as f64 / (0.05 * frames as f64)).min(1.0),
        _ => 1.0,
    }
}

/// The amplitudes of each part, and the frame where it ends.
fn ends(signal: &Signal, rate: u32) -> Vec<(Vec<f64>, usize)> {
    let mut seconds = 0.0;
    let part = |(levels, length): &(Vec<f64>, f64)| {
        seconds += length;
        let amplitudes = levels.iter().map(|&level| amplitude(level)).collect();
        (amplitudes, (seconds * f64::from(rate)).round() as usize)
    };
    signal.parts.iter().map(part).collect()
}

/// A reading that is as expected, within the tolerance.
fn within(
    op: &mut Operation,
    reading: f64,
    expected: f64,
    tolerance: Tolerance,
    input: impl Fn() -> String,
) -> Result<(), Difference> {
    let near = tolerance.admits(reading - expected);
    op.case(
        || format!("{}: {reading}, not {expected}", input()),
        near,
        true,
    )
}
