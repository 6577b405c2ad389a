//! Whole measurements of programmes: tones, noise, speech-like bursts, silence, square waves and sweeps,
//! harmed in several ways, and the test signals of EBU Tech 3341 and 3342.

mod meter;
mod sides;
mod tech;

use std::any::type_name;

use driver::rng::{pick, Rng};
use driver::signals::{self, Part, MUTATIONS, PARTS};
use driver::words::filter::{LOUDNESS, MOST_CHANNELS, SAMPLE_PEAK, TRUE_PEAK};
use ebur128::Channel;

use super::Difference;
use meter::Setting;
use sides::{Asked, Fed, Sides};

const RATES: [(u32, &str); 4] = [
    (44_100, "44,100 Hz"),
    (48_000, "48,000 Hz"),
    (96_000, "96,000 Hz"),
    (192_000, "192,000 Hz"),
];

const CHANNELS: [&str; MOST_CHANNELS] = [
    "1 channel",
    "2 channels",
    "3 channels",
    "4 channels",
    "5 channels",
    "6 channels",
    "7 channels",
    "8 channels",
];

/// The samples of a programme, on average and if its seconds allow.
const SAMPLES: u64 = 500_000;

/// Which channel stands where in a map that is not the usual one.
const POSITIONS: [Channel; 16] = [
    Channel::Unused,
    Channel::Left,
    Channel::Right,
    Channel::Center,
    Channel::LeftSurround,
    Channel::RightSurround,
    Channel::MpSC,
    Channel::Mp060,
    Channel::Mm060,
    Channel::Mp090,
    Channel::Mm090,
    Channel::Mp135,
    Channel::Mp180,
    Channel::Up000,
    Channel::Tp000,
    Channel::Bm045,
];

pub fn run(seed: u64) -> Result<(), Difference> {
    let rng = &mut Rng::new(seed);
    let mut asked = Asked::new(&cases());
    tech::run(&mut asked, rng)?;
    let mut last = None;
    for (i, &(rate, _)) in RATES.iter().cycle().take(8 * RATES.len()).enumerate() {
        let channels = 1 + i / RATES.len();
        last = Some(programme::<i16>(rate, channels, i, last, &mut asked, rng)?);
        last = Some(programme::<f32>(rate, channels, i, last, &mut asked, rng)?);
    }
    corners(&mut asked, rng)?;
    asked.same()
}

/// What a programme can be, and be measured as.
fn cases() -> Vec<&'static str> {
    let mut cases = vec![
        "i16",
        "f32",
        "histogram mode",
        "queue mode",
        "seeded",
        "no frames",
    ];
    cases.extend(CHANNELS);
    cases.extend(RATES.map(|(_, name)| name));
    cases.extend(PARTS.map(|(_, name)| name));
    cases.extend(MUTATIONS.map(|(_, name)| name));
    cases
}

fn setting(rate: u32, channels: usize, rng: &mut Rng) -> Setting {
    let usual = ebur128::EbuR128::new(channels as u32, rate, ebur128::Mode::M);
    let mut map = usual.expect("a measurement").channel_map().to_vec();
    match rng.below(3) {
        0 => map.fill_with(|| pick(&POSITIONS, rng)),
        1 if channels == 1 => map = vec![Channel::DualMono],
        _ => {}
    }
    // Mostly everything; else a window of 400 ms alone, or the peaks alone. With the true peak the Rust has
    // the sample peak too.
    let (on, gated, ranged) = match rng.below(8) {
        0 => (LOUDNESS | SAMPLE_PEAK, true, false),
        1 => (SAMPLE_PEAK | TRUE_PEAK, false, false),
        _ => (LOUDNESS | SAMPLE_PEAK | TRUE_PEAK, true, true),
    };
    Setting {
        rate,
        map,
        on,
        gated,
        ranged,
        histogram: rng.below(2) == 0,
    }
}

/// A programme of up to four parts, harmed in one way or two.
fn programme<T: Fed>(
    rate: u32,
    channels: usize,
    number: usize,
    last: Option<Sides>,
    asked: &mut Asked,
    rng: &mut Rng,
) -> Result<Sides, Difference> {
    let setting = setting(rate, channels, rng);
    let gains: Vec<f64> = (0..channels)
        .map(|_| signals::amplitude(-12.0 * rng.fraction()))
        .collect();
    let parts = 1 + rng.below(4) as usize;
    let most = (SAMPLES / channels as u64).max(u64::from(rate) / 2);
    let mut samples = Vec::new();
    let mut names = Vec::new();
    for i in 0..parts {
        let (part, name) = PARTS[(number + i) % PARTS.len()];
        let frames = rng.below(2 * most / parts as u64) as usize;
        samples.extend(signals::part(part, rate, frames, &gains, rng));
        names.push(name);
    }
    let other = pick(&MUTATIONS, rng);
    let harms = [MUTATIONS[number % MUTATIONS.len()], other];
    let harms = &harms[..1 + rng.below(2) as usize];
    for (mutation, name) in harms {
        signals::mutate(*mutation, &mut samples, channels, rng);
        names.push(name);
    }
    let data: Vec<T> = samples.iter().map(|&x| T::scaled(x)).collect();
    played(setting, &data, &names, last, asked, rng)
}

/// What a measurement can end in and few programmes do: silence, NaN, and no frames at all, in both modes.
fn corners(asked: &mut Asked, rng: &mut Rng) -> Result<(), Difference> {
    for histogram in [false, true] {
        let setting = Setting {
            rate: 48_000,
            map: vec![Channel::Center],
            on: LOUDNESS | SAMPLE_PEAK | TRUE_PEAK,
            gated: true,
            ranged: true,
            histogram,
        };
        let tone = signals::part(Part::Tone, 48_000, 200_000, &[1.0], rng);
        let tone: Vec<f32> = tone.iter().map(|&x| x as f32).collect();
        let mut harmed = tone.clone();
        harmed[100_000] = f32::NAN;
        let queued = Setting {
            histogram: !histogram,
            ..setting.clone()
        };
        let mut last = None;
        for (data, name) in [
            (&[][..], "no frames"),
            (&[0.0; 200_000], "silence"),
            (&harmed, "NaN or infinity"),
            (&tone, "tone"),
        ] {
            last = Some(played(setting.clone(), data, &[name], last, asked, rng)?);
        }
        // the last two measurements in one question, one of each mode
        played(queued, &tone, &["tone"], last, asked, rng)?;
    }
    Ok(())
}

/// Plays it to all sides, in calls of any length. Together with the last measurement it is asked about too.
fn played<T: Fed>(
    setting: Setting,
    data: &[T],
    names: &[&'static str],
    last: Option<Sides>,
    asked: &mut Asked,
    rng: &mut Rng,
) -> Result<Sides, Difference> {
    let channels = setting.map.len();
    let shown = format!("{names:?} as {} in {setting:?}", type_name::<T>());
    let input = || shown.clone();
    let seeded = rng.below(4) == 0;
    let finite = data.iter().all(|x| x.wide().is_finite());
    let mut sides = Sides::new(setting, finite && !seeded);
    let mut rest = data;
    if seeded {
        let frames = rng.below((data.len() / channels / 4) as u64 + 1) as usize;
        let (seed, later) = data.split_at(frames * channels);
        sides.seed(seed);
        rest = later;
    }
    let longest = pick(&[0.01, 0.1, 1.0, 10.0], rng) * f64::from(sides.setting.rate);
    while !rest.is_empty() {
        let frames = (1 + rng.below(longest as u64) as usize).min(rest.len() / channels);
        let (part, later) = rest.split_at(frames * channels);
        sides.add(asked, part, input)?;
        if rng.below(1 + data.len() as u64 / part.len() as u64) < 4 {
            sides.windows(asked, input)?;
        }
        rest = later;
    }
    sides.end(asked, input)?;
    if let Some(last) = last {
        sides.both(&last, asked, input)?;
    }
    names.iter().for_each(|name| asked.rust.saw(*name));
    saw(&sides, type_name::<T>(), data.len(), seeded, asked);
    Ok(sides)
}

fn saw(sides: &Sides, kind: &'static str, samples: usize, seeded: bool, asked: &mut Asked) {
    let (setting, op) = (&sides.setting, &mut asked.rust);
    let rate = RATES.iter().find(|(rate, _)| *rate == setting.rate);
    op.saw(rate.expect("one of the rates").1);
    op.saw(CHANNELS[setting.map.len() - 1]);
    op.saw(kind);
    op.saw(if setting.histogram {
        "histogram mode"
    } else {
        "queue mode"
    });
    op.saw_times("seeded", u64::from(seeded));
    op.saw_times("samples", samples as u64);
}
