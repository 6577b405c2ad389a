//! Single calls beside document 01's words: any coefficients, any state, any stored peaks, any memory,
//! and numbers on both sides of each refusal's edge.

use driver::energies;
use driver::refusals::{Check, CHANNELS, DEST, MAP, SAMPLES};
use driver::rng::{pick, Rng};
use driver::sounds::{self, Kind};
use driver::words::filter::{Call, Kept, CHECKS, DEST_CHECKS, MOST_CHANNELS};

use super::{operation, parted, saw, shown};
use crate::check::{same_floats, Difference, Operation};
use crate::ours::filter::Lent;

const CALLS: usize = 130_000;
const BROKEN: usize = 130_000;

pub fn run(seed: u64) -> Result<(), Difference> {
    let mut asked = Asked::new();
    let rng = &mut Rng::new(seed);
    for _ in 0..CALLS {
        asked.both(&Given::<i16>::new(rng), rng)?;
        asked.both(&Given::<f32>::new(rng), rng)?;
    }
    for _ in 0..BROKEN {
        asked.both(&Given::<i16>::broken(rng), rng)?;
        asked.both(&Given::<f32>::broken(rng), rng)?;
    }
    every_byte(&mut asked, rng)?;
    asked.same()
}

/// Every byte at every place of every map.
fn every_byte(asked: &mut Asked, rng: &mut Rng) -> Result<(), Difference> {
    for channels in 1..=MOST_CHANNELS {
        for place in 0..channels {
            for byte in 0..=255 {
                let mut given = Given::<i16>::of(channels, rng);
                given.map[place] = byte;
                asked.both(&given, rng)?;
            }
        }
    }
    Ok(())
}

struct Asked {
    process: Operation,
    seed: Operation,
}

impl Asked {
    fn new() -> Self {
        Asked {
            process: operation("filter process").can(&CHECKS).can(&DEST_CHECKS),
            // DEST is no case of it: it has no destination
            seed: operation("filter seed").can(&CHECKS),
        }
    }

    fn same(self) -> Result<(), Difference> {
        let beside = "document 01: any coefficients, states and numbers";
        self.process.same(beside, &[CHANNELS, SAMPLES, MAP, DEST])?;
        self.seed.same(beside, &[CHANNELS, SAMPLES, MAP])
    }

    /// A call and what refused it.
    fn count<T: Kind>(op: &mut Operation, check: Option<Check>, call: &Call<T>) {
        match check {
            None => saw(op, call),
            Some(check) => op.saw(check),
        }
    }

    /// Both operations on what is given; all that was lent is looked at.
    fn both<T: Kind + Lent>(&mut self, given: &Given<T>, rng: &mut Rng) -> Result<(), Difference> {
        let call = given.call();
        let before = any_kept(rng);
        let input = || format!("{} over {before:?}, {} places", shown(&call), given.places);
        let (mut ours, mut words) = (before.clone(), before.clone());
        let number = T::seed(&call, &mut ours);
        self.seed.answer(input, number, call.seed(&mut words))?;
        Asked::count(&mut self.seed, call.check_seed(), &call);
        let seeded = parted(&ours, &words);
        self.seed
            .also(input, seeded.unwrap_or_default(), seeded.is_none())?;

        let (mut ours, mut words) = (before.clone(), before.clone());
        let mut dest: Vec<f64> = (0..given.places).map(|i| i as f64).collect();
        let mut expected = dest.clone();
        let number = T::process(&call, &mut ours, &mut dest);
        let refusal = call.process(&mut words, &mut expected);
        self.process.answer(input, number, refusal)?;
        Asked::count(&mut self.process, call.check_process(given.places), &call);
        let parted = parted(&ours, &words);
        self.process
            .also(input, parted.unwrap_or_default(), parted.is_none())?;
        self.process
            .also(input, "the destination", same_floats(&dest, &expected))
    }
}

/// What a call is given, and the places of its destination.
struct Given<T> {
    channels: usize,
    rate: u32,
    on: u8,
    a: [f64; 5],
    b: [f64; 5],
    data: Vec<T>,
    map: Vec<u8>,
    places: usize,
    start: usize,
}

impl<T: Kind> Given<T> {
    fn new(rng: &mut Rng) -> Self {
        Given::of(1 + rng.below(8) as usize, rng)
    }

    /// A call of so many channels that nothing refuses.
    fn of(channels: usize, rng: &mut Rng) -> Self {
        let frames = pick(&[0, 1, 2, 3, 12, 24, 40], rng);
        let start = pick(&[0, 0, 1, 5], rng);
        let part = (start + frames + pick(&[0, 0, 1, 4], rng)).max(1);
        let tame = rng.below(2) == 0;
        Given {
            channels,
            rate: pick(
                &[0, 1, 44_100, 95_999, 96_000, 191_999, 192_000, u32::MAX],
                rng,
            ),
            on: rng.bits() as u8,
            a: any_coefficients(tame, rng),
            b: any_coefficients(tame, rng),
            data: sounds::of(pick(&sounds::ALL, rng), frames * channels, rng),
            map: (0..channels).map(|_| rng.below(2) as u8).collect(),
            places: part * channels,
            start,
        }
    }

    /// A call with a number or a length changed: mostly by one, so that it is refused, just not refused,
    /// or refused for two reasons.
    fn broken(rng: &mut Rng) -> Self {
        let mut given = Given::new(rng);
        for _ in 0..1 + rng.below(2) {
            given.change(rng);
        }
        given
    }

    fn change(&mut self, rng: &mut Rng) {
        let channels = self.channels.clamp(1, MOST_CHANNELS);
        let (frames, part) = (self.data.len() / channels, self.places / channels);
        match rng.below(11) {
            0 => self.channels = any_channels(self.channels, rng),
            1 => drop(self.data.pop()),
            2 => self.data.push(T::sample(pick(&sounds::ALL, rng), rng)),
            3 => drop(self.map.pop()),
            4 => self.map.push(rng.below(2) as u8),
            5 => self
                .map
                .iter_mut()
                .for_each(|byte| *byte += rng.below(2) as u8),
            // empty, one place too few or too many, or one frame too few
            6 => self.places = pick(&[0, 1], rng),
            7 => self.places += 1,
            8 => self.places = self.places.saturating_sub(pick(&[1, channels], rng)),
            // the last start with room, and the first without
            9 => self.start = (part + rng.below(2) as usize).saturating_sub(frames),
            // the sum of start and frames reaches the largest number, or would pass it
            _ => {
                self.start = usize::MAX
                    .wrapping_sub(frames)
                    .wrapping_add(rng.below(4) as usize)
            }
        }
    }

    fn call(&self) -> Call<'_, T> {
        Call {
            channels: self.channels,
            rate: self.rate,
            on: self.on,
            a: self.a,
            b: self.b,
            data: &self.data,
            map: &self.map,
            start: self.start,
        }
    }
}

/// Around both ends of what is allowed, and numbers whose low bits are allowed.
fn any_channels(channels: usize, rng: &mut Rng) -> usize {
    let (up, down) = (channels.wrapping_add(1), channels.wrapping_sub(1));
    let far = [256 + channels, (1 << 32) + channels, usize::MAX];
    pick(&[0, 9, 10, up, down, far[0], far[1], far[2]], rng)
}

fn any_coefficients(tame: bool, rng: &mut Rng) -> [f64; 5] {
    [0.0; 5].map(|_| {
        if tame {
            4.0 * rng.fraction() - 2.0
        } else {
            any_float(rng)
        }
    })
}

/// Moderate, subnormal, any pattern, or an odd one.
fn any_float(rng: &mut Rng) -> f64 {
    match rng.below(8) {
        0 => energies::any(rng),
        1 => f64::from_bits(rng.bits() & 0x801F_FFFF_FFFF_FFFF),
        2 => pick(
            &[
                0.0,
                -0.0,
                f64::NAN,
                f64::INFINITY,
                f64::MAX,
                f64::MIN_POSITIVE,
            ],
            rng,
        ),
        _ => 4.0 * rng.fraction() - 2.0,
    }
}

/// Any floats in all places, those past the channels too.
fn any_kept(rng: &mut Rng) -> Kept {
    let mut kept = Kept::new(MOST_CHANNELS, 0.0);
    kept.state.fill_with(|| any_float(rng));
    kept.peaks.fill_with(|| any_float(rng));
    let sound = pick(&sounds::ALL, rng);
    kept.memory.fill_with(|| f32::sample(sound, rng));
    kept.true_peaks.fill_with(|| f32::sample(sound, rng));
    kept
}
