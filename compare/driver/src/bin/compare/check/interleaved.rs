//! `Interleaved` of both kinds, beside the Rust's: its frames, its channels, every sample that
//! `foreach_sample` visits, in order, and both parts of every `split_at`. What the Rust refuses or
//! asserts is a refusal here, past the end, or a part that is cut there.

use std::fmt::Debug;
use std::panic::{self, AssertUnwindSafe};

use driver::refusals::{CHANNELS, SAMPLES};
use driver::rng::{pick, Rng};
use driver::sounds::{self, Kind};
use driver::words::filter::MOST_CHANNELS;
use ebur128::{Interleaved, Samples};

use super::{same_float, Difference, Operation, UNTOUCHED};
use crate::ours::interleaved::{Part, Shown, PAST_THE_END};

/// The channels that are tried: those of the library, none, and more.
const CHANNELS_TRIED: usize = 18;
/// Every length up to so many samples, of every number of channels.
const LENGTHS: usize = 100;
const RUNS: usize = 60;
/// A number of frames that is left as it was.
const NO_FRAMES: usize = 987_654_321;

pub fn run(seed: u64) -> Result<(), Difference> {
    let mut asked = Asked::default();
    let rng = &mut Rng::new(seed);
    let hook = panic::take_hook();
    panic::set_hook(Box::new(|_| ()));
    let same = each::<i16>(&mut asked, rng).and_then(|()| each::<f32>(&mut asked, rng));
    panic::set_hook(hook);
    same?;
    asked.same()
}

fn each<T: Kind + Shown>(asked: &mut Asked, rng: &mut Rng) -> Result<(), Difference> {
    for channels in 0..CHANNELS_TRIED {
        for length in 0..LENGTHS {
            let data: Vec<T> = sounds::of(pick(&sounds::ALL, rng), length, rng);
            asked.shown(&data, channels)?;
        }
    }
    for run in 0..RUNS {
        let channels = 1 + run % MOST_CHANNELS;
        let frames = 20 + rng.below(60) as usize;
        let data: Vec<T> = sounds::of(pick(&sounds::ALL, rng), frames * channels, rng);
        asked.shown(&data, channels)?;
        for _ in 0..frames {
            asked.any_part(&data, channels, rng)?;
        }
    }
    Ok(())
}

/// What is seen beside answers and refusals: a split, an answer past the end, and what the Rust panics at.
const SPLIT: &str = "a split";
const PAST: &str = "past the end";
const ASSERTED: &str = "an assert of the Rust";

struct Asked {
    frames: Operation,
    samples: Operation,
}

impl Default for Asked {
    fn default() -> Self {
        Asked {
            frames: Operation::new("interleaved frames").can(&[SPLIT]),
            samples: Operation::new("interleaved sample").can(&[PAST, ASSERTED]),
        }
    }
}

impl Asked {
    fn same(self) -> Result<(), Difference> {
        let refusals = [CHANNELS, SAMPLES];
        self.frames
            .same("the Rust's frames and channels", &refusals)?;
        self.samples.same("the Rust's foreach_sample", &refusals)
    }

    /// All that the whole shows, and both parts at every frame, the end and past it.
    fn shown<T: Kind + Shown>(&mut self, data: &[T], channels: usize) -> Result<(), Difference> {
        let part = |first, end| Part {
            data,
            channels,
            first,
            end,
        };
        let whole = part(0, usize::MAX);
        let refusal = refusal(data, channels);
        let rust = match Interleaved::new(data, channels) {
            Ok(rust) if channels <= MOST_CHANNELS => rust,
            Ok(_) => return self.refused(&whole, CHANNELS),
            Err(_) if refusal == SAMPLES => return self.uneven(data, channels),
            Err(_) => return self.refused(&whole, refusal),
        };
        self.frames
            .also(|| shown(&whole), "the Rust's error", refusal == 0)?;
        let frames = rust.frames();
        self.same_part(&whole, &rust)?;
        for at in 0..=frames {
            let (before, after) = taken(data, channels).split_at(at);
            self.same_part(&part(0, at), &before)?;
            self.same_part(&part(at, usize::MAX), &after)?;
            self.frames.saw(SPLIT);
        }
        // Past the end the Rust asserts; here the first part is the whole, and the second is empty.
        for at in [frames + 1, frames + 7, usize::MAX / channels] {
            self.asserts(|| shown(&whole), || taken(data, channels).split_at(at))?;
            self.same_part(&part(0, at), &rust)?;
            self.same_part(&part(at, usize::MAX), &taken(&data[..0], channels))?;
        }
        self.asserts(|| shown(&whole), || rust.foreach_sample(channels, |_| ()))
    }

    /// Samples that end within a frame, which the Rust does not take: a part up to that frame is shown, and
    /// one that has it is refused.
    fn uneven<T: Kind + Shown>(&mut self, data: &[T], channels: usize) -> Result<(), Difference> {
        let part = |first, end| Part {
            data,
            channels,
            first,
            end,
        };
        for at in 0..=data.len() / channels {
            let before = taken(&data[..at * channels], channels);
            self.same_part(&part(0, at), &before)?;
            self.refused(&part(at, usize::MAX), SAMPLES)?;
        }
        Ok(())
    }

    /// Any two frames, in order or not: where they are, the Rust's two splits.
    fn any_part<T: Kind + Shown>(
        &mut self,
        data: &[T],
        channels: usize,
        rng: &mut Rng,
    ) -> Result<(), Difference> {
        let frames = data.len() / channels;
        let first = rng.below(frames as u64 + 3) as usize;
        let end = rng.below(frames as u64 + 3) as usize;
        let part = Part {
            data,
            channels,
            first,
            end,
        };
        let (before, _) = taken(data, channels).split_at(end.min(frames));
        let (_, rust) = before.split_at(first.min(end).min(frames));
        self.frames.saw(SPLIT);
        self.same_part(&part, &rust)
    }

    /// The numbers of a part, each sample of each channel, and what lies past the end of both.
    fn same_part<T: Kind + Shown>(
        &mut self,
        part: &Part<T>,
        rust: &Interleaved<T>,
    ) -> Result<(), Difference> {
        let input = || shown(part);
        self.frames
            .also(input, "channels", T::channels(part) == rust.channels())?;
        let mut frames = NO_FRAMES;
        let number = T::frames(part, &mut frames);
        self.frames.answer(input, number, 0)?;
        self.frames
            .also(input, "the number of frames", frames == rust.frames())?;
        for channel in 0..rust.channels() {
            let mut visited = Vec::with_capacity(frames);
            rust.foreach_sample(channel, |&sample| visited.push(sample));
            self.samples
                .also(input, "as many as frames", visited.len() == frames)?;
            for (frame, &sample) in visited.iter().enumerate() {
                self.sample(
                    part,
                    channel,
                    frame,
                    0,
                    sample.as_f64_raw() / T::MAX_AMPLITUDE,
                )?;
            }
            for frame in [frames, usize::MAX] {
                self.sample(part, channel, frame, PAST_THE_END, UNTOUCHED)?;
            }
        }
        for channel in [rust.channels(), usize::MAX] {
            self.sample(part, channel, 0, PAST_THE_END, UNTOUCHED)?;
        }
        Ok(())
    }

    /// A refusal of all but the number of channels; it writes nothing.
    fn refused<T: Kind + Shown>(&mut self, part: &Part<T>, number: u8) -> Result<(), Difference> {
        let input = || shown(part);
        self.frames.also(input, "a refusal", number != 0)?;
        self.frames
            .also(input, "channels", T::channels(part) == part.channels)?;
        let mut frames = NO_FRAMES;
        let ours = T::frames(part, &mut frames);
        self.frames.answer(input, ours, number)?;
        self.frames
            .also(input, "frames untouched", frames == NO_FRAMES)?;
        for channel in [0, part.channels] {
            self.sample(part, channel, 0, number, UNTOUCHED)?;
        }
        Ok(())
    }

    fn sample<T: Kind + Shown>(
        &mut self,
        part: &Part<T>,
        channel: usize,
        frame: usize,
        number: u8,
        sample: f64,
    ) -> Result<(), Difference> {
        let mut ours = UNTOUCHED;
        let answer = T::sample_at(part, channel, frame, &mut ours);
        let input = || format!("channel {channel} of frame {frame} of {}", shown(part));
        self.samples.answer(input, answer, number)?;
        self.samples
            .saw_times(PAST, u64::from(answer == PAST_THE_END));
        self.samples
            .also(input, "the sample", same_float(ours, sample))
    }

    /// The Rust panics.
    fn asserts<R>(
        &mut self,
        input: impl FnOnce() -> String,
        rust: impl FnOnce() -> R,
    ) -> Result<(), Difference> {
        let panicked = panic::catch_unwind(AssertUnwindSafe(rust)).is_err();
        self.samples.saw_times(ASSERTED, u64::from(panicked));
        self.samples.also(input, "the Rust asserts", panicked)
    }
}

/// The Rust's struct over whole frames.
fn taken<T>(data: &[T], channels: usize) -> Interleaved<'_, T> {
    Interleaved::new(data, channels)
        .map_err(|_| ())
        .expect("whole frames")
}

/// Document 01's first two rows.
fn refusal<T>(data: &[T], channels: usize) -> u8 {
    match channels {
        0 => CHANNELS,
        _ if channels > MOST_CHANNELS => CHANNELS,
        _ if data.len() % channels != 0 => SAMPLES,
        _ => 0,
    }
}

fn shown<T: Debug>(part: &Part<T>) -> String {
    format!("{part:?}")
}
