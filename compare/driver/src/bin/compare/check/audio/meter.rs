//! A whole measurement on our side: the filter, the histories and the questions are the proved library's;
//! when a block ends, and its energy, are worked out here as the Rust's ebur128.rs does it.

use driver::filters;
use driver::refusals::{MODE, NAN, NONE};
use driver::sets::Set;
use driver::words::filter::{Call, Kept, LOUDNESS, MOST_CHANNELS};
use driver::words::Queue;
use ebur128::{energy_to_loudness, Channel};

use crate::ours::filter::Lent;
use crate::ours::{self, NOTHING, NOT_A_NUMBER};

/// What is measured: which switches of the filter are on, and which histories are kept.
#[derive(Clone, Debug)]
pub struct Setting {
    pub rate: u32,
    pub map: Vec<Channel>,
    pub on: u8,
    /// Blocks of 400 ms, one every 100 ms.
    pub gated: bool,
    /// Stretches of 3 s, one every second.
    pub ranged: bool,
    pub histogram: bool,
}

/// A history in lent memory.
enum History {
    Histogram(Vec<u32>),
    Queue(Queue),
}

impl History {
    /// The longest queue: more than an hour of blocks would push the first ones out, and not in the Rust.
    fn new(histogram: bool) -> Self {
        let maximum = 36_000;
        match histogram {
            true => History::Histogram(vec![0; 1000]),
            false => History::Queue(Queue {
                maximum,
                head: 0,
                held: 0,
                store: vec![0.0; maximum],
            }),
        }
    }

    fn add(&mut self, energy: f64) {
        let number = match self {
            History::Histogram(counters) => ours::histogram_add(counters, energy),
            History::Queue(queue) => {
                let (head, held) = (&mut queue.head, &mut queue.held);
                ours::queue_add(queue.maximum, head, held, &mut queue.store, energy)
            }
        };
        assert_eq!(number, 0, "an energy is added");
    }

    fn push(&self, set: &mut Set) {
        match self {
            History::Histogram(counters) => set.push_histogram(counters),
            History::Queue(queue) => set.push_queue(queue),
        }
    }
}

pub struct Meter {
    setting: Setting,
    used: Vec<u8>,
    a: [f64; 5],
    b: [f64; 5],
    kept: Kept,
    /// Weighted frames, a part for each channel, written round and round.
    weighted: Vec<f64>,
    /// The next place in each part.
    at: usize,
    /// Frames until the block at hand ends.
    needed: usize,
    /// The frames of 100 ms.
    step: usize,
    /// Frames since a stretch of 3 s began.
    stretch: usize,
    blocks: History,
    stretches: History,
    /// The largest so far. Those in `kept` are of the last call alone.
    pub peaks: [f64; MOST_CHANNELS],
    pub true_peaks: [f64; MOST_CHANNELS],
}

impl Meter {
    pub fn new(setting: &Setting) -> Self {
        let channels = setting.map.len();
        let (a, b) = filters::coefficients(&filters::new(setting.rate, channels, setting.on));
        let step = (setting.rate as usize + 5) / 10;
        let window = match setting.on & LOUDNESS {
            0 => 0,
            _ if setting.ranged => 30 * step,
            _ => 4 * step,
        };
        let byte = |channel: &Channel| u8::from(*channel != Channel::Unused);
        Meter {
            used: setting.map.iter().map(byte).collect(),
            a,
            b,
            kept: Kept::new(channels, 0.0),
            weighted: vec![0.0; window * channels],
            at: 0,
            needed: 4 * step,
            step,
            stretch: 0,
            blocks: History::new(setting.histogram),
            stretches: History::new(setting.histogram),
            peaks: [0.0; MOST_CHANNELS],
            true_peaks: [0.0; MOST_CHANNELS],
            setting: setting.clone(),
        }
    }

    fn call<'a, T>(&'a self, data: &'a [T]) -> Call<'a, T> {
        Call {
            channels: self.used.len(),
            rate: self.setting.rate,
            on: self.setting.on,
            a: self.a,
            b: self.b,
            data,
            map: &self.used,
            start: self.at,
        }
    }

    pub fn seed<T: Lent>(&mut self, data: &[T]) {
        let mut kept = self.kept.clone();
        let number = T::seed(&self.call(data), &mut kept);
        assert_eq!(number, 0, "samples are taken");
        self.kept = kept;
    }

    /// Cut where a block ends, as the Rust does: the flush of states stands at the end of each part.
    pub fn add<T: Lent>(&mut self, data: &[T]) {
        if data.is_empty() {
            return;
        }
        self.kept.peaks.fill(0.0);
        self.kept.true_peaks.fill(0.0);
        let channels = self.used.len();
        let mut rest = data;
        while !rest.is_empty() {
            let frames = (rest.len() / channels).min(self.needed);
            let (part, later) = rest.split_at(frames * channels);
            self.weigh(part);
            self.passed(frames);
            rest = later;
        }
        for c in 0..channels {
            self.peaks[c] = self.peaks[c].max(self.kept.peaks[c]);
            let true_peak = f64::from(self.kept.true_peaks[c]);
            self.true_peaks[c] = self.true_peaks[c].max(true_peak);
        }
    }

    fn weigh<T: Lent>(&mut self, part: &[T]) {
        let (mut kept, mut weighted) = (self.kept.clone(), std::mem::take(&mut self.weighted));
        let number = T::process(&self.call(part), &mut kept, &mut weighted);
        assert_eq!(number, 0, "samples are taken");
        (self.kept, self.weighted) = (kept, weighted);
    }

    /// So many frames more; a block may have ended, and with it a stretch.
    fn passed(&mut self, frames: usize) {
        self.needed -= frames;
        if self.weighted.is_empty() {
            self.needed = if self.needed == 0 {
                self.step
            } else {
                self.needed
            };
            return;
        }
        self.at += frames;
        self.stretch += frames;
        if self.needed > 0 {
            return;
        }
        self.needed = self.step;
        if self.setting.gated {
            let energy = self.energy(4 * self.step);
            self.blocks.add(energy);
        }
        if self.setting.ranged && self.stretch == 30 * self.step {
            let energy = self.energy(30 * self.step);
            self.stretches.add(energy);
            self.stretch = 20 * self.step;
        }
        if self.at == self.weighted.len() / self.used.len() {
            self.at = 0;
        }
    }

    /// The energy of the last so many frames: squares from 0 on, those since the store was last begun
    /// anew first; times the channel's weight; added from 0, and divided by the frames.
    fn energy(&self, frames: usize) -> f64 {
        let part = self.weighted.len() / self.used.len();
        let mut sum = 0.0;
        let own = self.weighted.chunks_exact(part);
        for (channel, own) in self.setting.map.iter().zip(own) {
            if *channel == Channel::Unused {
                continue;
            }
            let (new, old) = match self.at.checked_sub(frames) {
                Some(first) => (&own[first..self.at], &own[..0]),
                None => (&own[..self.at], &own[part - frames + self.at..]),
            };
            let outputs = new.iter().chain(old);
            sum += weight(*channel) * outputs.fold(0.0, |sum, y| sum + y * y);
        }
        sum / frames as f64
    }

    /// The last 400 ms, or the last 3 s.
    pub fn momentary(&self) -> f64 {
        loudness(self.energy(4 * self.step))
    }

    pub fn shortterm(&self) -> f64 {
        loudness(self.energy(30 * self.step))
    }

    /// The peaks of the last call, by channel.
    pub fn last_peaks(&self, c: usize) -> (f64, f64) {
        (self.kept.peaks[c], f64::from(self.kept.true_peaks[c]))
    }

    /// How many blocks count, and their sum.
    pub fn gate(&self) -> Option<(u64, f64)> {
        let (mut blocks, mut sum) = (0, 0.0);
        match ours::gate(&of(&[self], |meter| &meter.blocks), &mut blocks, &mut sum) {
            0 => Some((blocks, sum)),
            NONE | NAN => None,
            number => panic!("gate answers {number}"),
        }
    }

    pub fn threshold(&self) -> f64 {
        let mut value = 0.0;
        let set = of(&[self], |meter| &meter.blocks);
        match ours::relative_threshold(&set, &mut value) {
            0 if value == -70.0 => value,
            0 => energy_to_loudness(value),
            NAN => f64::NAN,
            number => panic!("relative threshold answers {number}"),
        }
    }

    /// The integrated loudness of one or several.
    pub fn integrated(meters: &[&Meter]) -> f64 {
        let mut energy = 0.0;
        match ours::gated_energy(&of(meters, |meter| &meter.blocks), &mut energy) {
            0 => energy_to_loudness(energy),
            NONE => f64::NEG_INFINITY,
            NAN => f64::NAN,
            number => panic!("gated energy answers {number}"),
        }
    }

    /// The loudness range of one or several; none where their histories are of both kinds.
    pub fn range(meters: &[&Meter]) -> Range {
        let set = of(meters, |meter| &meter.stretches);
        let mut work = vec![0.0; set.energies.len()];
        let (mut low, mut high) = (0.0, 0.0);
        match ours::loudness_range(&set, &mut work, &mut low, &mut high) {
            0 => Range::Found(energy_to_loudness(high) - energy_to_loudness(low)),
            NOTHING => Range::Nothing,
            NOT_A_NUMBER => Range::NotANumber,
            MODE => Range::Mixed,
            number => panic!("range answers {number}"),
        }
    }
}

/// A loudness range, or why there is none.
#[derive(Clone, Copy, Debug)]
pub enum Range {
    Found(f64),
    Nothing,
    NotANumber,
    Mixed,
}

impl Range {
    /// As the Rust tells it: nothing is a range of 0 to it, and a mixture is refused.
    pub fn told(self) -> Option<f64> {
        match self {
            Range::Found(range) => Some(range),
            Range::Nothing => Some(0.0),
            Range::NotANumber => Some(f64::NAN),
            Range::Mixed => None,
        }
    }
}

/// The set of one history of each.
fn of(meters: &[&Meter], history: impl Fn(&Meter) -> &History) -> Set {
    let mut set = Set::default();
    for meter in meters {
        history(meter).push(&mut set);
    }
    set
}

fn loudness(energy: f64) -> f64 {
    if energy <= 0.0 {
        f64::NEG_INFINITY
    } else {
        energy_to_loudness(energy)
    }
}

/// The weight of a channel that is used.
fn weight(channel: Channel) -> f64 {
    match channel {
        Channel::LeftSurround
        | Channel::RightSurround
        | Channel::Mp060
        | Channel::Mm060
        | Channel::Mp090
        | Channel::Mm090 => 1.41,
        Channel::DualMono => 2.0,
        _ => 1.0,
    }
}
