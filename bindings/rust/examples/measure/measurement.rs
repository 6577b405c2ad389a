//! A whole measurement over the wrapper. The library takes coefficients and energies as they are given, and answers
//! energies. What is the caller's job stands here, after the Rust crate ebur128 0.1.11: the coefficients (filter.rs,
//! filter_coefficients), the blocks (ebur128.rs, add_frames), their energy (filter.rs, calc_gating_block) and the logarithm
//! (utils.rs, energy_to_loudness). Each sum is in that crate's order, so that every energy is its own to the last bit.

use crate::sound::{Samples, Sound};
use std::io::Read;
use xelamphoun::{Channel, Coefficients, Filter, Histogram, Refusal, Switches};

/// The rates that the crate takes.
const LOWEST_RATE: u32 = 16;
const HIGHEST_RATE: u32 = 2_822_400;

/// What is kept from part to part of the sound. Weighted frames go to a ring, each channel's part of it as long as 3 s.
pub struct Measurement {
    pub filter: Filter,
    weights: Vec<f64>,
    map: Vec<Channel>,
    /// Frames of 100 ms.
    tenth: usize,
    ring: Vec<f64>,
    ring_frames: usize,
    /// Where the next frame goes.
    at: usize,
    /// Frames of the short-term block that is under way.
    since: usize,
    pub frames: u64,
    /// Of 400 ms: gate and integrated loudness.
    pub blocks: History,
    /// Of 3 s: the range.
    pub short_blocks: History,
}

/// The blocks of one length.
#[derive(Default)]
pub struct History {
    pub number: u64,
    /// The largest of their energies.
    pub loudest: f64,
    pub histogram: Histogram,
}

impl History {
    fn add(&mut self, energy: f64) -> Result<(), String> {
        done("add", self.histogram.add(energy))?;
        self.number += 1;
        if energy > self.loudest {
            self.loudest = energy;
        }
        Ok(())
    }
}

/// A channel's weight in an energy, 0 where it is not used: L R C LFE Ls Rs, with neither C nor LFE at four, no LFE at five.
fn weight(channels: usize, c: usize) -> f64 {
    let weights: &[f64] = match channels {
        4 => &[1.0, 1.0, 1.41, 1.41],
        5 => &[1.0, 1.0, 1.0, 1.41, 1.41],
        _ => &[1.0, 1.0, 1.0, 0.0, 1.41, 1.41],
    };
    weights.get(c).copied().unwrap_or(0.0)
}

/// BS.1770's two filters at a rate, one after the other: a shelf and a high pass.
fn coefficients(rate: f64) -> Coefficients {
    let (f, g, q) = (1681.974450955533, 3.999843853973347, 0.7071752369554196);
    let k = f64::tan(std::f64::consts::PI * f / rate);
    let vh = f64::powf(10.0, g / 20.0);
    let vb = f64::powf(vh, 0.4996667741545416);
    let a0 = 1.0 + k / q + k * k;
    let pb = [
        (vh + vb * k / q + k * k) / a0,
        2.0 * (k * k - vh) / a0,
        (vh - vb * k / q + k * k) / a0,
    ];
    let pa = [1.0, 2.0 * (k * k - 1.0) / a0, (1.0 - k / q + k * k) / a0];

    let (f, q) = (38.13547087602444, 0.5003270373238773);
    let k = f64::tan(std::f64::consts::PI * f / rate);
    let rb = [1.0, -2.0, 1.0];
    let ra = [
        1.0,
        2.0 * (k * k - 1.0) / (1.0 + k / q + k * k),
        (1.0 - k / q + k * k) / (1.0 + k / q + k * k),
    ];
    Coefficients {
        a: product(&pa, &ra),
        b: product(&pb, &rb),
    }
}

/// The coefficients of two filters of the second order in one of the fourth.
fn product(p: &[f64; 3], r: &[f64; 3]) -> [f64; 5] {
    [
        p[0] * r[0],
        p[0] * r[1] + p[1] * r[0],
        p[0] * r[2] + p[1] * r[1] + p[2] * r[0],
        p[1] * r[2] + p[2] * r[1],
        p[2] * r[2],
    ]
}

/// Says which call the measurement could not do without was refused.
fn done(call: &str, answer: Result<(), Refusal>) -> Result<(), String> {
    answer.map_err(|refusal| format!("{call} is refused: {refusal}"))
}

fn add_squares(sum: f64, part: &[f64]) -> f64 {
    part.iter().fold(sum, |sum, value| sum + value * value)
}

impl Measurement {
    pub fn new(channels: usize, rate: u32) -> Result<Measurement, String> {
        let mut filter = Filter::new(channels, rate, Switches::ALL, coefficients(f64::from(rate)));
        let weights: Vec<f64> = (0..channels).map(|c| weight(channels, c)).collect();
        let map: Vec<Channel> = weights
            .iter()
            .map(|&w| {
                if w > 0.0 {
                    Channel::Used
                } else {
                    Channel::Unused
                }
            })
            .collect();
        // asks the library about the channels before anything large is laid out for them: no samples move nothing
        done("the number of channels", filter.seed_i16(&[], &map))?;
        if !(LOWEST_RATE..=HIGHEST_RATE).contains(&rate) {
            return Err(format!(
                "a rate of {rate}: it must be {LOWEST_RATE} to {HIGHEST_RATE}"
            ));
        }
        let tenth = (rate as usize + 5) / 10;
        // whole tenths, so that a block ends where the ring does
        let mut ring_frames = 30 * tenth;
        while ring_frames < 3 * rate as usize {
            ring_frames += tenth;
        }
        Ok(Measurement {
            filter,
            weights,
            map,
            tenth,
            ring: vec![0.0; channels * ring_frames],
            ring_frames,
            at: 0,
            since: 0,
            frames: 0,
            blocks: History::default(),
            short_blocks: History::default(),
        })
    }

    /// Weighs samples into the ring and takes their peaks.
    fn process(&mut self, samples: &Samples) -> Result<(), String> {
        let (filter, map, ring) = (&mut self.filter, &self.map, &mut self.ring);
        let answer = match samples {
            Samples::I16(data) => filter.process_i16(data, map, ring, self.at),
            Samples::F32(data) => filter.process_f32(data, map, ring, self.at),
        };
        done("process", answer)?;
        let frames = samples.len() / self.map.len();
        self.frames += frames as u64;
        self.at += frames;
        Ok(())
    }

    /// The energy of the last frames (BS.1770: the channels' mean squares, weighted and added). The crate adds up the ring as
    /// it lies, its beginning before its end.
    fn energy_of_last(&self, frames: usize) -> f64 {
        let mut sum = 0.0;
        for (part, &weight) in self.ring.chunks_exact(self.ring_frames).zip(&self.weights) {
            if weight == 0.0 {
                continue;
            }
            let squares = if self.at < frames {
                let beginning = add_squares(0.0, &part[..self.at]);
                add_squares(beginning, &part[self.ring_frames - frames + self.at..])
            } else {
                add_squares(0.0, &part[self.at - frames..self.at])
            };
            sum += squares * weight;
        }
        sum / frames as f64
    }

    /// A block of 400 ms ends here; one of 3 s does every second, the first after three.
    fn end_block(&mut self, frames: usize) -> Result<(), String> {
        let energy = self.energy_of_last(4 * self.tenth);
        self.blocks.add(energy)?;
        self.since += frames;
        if self.since == 30 * self.tenth {
            let energy = self.energy_of_last(30 * self.tenth);
            self.short_blocks.add(energy)?;
            self.since = 20 * self.tenth;
        }
        if self.at == self.ring_frames {
            self.at = 0;
        }
        Ok(())
    }

    /// Measures a sound to its end. The first block needs 400 ms, and each further one the next 100: they overlap by three
    /// quarters.
    pub fn of<R: Read>(sound: &mut Sound<R>) -> Result<Measurement, String> {
        let mut measurement = Measurement::new(sound.channels, sound.rate)?;
        let mut needed = 4 * measurement.tenth;
        loop {
            let samples = sound
                .read(needed * sound.channels)
                .map_err(|wrong| format!("the sound: {wrong}"))?;
            measurement.process(&samples)?;
            if samples.len() < needed * sound.channels {
                return Ok(measurement);
            }
            measurement.end_block(needed)?;
            needed = measurement.tenth;
        }
    }
}
