//! One filter on both sides, ours and the Rust's, which take the same calls.

use driver::filters;
use driver::sounds::Kind;
use driver::words::filter::{self, Call, Kept, LOUDNESS, PAST, TRUE_PEAK};
use ebur128::filter::Filter;
use ebur128::Interleaved;

use super::{operation, parted, saw, shown};
use crate::check::{same_floats, Difference, Operation, UNTOUCHED};
use crate::ours::filter::Lent;

/// Both operations, and how many outputs were subnormal.
pub struct Asked {
    process: Operation,
    seed: Operation,
    pub subnormal: usize,
}

const SUBNORMAL: &str = "outputs subnormal";

impl Asked {
    pub fn new() -> Self {
        Asked {
            process: operation("filter process").can(&[SUBNORMAL]),
            seed: operation("filter seed"),
            subnormal: 0,
        }
    }

    pub fn same(mut self, beside: &str) -> Result<(), Difference> {
        self.process.saw_times(SUBNORMAL, self.subnormal as u64);
        self.process.same(beside, &[])?;
        self.seed.same(beside, &[])
    }
}

pub struct Pair {
    rust: Filter,
    pub channels: usize,
    pub rate: u32,
    on: u8,
    a: [f64; 5],
    b: [f64; 5],
    kept: Kept,
    /// What our memory has to be: the Rust's filter does not show its buffers. check/true_peak.rs shows
    /// that these are they.
    memory: [f32; 184],
}

impl Pair {
    /// From silence on.
    pub fn new(rate: u32, channels: usize, on: u8) -> Self {
        let rust = filters::new(rate, channels, on);
        let (a, b) = filters::coefficients(&rust);
        let kept = Kept::new(channels, UNTOUCHED as f32);
        Pair {
            rust,
            channels,
            rate,
            on,
            a,
            b,
            memory: kept.memory,
            kept,
        }
    }

    pub fn weighs(&self) -> bool {
        self.on & LOUDNESS != 0
    }

    /// Whether every state is 0.
    pub fn is_silent(&self) -> bool {
        let states = &self.kept.state[..5 * self.channels];
        states.iter().all(|&value| value == 0.0)
    }

    /// A call with a destination of so many places, which are all looked at.
    pub fn process<T: Kind + Lent>(
        &mut self,
        asked: &mut Asked,
        data: &[T],
        map: &[u8],
        places: usize,
        start: usize,
    ) -> Result<(), Difference> {
        let call = self.call(data, map, start);
        let (mut ours, mut rust) = (vec![UNTOUCHED; places], vec![UNTOUCHED; places]);
        let number = T::process(&call, &mut self.kept, &mut ours);
        self.rust
            .process(self.frames(data), &mut rust, start, &filters::map(map));
        let input = || format!("process to {places} places: {}", shown(&call));
        asked.process.answer(input, number, 0)?;
        let same = same_floats(&ours, &rust);
        asked.process.also(input, "the destination", same)?;
        saw(&mut asked.process, &call);
        asked.subnormal += rust.iter().filter(|y| y.is_subnormal()).count();
        self.look(&mut asked.process, input, data)
    }

    pub fn seed<T: Kind + Lent>(
        &mut self,
        asked: &mut Asked,
        data: &[T],
        map: &[u8],
    ) -> Result<(), Difference> {
        let call = self.call(data, map, 0);
        let number = T::seed(&call, &mut self.kept);
        self.rust.seed(self.frames(data), &filters::map(map));
        let input = || format!("seed: {}", shown(&call));
        asked.seed.answer(input, number, 0)?;
        saw(&mut asked.seed, &call);
        self.look(&mut asked.seed, input, data)
    }

    fn call<'a, T>(&self, data: &'a [T], map: &'a [u8], start: usize) -> Call<'a, T> {
        Call {
            channels: self.channels,
            rate: self.rate,
            on: self.on,
            a: self.a,
            b: self.b,
            data,
            map,
            start,
        }
    }

    fn frames<'a, T>(&self, data: &'a [T]) -> Interleaved<'a, T> {
        Interleaved::new(data, self.channels).expect("whole frames")
    }

    /// All that passes on to the next call, the places past the channels included.
    fn look<T: Kind>(
        &mut self,
        op: &mut Operation,
        input: impl Fn() -> String,
        data: &[T],
    ) -> Result<(), Difference> {
        if self.on & TRUE_PEAK != 0 && filter::factor(self.rate).is_some() {
            self.remember(data);
        }
        let mut rust = Kept::new(self.channels, UNTOUCHED as f32);
        rust.state[..5 * self.channels].copy_from_slice(&filters::state(&self.rust));
        rust.peaks[..self.channels].copy_from_slice(self.rust.sample_peak());
        for (peak, &rust) in rust.true_peaks.iter_mut().zip(self.rust.true_peak()) {
            *peak = rust as f32;
        }
        rust.memory = self.memory;
        let parted = parted(&self.kept, &rust);
        op.also(input, parted.unwrap_or_default(), parted.is_none())
    }

    /// Each channel's last samples, newest first, and before them those of earlier calls.
    fn remember<T: Kind>(&mut self, data: &[T]) {
        for (c, memory) in self.memory.chunks_mut(PAST).take(self.channels).enumerate() {
            let newest = data
                .chunks(self.channels)
                .rev()
                .map(|frame| frame[c].narrow());
            let samples: Vec<f32> = newest.chain(memory.iter().copied()).take(PAST).collect();
            memory.copy_from_slice(&samples);
        }
    }
}
