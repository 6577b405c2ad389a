//! One measurement on all sides: ours, the Rust's `EbuR128` to the bit, and libebur128, where it is
//! installed, within its tolerance.

use driver::libebur128::{self, Frames, MODE_HISTOGRAM, MODE_I, MODE_LRA, MODE_TRUE_PEAK};
use driver::signals::Scaled;
use driver::words::filter::{LOUDNESS, SAMPLE_PEAK, TRUE_PEAK};
use ebur128::{EbuR128, Mode};

use super::meter::{Meter, Range, Setting};
use crate::check::same_float;
use crate::check::tally::{Difference, Operation};
use crate::ours::filter::Lent;

/// A kind of sample that all sides take.
pub trait Fed: Scaled + Lent + Frames {
    fn add_to(rust: &mut EbuR128, data: &[Self]);
    fn seed_to(rust: &mut EbuR128, data: &[Self]);
}

impl Fed for i16 {
    fn add_to(rust: &mut EbuR128, data: &[i16]) {
        rust.add_frames_i16(data).expect("whole frames");
    }

    fn seed_to(rust: &mut EbuR128, data: &[i16]) {
        rust.seed_frames_i16(data).expect("whole frames");
    }
}

impl Fed for f32 {
    fn add_to(rust: &mut EbuR128, data: &[f32]) {
        rust.add_frames_f32(data).expect("whole frames");
    }

    fn seed_to(rust: &mut EbuR128, data: &[f32]) {
        rust.seed_frames_f32(data).expect("whole frames");
    }
}

/// What integrated loudness and range can come to.
const INTEGRATED: [&str; 3] = [
    "integrated: a loudness",
    "integrated: none",
    "integrated: NaN",
];
const RANGES: [&str; 4] = [
    "range: Found",
    "range: Nothing",
    "range: NotANumber",
    "range of two: MODE, one of each kind",
];

/// How far off a reading may be: the tolerances of Tech 3341 for loudness and true peak, and of Tech 3342
/// for the range, in LU and dB. libebur128 says that it implements R 128 and gives no bound of its own; of
/// true peaks its header says not to compare them from version to version. So it is held to the tolerance
/// of the papers, and the table says how near it came.
#[derive(Clone, Copy)]
pub enum Tolerance {
    Loudness,
    Range,
    TruePeak,
    /// None: to the bit.
    Same,
}

pub const TOLERANCE: &str = "0.1 LU, 1 LU of range, +0.2/-0.4 dB of true peak";

impl Tolerance {
    /// Whether a reading that is off by so much, below 0 or above, is near enough.
    pub fn admits(self, off: f64) -> bool {
        let (below, above) = match self {
            Tolerance::Loudness => (0.1, 0.1),
            Tolerance::Range => (1.0, 1.0),
            Tolerance::TruePeak => (0.4, 0.2),
            Tolerance::Same => (0.0, 0.0),
        };
        -below <= off && off <= above
    }
}

pub fn decibels(peak: f64) -> f64 {
    20.0 * peak.log10()
}

/// Two readings below this are as good as the same: on some processors libebur128 has the processor take
/// the smallest numbers for 0.
const UNHEARD: f64 = -120.0;

/// How near libebur128 came. A sample peak has to be the same to the bit.
const NEAR: [(f64, &str); 4] = [
    (0.0, "to the bit"),
    (1e-9, "within 1e-9"),
    (1e-5, "within 0.00001"),
    (f64::INFINITY, "within the tolerance"),
];

/// The comparison with the Rust, and with libebur128 where it is installed.
pub struct Asked {
    pub rust: Operation,
    pub c: Operation,
}

impl Asked {
    /// With all cases that a programme can be.
    pub fn new(cases: &[&'static str]) -> Self {
        let rust = Operation::new("audio, whole measurements").can(cases);
        Asked {
            rust: rust.can(&INTEGRATED).can(&RANGES),
            c: Operation::new("audio, whole measurements in C"),
        }
    }

    pub fn same(self) -> Result<(), Difference> {
        self.rust.same("the Rust's EbuR128, to the bit", &[])?;
        if libebur128::version().is_none() {
            return Ok(());
        }
        self.c.same(&format!("libebur128: {TOLERANCE}"), &[])
    }
}

pub struct Sides {
    pub setting: Setting,
    pub ours: Meter,
    rust: EbuR128,
    c: Option<libebur128::Meter>,
}

impl Sides {
    /// `in_c`: whether libebur128 is asked too. It drops a NaN energy, which the Rust keeps, and it has
    /// no `seed`.
    pub fn new(setting: Setting, in_c: bool) -> Self {
        let channels = setting.map.len();
        let is_on = |switch| setting.on & switch != 0;
        let modes = [
            (setting.gated, Mode::I),
            (setting.ranged, Mode::LRA),
            (is_on(SAMPLE_PEAK), Mode::SAMPLE_PEAK),
            (is_on(TRUE_PEAK), Mode::TRUE_PEAK),
            (setting.histogram, Mode::HISTOGRAM),
        ];
        let modes = modes.into_iter().filter(|(on, _)| *on);
        let mode: Mode = modes.map(|(_, mode)| mode).collect();
        let mut rust = EbuR128::new(channels as u32, setting.rate, mode).expect("a measurement");
        rust.set_channel_map(&setting.map).expect("a map");
        // always all of its modes
        let c_mode = MODE_I | MODE_LRA | MODE_TRUE_PEAK;
        let c_mode = c_mode | if setting.histogram { MODE_HISTOGRAM } else { 0 };
        let mut c = match in_c {
            true => libebur128::Meter::new(channels, setting.rate, c_mode),
            false => None,
        };
        if let Some(c) = &mut c {
            for (number, channel) in setting.map.iter().enumerate() {
                c.set_channel(number, *channel);
            }
        }
        Sides {
            ours: Meter::new(&setting),
            setting,
            rust,
            c,
        }
    }

    pub fn channels(&self) -> usize {
        self.setting.map.len()
    }

    pub fn seed<T: Fed>(&mut self, data: &[T]) {
        self.ours.seed(data);
        T::seed_to(&mut self.rust, data);
    }

    /// More frames; the peaks of this call alone are compared.
    pub fn add<T: Fed>(
        &mut self,
        asked: &mut Asked,
        data: &[T],
        input: impl Fn() -> String,
    ) -> Result<(), Difference> {
        self.ours.add(data);
        T::add_to(&mut self.rust, data);
        if let Some(c) = &mut self.c {
            T::add(c, data);
        }
        for channel in 0..self.channels() {
            let (peak, true_peak) = self.ours.last_peaks(channel);
            // a peak that is off is refused
            let rust = self.rust.prev_sample_peak(channel as u32).unwrap_or(0.0);
            let rust_true = self.rust.prev_true_peak(channel as u32);
            let same = same_float(peak, rust)
                && rust_true.map_or(true, |rust| same_float(peak.max(true_peak), rust));
            asked.rust.also(&input, "the peaks of a call", same)?;
        }
        Ok(())
    }

    fn is_on(&self, switch: u8) -> bool {
        self.setting.on & switch != 0
    }

    /// The last 400 ms and the last 3 s.
    pub fn windows(&self, asked: &mut Asked, input: impl Fn() -> String) -> Result<(), Difference> {
        let c = self.c.as_ref();
        if self.is_on(LOUDNESS) {
            let momentary = Reading {
                name: "momentary",
                ours: self.ours.momentary(),
                rust: self.rust.loudness_momentary().expect("mode M"),
                c: c.map(|c| c.momentary()),
                tolerance: Tolerance::Loudness,
            };
            momentary.compare(asked, &input)?;
        }
        if self.setting.ranged {
            let shortterm = Reading {
                name: "short-term",
                ours: self.ours.shortterm(),
                rust: self.rust.loudness_shortterm().expect("mode S"),
                c: c.map(|c| c.shortterm()),
                tolerance: Tolerance::Loudness,
            };
            shortterm.compare(asked, &input)?;
        }
        Ok(())
    }

    /// All that a measurement ends in.
    pub fn end(&self, asked: &mut Asked, input: impl Fn() -> String) -> Result<(), Difference> {
        self.windows(asked, &input)?;
        self.peaks(asked, &input)?;
        if self.setting.gated {
            self.gate(asked, &input)?;
        }
        if self.setting.ranged {
            self.range(asked, &input)?;
        }
        Ok(())
    }

    fn peaks(&self, asked: &mut Asked, input: impl Fn() -> String) -> Result<(), Difference> {
        let c = self.c.as_ref();
        for channel in 0..self.channels() {
            let (peak, true_peak) = (self.ours.peaks[channel], self.ours.true_peaks[channel]);
            let sample_peak = Reading {
                name: "sample peak",
                ours: peak,
                rust: self.rust.sample_peak(channel as u32).expect("its mode"),
                c: c.map(|c| c.sample_peak(channel)),
                tolerance: Tolerance::Same,
            };
            sample_peak.compare(asked, &input)?;
            if self.is_on(TRUE_PEAK) {
                let true_peak = Reading {
                    name: "true peak",
                    ours: peak.max(true_peak),
                    rust: self.rust.true_peak(channel as u32).expect("its mode"),
                    c: c.map(|c| c.true_peak(channel)),
                    tolerance: Tolerance::TruePeak,
                };
                true_peak.compare(asked, &input)?;
            }
        }
        Ok(())
    }

    /// The blocks: how many count and their sum, the relative threshold, and the integrated loudness.
    fn gate(&self, asked: &mut Asked, input: impl Fn() -> String) -> Result<(), Difference> {
        let same = match (self.ours.gate(), self.rust.gating_block_count_and_energy()) {
            (Some((blocks, sum)), Some((rust_blocks, rust_sum))) => {
                blocks == rust_blocks && same_float(sum, rust_sum)
            }
            (ours, rust) => ours.is_none() && rust.is_none(),
        };
        asked.rust.also(&input, "the gate", same)?;
        let c = self.c.as_ref();
        let threshold = Reading {
            name: "relative threshold",
            ours: self.ours.threshold(),
            rust: self.rust.relative_threshold().expect("mode I"),
            c: c.map(|c| c.threshold()),
            tolerance: Tolerance::Loudness,
        };
        threshold.compare(asked, &input)?;
        let integrated = Reading {
            name: "integrated",
            ours: Meter::integrated(&[&self.ours]),
            rust: self.rust.loudness_global().expect("mode I"),
            c: c.map(|c| c.global()),
            tolerance: Tolerance::Loudness,
        };
        integrated.compare(asked, &input)?;
        let which = match integrated.ours {
            ours if ours.is_nan() => 2,
            f64::NEG_INFINITY => 1,
            _ => 0,
        };
        asked.rust.saw(INTEGRATED[which]);
        Ok(())
    }

    fn range(&self, asked: &mut Asked, input: impl Fn() -> String) -> Result<(), Difference> {
        let ours = Meter::range(&[&self.ours]);
        let range = Reading {
            name: "range",
            ours: ours.told().expect("one history"),
            rust: self.rust.loudness_range().expect("mode LRA"),
            c: self.c.as_ref().map(|c| c.range()),
            tolerance: Tolerance::Range,
        };
        range.compare(asked, &input)?;
        asked.rust.saw(range_name(ours));
        Ok(())
    }

    /// Two measurements as one. libebur128 takes two of one mode.
    pub fn both(
        &self,
        other: &Sides,
        asked: &mut Asked,
        input: impl Fn() -> String,
    ) -> Result<(), Difference> {
        let (ours, rust) = ([&other.ours, &self.ours], [&other.rust, &self.rust]);
        let c = match (&other.c, &self.c) {
            (Some(a), Some(b)) if self.setting.histogram == other.setting.histogram => Some([a, b]),
            _ => None,
        };
        if self.setting.gated && other.setting.gated {
            let integrated = Reading {
                name: "integrated of two",
                ours: Meter::integrated(&ours),
                rust: EbuR128::loudness_global_multiple(rust.into_iter()).expect("mode I"),
                c: c.map(|c| libebur128::Meter::global_of(&c)),
                tolerance: Tolerance::Loudness,
            };
            integrated.compare(asked, &input)?;
        }
        if self.setting.ranged && other.setting.ranged {
            let range = Meter::range(&ours);
            asked.rust.saw(range_name(range));
            match (range.told(), EbuR128::loudness_range_multiple(rust)) {
                (Some(ours), Ok(rust)) => {
                    let range = Reading {
                        name: "range of two",
                        ours,
                        rust,
                        c: c.map(|c| libebur128::Meter::range_of(&c)),
                        tolerance: Tolerance::Range,
                    };
                    range.compare(asked, &input)?;
                }
                (ours, rust) => {
                    let mixed = (ours.is_none(), rust.is_err());
                    asked.rust.case(&input, mixed, (true, true))?;
                }
            }
        }
        Ok(())
    }
}

fn range_name(range: Range) -> &'static str {
    RANGES[match range {
        Range::Found(_) => 0,
        Range::Nothing => 1,
        Range::NotANumber => 2,
        Range::Mixed => 3,
    }]
}

/// One reading on all sides.
struct Reading {
    name: &'static str,
    ours: f64,
    rust: f64,
    c: Option<f64>,
    tolerance: Tolerance,
}

impl Reading {
    /// The Rust's to the bit, and libebur128's within the tolerance where that was asked.
    fn compare(&self, asked: &mut Asked, input: impl Fn() -> String) -> Result<(), Difference> {
        let (name, ours, rust) = (self.name, self.ours, self.rust);
        let shown = || format!("{}: {name} {ours:e}, not {rust:e}", input());
        asked.rust.case(shown, same_float(ours, rust), true)?;
        let Some(c) = self.c else {
            return Ok(());
        };
        let off = self.off(c);
        let shown = || format!("{}: {name} {ours:e}, libebur128's {c:e}", input());
        asked.c.case(shown, self.tolerance.admits(off), true)?;
        let near = NEAR.iter().find(|(limit, _)| off.abs() <= *limit);
        asked.c.saw(near.expect("infinity is the last").1);
        Ok(())
    }

    /// How far ours is from libebur128's, in LU or dB. No loudness is minus infinity on both.
    fn off(&self, c: f64) -> f64 {
        let (ours, c) = match self.tolerance {
            Tolerance::TruePeak => (decibels(self.ours), decibels(c)),
            _ => (self.ours, c),
        };
        let unheard = ours.max(c) < UNHEARD;
        if ours == c || unheard {
            0.0
        } else {
            ours - c
        }
    }
}
