//! Document 01's worked cases of steps 4 to 6.

use driver::words::filter::{Call, Kept, LOUDNESS, TRUE_PEAK};

use crate::check::{Difference, Operation};
use crate::ours::filter::Lent;

pub fn run() -> Result<(), Difference> {
    let mut op = Operation::new("filter worked cases");
    halves(&mut op)?;
    tail(&mut op)?;
    true_peaks(&mut op)?;
    op.same("document 01, as it writes them", &[])
}

/// 2 to the power -n, subnormal or not.
fn half_to_the(n: i32) -> f64 {
    (0..n).fold(1.0, |power, _| power / 2.0)
}

/// One channel, with a = 1, -0.5, 0, 0, 0 and b = 1, 0, 0, 0, 0.
fn call(rate: u32, on: u8, data: &[i16]) -> Call<'_, i16> {
    Call {
        channels: 1,
        rate,
        on,
        a: [1.0, -0.5, 0.0, 0.0, 0.0],
        b: [1.0, 0.0, 0.0, 0.0, 0.0],
        data,
        map: &[1],
        start: 0,
    }
}

/// A sample and then so many zeros.
fn then_zeros(sample: i16, zeros: usize) -> Vec<i16> {
    let mut data = vec![0; 1 + zeros];
    data[0] = sample;
    data
}

/// The outputs.
fn weighed(kept: &mut Kept, data: &[i16]) -> Vec<f64> {
    let mut dest = vec![0.0; data.len()];
    i16::process(&call(44_100, LOUDNESS, data), kept, &mut dest);
    dest
}

/// "i16 samples 16384, 0, 0 give 0.5, 0.25, 0.125."
fn halves(op: &mut Operation) -> Result<(), Difference> {
    let outputs = weighed(&mut Kept::new(1, 0.0), &then_zeros(16384, 2));
    op.case(|| "16384, 0, 0".into(), outputs, vec![0.5, 0.25, 0.125])
}

/// "16384 then 1,022 zeros in one call: last output 2^-1023; s0 and s1 become 0, s2 is 2^-1022. A further
/// 0 in that call would give 2^-1024; in a new call it gives 0."
fn tail(op: &mut Operation) -> Result<(), Difference> {
    let mut kept = Kept::new(1, 0.0);
    let input = || "16384 and 1,022 zeros".to_string();
    let outputs = weighed(&mut kept, &then_zeros(16384, 1022));
    op.case(input, outputs[1022], half_to_the(1023))?;
    let state = [0.0, 0.0, half_to_the(1022)];
    op.case(input, kept.state[..3].to_vec(), state.to_vec())?;
    let next = weighed(&mut kept, &[0]);
    op.case(|| "a 0 in a new call".into(), next, vec![0.0])?;
    let outputs = weighed(&mut Kept::new(1, 0.0), &then_zeros(16384, 1023));
    op.case(|| "1,023 zeros".into(), outputs[1023], half_to_the(1024))
}

/// "Mono, 44,100, -32768 then eleven zeros: true peak 1.0. At 96,000 the peak reaches 1.0 with twelve
/// zeros. At 192,000: none." So with eleven it has not been reached.
fn true_peaks(op: &mut Operation) -> Result<(), Difference> {
    let peak = |rate, zeros| {
        let mut kept = Kept::new(1, 0.0);
        let data = then_zeros(i16::MIN, zeros);
        i16::process(&call(rate, TRUE_PEAK, &data), &mut kept, &mut []);
        kept.true_peaks[0]
    };
    op.case(|| "44,100".into(), peak(44_100, 11), 1.0)?;
    op.case(|| "96,000".into(), peak(96_000, 12), 1.0)?;
    op.case(
        || "96,000, one zero fewer".into(),
        peak(96_000, 11) < 1.0,
        true,
    )?;
    op.case(|| "192,000".into(), peak(192_000, 12), 0.0)
}
