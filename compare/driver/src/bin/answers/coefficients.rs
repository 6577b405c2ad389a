//! The interpolator's 48 coefficients of each factor. `InterpF` keeps them private; they are read in
//! two ways that have to agree.
//!
//! By behaviour: of the frames 1, 0, 0, .. frame i gives at phase j coefficient i * factor + j, since
//! 1 * c is c and a zero adds nothing. That loses the sign of a zero coefficient: 0.0 + -0.0 is 0.0.
//! By the `Debug` form, which shows the field `filter`; a float's `Debug` form reads back as the same
//! float, the sign of zero included. So that form decides, and behaviour confirms it but for that sign.

use std::fmt::Write;

use driver::shown;
use ebur128::interp::InterpF;

/// A line `factor index pattern value` for each coefficient.
pub fn text() -> String {
    let mut text = String::new();
    write_factor::<12, 4>(&mut text);
    write_factor::<24, 2>(&mut text);
    text
}

fn write_factor<const TAPS: usize, const FACTOR: usize>(text: &mut String) {
    let fresh = InterpF::<TAPS, FACTOR, [f32; 1]>::new();
    let shown: Vec<f32> = shown::list(&format!("{fresh:?}"), "filter");
    let heard = by_impulse(fresh);
    // Floats compare as numbers here: zeros of either sign are equal.
    assert_eq!(shown, heard, "factor {FACTOR}: field and behaviour differ");
    assert_eq!(shown.len(), TAPS * FACTOR);
    for (index, coefficient) in shown.iter().enumerate() {
        let pattern = coefficient.to_bits();
        writeln!(text, "{FACTOR} {index} {pattern:08x} {coefficient:?}")
            .expect("a String takes all");
    }
}

fn by_impulse<const TAPS: usize, const FACTOR: usize>(
    mut interp: InterpF<TAPS, FACTOR, [f32; 1]>,
) -> Vec<f32> {
    (0..TAPS)
        .flat_map(|i| interp.interpolate([if i == 0 { 1.0 } else { 0.0 }]))
        .map(|[phase]| phase)
        .collect()
}
