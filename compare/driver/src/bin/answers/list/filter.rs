//! The cases of the filter. NaN stands in one pattern only, since a proved program keeps no payload. The
//! answers are document 01's words; where the Rust can be brought to a case, it has to answer the same.

use driver::filters;
use driver::rng::{pick, Rng};
use driver::sounds::{self, Kind};
use driver::words::filter::{self, Call, Kept, LOUDNESS, PAST, TRUE_PEAK};
use ebur128::Interleaved;

use super::SEED;

const PHASES: usize = 256;
const CALLS: usize = 128;
const IMPULSES: usize = 32;

/// The samples of the longest impulse.
const LONGEST: usize = 1024;

const CHANNELS: usize = 3;
const SAMPLES: usize = 12;
const PLACES: usize = 16;
const MAP: usize = 4;

/// What stands in every place of a destination, and in all places past three channels, before a call.
const MARK: f32 = 0.5;

fn put_wide(case: &mut Vec<u8>, values: &[f64]) {
    let plain = |x: f64| if x.is_nan() { f64::NAN } else { x };
    case.extend(
        values
            .iter()
            .flat_map(|&x| plain(x).to_bits().to_le_bytes()),
    );
}

fn put_narrow(case: &mut Vec<u8>, values: &[f32]) {
    let plain = |x: f32| if x.is_nan() { f32::NAN } else { x };
    case.extend(
        values
            .iter()
            .flat_map(|&x| plain(x).to_bits().to_le_bytes()),
    );
}

fn put_short(case: &mut Vec<u8>, numbers: &[usize]) {
    case.extend(numbers.iter().flat_map(|&n| (n as u16).to_le_bytes()));
}

/// `phases`: u16 factor; u32 patterns of 24 samples, newest first; u32 patterns of 4 phases. Factor 4
/// looks at 12 samples, factor 2 has 2 phases: the others are 0.
pub fn phases() -> Vec<Vec<u8>> {
    let mut rng = Rng::new(SEED);
    (0..PHASES)
        .map(|i| phase(if i % 2 == 0 { 4 } else { 2 }, &mut rng))
        .collect()
}

fn phase(factor: usize, rng: &mut Rng) -> Vec<u8> {
    let mut samples: Vec<f32> = sounds::of(pick(&sounds::ALL, rng), 48 / factor, rng);
    let mut phases: Vec<f32> = filter::phases(factor, &samples).collect();
    samples.resize(24, 0.0);
    phases.resize(4, 0.0);
    let mut case = Vec::new();
    put_short(&mut case, &[factor]);
    put_narrow(&mut case, &samples);
    put_narrow(&mut case, &phases);
    case
}

/// `filter calls`: one call. u16 operation (0 process, 1 seed), u16 kind (0 i16, 1 f32), u16 channels, u16
/// switches, u32 rate, u16 numbers of samples, of map bytes and of places, u16 start; 12 times u32 sample
/// (an i16 in the low bytes); 4 map bytes; u64 patterns of a and b; what passes from call to call; then
/// the answers: u16 refusal (0: none), what passes on, and u64 patterns of the 16 places that the
/// destination is the first part of. What passes on is of three channels: u64 patterns of 15 states and 3
/// sample peaks, u32 patterns of 69 remembered samples and 3 true peaks.
pub fn calls() -> Vec<Vec<u8>> {
    let mut rng = Rng::new(SEED);
    (0..CALLS)
        .map(|i| match i % 2 {
            0 => call::<i16>(i, &mut rng),
            _ => call::<f32>(i, &mut rng),
        })
        .collect()
}

/// A sample in the list's four bytes.
trait Listed: Kind {
    const KIND: usize;
    fn pattern(self) -> u32;
}

impl Listed for i16 {
    const KIND: usize = 0;
    fn pattern(self) -> u32 {
        u32::from(self as u16)
    }
}

impl Listed for f32 {
    const KIND: usize = 1;
    fn pattern(self) -> u32 {
        if self.is_nan() { f32::NAN } else { self }.to_bits()
    }
}

fn call<T: Listed>(i: usize, rng: &mut Rng) -> Vec<u8> {
    let mut channels = 1 + rng.below(3) as usize;
    let seed = rng.below(4) == 0;
    let rate = pick(&[8_000, 44_100, 95_999, 96_000, 191_999, 192_000], rng);
    let on = match rng.below(2) {
        0 => 7,
        _ => rng.below(8) as u8,
    };
    let frames = rng.below(4) as usize;
    let start = rng.below(2) as usize;
    let mut data: Vec<T> = sounds::of(pick(&sounds::ALL, rng), channels * frames, rng);
    let mut map: Vec<u8> = (0..channels).map(|_| rng.below(2) as u8).collect();
    let mut places = channels * (start + frames).max(1);
    // Every other pair of cases starts from silence on the Rust's coefficients.
    let silent = i % 4 < 2;
    let (a, b) = filters::coefficients(&filters::new(rate, channels, on));
    let before = if silent {
        Kept::new(CHANNELS, MARK)
    } else {
        any_kept(rng)
    };
    // Every eighth case may break a rule.
    if i % 8 >= 6 {
        match rng.below(6) {
            0 => channels = pick(&[0, 9], rng),
            1 => data.push(T::sample(pick(&sounds::TAME, rng), rng)),
            2 => map.push(1),
            3 => map[0] = 2,
            4 => places -= 1,
            _ => places += 1,
        }
    }
    let call = Call {
        channels,
        rate,
        on,
        a,
        b,
        data: &data,
        map: &map,
        start,
    };
    let (mut after, mut dest) = (before.clone(), vec![f64::from(MARK); places]);
    let number = match seed {
        true => call.seed(&mut after),
        false => call.process(&mut after, &mut dest),
    };
    if silent && number == 0 {
        rust_agrees(&call, seed, &after, &dest);
    }
    listed(&call, seed, places, &before, number, &after, &dest)
}

/// A call and its answers, in the list's form.
fn listed<T: Listed>(
    call: &Call<T>,
    seed: bool,
    places: usize,
    before: &Kept,
    number: u8,
    after: &Kept,
    dest: &[f64],
) -> Vec<u8> {
    let mut case = Vec::new();
    let on = usize::from(call.on);
    put_short(&mut case, &[usize::from(seed), T::KIND, call.channels, on]);
    case.extend(call.rate.to_le_bytes());
    put_short(
        &mut case,
        &[call.data.len(), call.map.len(), places, call.start],
    );
    let mut patterns: Vec<u32> = call.data.iter().map(|sample| sample.pattern()).collect();
    patterns.resize(SAMPLES, 0);
    case.extend(patterns.iter().flat_map(|pattern| pattern.to_le_bytes()));
    let mut map = call.map.to_vec();
    map.resize(MAP, 0);
    case.extend(map);
    put_wide(&mut case, &[call.a, call.b].concat());
    put_kept(&mut case, before);
    put_short(&mut case, &[usize::from(number)]);
    put_kept(&mut case, after);
    let mut dest = dest.to_vec();
    dest.resize(PLACES, 0.0);
    put_wide(&mut case, &dest);
    case
}

fn put_kept(case: &mut Vec<u8>, kept: &Kept) {
    put_wide(case, &kept.state[..5 * CHANNELS]);
    put_wide(case, &kept.peaks[..CHANNELS]);
    put_narrow(case, &kept.memory[..PAST * CHANNELS]);
    put_narrow(case, &kept.true_peaks[..CHANNELS]);
}

/// Moderate values, with a subnormal one or a NaN now and then.
fn any_kept(rng: &mut Rng) -> Kept {
    let mut kept = Kept::new(CHANNELS, MARK);
    let wide = |rng: &mut Rng| match rng.below(16) {
        0 => f64::NAN,
        1 => f64::from_bits(rng.bits() >> 12),
        _ => 2.0 * rng.fraction() - 1.0,
    };
    kept.state[..5 * CHANNELS].fill_with(|| wide(rng));
    kept.peaks[..CHANNELS].fill_with(|| wide(rng));
    let sound = pick(&sounds::ALL, rng);
    kept.memory[..PAST * CHANNELS].fill_with(|| f32::sample(sound, rng));
    kept.true_peaks[..CHANNELS].fill_with(|| f32::sample(sound, rng));
    kept
}

/// From silence on the Rust's filter has to come to the same: states, both peaks and the destination.
fn rust_agrees<T: Kind>(call: &Call<T>, seed: bool, after: &Kept, dest: &[f64]) {
    let mut rust = filters::new(call.rate, call.channels, call.on);
    let frames = Interleaved::new(call.data, call.channels).expect("whole frames");
    let mut written = vec![f64::from(MARK); dest.len()];
    match seed {
        true => rust.seed(frames, &filters::map(call.map)),
        false => rust.process(frames, &mut written, call.start, &filters::map(call.map)),
    }
    let same = |a: f64, b: f64| a.to_bits() == b.to_bits() || a.is_nan() && b.is_nan();
    let all = |a: &[f64], b: &[f64]| a.iter().zip(b).all(|(&a, &b)| same(a, b));
    let narrow: Vec<f64> = after
        .true_peaks
        .iter()
        .map(|&peak| f64::from(peak))
        .collect();
    assert!(all(&filters::state(&rust), &after.state));
    assert!(all(rust.sample_peak(), &after.peaks));
    assert!(all(rust.true_peak(), &narrow));
    assert!(all(&written, dest));
}

/// `impulses`: calls in the same form, of one channel from silence: one i16 sample and then zeros, at
/// most 1,024 in all, of which the first 12 are listed. The destination has 1,024 places, and only the
/// last output is listed, in the first of the 16; it goes to the last place. Document 01's worked cases
/// first.
pub fn impulses() -> Vec<Vec<u8>> {
    let mut rng = Rng::new(SEED);
    let worked = [
        (44_100, LOUDNESS, 16384, 2),
        (44_100, LOUDNESS, 16384, 1022),
        (44_100, LOUDNESS, 16384, 1023),
        (44_100, TRUE_PEAK, i16::MIN, 11),
        (96_000, TRUE_PEAK, i16::MIN, 11),
        (96_000, TRUE_PEAK, i16::MIN, 12),
        (192_000, TRUE_PEAK, i16::MIN, 12),
    ];
    let mut cases: Vec<Vec<u8>> = worked.into_iter().map(impulse).collect();
    while cases.len() < IMPULSES {
        let rate = pick(&[8_000, 95_999, 191_999], &mut rng);
        let (sample, zeros) = (rng.bits() as i16, rng.below(1024) as usize);
        cases.push(impulse((rate, LOUDNESS + TRUE_PEAK, sample, zeros)));
    }
    cases
}

fn impulse((rate, on, sample, zeros): (u32, u8, i16, usize)) -> Vec<u8> {
    let mut data = vec![0; 1 + zeros];
    data[0] = sample;
    let before = Kept::new(1, MARK);
    let (mut after, mut dest) = (before.clone(), vec![f64::from(MARK); LONGEST]);
    let call = Call {
        channels: 1,
        rate,
        on,
        a: [1.0, -0.5, 0.0, 0.0, 0.0],
        b: [1.0, 0.0, 0.0, 0.0, 0.0],
        data: &data,
        map: &[1],
        start: LONGEST - data.len(),
    };
    assert_eq!(call.process(&mut after, &mut dest), 0);
    let last = &dest[LONGEST - 1..];
    listed(&call, false, LONGEST, &before, 0, &after, last)
}
