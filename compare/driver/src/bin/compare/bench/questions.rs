//! The questions over sets of histories. The Rust's gated energy and threshold end in a logarithm,
//! ours are energies: one logarithm a question is on its side only, and so it is on libebur128's, whose
//! histories are filled by samples.

use std::hint::black_box;

use driver::energies;
use driver::libebur128::{Frames, Meter, MODE_HISTOGRAM, MODE_I, MODE_LRA};
use driver::rng::Rng;
use driver::sets::Set;
use ebur128::history::History;

use super::{asked, row, row_in_c};
use crate::ours;

const LONGEST: usize = 36_000;

/// Samples a second of what fills libebur128's histories: so few that an hour is filled at once. At 120 Hz
/// both of its filters are stable.
const RATE: u32 = 120;

/// A measurement of libebur128's, where it is installed, of a second at each of these energies.
fn filled(mode: std::ffi::c_int, energies: impl Iterator<Item = f64>) -> Option<Meter> {
    let mut meter = Meter::new(1, RATE, mode)?;
    for energy in energies {
        let level = energy.sqrt() as f32;
        let second: [f32; RATE as usize] =
            std::array::from_fn(|k| if k % 4 < 2 { level } else { -level });
        f32::add(&mut meter, &second);
    }
    Some(meter)
}

pub fn run(rng: &mut Rng) {
    let mut histogram = Set::default();
    histogram.push_histogram(&counters(rng));
    let spread = energies_of(3_600, rng);
    let mode = MODE_I | MODE_LRA | MODE_HISTOGRAM;
    let in_c: Vec<Meter> = filled(mode, spread.iter().copied()).into_iter().collect();
    gate("a histogram", 100, &histogram, in_c.first());
    let mut queue = Set::default();
    let held = energies_of(LONGEST, rng);
    queue.push_held(LONGEST, LONGEST / 3, &held);
    // ten blocks a second
    let queue_in_c = filled(MODE_I, spread.iter().copied());
    gate("a queue of 36,000", 10, &queue, queue_in_c.as_ref());
    range("a histogram", 100, &histogram, &in_c);
    let mut histograms = Set::default();
    (0..16).for_each(|_| histograms.push_histogram(&counters(rng)));
    let in_c: Vec<Meter> = (0..16)
        .filter_map(|_| filled(mode, spread.iter().copied()))
        .collect();
    range("16 histograms", 20, &histograms, &in_c);
    for (number, name) in [
        (3_600, "3,600"),
        (LONGEST, "36,000"),
        (16 * LONGEST, "576,000"),
    ] {
        queues(number, name, rng);
    }
    let mut programme = Set::default();
    programme.push_histogram(&programmes_counters(0, rng));
    gate("a programme's histogram", 100, &programme, None);
    range("a programme's histogram", 100, &programme, &[]);
    // its gate is below -36 LUFS
    let mut quiet = Set::default();
    quiet.push_histogram(&programmes_counters(190, rng));
    gate("a quiet programme's histogram", 100, &quiet, None);
}

/// The range of queues that hold so many energies in all, in four orders.
fn queues(number: usize, name: &str, rng: &mut Rng) {
    let random = energies_of(number, rng);
    let mut rising = random.clone();
    rising.sort_by(f64::total_cmp);
    let falling: Vec<f64> = rising.iter().rev().copied().collect();
    let equal = vec![random[0]; number];
    for (order, energies) in [
        ("random", random),
        ("rising", rising),
        ("falling", falling),
        ("equal", equal),
    ] {
        let mut set = Set::default();
        let mut in_c = Vec::new();
        for held in energies.chunks(LONGEST) {
            set.push_held(held.len(), 0, held);
            in_c.extend(filled(MODE_LRA, held.iter().copied()));
        }
        range(&format!("{name} in queues, {order}"), 1, &set, &in_c);
    }
}

/// So many energies from -70 to +30 LUFS.
fn energies_of(number: usize, rng: &mut Rng) -> Vec<f64> {
    (0..number).map(|_| energies::log_uniform(rng)).collect()
}

/// Some blocks in every bin.
fn counters(rng: &mut Rng) -> Vec<u32> {
    (0..1000).map(|_| rng.below(1 << 16) as u32).collect()
}

/// The blocks of an hour, in a bell around -23 LUFS or so many tenths below: each bin is the mean of six from 30 LU below it
/// to 30 above.
fn programmes_counters(below: u64, rng: &mut Rng) -> Vec<u32> {
    let mut counters = vec![0; 1000];
    for _ in 0..LONGEST {
        let six: u64 = (0..6).map(|_| 170 + rng.below(600)).sum();
        counters[(six / 6).saturating_sub(below) as usize] += 1;
    }
    counters
}

/// libebur128 tells no count and no sum.
fn gate(of: &str, times: usize, set: &Set, in_c: Option<&Meter>) {
    let rust = set.rust();
    let rust: Vec<&History> = rust.iter().collect();
    let (mut blocks, mut sum) = (0, 0.0);
    row(
        &format!("gate of {of}, a question"),
        times,
        || {
            for _ in 0..times {
                black_box(ours::gate(black_box(set), &mut blocks, &mut sum));
            }
        },
        || {
            for _ in 0..times {
                let _ = black_box(History::gating_block_count_and_energy_multiple(black_box(
                    &rust,
                )));
            }
        },
    );
    row_in_c(
        &format!("gated energy of {of}, a question"),
        times,
        || {
            for _ in 0..times {
                black_box(ours::gated_energy(black_box(set), &mut sum));
            }
        },
        || {
            for _ in 0..times {
                black_box(History::gated_loudness_multiple(black_box(&rust)));
            }
        },
        in_c.map(|in_c| || asked(times, || in_c.global())),
    );
    row_in_c(
        &format!("relative threshold of {of}, a question"),
        times,
        || {
            for _ in 0..times {
                black_box(ours::relative_threshold(black_box(set), &mut sum));
            }
        },
        || {
            for _ in 0..times {
                black_box(black_box(&rust)[0].relative_threshold());
            }
        },
        in_c.map(|in_c| || asked(times, || in_c.threshold())),
    );
}

/// The Rust and libebur128 allocate what they work in, ours is lent it.
fn range(of: &str, times: usize, set: &Set, in_c: &[Meter]) {
    let in_c: Vec<&Meter> = in_c.iter().collect();
    let rust = set.rust();
    let rust: Vec<&History> = rust.iter().collect();
    let mut work = vec![0.0; set.energies.len()];
    let (mut low, mut high) = (0.0, 0.0);
    row_in_c(
        &format!("range of {of}, a question"),
        times,
        || {
            for _ in 0..times {
                let set = black_box(set);
                black_box(ours::loudness_range(set, &mut work, &mut low, &mut high));
            }
        },
        || {
            for _ in 0..times {
                let _ = black_box(History::loudness_range_multiple(black_box(&rust)));
            }
        },
        (!in_c.is_empty()).then_some(|| asked(times, || Meter::range_of(&in_c))),
    );
}
