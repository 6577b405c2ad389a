//! Records, read and written: beside document 01's own reader and writer in Rust, and beside a copy of
//! as many bytes. Those of the third model are beside them.

mod plain;
mod third;

use std::hint::black_box;

use driver::energies;
use driver::rng::Rng;
use driver::words::records::{self, HISTOGRAM_RECORD};
use driver::words::Queue;

use super::row;
use crate::ours::records as ours;

/// Calls a round.
const TIMES: usize = 200;

const LONGEST: usize = 36_000;

pub fn run(rng: &mut Rng) {
    histograms(rng);
    queues(rng);
    third::run(rng);
}

/// The longest queue, full.
fn longest(rng: &mut Rng) -> Queue {
    Queue {
        maximum: LONGEST,
        head: 777,
        held: LONGEST,
        store: (0..LONGEST).map(|_| energies::in_table(rng)).collect(),
    }
}

fn histograms(rng: &mut Rng) {
    let mut counters: [u32; 1000] = std::array::from_fn(|_| rng.bits() as u32);
    let mut other = counters;
    let mut record = [0; HISTOGRAM_RECORD];
    let mut copy = [0; HISTOGRAM_RECORD];
    let mut written = 0;
    let mut write = || {
        for _ in 0..TIMES {
            black_box(ours::histogram_write(
                1,
                black_box(&counters),
                &mut record,
                &mut written,
            ));
        }
    };
    row(
        "record of a histogram, written; a record",
        TIMES,
        &mut write,
        || {
            for _ in 0..TIMES {
                let _ = black_box(records::write_histogram(1, black_box(&other), &mut copy));
            }
        },
    );
    let from = record;
    row(
        "record of a histogram, written, beside a copy",
        TIMES,
        || {
            for _ in 0..TIMES {
                black_box(ours::histogram_write(
                    1,
                    black_box(&counters),
                    &mut record,
                    &mut written,
                ));
            }
        },
        || {
            for _ in 0..TIMES {
                copy.copy_from_slice(black_box(&from));
                black_box(&mut copy);
            }
        },
    );
    let mut read = || {
        for _ in 0..TIMES {
            black_box(ours::histogram_read(1, black_box(&from), &mut counters));
        }
    };
    row("record of a histogram, read", TIMES, &mut read, || {
        for _ in 0..TIMES {
            let _ = black_box(records::read_histogram(1, black_box(&from), &mut other));
        }
    });
    row(
        "record of a histogram, read, beside a copy",
        TIMES,
        &mut read,
        || {
            for _ in 0..TIMES {
                copy.copy_from_slice(black_box(&from));
                black_box(&mut copy);
            }
        },
    );
}

fn queues(rng: &mut Rng) {
    let mut queue = longest(rng);
    let mut store = queue.store.clone();
    let length = 14 + 8 * LONGEST;
    let (mut record, mut copy, mut written) = (vec![0; length], vec![0; length], 0);
    row(
        "record of a queue of 36,000, written, an energy",
        LONGEST,
        || {
            assert!(ours::queue_write(2, black_box(&queue), &mut record, &mut written) == 0);
        },
        || {
            let _ = black_box(records::write_queue(2, black_box(&queue), &mut copy));
        },
    );
    row(
        "record of a queue of 36,000, read, an energy",
        LONGEST,
        || {
            assert!(ours::queue_read(2, black_box(&record), &mut queue) == 0);
        },
        || {
            let _ = black_box(records::read_queue(2, black_box(&copy), &mut store));
        },
    );
}
