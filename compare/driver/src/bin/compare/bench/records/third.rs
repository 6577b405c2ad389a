//! The third model's records, read, written, and converted each way, beside plain Rust loops. After each
//! row both sides have to have done the same.

use std::hint::black_box;

use driver::rng::Rng;
use driver::words::records::{HISTOGRAM_RECORD, QUEUE_HEAD};
use driver::words::Queue;

use super::{longest, plain, TIMES};
use crate::bench::row;
use crate::ours::records as ours;

pub fn run(rng: &mut Rng) {
    histograms(rng);
    queues(rng);
}

fn histograms(rng: &mut Rng) {
    let counters: [u32; 1000] = std::array::from_fn(|_| rng.bits() as u32);
    let mut record = [0; HISTOGRAM_RECORD];
    let mut copy = [0; HISTOGRAM_RECORD];
    let mut written = 0;
    row(
        "third model's record of a histogram, written; a record",
        TIMES,
        || {
            for _ in 0..TIMES {
                let counters = black_box(&counters);
                black_box(ours::histogram_write(
                    257,
                    counters,
                    &mut record,
                    &mut written,
                ));
            }
        },
        || {
            for _ in 0..TIMES {
                black_box(plain::write_histogram(black_box(&counters), &mut copy));
            }
        },
    );
    assert_eq!(record, copy);
    let (mut read, mut other) = ([0; 1000], [0; 1000]);
    row(
        "third model's record of a histogram, read",
        TIMES,
        || {
            for _ in 0..TIMES {
                black_box(ours::histogram_read(257, black_box(&record), &mut read));
            }
        },
        || {
            for _ in 0..TIMES {
                black_box(plain::read_histogram(black_box(&copy), &mut other));
            }
        },
    );
    assert!(read == counters && other == counters);
    let third = record;
    convert_histogram("converted to ours", 257, &third, &mut record, &mut copy);
    let own = record;
    convert_histogram("converted from ours", 1, &own, &mut record, &mut copy);
    assert_eq!(record, third);
}

fn convert_histogram(how: &str, kind: u16, from: &[u8], record: &mut [u8], copy: &mut [u8]) {
    let mut written = 0;
    row(
        &format!("third model's record of a histogram, {how}"),
        TIMES,
        || {
            for _ in 0..TIMES {
                black_box(ours::convert(kind, black_box(from), record, &mut written));
            }
        },
        || {
            for _ in 0..TIMES {
                black_box(plain::convert_histogram(kind, black_box(from), copy));
            }
        },
    );
    assert_eq!(record, copy);
}

fn queues(rng: &mut Rng) {
    let queue = longest(rng);
    let length = QUEUE_HEAD + 8 * queue.held;
    let (mut record, mut copy, mut written) = (vec![0; length], vec![0; length], 0);
    row(
        "third model's record of a queue of 36,000, written, an energy",
        queue.held,
        || {
            assert!(ours::queue_write(258, black_box(&queue), &mut record, &mut written) == 0);
        },
        || {
            assert!(plain::write_queue(black_box(&queue), &mut copy));
        },
    );
    assert_eq!(record, copy);
    let mut read = Queue {
        store: vec![0.0; queue.maximum],
        ..queue
    };
    let mut other = read.store.clone();
    row(
        "third model's record of a queue of 36,000, read, an energy",
        queue.held,
        || {
            assert!(ours::queue_read(258, black_box(&record), &mut read) == 0);
        },
        || {
            assert!(plain::read_queue(black_box(&copy), &mut other));
        },
    );
    assert_eq!(read.store, other);
    let third = record.clone();
    convert_queue("converted to ours", 258, &third, &mut record, &mut copy);
    let own = record.clone();
    convert_queue("converted from ours", 2, &own, &mut record, &mut copy);
    assert_eq!(record, third);
}

fn convert_queue(how: &str, kind: u16, from: &[u8], record: &mut [u8], copy: &mut [u8]) {
    let mut written = 0;
    row(
        &format!("third model's record of a queue of 36,000, {how}, an energy"),
        (from.len() - QUEUE_HEAD) / 8,
        || {
            assert!(ours::convert(kind, black_box(from), record, &mut written) == 0);
        },
        || {
            assert!(plain::convert_queue(kind, black_box(from), copy));
        },
    );
    assert_eq!(record, copy);
}
