//! Brings each of the fifteen refusals about, those of records in the third model's kinds and in a conversion too, and prints
//! the number and the name that is answered: bindings/c/refusals.c over the safe wrapper.

use xelamphoun::*;

/// An energy that a history takes.
const ENERGY: f64 = 0.01;

/// A call of the filter with these numbers over what is otherwise in order.
fn filter(channels: usize, samples: usize, map: usize, dest: usize) -> Result<(), Refusal> {
    let loudness = Switches {
        loudness: true,
        sample_peak: false,
        true_peak: false,
    };
    let one = [1.0, 0.0, 0.0, 0.0, 0.0];
    let mut filter = Filter::new(channels, 48_000, loudness, Coefficients { a: one, b: one });
    filter.process_i16(
        &[0; 8][..samples],
        &[Channel::Used; 8][..map],
        &mut [0.0; 8][..dest],
        0,
    )
}

/// Asks a queue whose head is past its store.
fn head_past_queue<T>(ask: impl FnOnce(&mut Queue) -> Result<T, Refusal>) -> Result<(), Refusal> {
    let mut store = [0.0; 4];
    let mut queue = Queue::new(&mut store);
    queue.numbers.head = 4;
    ask(&mut queue).map(drop)
}

fn full_counter() -> Result<(), Refusal> {
    let mut full = Histogram::new();
    full.counters[find_histogram_index(ENERGY)] = u32::MAX;
    full.add(ENERGY)
}

const HISTOGRAM: Entry = Entry::histogram(0);
const QUEUE: Entry = Entry::queue(
    0,
    QueueNumbers {
        maximum: 1,
        head: 0,
        held: 1,
    },
);

/// Asks over entries; counters and energies are one histogram, with no block, and a queue of the energy given.
fn ask<T>(
    entries: &[Entry],
    energy: f64,
    question: impl FnOnce(Set) -> Result<T, Refusal>,
) -> Result<(), Refusal> {
    let set = Set {
        entries,
        counters: &Histogram::new().counters,
        energies: &[energy],
    };
    question(set).map(drop)
}

/// Reads a record as a queue of one place.
fn read_queue(bytes: &[u8]) -> Result<(), Refusal> {
    Queue::new(&mut [0.0]).read(bytes)
}

/// Converts a record to an output of so many places.
fn convert(kind: u16, bytes: &[u8], room: usize) -> Result<(), Refusal> {
    convert_record(kind, bytes, &mut [0; QUEUE_RECORD_HEAD][..room]).map(drop)
}

/// The records of a queue of no places, which is none, and of the shortest queue, with no energy: ours and the third model's.
const NO_PLACES: [u8; QUEUE_RECORD_HEAD] = [10, 0, 0, 0, 2, 0, 0, 0, 0, 0, 0, 0, 0, 0];
const THIRD_OF_NO_PLACES: [u8; QUEUE_RECORD_HEAD] = [10, 0, 0, 0, 2, 1, 0, 0, 0, 0, 0, 0, 0, 0];
const THIRD_OF_ONE_PLACE: [u8; QUEUE_RECORD_HEAD] = [10, 0, 0, 0, 2, 1, 0, 0, 0, 1, 0, 0, 0, 0];

/// The first bytes of our record of a histogram.
const OURS: [u8; 6] = [2, 0, 0, 0, 1, 0];

/// A refusal, what brings it about, and what was answered.
type Case = (Refusal, &'static str, Result<(), Refusal>);

fn calls_and_histories() -> [Case; 12] {
    let gate = |set: Set| set.gate();
    let range = |set: Set| set.loudness_range(&mut [0.0]);
    [
        (
            Refusal::Channels,
            "a call over no channels",
            filter(0, 0, 0, 8),
        ),
        (
            Refusal::Samples,
            "three samples of two channels",
            filter(2, 3, 2, 8),
        ),
        (
            Refusal::Map,
            "a map of one channel for two",
            filter(2, 4, 1, 8),
        ),
        (
            Refusal::Dest,
            "two places a channel for three frames",
            filter(2, 6, 2, 4),
        ),
        (
            Refusal::Store,
            "a queue whose head is past its store",
            head_past_queue(|queue| queue.add(ENERGY)),
        ),
        (
            Refusal::Store,
            "the third model's record of such a queue",
            head_past_queue(|queue| queue.write_third(&mut [0; QUEUE_RECORD_HEAD])),
        ),
        (
            Refusal::Full,
            "a block more in a full counter",
            full_counter(),
        ),
        (
            Refusal::Set,
            "a histogram that reaches past the counters",
            ask(&[Entry::histogram(1)], ENERGY, gate),
        ),
        (
            Refusal::Mode,
            "the range of a histogram and a queue",
            ask(&[HISTOGRAM, QUEUE], ENERGY, range),
        ),
        (
            Refusal::None,
            "the gate over no block",
            ask(&[HISTOGRAM], ENERGY, gate),
        ),
        (
            Refusal::Nan,
            "the gate over a NaN in a queue",
            ask(&[HISTOGRAM, QUEUE], f64::NAN, gate),
        ),
        (
            Refusal::Scale,
            "the reading of no energy",
            reading(0.0).map(drop),
        ),
    ]
}

fn records() -> [Case; 12] {
    let mut short = [0; HISTOGRAM_RECORD - 1];
    [
        (Refusal::Length, "a record of no bytes", read_queue(&[])),
        (
            Refusal::Length,
            "five bytes, converted",
            convert(258, &THIRD_OF_ONE_PLACE[..5], QUEUE_RECORD_HEAD),
        ),
        (
            Refusal::Kind,
            "a histogram's record read as a queue's",
            read_queue(&OURS),
        ),
        (
            Refusal::Kind,
            "the third model's record read as ours",
            read_queue(&THIRD_OF_ONE_PLACE),
        ),
        (
            Refusal::Kind,
            "our record read as the third model's",
            Histogram::new().read_third(&OURS),
        ),
        (
            Refusal::Kind,
            "a record converted as of no kind",
            convert(0, &THIRD_OF_ONE_PLACE, QUEUE_RECORD_HEAD),
        ),
        (
            Refusal::Content,
            "the record of a queue of no places",
            read_queue(&NO_PLACES),
        ),
        (
            Refusal::Content,
            "the third model's record of one",
            Queue::new(&mut [0.0]).read_third(&THIRD_OF_NO_PLACES),
        ),
        (
            Refusal::Content,
            "that record converted",
            convert(258, &THIRD_OF_NO_PLACES, QUEUE_RECORD_HEAD),
        ),
        (
            Refusal::Room,
            "an output a byte too short for a record",
            Histogram::new().write(&mut short).map(drop),
        ),
        (
            Refusal::Room,
            "an output a byte too short for the third model's",
            Histogram::new().write_third(&mut short).map(drop),
        ),
        (
            Refusal::Room,
            "an output a byte too short for a conversion",
            convert(258, &THIRD_OF_ONE_PLACE, QUEUE_RECORD_HEAD - 1),
        ),
    ]
}

fn main() {
    let cases = [calls_and_histories(), records()].concat();
    for (_, what, answer) in &cases {
        match answer {
            Ok(()) => println!(" 0 done      {what}"),
            Err(refusal) => println!("{:2} {:<8}  {what}", refusal.number(), refusal.name()),
        }
    }
    let each = Refusal::ALL
        .iter()
        .all(|refusal| cases.iter().any(|(expected, ..)| expected == refusal));
    let all = cases
        .iter()
        .all(|(expected, _, answer)| *answer == Err(*expected));
    std::process::exit(i32::from(!(each && all)));
}
