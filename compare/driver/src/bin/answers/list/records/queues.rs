//! A queue's record stands whole in its case. NaN stands in a store in one pattern only, since the program
//! keeps no payload; the bytes of a record may have any.

use driver::energies;
use driver::oracle::BOUNDARIES;
use driver::refusals::{CONTENT, KIND, LENGTH, ROOM, STORE};
use driver::rng::{pick, Rng};
use driver::words::records::{self, QUEUES, QUEUE_HEAD};
use driver::words::Queue;

use super::{cases, number, put_converted, put_short, put_some_kind, Met, BYTE};

const READS: usize = 512;
const WRITES: usize = 320;
const CONVERTS: usize = 320;

/// What stands in every place of a store before a call.
const ENERGY: f64 = 0.5;

/// The bytes of a record that a case has room for, and the places of a store.
const BYTES: usize = 96;
const PLACES: usize = 10;

fn put_patterns(case: &mut Vec<u8>, store: &[f64], rest: f64) {
    let mut store = store.to_vec();
    store.resize(PLACES, rest);
    let patterns = store.iter().map(|energy| energy.to_bits());
    case.extend(patterns.flat_map(u64::to_le_bytes));
}

fn put_bytes(case: &mut Vec<u8>, bytes: &[u8], rest: u8) {
    let mut bytes = bytes.to_vec();
    assert!(bytes.len() <= BYTES);
    bytes.resize(BYTES, rest);
    case.extend(bytes);
}

/// Mostly energies that a queue may hold.
fn energy(rng: &mut Rng) -> f64 {
    let energy = match rng.below(40) {
        0 => energies::any(rng),
        1 => f64::NAN,
        2 => f64::INFINITY,
        3 => energies::below(BOUNDARIES[0]),
        4 => BOUNDARIES[0],
        _ => energies::in_table(rng),
    };
    match energy.is_nan() {
        true => f64::from_bits(records::NAN_PATTERN),
        false => energy,
    }
}

/// A queue with any head and number held, one that breaks a rule now and then.
fn some_queue(rng: &mut Rng) -> Queue {
    let maximum = 1 + rng.below(8) as usize;
    let mut queue = Queue {
        maximum,
        head: rng.below(maximum as u64) as usize,
        held: rng.below(maximum as u64 + 1) as usize,
        store: (0..maximum).map(|_| energy(rng)).collect(),
    };
    match rng.below(16) {
        0 => queue.head = maximum,
        1 => queue.held = maximum + 1,
        2 => queue.maximum += 1,
        3 => queue.maximum = 0,
        4 => queue.maximum = 36_001,
        _ => {}
    }
    queue
}

/// One that breaks none.
fn good_queue(rng: &mut Rng) -> Queue {
    let mut queue = some_queue(rng);
    queue.maximum = queue.store.len();
    queue.head %= queue.maximum;
    queue.held = queue.held.min(queue.maximum);
    for energy in &mut queue.store {
        if *energy < BOUNDARIES[0] {
            *energy = BOUNDARIES[0];
        }
    }
    queue
}

/// A pattern that a record may not have, most often.
fn odd_pattern(rng: &mut Rng) -> u64 {
    let energy = match rng.below(4) {
        0 => energies::below(BOUNDARIES[0]),
        1 => energies::any(rng),
        _ => pick(&energies::specials(), rng),
    };
    energy.to_bits()
}

/// Half the records are good; the others are cut, longer, or have a field that differs, or one whose bytes
/// are turned round.
fn some_record(i: usize, kind: u16, queue: &Queue, rng: &mut Rng) -> Vec<u8> {
    let mut bytes = vec![0; QUEUE_HEAD + 8 * queue.held];
    assert!(records::write_queue(kind, queue, &mut bytes).is_ok());
    let length = bytes.len();
    let energy = QUEUE_HEAD + 8 * rng.below(queue.held.max(1) as u64) as usize;
    match i % 16 {
        0 => bytes.truncate(rng.below(length as u64 + 1) as usize),
        1 => bytes.resize(length + 1 + rng.below(9) as usize, 0),
        2 => bytes[rng.below(14) as usize] = rng.bits() as u8,
        3 => put_some_kind(&mut bytes, rng),
        4 => {
            let maximum = pick(&[0, 35_999, 36_000, 36_001, u32::MAX], rng);
            bytes[6..10].copy_from_slice(&records::bytes_of_u32(kind, maximum));
        }
        5 => {
            let held = (queue.held as u32).wrapping_add(pick(&[1, u32::MAX], rng));
            bytes[10..14].copy_from_slice(&records::bytes_of_u32(kind, held));
        }
        6 | 7 if queue.held > 0 => {
            let pattern = records::bytes_of_u64(kind, odd_pattern(rng));
            bytes[energy..energy + 8].copy_from_slice(&pattern);
        }
        8 if queue.held > 0 => bytes[energy..energy + 8].reverse(),
        9 => {
            let at = pick(&[6, 10], rng);
            bytes[at..at + 4].reverse();
        }
        _ => {}
    }
    bytes
}

/// Operation 13: the 96 bytes that the record is the first part of; u16 kind asked for, u16 number of bytes
/// given, u16 places of the store, u16 refusal, u16 maximum and u16 held (0 where refused; the head is 0);
/// then u64 patterns of the 10 places that the store is the first part of, afterwards.
pub fn reads() -> Vec<Vec<u8>> {
    cases(READS, QUEUES, &[LENGTH, KIND, CONTENT, STORE], read)
}

fn read(i: usize, kind: u16, rng: &mut Rng, met: &mut Met) -> Vec<u8> {
    let queue = good_queue(rng);
    let bytes = some_record(i, kind, &queue, rng);
    let places = match i % 16 {
        10 => queue.maximum + 1,
        11 => queue.maximum - 1,
        _ => queue.maximum,
    };
    let mut store = vec![ENERGY; places];
    let answer = records::read_queue(kind, &bytes, &mut store);
    let refusal = number(&answer);
    met.push((kind, refusal));
    let (maximum, held) = answer.unwrap_or((0, 0));
    let mut case = Vec::new();
    put_bytes(&mut case, &bytes, 0);
    put_short(&mut case, &[kind.into(), bytes.len(), places]);
    put_short(&mut case, &[refusal.into(), maximum, held]);
    put_patterns(&mut case, &store, ENERGY);
    case
}

/// Operation 14: u16 kind asked for, u16 maximum, head and held, u16 places of the store, u16 places of the
/// output, u16 refusal, u16 bytes written; u64 patterns of the 10 places that the store is the first part
/// of; the 96 bytes that the output is the first part of, afterwards.
pub fn writes() -> Vec<Vec<u8>> {
    cases(WRITES, QUEUES, &[STORE, ROOM], write)
}

/// An output for so many bytes, or with fewer or more places.
fn some_output(bytes: usize, rng: &mut Rng) -> Vec<u8> {
    let room = match rng.below(8) {
        0 => bytes.saturating_sub(1),
        1 => bytes + rng.below(9) as usize,
        2 => 0,
        _ => bytes,
    };
    vec![BYTE; room.min(BYTES)]
}

fn write(_: usize, kind: u16, rng: &mut Rng, met: &mut Met) -> Vec<u8> {
    let queue = some_queue(rng);
    let mut out = some_output(QUEUE_HEAD + 8 * queue.held, rng);
    let answer = records::write_queue(kind, &queue, &mut out);
    let refusal = number(&answer);
    met.push((kind, refusal));
    let mut case = Vec::new();
    put_short(
        &mut case,
        &[kind.into(), queue.maximum, queue.head, queue.held],
    );
    put_short(&mut case, &[queue.store.len(), out.len()]);
    put_short(&mut case, &[refusal.into(), answer.unwrap_or(0)]);
    put_patterns(&mut case, &queue.store, 0.0);
    put_bytes(&mut case, &out, BYTE);
    case
}

/// Operation 16: as a conversion begins; the 96 bytes that the record is the first part of; the 96 bytes
/// that the output is the first part of, afterwards.
pub fn converts() -> Vec<Vec<u8>> {
    cases(CONVERTS, QUEUES, &[LENGTH, KIND, CONTENT, ROOM], convert)
}

fn convert(i: usize, kind: u16, rng: &mut Rng, met: &mut Met) -> Vec<u8> {
    let queue = good_queue(rng);
    let bytes = some_record(i, kind, &queue, rng);
    let mut out = some_output(bytes.len(), rng);
    let mut case = Vec::new();
    put_converted(&mut case, kind, &bytes, &mut out, met);
    put_bytes(&mut case, &bytes, 0);
    put_bytes(&mut case, &out, BYTE);
    case
}
