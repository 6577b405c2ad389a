//! Records of queues.

use driver::energies;
use driver::refusals::{Check, CONTENT};
use driver::rng::{pick, Rng};
use driver::words::records::{self, NAN_PATTERN, QUEUE_HEAD};
use driver::words::{self, Queue};

use super::{number, of_length, some_room, under, under_any_kind, Kind};
use super::{BYTE, FIELDS, RANDOM, UNTOUCHED};
use crate::check::{same_floats, Difference};
use crate::ours::records as ours;

const CHECKS: [Check; 9] = [
    records::SHORT,
    records::UNKNOWN_KIND,
    records::UNLIKE_BYTES,
    records::UNDER_10,
    records::MAXIMUM,
    records::HELD,
    records::UNLIKE_HELD,
    records::BELOW,
    records::OTHER_NAN,
];
const HELD_CHECKS: [Check; 5] = [
    words::MAXIMUM,
    words::UNLIKE,
    words::HEAD,
    words::HELD,
    words::BELOW,
];

/// A queue's record with a NaN in it, in the one pattern.
const NAN_HELD: &str = "NaN among the energies";

const LONGEST: usize = 36_000;

fn read(kind: &mut Kind, bytes: &[u8], places: usize) -> Result<(), Difference> {
    let (op, asked) = (&mut kind.reads, kind.number);
    let mut ours = Queue {
        maximum: UNTOUCHED,
        head: UNTOUCHED,
        held: UNTOUCHED,
        store: vec![crate::check::UNTOUCHED; places],
    };
    let mut store = ours.store.clone();
    let answer = records::read_queue(asked, bytes, &mut store);
    let input = || format!("{bytes:02x?} into {places} places");
    let code = ours::queue_read(asked, bytes, &mut ours);
    op.answer(input, code, number(&answer))?;
    op.saw_check(records::check_read(asked, bytes, places));
    let expected = match answer {
        Ok((maximum, held)) => (maximum, 0, held),
        Err(_) => (UNTOUCHED, UNTOUCHED, UNTOUCHED),
    };
    let numbers = (ours.maximum, ours.head, ours.held) == expected;
    op.also(input, "maximum, head and held", numbers)?;
    let mut held = ours.store.iter().take(ours.held);
    if held.any(|energy| energy.to_bits() == NAN_PATTERN) {
        op.saw(NAN_HELD);
    }
    op.also(input, "the store", same_floats(&ours.store, &store))
}

fn write(kind: &mut Kind, queue: &Queue, room: usize) -> Result<Vec<u8>, Difference> {
    let (op, asked) = (&mut kind.writes, kind.number);
    let mut ours = vec![BYTE; room];
    let mut expected = ours.clone();
    let mut written = UNTOUCHED;
    let input = || format!("{queue:?} to {room} places");
    let answer = records::write_queue(asked, queue, &mut expected);
    let code = ours::queue_write(asked, queue, &mut ours, &mut written);
    op.answer(input, code, number(&answer))?;
    op.saw_check(queue.check_held());
    if code == 0 && queue.energies().iter().any(|energy| energy.is_nan()) {
        op.saw(NAN_HELD);
    }
    op.also(input, "the length", written == answer.unwrap_or(UNTOUCHED))?;
    op.also(input, "the output", ours == expected)?;
    Ok(ours)
}

/// Read and converted.
fn given(kind: &mut Kind, bytes: &[u8], places: usize, rng: &mut Rng) -> Result<(), Difference> {
    read(kind, bytes, places)?;
    if kind.convert(bytes, some_room(bytes.len(), rng))? {
        let nan = records::bytes_of_u64(kind.number, NAN_PATTERN);
        let mut energies = bytes[QUEUE_HEAD..].chunks_exact(8);
        if energies.any(|energy| energy == nan) {
            kind.converts.saw(NAN_HELD);
        }
    }
    Ok(())
}

/// Mostly energies that a queue may hold, NaN of any pattern among them.
fn energy(rng: &mut Rng) -> f64 {
    match rng.below(40) {
        0 => energies::any(rng),
        1 => f64::from_bits(0x7FF8_0000_0000_0000 | rng.below(3)),
        2 => f64::INFINITY,
        3 => energies::below(energies::table_values().next().expect("boundary 0")),
        _ => energies::in_table(rng),
    }
}

/// A queue with any head and number held, one that breaks a rule now and then.
fn some_queue(maximum: usize, rng: &mut Rng) -> Queue {
    let mut queue = Queue {
        maximum,
        head: rng.below(maximum as u64) as usize,
        held: rng.below(maximum as u64 + 1) as usize,
        store: (0..maximum).map(|_| energy(rng)).collect(),
    };
    match rng.below(16) {
        0 => queue.head = maximum,
        1 => queue.held = maximum + 1,
        2 => queue.maximum += 1,
        3 => queue.maximum = 0,
        _ => {}
    }
    queue
}

/// An energy's field, where the record has one.
fn some_energy<'a>(record: &'a mut [u8], rng: &mut Rng) -> &'a mut [u8] {
    let energies = (record.len() as u64 - QUEUE_HEAD as u64) / 8;
    let at = QUEUE_HEAD + 8 * rng.below(energies) as usize;
    &mut record[at..at + 8]
}

/// Another kind, another byte in the head, another pattern, a field turned round, another length, or fewer
/// bytes.
fn damage(kind: u16, record: &mut Vec<u8>, rng: &mut Rng) {
    let length = record.len();
    match rng.below(8) {
        0 if length >= 6 => *record = under(pick(&FIELDS, rng), record),
        1 if length > 0 => {
            let at = rng.below(length.min(QUEUE_HEAD) as u64) as usize;
            record[at] = rng.bits() as u8;
        }
        2 if length >= 22 => {
            let pattern = match rng.below(2) {
                0 => energies::any(rng),
                _ => pick(&energies::specials(), rng),
            };
            let pattern = records::bytes_of_u64(kind, pattern.to_bits());
            some_energy(record, rng).copy_from_slice(&pattern);
        }
        3 if length >= 22 => some_energy(record, rng).reverse(),
        4 if length >= QUEUE_HEAD => {
            let at = pick(&[6, 10], rng);
            record[at..at + 4].reverse();
        }
        5 if length >= 6 => {
            *record = of_length(record, 6 + rng.below(length as u64 + 9) as usize);
        }
        _ => record.truncate(rng.below(length as u64 + 1) as usize),
    }
}

/// A record of so many energies, all 1, with these numbers.
fn of_ones(kind: u16, maximum: usize, held: usize) -> Vec<u8> {
    let mut record = vec![0; QUEUE_HEAD];
    records::put_head(kind, &mut record, QUEUE_HEAD + 8 * held);
    record[6..10].copy_from_slice(&records::bytes_of_u32(kind, maximum as u32));
    record[10..14].copy_from_slice(&records::bytes_of_u32(kind, held as u32));
    let one = records::bytes_of_u64(kind, 1.0f64.to_bits());
    record.extend(one.repeat(held));
    record
}

fn random(kind: &mut Kind, rng: &mut Rng) -> Result<(), Difference> {
    for i in 0..10 * RANDOM {
        let maximum = 1 + rng.below([1, 2, 3, 8, 40][i % 5]) as usize;
        let queue = some_queue(maximum, rng);
        let room = some_room(QUEUE_HEAD + 8 * queue.held, rng);
        let mut record = write(kind, &queue, room)?;
        let places = match rng.below(8) {
            0 => maximum + 1,
            1 => maximum - 1,
            _ => maximum,
        };
        given(kind, &record, places, rng)?;
        damage(kind.number, &mut record, rng);
        given(kind, &record, places, rng)?;
    }
    Ok(())
}

/// Every prefix of a good record, and every value of every byte of its head.
fn around_a_good_one(kind: &mut Kind, rng: &mut Rng) -> Result<(), Difference> {
    let queue = Queue {
        maximum: 5,
        head: 3,
        held: 4,
        store: (0..5).map(|i| energies::in_bin(i * 200, rng)).collect(),
    };
    let good = write(kind, &queue, QUEUE_HEAD + 8 * 4)?;
    for end in 0..=good.len() {
        given(kind, &good[..end], 5, rng)?;
        given(kind, &of_length(&good, 6 + end), 5, rng)?;
        kind.convert(&good, end)?;
    }
    for at in 0..QUEUE_HEAD {
        for byte in 0..=255 {
            let mut changed = good.clone();
            changed[at] = byte;
            given(kind, &changed, 5, rng)?;
        }
    }
    Ok(())
}

/// The longest queue, written, read and converted; and one energy more than it may hold.
fn longest(kind: &mut Kind, rng: &mut Rng) -> Result<(), Difference> {
    let queue = Queue {
        maximum: LONGEST,
        head: 777,
        held: LONGEST,
        store: (0..LONGEST).map(|_| energies::in_table(rng)).collect(),
    };
    let record = write(kind, &queue, QUEUE_HEAD + 8 * LONGEST)?;
    given(kind, &record, LONGEST, rng)?;
    kind.convert(&record, record.len())?;
    for (maximum, held) in [
        (LONGEST, LONGEST),
        (LONGEST + 1, LONGEST + 1),
        (LONGEST, LONGEST + 1),
    ] {
        let record = of_ones(kind.number, maximum, held);
        given(kind, &record, maximum, rng)?;
    }
    Ok(())
}

pub fn run(number: u16, rng: &mut Rng) -> Result<(), Difference> {
    let mut kind = Kind::new(number, &CHECKS);
    kind.reads = kind.reads.can(&[NAN_HELD]);
    kind.converts = kind.converts.can(&[NAN_HELD]);
    kind.writes = kind.writes.can(&[NAN_HELD]).can(&HELD_CHECKS);
    random(&mut kind, rng)?;
    around_a_good_one(&mut kind, rng)?;
    longest(&mut kind, rng)?;
    for record in under_any_kind(rng) {
        given(&mut kind, &record, 500, rng)?;
    }
    kind.same(&[CONTENT])
}
