//! The words of document 01 and change request 3 on records: an independent reader, writer and conversion.
//! The Rust has none. Each is asked for a kind by its number.

use crate::oracle::BOUNDARIES;
use crate::refusals::{Check, CONTENT, KIND, LENGTH, ROOM, STORE};

use super::Queue;

/// The kinds of a histogram and of a queue: our own, then the third model's.
pub const HISTOGRAMS: [u16; 2] = [1, 257];
pub const QUEUES: [u16; 2] = [2, 258];

/// The one pattern in which a record holds NaN.
pub const NAN_PATTERN: u64 = 0x7FF8_0000_0000_0000;

/// The bytes of a histogram's record, and of a queue's without its energies.
pub const HISTOGRAM_RECORD: usize = 4006;
pub const QUEUE_HEAD: usize = 14;

/// The checks of a reader, in the order in which they run; ROOM is that of writers and conversions.
pub const SHORT: Check = Check::new(LENGTH, "under 6 bytes");
pub const UNKNOWN_ASKED: Check = Check::new(KIND, "asked for none of the four kinds");
pub const UNKNOWN_KIND: Check = Check::new(KIND, "given none of the four kinds");
pub const UNLIKE_BYTES: Check = Check::new(LENGTH, "length field unlike the bytes given");
pub const UNLIKE_4002: Check = Check::new(LENGTH, "kind 1 or 257 unlike 4,002");
pub const UNDER_10: Check = Check::new(LENGTH, "kind 2 or 258 under 10");
pub const MAXIMUM: Check = Check::new(CONTENT, "maximum outside 1..36,000");
pub const HELD: Check = Check::new(CONTENT, "held above maximum");
pub const UNLIKE_HELD: Check = Check::new(LENGTH, "length unlike 10 + 8 held");
pub const BELOW: Check = Check::new(CONTENT, "an energy below boundary 0");
pub const OTHER_NAN: Check = Check::new(CONTENT, "NaN of another pattern");
pub const PLACES: Check = Check::new(STORE, "store unlike the record");

/// Whether this is the number of a kind.
pub fn known(kind: u16) -> bool {
    HISTOGRAMS.contains(&kind) || QUEUES.contains(&kind)
}

/// The other kind of the same content.
pub fn other(kind: u16) -> u16 {
    match kind {
        1 => 257,
        257 => 1,
        2 => 258,
        258 => 2,
        _ => unreachable!("kind {kind} is none of the four"),
    }
}

/// "The byte order follows from the kind and from nothing else": 257 and 258 have "each field high byte
/// first".
fn high_first(kind: u16) -> bool {
    matches!(kind, 257 | 258)
}

/// A field of four bytes in a record's body.
pub fn bytes_of_u32(kind: u16, number: u32) -> [u8; 4] {
    match high_first(kind) {
        true => number.to_be_bytes(),
        false => number.to_le_bytes(),
    }
}

/// A field of eight.
pub fn bytes_of_u64(kind: u16, number: u64) -> [u8; 8] {
    match high_first(kind) {
        true => number.to_be_bytes(),
        false => number.to_le_bytes(),
    }
}

fn u32_of(kind: u16, field: &[u8]) -> u32 {
    let field = field.try_into().expect("four bytes");
    match high_first(kind) {
        true => u32::from_be_bytes(field),
        false => u32::from_le_bytes(field),
    }
}

fn u64_of(kind: u16, field: &[u8]) -> u64 {
    let field = field.try_into().expect("eight bytes");
    match high_first(kind) {
        true => u64::from_be_bytes(field),
        false => u64::from_le_bytes(field),
    }
}

/// "our own length and kind in front, low byte first"
pub fn put_head(kind: u16, out: &mut [u8], bytes: usize) {
    out[..4].copy_from_slice(&(bytes as u32 - 4).to_le_bytes());
    out[4..6].copy_from_slice(&kind.to_le_bytes());
}

/// The check that refuses a record of this kind where another is asked for.
pub fn given(kind: u16) -> Check {
    match kind {
        1 => Check::new(KIND, "given kind 1"),
        2 => Check::new(KIND, "given kind 2"),
        257 => Check::new(KIND, "given kind 257"),
        258 => Check::new(KIND, "given kind 258"),
        _ => UNKNOWN_KIND,
    }
}

/// "under 6 bytes LENGTH; KIND; length field unlike the bytes given, kind 1 unlike 4,002, kind 2 under 10,
/// LENGTH"
fn frame(kind: u16, bytes: &[u8]) -> Option<Check> {
    if bytes.len() < 6 {
        return Some(SHORT);
    }
    if !known(kind) {
        return Some(UNKNOWN_ASKED);
    }
    let field = u16::from_le_bytes([bytes[4], bytes[5]]);
    if field != kind {
        return Some(given(field));
    }
    let length = u32::from_le_bytes(bytes[..4].try_into().expect("four bytes"));
    if u64::from(length) != bytes.len() as u64 - 4 {
        return Some(UNLIKE_BYTES);
    }
    if HISTOGRAMS.contains(&kind) {
        return (length != 4002).then_some(UNLIKE_4002);
    }
    (length < 10).then_some(UNDER_10)
}

/// Maximum and held, which stand behind the kind.
fn numbers(kind: u16, bytes: &[u8]) -> (usize, usize) {
    let (maximum, held) = (&bytes[6..10], &bytes[10..14]);
    (u32_of(kind, maximum) as usize, u32_of(kind, held) as usize)
}

/// The patterns of a queue's energies.
fn patterns(kind: u16, bytes: &[u8]) -> impl Iterator<Item = u64> + '_ {
    let fields = bytes[QUEUE_HEAD..].chunks_exact(8);
    fields.map(move |field| u64_of(kind, field))
}

/// "none below boundary 0; NaN only as 7FF8000000000000 hex"
fn unfit(pattern: u64) -> Option<Check> {
    let energy = f64::from_bits(pattern);
    if energy.is_nan() {
        return (pattern != NAN_PATTERN).then_some(OTHER_NAN);
    }
    (energy < BOUNDARIES[0]).then_some(BELOW)
}

/// "maximum or held CONTENT; length unlike 10 + 8·held LENGTH; energies CONTENT"
fn queue_body(kind: u16, bytes: &[u8]) -> Option<Check> {
    let (maximum, held) = numbers(kind, bytes);
    if maximum == 0 || maximum > 36_000 {
        return Some(MAXIMUM);
    }
    if held > maximum {
        return Some(HELD);
    }
    if bytes.len() - 4 != 10 + 8 * held {
        return Some(UNLIKE_HELD);
    }
    patterns(kind, bytes).find_map(unfit)
}

/// What refuses a record itself, whatever becomes of it.
pub fn check_record(kind: u16, bytes: &[u8]) -> Option<Check> {
    let check = frame(kind, bytes);
    if check.is_some() || HISTOGRAMS.contains(&kind) {
        return check;
    }
    queue_body(kind, bytes)
}

/// What refuses a record that is read into so many places.
pub fn check_read(kind: u16, bytes: &[u8], places: usize) -> Option<Check> {
    let check = check_record(kind, bytes);
    if check.is_some() {
        return check;
    }
    let wanted = match HISTOGRAMS.contains(&kind) {
        true => 1000,
        false => numbers(kind, bytes).0,
    };
    (places != wanted).then_some(PLACES)
}

/// The counters of a histogram's record.
pub fn read_histogram(kind: u16, bytes: &[u8], counters: &mut [u32]) -> Result<(), u8> {
    if let Some(check) = check_read(kind, bytes, counters.len()) {
        return Err(check.number);
    }
    for (counter, field) in counters.iter_mut().zip(bytes[6..].chunks_exact(4)) {
        *counter = u32_of(kind, field);
    }
    Ok(())
}

/// A histogram's record at the output's first places; answers its length.
pub fn write_histogram(kind: u16, counters: &[u32], out: &mut [u8]) -> Result<usize, u8> {
    if counters.len() != 1000 {
        return Err(STORE);
    }
    if out.len() < HISTOGRAM_RECORD {
        return Err(ROOM);
    }
    put_head(kind, out, HISTOGRAM_RECORD);
    for (field, &counter) in out[6..].chunks_exact_mut(4).zip(counters) {
        field.copy_from_slice(&bytes_of_u32(kind, counter));
    }
    Ok(HISTOGRAM_RECORD)
}

/// Maximum and held of a queue's record, its energies from the store's first place on.
pub fn read_queue(kind: u16, bytes: &[u8], store: &mut [f64]) -> Result<(usize, usize), u8> {
    if let Some(check) = check_read(kind, bytes, store.len()) {
        return Err(check.number);
    }
    for (place, pattern) in store.iter_mut().zip(patterns(kind, bytes)) {
        *place = f64::from_bits(pattern);
    }
    Ok(numbers(kind, bytes))
}

/// A queue's record at the output's first places; answers its length.
pub fn write_queue(kind: u16, queue: &Queue, out: &mut [u8]) -> Result<usize, u8> {
    if let Some(check) = queue.check_held() {
        return Err(check.number);
    }
    let length = QUEUE_HEAD + 8 * queue.held;
    if out.len() < length {
        return Err(ROOM);
    }
    put_head(kind, out, length);
    out[6..10].copy_from_slice(&bytes_of_u32(kind, queue.maximum as u32));
    out[10..14].copy_from_slice(&bytes_of_u32(kind, queue.held as u32));
    let fields = out[QUEUE_HEAD..].chunks_exact_mut(8);
    for (field, energy) in fields.zip(queue.energies()) {
        let pattern = if energy.is_nan() {
            NAN_PATTERN
        } else {
            energy.to_bits()
        };
        field.copy_from_slice(&bytes_of_u64(kind, pattern));
    }
    Ok(length)
}

/// "a conversion each way that keeps every count and energy": what is read as the kind asked for is
/// written as the other kind of the same content. ROOM is the writer's.
pub fn convert(kind: u16, bytes: &[u8], out: &mut [u8]) -> Result<usize, u8> {
    if let Some(check) = check_record(kind, bytes) {
        return Err(check.number);
    }
    if HISTOGRAMS.contains(&kind) {
        let mut counters = [0; 1000];
        read_histogram(kind, bytes, &mut counters)?;
        return write_histogram(other(kind), &counters, out);
    }
    let (maximum, held) = numbers(kind, bytes);
    let mut queue = Queue {
        maximum,
        head: 0,
        held,
        store: vec![0.0; maximum],
    };
    read_queue(kind, bytes, &mut queue.store)?;
    write_queue(other(kind), &queue, out)
}
