//! Records of the third model in plain Rust loops, with the checks of the words: the other side of their
//! times. Each answers whether nothing refused it.

use driver::oracle::BOUNDARIES;
use driver::words::records::{put_head, HISTOGRAM_RECORD, NAN_PATTERN, QUEUE_HEAD};
use driver::words::Queue;

/// Length and kind.
fn framed(kind: u16, bytes: &[u8]) -> bool {
    bytes.len() >= 6
        && bytes[4..6] == kind.to_le_bytes()
        && bytes[..4] == (bytes.len() as u32 - 4).to_le_bytes()
}

fn u32_at(kind: u16, bytes: &[u8], at: usize) -> usize {
    let field = bytes[at..at + 4].try_into().expect("four bytes");
    let number = match kind {
        258 => u32::from_be_bytes(field),
        _ => u32::from_le_bytes(field),
    };
    number as usize
}

fn fits(pattern: u64) -> bool {
    f64::from_bits(pattern) >= BOUNDARIES[0] || pattern == NAN_PATTERN
}

/// All but STORE, of a queue's record.
fn queue_fits(kind: u16, bytes: &[u8]) -> bool {
    if !framed(kind, bytes) || bytes.len() < QUEUE_HEAD {
        return false;
    }
    let (maximum, held) = (u32_at(kind, bytes, 6), u32_at(kind, bytes, 10));
    if !(1..=36_000).contains(&maximum) || held > maximum || bytes.len() != QUEUE_HEAD + 8 * held {
        return false;
    }
    let mut fields = bytes[QUEUE_HEAD..].chunks_exact(8);
    let number = |field: &[u8]| u64::from_ne_bytes(field.try_into().expect("eight bytes"));
    match kind {
        258 => fields.all(|field| fits(u64::from_be(number(field)))),
        _ => fields.all(|field| fits(u64::from_le(number(field)))),
    }
}

pub fn read_histogram(bytes: &[u8], counters: &mut [u32]) -> bool {
    if !framed(257, bytes) || bytes.len() != HISTOGRAM_RECORD || counters.len() != 1000 {
        return false;
    }
    for (counter, field) in counters.iter_mut().zip(bytes[6..].chunks_exact(4)) {
        *counter = u32::from_be_bytes(field.try_into().expect("four bytes"));
    }
    true
}

pub fn write_histogram(counters: &[u32], out: &mut [u8]) -> bool {
    if counters.len() != 1000 || out.len() < HISTOGRAM_RECORD {
        return false;
    }
    put_head(257, out, HISTOGRAM_RECORD);
    for (field, counter) in out[6..].chunks_exact_mut(4).zip(counters) {
        field.copy_from_slice(&counter.to_be_bytes());
    }
    true
}

pub fn read_queue(bytes: &[u8], store: &mut [f64]) -> bool {
    if !queue_fits(258, bytes) || store.len() != u32_at(258, bytes, 6) {
        return false;
    }
    for (place, field) in store.iter_mut().zip(bytes[QUEUE_HEAD..].chunks_exact(8)) {
        *place = f64::from_be_bytes(field.try_into().expect("eight bytes"));
    }
    true
}

/// The oldest energies stand from the head to the end, the others from the start.
pub fn write_queue(queue: &Queue, out: &mut [u8]) -> bool {
    if !queue.suits() {
        return false;
    }
    let older = queue.held.min(queue.maximum - queue.head);
    let older = &queue.store[queue.head..queue.head + older];
    let newer = &queue.store[..queue.held - older.len()];
    let below = |&energy: &f64| energy < BOUNDARIES[0];
    let length = QUEUE_HEAD + 8 * queue.held;
    if older.iter().any(below) || newer.iter().any(below) || out.len() < length {
        return false;
    }
    put_head(258, out, length);
    out[6..10].copy_from_slice(&(queue.maximum as u32).to_be_bytes());
    out[10..14].copy_from_slice(&(queue.held as u32).to_be_bytes());
    let (first, rest) = out[QUEUE_HEAD..].split_at_mut(8 * older.len());
    write_energies(older, first);
    write_energies(newer, rest);
    true
}

fn write_energies(energies: &[f64], out: &mut [u8]) {
    for (field, energy) in out.chunks_exact_mut(8).zip(energies) {
        let pattern = match energy.is_nan() {
            true => NAN_PATTERN,
            false => energy.to_bits(),
        };
        field.copy_from_slice(&pattern.to_be_bytes());
    }
}

pub fn convert_histogram(kind: u16, bytes: &[u8], out: &mut [u8]) -> bool {
    if !framed(kind, bytes) || bytes.len() != HISTOGRAM_RECORD || out.len() < HISTOGRAM_RECORD {
        return false;
    }
    put_head(kind ^ 256, out, HISTOGRAM_RECORD);
    let fields = out[6..].chunks_exact_mut(4);
    for (field, from) in fields.zip(bytes[6..].chunks_exact(4)) {
        let number = u32::from_ne_bytes(from.try_into().expect("four bytes"));
        field.copy_from_slice(&number.swap_bytes().to_ne_bytes());
    }
    true
}

pub fn convert_queue(kind: u16, bytes: &[u8], out: &mut [u8]) -> bool {
    if !queue_fits(kind, bytes) || out.len() < bytes.len() {
        return false;
    }
    put_head(kind ^ 256, out, bytes.len());
    for at in [6, 10] {
        let number = u32::from_ne_bytes(bytes[at..at + 4].try_into().expect("four bytes"));
        out[at..at + 4].copy_from_slice(&number.swap_bytes().to_ne_bytes());
    }
    let fields = out[QUEUE_HEAD..].chunks_exact_mut(8);
    for (field, from) in fields.zip(bytes[QUEUE_HEAD..].chunks_exact(8)) {
        let number = u64::from_ne_bytes(from.try_into().expect("eight bytes"));
        field.copy_from_slice(&number.swap_bytes().to_ne_bytes());
    }
    true
}
