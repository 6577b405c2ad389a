//! A histogram and its record are told by what is not 0 in them.

use driver::refusals::{KIND, LENGTH, ROOM, STORE};
use driver::rng::{pick, Rng};
use driver::words::records::{self, HISTOGRAMS, HISTOGRAM_RECORD};

use super::{cases, number, put_converted, put_short, put_some_kind, Met, BYTE};

const READS: usize = 160;
const WRITES: usize = 96;
const CONVERTS: usize = 96;

/// What stands in every counter before a call.
const COUNTER: u32 = 0xA5A5_A5A5;

/// How many bytes and counters are told, and a place that no record or histogram has.
const TOLD_BYTES: usize = 64;
const TOLD_COUNTERS: usize = 16;
const NO_PLACE: u16 = u16::MAX;

/// 64 times u16 place and u8 byte.
fn put_told_bytes(case: &mut Vec<u8>, bytes: &[u8]) {
    let told = bytes.iter().enumerate().filter(|(_, &byte)| byte != 0);
    let told: Vec<(u16, u8)> = told.map(|(place, &byte)| (place as u16, byte)).collect();
    assert!(told.len() <= TOLD_BYTES);
    for i in 0..TOLD_BYTES {
        let (place, byte) = told.get(i).copied().unwrap_or((NO_PLACE, 0));
        case.extend(place.to_le_bytes());
        case.push(byte);
    }
}

/// The same of an output's first bytes, so many that were written; the others stay.
fn put_told_output(case: &mut Vec<u8>, out: &[u8], written: usize) {
    assert!(out[written..].iter().all(|&byte| byte == BYTE));
    put_told_bytes(case, &out[..written]);
}

/// 16 times u16 bin and u32 count.
fn put_told_counters(case: &mut Vec<u8>, counters: &[u32]) {
    let told = counters.iter().enumerate().filter(|(_, &count)| count != 0);
    let told: Vec<(u16, u32)> = told.map(|(bin, &count)| (bin as u16, count)).collect();
    assert!(told.len() <= TOLD_COUNTERS);
    for i in 0..TOLD_COUNTERS {
        let (bin, count) = told.get(i).copied().unwrap_or((NO_PLACE, 0));
        case.extend(bin.to_le_bytes());
        case.extend(count.to_le_bytes());
    }
}

/// A few counters that are not 0, anywhere, the first and the last among them.
fn some_counters(places: usize, rng: &mut Rng) -> Vec<u32> {
    let mut counters = vec![0; places];
    for i in 0..14.min(places) {
        let bin = match i {
            0 => 0,
            1 => places - 1,
            _ => rng.below(places as u64) as usize,
        };
        counters[bin] = match rng.below(4) {
            0 => rng.bits() as u32,
            1 => u32::MAX - rng.below(3) as u32,
            _ => rng.below(300) as u32,
        };
    }
    counters
}

/// Half the records are good; the others have another length, another kind, or a byte that differs.
fn some_record(i: usize, kind: u16, rng: &mut Rng) -> Vec<u8> {
    let mut bytes = vec![0; HISTOGRAM_RECORD];
    let written = records::write_histogram(kind, &some_counters(1000, rng), &mut bytes);
    assert!(written.is_ok());
    match i % 8 {
        0 => bytes.resize(pick(&[0, 5, 6, 7, 4002, 4005, 4007, 4090], rng), 0),
        1 => put_some_kind(&mut bytes, rng),
        2 => bytes[rng.below(6) as usize] = rng.bits() as u8,
        3 => bytes[rng.below(4006) as usize] = rng.bits() as u8,
        _ => {}
    }
    bytes
}

/// Operation 11: u16 kind asked for, u16 number of bytes given, u16 counters of the store, u16 refusal; the
/// bytes that are not 0; the counters that are not 0 afterwards, none where refused.
pub fn reads() -> Vec<Vec<u8>> {
    cases(READS, HISTOGRAMS, &[LENGTH, KIND, STORE], read)
}

fn read(i: usize, kind: u16, rng: &mut Rng, met: &mut Met) -> Vec<u8> {
    let bytes = some_record(i, kind, rng);
    let places = pick(&[1000, 1000, 1000, 1000, 999, 1001, 0], rng);
    let mut store = vec![COUNTER; places];
    let answer = records::read_histogram(kind, &bytes, &mut store);
    let refusal = number(&answer);
    met.push((kind, refusal));
    let mut case = Vec::new();
    let numbers = [kind.into(), bytes.len(), places, refusal.into()];
    put_short(&mut case, &numbers);
    put_told_bytes(&mut case, &bytes);
    if answer.is_err() {
        assert!(store.iter().all(|&count| count == COUNTER));
        store.clear();
    }
    put_told_counters(&mut case, &store);
    case
}

/// Operation 12: u16 kind asked for, u16 places of the output, u16 counters of the store, u16 refusal, u16
/// bytes written; the counters that are not 0; the bytes written that are not 0.
pub fn writes() -> Vec<Vec<u8>> {
    cases(WRITES, HISTOGRAMS, &[STORE, ROOM], write)
}

fn write(_: usize, kind: u16, rng: &mut Rng, met: &mut Met) -> Vec<u8> {
    let counters = some_counters(pick(&[1000, 1000, 1000, 1000, 999, 1001, 0], rng), rng);
    let mut out = vec![BYTE; pick(&[4006, 4006, 4007, 4096, 4005, 6, 0], rng)];
    let answer = records::write_histogram(kind, &counters, &mut out);
    let (refusal, written) = (number(&answer), answer.unwrap_or(0));
    met.push((kind, refusal));
    let mut case = Vec::new();
    let (room, places) = (out.len(), counters.len());
    put_short(
        &mut case,
        &[kind.into(), room, places, refusal.into(), written],
    );
    put_told_counters(&mut case, &counters);
    put_told_output(&mut case, &out, written);
    case
}

/// Operation 15: as a conversion begins; the bytes given that are not 0; the bytes written that are not 0.
pub fn converts() -> Vec<Vec<u8>> {
    cases(CONVERTS, HISTOGRAMS, &[LENGTH, KIND, ROOM], convert)
}

fn convert(i: usize, kind: u16, rng: &mut Rng, met: &mut Met) -> Vec<u8> {
    let bytes = some_record(i, kind, rng);
    let mut out = vec![BYTE; pick(&[4006, 4006, 4007, 4096, 4005, 0], rng)];
    let mut case = Vec::new();
    let written = put_converted(&mut case, kind, &bytes, &mut out, met);
    put_told_bytes(&mut case, &bytes);
    put_told_output(&mut case, &out, written);
    case
}
