//! Records of histograms. Counters have no rule that CONTENT could say was broken.

use driver::refusals::Check;
use driver::rng::{pick, Rng};
use driver::words::records::{self, HISTOGRAM_RECORD};

use super::{number, of_length, some_room, under, under_any_kind, Kind};
use super::{BYTE, FIELDS, RANDOM, UNTOUCHED};
use crate::check::Difference;
use crate::ours::records as ours;

const CHECKS: [Check; 4] = [
    records::SHORT,
    records::UNKNOWN_KIND,
    records::UNLIKE_BYTES,
    records::UNLIKE_4002,
];

/// Lengths of a store, and of an output.
const PLACES: [usize; 6] = [1000, 1000, 1000, 999, 1001, 0];
const ROOM: [usize; 7] = [4006, 4006, 4007, 4005, 5000, 6, 0];

fn read(kind: &mut Kind, bytes: &[u8], places: usize) -> Result<(), Difference> {
    let (op, asked) = (&mut kind.reads, kind.number);
    let mut ours = vec![0xA5A5_A5A5; places];
    let mut expected = ours.clone();
    let input = || format!("{} bytes into {places} counters", bytes.len());
    let answer = records::read_histogram(asked, bytes, &mut expected);
    let code = ours::histogram_read(asked, bytes, &mut ours);
    op.answer(input, code, number(&answer))?;
    op.saw_check(records::check_read(asked, bytes, places));
    op.also(input, "the counters", ours == expected)
}

fn write(kind: &mut Kind, counters: &[u32], room: usize) -> Result<Vec<u8>, Difference> {
    let (op, asked) = (&mut kind.writes, kind.number);
    let mut ours = vec![BYTE; room];
    let mut expected = ours.clone();
    let mut written = UNTOUCHED;
    let input = || format!("{} counters to {room} places", counters.len());
    let answer = records::write_histogram(asked, counters, &mut expected);
    let code = ours::histogram_write(asked, counters, &mut ours, &mut written);
    op.answer(input, code, number(&answer))?;
    op.also(input, "the length", written == answer.unwrap_or(UNTOUCHED))?;
    op.also(input, "the output", ours == expected)?;
    Ok(ours)
}

/// Read and converted.
fn given(kind: &mut Kind, bytes: &[u8], places: usize, rng: &mut Rng) -> Result<(), Difference> {
    read(kind, bytes, places)?;
    kind.convert(bytes, some_room(bytes.len(), rng))?;
    Ok(())
}

fn counter(rng: &mut Rng) -> u32 {
    match rng.below(4) {
        0 => rng.bits() as u32,
        1 => u32::MAX - rng.below(3) as u32,
        _ => rng.below(300) as u32,
    }
}

pub fn run(number: u16, rng: &mut Rng) -> Result<(), Difference> {
    let mut kind = Kind::new(number, &CHECKS);
    for i in 0..RANDOM {
        let counters: Vec<u32> = (0..PLACES[i % 6]).map(|_| counter(rng)).collect();
        let mut record = write(&mut kind, &counters, pick(&ROOM, rng))?;
        let places = pick(&PLACES, rng);
        given(&mut kind, &record, places, rng)?;
        record.truncate(HISTOGRAM_RECORD);
        if record.len() == HISTOGRAM_RECORD {
            given(&mut kind, &record, places, rng)?;
            // damaged: the kind, or a byte, most often of the head
            match rng.below(4) {
                0 => record = under(pick(&FIELDS, rng), &record),
                1 => record[rng.below(HISTOGRAM_RECORD as u64) as usize] = rng.bits() as u8,
                _ => record[rng.below(6) as usize] = rng.bits() as u8,
            }
            given(&mut kind, &record, 1000, rng)?;
        }
    }
    let good = write(&mut kind, &[7; 1000], HISTOGRAM_RECORD)?;
    for end in 0..=good.len() {
        given(&mut kind, &good[..end], 1000, rng)?;
        given(&mut kind, &of_length(&good, 6 + end), 1000, rng)?;
    }
    for at in 0..6 {
        for byte in 0..=255 {
            let mut changed = good.clone();
            changed[at] = byte;
            given(&mut kind, &changed, 1000, rng)?;
        }
    }
    for record in under_any_kind(rng) {
        given(&mut kind, &record, 1000, rng)?;
    }
    kind.same(&[])
}
