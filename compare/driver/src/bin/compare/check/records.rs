//! Records of the four kinds, read, written and converted, beside the words of document 01 and change
//! request 3: whole ones, damaged ones, every prefix of a good one, every single-byte change of a head,
//! lengths around each edge, and each kind where any other is asked for.

mod histograms;
mod queues;

use driver::energies;
use driver::refusals::{Check, KIND, LENGTH, ROOM, STORE};
use driver::rng::{pick, Rng};
use driver::words::records::{self, HISTOGRAMS, HISTOGRAM_RECORD, QUEUES};
use driver::words::Queue;

use super::{Difference, Operation};
use crate::ours::records as ours;

const RANDOM: usize = 10_000;

const READ: &str = "the words' own reader; every prefix, every byte of the head";
const WRITTEN: &str = "the words' own writer; all places of the output";
const CONVERTED: &str = "the words' own conversion; all places of the output, and back";
const REFUSED: &str = "the words; records of every kind";

/// What stands in a place that a call does not write.
const UNTOUCHED: usize = 987_654_321;
const BYTE: u8 = 0x5A;

/// Numbers for a kind field: the four kinds, those beside them, their two bytes turned round, and the last.
const FIELDS: [u16; 11] = [0, 1, 2, 3, 256, 257, 258, 259, 512, 513, u16::MAX];

pub fn run(seed: u64) -> Result<(), Difference> {
    let mut rng = Rng::new(seed);
    for kind in HISTOGRAMS {
        histograms::run(kind, &mut rng)?;
    }
    for kind in QUEUES {
        queues::run(kind, &mut rng)?;
    }
    no_kind(&mut rng)
}

/// A kind under comparison: its reader, its writer, and its conversion to the other kind.
struct Kind {
    number: u16,
    reads: Operation,
    writes: Operation,
    converts: Operation,
}

impl Kind {
    /// Each of these checks has to refuse a record, and so has each other kind.
    fn new(number: u16, checks: &[Check]) -> Self {
        let [read, write, convert] = names(number);
        let kinds = HISTOGRAMS.into_iter().chain(QUEUES);
        let others = kinds.filter(|&other| other != number);
        let others: Vec<Check> = others.map(records::given).collect();
        let given = |name| Operation::new(name).can(checks).can(&others);
        Kind {
            number,
            reads: given(read).can(&[records::PLACES]),
            writes: Operation::new(write),
            converts: given(convert),
        }
    }

    /// Whether it is converted; what comes out is then converted back.
    fn convert(&mut self, bytes: &[u8], room: usize) -> Result<bool, Difference> {
        let (kind, op) = (self.number, &mut self.converts);
        let out = convert(op, kind, bytes, room)?;
        if room < bytes.len() || records::check_record(kind, bytes).is_some() {
            return Ok(false);
        }
        let (mut back, mut written) = (vec![BYTE; bytes.len()], UNTOUCHED);
        let other = records::other(kind);
        let code = ours::convert(other, &out[..bytes.len()], &mut back, &mut written);
        let input = || shown(kind, bytes, room);
        op.also(input, "the record back", code == 0 && back == bytes)?;
        Ok(true)
    }

    /// Hands the operations to the tally; these refuse a record beside what refuses one of every kind.
    fn same(self, content: &[u8]) -> Result<(), Difference> {
        let [reads, converts] = [self.reads, self.converts].map(|op| op.can(content));
        reads.same(READ, &[LENGTH, KIND, STORE])?;
        self.writes.same(WRITTEN, &[STORE, ROOM])?;
        converts.same(CONVERTED, &[LENGTH, KIND, ROOM])
    }
}

/// The names of a kind's operations.
fn names(kind: u16) -> [&'static str; 3] {
    match kind {
        1 => [
            "histogram_read",
            "histogram_write",
            "record_convert of kind 1",
        ],
        2 => ["queue_read", "queue_write", "record_convert of kind 2"],
        257 => [
            "third_histogram_read",
            "third_histogram_write",
            "record_convert of kind 257",
        ],
        _ => [
            "third_queue_read",
            "third_queue_write",
            "record_convert of kind 258",
        ],
    }
}

fn number<T>(answer: &Result<T, u8>) -> u8 {
    answer.as_ref().err().copied().unwrap_or(0)
}

fn shown(kind: u16, bytes: &[u8], room: usize) -> String {
    let (length, first) = (bytes.len(), &bytes[..bytes.len().min(64)]);
    format!("{length} bytes, {first:02x?} .., as kind {kind} to {room} places")
}

/// A conversion of ours beside the words'; answers the output.
fn convert(
    op: &mut Operation,
    kind: u16,
    bytes: &[u8],
    room: usize,
) -> Result<Vec<u8>, Difference> {
    let mut ours = vec![BYTE; room];
    let mut expected = ours.clone();
    let mut written = UNTOUCHED;
    let input = || shown(kind, bytes, room);
    let answer = records::convert(kind, bytes, &mut expected);
    let code = ours::convert(kind, bytes, &mut ours, &mut written);
    if records::known(kind) {
        op.answer(input, code, number(&answer))?;
    } else {
        // an answer is never to be seen
        op.case(input, code, number(&answer))?;
        op.saw(code);
    }
    op.saw_check(records::check_record(kind, bytes));
    op.also(input, "the length", written == answer.unwrap_or(UNTOUCHED))?;
    op.also(input, "the output", ours == expected)?;
    Ok(ours)
}

/// Room for as many bytes, or for fewer or more.
fn some_room(bytes: usize, rng: &mut Rng) -> usize {
    match rng.below(8) {
        0 => bytes.saturating_sub(1),
        1 => bytes + rng.below(9) as usize,
        2 => pick(&[0, 6], rng),
        _ => bytes,
    }
}

/// The record with so many bytes, six or more, and a length field that says so.
fn of_length(record: &[u8], bytes: usize) -> Vec<u8> {
    let mut other = record.to_vec();
    other.resize(bytes, 0);
    other[..4].copy_from_slice(&(bytes as u32 - 4).to_le_bytes());
    other
}

/// The record, six bytes or more, with this in its kind field.
fn under(kind: u16, record: &[u8]) -> Vec<u8> {
    let mut other = record.to_vec();
    other[4..6].copy_from_slice(&kind.to_le_bytes());
    other
}

/// A record of each kind under every number of `FIELDS`. All are as long as a histogram's, so under another
/// number one may be good too: its fields are then read as they stand.
fn under_any_kind(rng: &mut Rng) -> Vec<Vec<u8>> {
    let counters: Vec<u32> = (0..1000).map(|_| rng.bits() as u32).collect();
    let queue = Queue {
        maximum: 500,
        head: 3,
        held: 499,
        store: (0..500).map(|_| energies::in_table(rng)).collect(),
    };
    let mut good = [[0; HISTOGRAM_RECORD]; 4];
    for (kind, record) in HISTOGRAMS.into_iter().zip(&mut good[..2]) {
        assert!(records::write_histogram(kind, &counters, record).is_ok());
    }
    for (kind, record) in QUEUES.into_iter().zip(&mut good[2..]) {
        assert!(records::write_queue(kind, &queue, record) == Ok(HISTOGRAM_RECORD));
    }
    let each = |kind| good.iter().map(move |record| under(kind, record));
    FIELDS.into_iter().flat_map(each).collect()
}

/// Conversions that are asked for a kind which is none of the four.
fn no_kind(rng: &mut Rng) -> Result<(), Difference> {
    let checks = [records::SHORT, records::UNKNOWN_ASKED];
    let mut converts = Operation::new("record_convert of no kind").can(&checks);
    let records = under_any_kind(rng);
    let random = (0..100).map(|_| rng.bits() as u16);
    let asked = FIELDS.into_iter().chain(random);
    for kind in asked.filter(|&kind| !records::known(kind)) {
        for record in &records {
            convert(&mut converts, kind, record, record.len())?;
            convert(&mut converts, kind, &record[..6], 0)?;
        }
        for end in 0..6 {
            convert(&mut converts, kind, &records[0][..end], end)?;
        }
        // the number that is asked for stands in the record
        let record = under(kind, &records[0]);
        convert(&mut converts, kind, &record, record.len())?;
    }
    converts.same(REFUSED, &[LENGTH, KIND])
}
