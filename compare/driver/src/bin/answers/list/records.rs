//! The cases of records of the four kinds, good and damaged: the words of document 01 and change request
//! 3, since no Rust reads or writes them. In each section the two kinds of its content take turns.

pub mod histograms;
pub mod queues;

use driver::rng::{pick, Rng};
use driver::words::records;

use super::SEED;

/// What stands in every byte of an output before a call.
const BYTE: u8 = 0x5A;

/// Numbers for a kind field: the four kinds, those beside them, and their two bytes turned round.
const FIELDS: [u16; 10] = [0, 1, 2, 3, 256, 257, 258, 259, 512, 513];

/// What the cases met: the kind that was asked for, and the refusal's number or 0.
type Met = Vec<(u16, u8)>;

/// So many cases, the kind's place in `kinds` alternating. Each kind has to meet every refusal, and an
/// answer too.
fn cases(
    number: usize,
    kinds: [u16; 2],
    refusals: &[u8],
    mut case: impl FnMut(usize, u16, &mut Rng, &mut Met) -> Vec<u8>,
) -> Vec<Vec<u8>> {
    let mut rng = Rng::new(SEED);
    let mut met = Vec::new();
    let cases = (0..number).map(|i| case(i / 2, kinds[i % 2], &mut rng, &mut met));
    let cases = cases.collect();
    for kind in kinds {
        for &refusal in refusals.iter().chain(&[0]) {
            let is_met = met.contains(&(kind, refusal));
            assert!(is_met, "refusal {refusal} is not met by kind {kind}");
        }
    }
    cases
}

fn number<T>(answer: &Result<T, u8>) -> u8 {
    answer.as_ref().err().copied().unwrap_or(0)
}

fn put_short(case: &mut Vec<u8>, numbers: &[usize]) {
    let short = |&number: &usize| u16::try_from(number).expect("a number of two bytes");
    case.extend(numbers.iter().map(short).flat_map(u16::to_le_bytes));
}

/// Another number in the kind field.
fn put_some_kind(bytes: &mut [u8], rng: &mut Rng) {
    bytes[4..6].copy_from_slice(&pick(&FIELDS, rng).to_le_bytes());
}

/// How a conversion begins: u16 kind asked for, u16 number of bytes given, u16 places of the output, u16
/// refusal, u16 bytes written. Answers the bytes written.
fn put_converted(
    case: &mut Vec<u8>,
    kind: u16,
    bytes: &[u8],
    out: &mut [u8],
    met: &mut Met,
) -> usize {
    let answer = records::convert(kind, bytes, out);
    let (refusal, written) = (number(&answer), answer.unwrap_or(0));
    met.push((kind, refusal));
    let numbers = [kind.into(), bytes.len(), out.len(), refusal.into(), written];
    put_short(case, &numbers);
    written
}
