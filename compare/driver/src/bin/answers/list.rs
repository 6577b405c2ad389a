//! The fixed lists that the proved programs `program_replay`, `program_replay_histories`,
//! `program_replay_filter` and `program_replay_records` run with no
//! Rust at hand. Little-endian, sections to the end: u32 operation, u32 number of cases, u32 bytes a
//! case, the operation's name in 20 bytes, then the cases. Beside each list, the lines that its program
//! prints when every answer is the same. A new operation is a new function here or in a module below,
//! and a line in `sections`.

mod filter;
mod histories;
mod questions;
mod records;

use driver::energies;
use driver::oracle::{self, BOUNDARIES, ENERGIES};
use driver::rng::Rng;

const SEED: u64 = 128;
const BINS: usize = 4096;
const READINGS: usize = 8192;

/// The bytes of an operation's name, spaces after it.
const NAME: usize = 20;

/// The programs, each with a list of its own.
pub const PROGRAMS: [&str; 4] = [
    "program_replay",
    "program_replay_histories",
    "program_replay_filter",
    "program_replay_records",
];

/// An operation's cases, under the name that the program prints.
struct Section {
    operation: u32,
    name: &'static str,
    cases: Vec<Vec<u8>>,
}

/// What a program replays.
fn sections(program: &str) -> Vec<Section> {
    let named = match program {
        "program_replay" => vec![
            (1, "tables", tables()),
            (2, "bins", bins()),
            (3, "readings", readings()),
            (7, "questions", questions::questions()),
        ],
        "program_replay_histories" => vec![
            (4, "histogram adds", histories::histogram_adds()),
            (5, "merges", histories::merges()),
            (6, "queue adds", histories::queue_adds()),
        ],
        "program_replay_filter" => vec![
            (8, "phases", filter::phases()),
            (9, "filter calls", filter::calls()),
            (10, "impulses", filter::impulses()),
        ],
        _ => vec![
            (11, "histogram reads", records::histograms::reads()),
            (12, "histogram writes", records::histograms::writes()),
            (13, "queue reads", records::queues::reads()),
            (14, "queue writes", records::queues::writes()),
            (15, "histogram converts", records::histograms::converts()),
            (16, "queue converts", records::queues::converts()),
        ],
    };
    named
        .into_iter()
        .map(|(operation, name, cases)| Section {
            operation,
            name,
            cases,
        })
        .collect()
}

/// A program's list, and what it prints over it.
pub fn list_and_lines(program: &str) -> (Vec<u8>, String) {
    let sections = sections(program);
    let line = |section: &Section| {
        let (name, cases) = (section.name, section.cases.len());
        format!("{name:NAME$}{cases} same\n")
    };
    (
        sections.iter().flat_map(Section::bytes).collect(),
        sections.iter().map(line).collect(),
    )
}

impl Section {
    /// Each case is as long as the first.
    fn bytes(&self) -> Vec<u8> {
        let size = self.cases[0].len();
        assert!(self.cases.iter().all(|case| case.len() == size));
        let head = [self.operation, self.cases.len() as u32, size as u32];
        let head = head.iter().flat_map(|number| number.to_le_bytes());
        let name = format!("{:NAME$}", self.name).into_bytes();
        assert!(name.len() == NAME && name.ends_with(b" "));
        head.chain(name).chain(self.cases.concat()).collect()
    }
}

/// Operation 1: u16 table (0 boundaries, 1 energies), u16 index, u64 float pattern.
fn tables() -> Vec<Vec<u8>> {
    let entries = |table: u16, values: &'static [f64]| {
        values.iter().enumerate().map(move |(i, value)| {
            let mut case = table.to_le_bytes().to_vec();
            case.extend((i as u16).to_le_bytes());
            case.extend(value.to_bits().to_le_bytes());
            case
        })
    };
    entries(0, &BOUNDARIES)
        .chain(entries(1, &ENERGIES))
        .collect()
}

/// Operation 2: u64 float pattern of the energy, u16 bin. Each boundary and its neighbours, the
/// specials, then random energies.
fn bins() -> Vec<Vec<u8>> {
    let chosen = BOUNDARIES
        .iter()
        .copied()
        .flat_map(energies::with_neighbours);
    filled(chosen, BINS)
        .map(|energy| {
            let mut case = energy.to_bits().to_le_bytes().to_vec();
            case.extend((oracle::bin(energy) as u16).to_le_bytes());
            case
        })
        .collect()
}

/// Operation 3: u64 float pattern of the energy, u16 refusal (0: answered), u16 tenths + 700 (0 where
/// refused). Each boundary, each table energy and their neighbours, the specials, then random energies.
fn readings() -> Vec<Vec<u8>> {
    let chosen = energies::table_values().flat_map(energies::with_neighbours);
    filled(chosen, READINGS)
        .map(|energy| {
            let (refusal, reading) = match oracle::reading(energy) {
                Ok(tenths) => (0, tenths + 700),
                Err(number) => (u16::from(number), 0),
            };
            let mut case = energy.to_bits().to_le_bytes().to_vec();
            case.extend(refusal.to_le_bytes());
            case.extend((reading as u16).to_le_bytes());
            case
        })
        .collect()
}

/// The chosen energies, the specials, and random ones up to `number`: of any kind and within the
/// table in turn.
fn filled(chosen: impl Iterator<Item = f64>, number: usize) -> impl Iterator<Item = f64> {
    let mut energies: Vec<f64> = chosen.chain(energies::specials()).collect();
    assert!(energies.len() <= number);
    let mut rng = Rng::new(SEED);
    while energies.len() < number {
        energies.push(match energies.len() % 2 {
            0 => energies::any(&mut rng),
            _ => energies::in_table(&mut rng),
        });
    }
    energies.into_iter()
}
