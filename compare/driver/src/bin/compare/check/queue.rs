//! The queue: its numbers and its whole store as document 01 says, its energies as the Rust's queue
//! shows them.

use driver::energies;
use driver::histories::{self, Ballast};
use driver::refusals::{Check, STORE};
use driver::rng::Rng;
use driver::words::{self, Queue};

use super::{inputs, shown, Difference, Operation};
use crate::ours;

const RANDOM_RUNS: usize = 30_000;
const RANDOM_STATES: usize = 100_000;
const RANDOM_RULES: usize = 70_000;

pub fn run(seed: u64) -> Result<(), Difference> {
    runs(&mut Rng::new(seed))?;
    states(&mut Rng::new(seed))?;
    rules(&mut Rng::new(seed))
}

/// What an add comes to that is not refused, and the checks that refuse one. A held energy below
/// boundary 0 does not: an add looks at none.
const ADDED: [&str; 4] = [
    "put behind the newest",
    "put, the oldest dropped",
    "dropped, below boundary 0",
    "NaN, put",
];
const CHECKS: [Check; 4] = [words::MAXIMUM, words::UNLIKE, words::HEAD, words::HELD];

fn added(queue: &Queue, energy: f64) -> &'static str {
    ADDED[if energy.is_nan() {
        3
    } else if words::dropped(energy) {
        2
    } else {
        usize::from(queue.held == queue.maximum)
    }]
}

fn operation() -> Operation {
    Operation::new("queue_add").can(&ADDED).can(&CHECKS)
}

/// Adds on our side and in document 01's words, and looks at the numbers and the whole store.
fn add_both(op: &mut Operation, queue: &mut Queue, energy: f64) -> Result<(), Difference> {
    let mut ours = queue.clone();
    let number = ours::queue_add(
        ours.maximum,
        &mut ours.head,
        &mut ours.held,
        &mut ours.store,
        energy,
    );
    let given = (queue.maximum, queue.head, queue.held, queue.store.len());
    let input = || format!("(maximum, head, held, store) {given:?}, {}", shown(energy));
    op.saw_check(queue.check());
    if queue.suits() {
        op.saw(added(queue, energy));
    }
    op.answer(input, number, queue.add(energy))?;
    let numbers = (ours.head, ours.held) == (queue.head, queue.held);
    op.also(input, "head and held", numbers)?;
    let mut places = ours.store.iter().zip(&queue.store);
    let places = places.all(|(a, b)| a.to_bits() == b.to_bits());
    op.also(input, "the store", places)
}

/// A store whose places show where they are touched: NaNs of their own.
fn marked(maximum: usize) -> Vec<f64> {
    let mark = |i| f64::from_bits(0xFFF8_1234_0000_0000 | i as u64);
    (0..maximum).map(mark).collect()
}

/// From an empty queue on, with energies of every kind.
fn runs(rng: &mut Rng) -> Result<(), Difference> {
    let ballast = Ballast::new();
    let mut op = operation();
    for (maximum, random, look) in [
        (1, RANDOM_RUNS, 1),
        (2, RANDOM_RUNS, 1),
        (3, RANDOM_RUNS, 1),
        (7, RANDOM_RUNS, 1),
        (100, RANDOM_RUNS, 7),
        (36_000, 60_000, 997),
    ] {
        let mut queue = Queue {
            maximum,
            head: 0,
            held: 0,
            store: marked(maximum),
        };
        let mut rust = histories::queue(maximum, []);
        // The last energies are within the table: what the Rust cannot show beside an infinity or a
        // NaN leaves the queue one by one, and the rest is shown again.
        let last = (0..2 * maximum).map(|i| energies::in_bin(i % 1000, &mut Rng::new(i as u64)));
        for (i, energy) in inputs(random / 2, rng).chain(last).enumerate() {
            add_both(&mut op, &mut queue, energy)?;
            rust.add(energy);
            if i % look == 0 {
                let expected = Ballast::expected(&queue.energies());
                let same = ballast.shown(&rust) == expected;
                op.also(|| shown(energy), "what the Rust's queue shows", same)?;
            }
        }
    }
    op.same(
        "document 01 and the Rust's queue: maximum 1, 2, 3, 7, 100 and 36,000, from empty",
        &[],
    )
}

/// One energy into a queue with any head and any number held: the Rust's is filled with the same
/// energies first. These all lie within the table, so that it shows them all.
fn states(rng: &mut Rng) -> Result<(), Difference> {
    let ballast = Ballast::new();
    let mut op = operation();
    for i in 0..RANDOM_STATES {
        let maximum = 1 + rng.below([1, 2, 3, 8, 40][i % 5]) as usize;
        let held = match rng.below(3) {
            0 => maximum,
            _ => rng.below(maximum as u64 + 1) as usize,
        };
        let mut queue = Queue {
            maximum,
            head: rng.below(maximum as u64) as usize,
            held,
            store: (0..maximum).map(|_| energies::in_table(rng)).collect(),
        };
        let mut rust = histories::queue(maximum, queue.energies());
        let energy = match i % 4 {
            0 => energies::any(rng),
            _ => energies::in_table(rng),
        };
        add_both(&mut op, &mut queue, energy)?;
        rust.add(energy);
        let same = ballast.shown(&rust) == Ballast::expected(&queue.energies());
        op.also(|| shown(energy), "what the Rust's queue shows", same)?;
    }
    op.same(
        "document 01 and the Rust's queue: any head, any number held, one energy more",
        &[],
    )
}

/// Numbers on both sides of each rule, with stores of every length.
fn rules(rng: &mut Rng) -> Result<(), Difference> {
    let mut op = operation();
    let stores = [0, 1, 2, 7, 35_999, 36_000, 36_001];
    let pick = |rng: &mut Rng, near: usize| {
        let numbers = [
            0,
            1,
            near.wrapping_sub(1),
            near,
            near.wrapping_add(1),
            36_000,
            36_001,
            usize::MAX,
        ];
        numbers[rng.below(8) as usize]
    };
    for i in 0..RANDOM_RULES {
        let places = stores[if i % 64 == 0 {
            rng.below(7)
        } else {
            rng.below(4)
        } as usize];
        let maximum = if rng.below(2) == 0 {
            places
        } else {
            pick(rng, places)
        };
        let mut queue = Queue {
            maximum,
            head: pick(rng, maximum),
            held: pick(rng, maximum),
            store: marked(places),
        };
        let specials = energies::specials();
        let energy = specials[rng.below(specials.len() as u64) as usize];
        add_both(&mut op, &mut queue, energy)?;
    }
    op.same(
        "document 01: numbers around each rule, stores of 0 to 36,001",
        &[STORE],
    )
}
