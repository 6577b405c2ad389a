//! Document 01's words on histories, where the Rust has no say: the refusals, counters of 32 bits,
//! merging, and the places of a queue's store. Those on the range, the filter and records are beside them.

pub mod filter;
pub mod range;
pub mod records;

use crate::oracle::{self, BOUNDARIES};
use crate::refusals::{Check, FULL, STORE};

const LONGEST: usize = 36_000;

/// Step 7: "An energy below boundary 0 is dropped, with answer done."
pub fn dropped(energy: f64) -> bool {
    energy < BOUNDARIES[0]
}

/// Step 7: the energy is counted in its bin.
pub fn histogram_add(counters: &mut [u32], energy: f64) -> u8 {
    if counters.len() != 1000 {
        return STORE;
    }
    if dropped(energy) {
        return 0;
    }
    let counter = &mut counters[oracle::bin(energy)];
    match counter.checked_add(1) {
        Some(count) => *counter = count,
        None => return FULL,
    }
    0
}

/// "Merge adds counters into one lent store, or FULL and nothing is added."
pub fn histogram_merge(into: &mut [u32], from: &[u32]) -> u8 {
    if into.len() != 1000 || from.len() != 1000 {
        return STORE;
    }
    let pairs = into.iter().zip(from);
    let sums: Option<Vec<u32>> = pairs.map(|(a, b)| a.checked_add(*b)).collect();
    match sums {
        Some(sums) => into.copy_from_slice(&sums),
        None => return FULL,
    }
    0
}

pub fn histogram_reset(counters: &mut [u32]) -> u8 {
    if counters.len() != 1000 {
        return STORE;
    }
    counters.fill(0);
    0
}

/// The checks of STORE on a queue.
pub const MAXIMUM: Check = Check::new(STORE, "maximum outside 1..36,000");
pub const UNLIKE: Check = Check::new(STORE, "maximum unlike its store");
pub const HEAD: Check = Check::new(STORE, "head not below maximum");
pub const HELD: Check = Check::new(STORE, "held above maximum");
pub const BELOW: Check = Check::new(STORE, "a held energy below boundary 0");

/// A queue over its store.
#[derive(Clone, Debug)]
pub struct Queue {
    pub maximum: usize,
    pub head: usize,
    pub held: usize,
    pub store: Vec<f64>,
}

impl Queue {
    pub fn suits(&self) -> bool {
        self.check().is_none()
    }

    /// Which of a queue's rules is broken.
    pub fn check(&self) -> Option<Check> {
        if !(1..=LONGEST).contains(&self.maximum) {
            Some(MAXIMUM)
        } else if self.maximum != self.store.len() {
            Some(UNLIKE)
        } else if self.head >= self.maximum {
            Some(HEAD)
        } else if self.held > self.maximum {
            Some(HELD)
        } else {
            None
        }
    }

    /// The same, and "in a question or writer, a held energy below boundary 0".
    pub fn check_held(&self) -> Option<Check> {
        let below = || self.energies().into_iter().any(dropped).then_some(BELOW);
        self.check().or_else(below)
    }

    /// The held energies, oldest first.
    pub fn energies(&self) -> Vec<f64> {
        let place = |i| self.store[(self.head + i) % self.maximum];
        (0..self.held).map(place).collect()
    }

    /// "A new energy goes to place (head + held) mod maximum; a full queue drops its oldest, and head
    /// moves on by one, mod maximum. Other places stay."
    pub fn add(&mut self, energy: f64) -> u8 {
        if let Some(check) = self.check() {
            return check.number;
        }
        if dropped(energy) {
            return 0;
        }
        self.store[(self.head + self.held) % self.maximum] = energy;
        if self.held < self.maximum {
            self.held += 1;
        } else {
            self.head = (self.head + 1) % self.maximum;
        }
        0
    }
}
