//! The Rust's `History`, and what it keeps to itself: a histogram's counters, a queue's energies.
//!
//! **Counters.** `Histogram` is a newtype over `Box<[u64; 1000]>` with a private field. No public
//! function reads a counter, and filling one to 4,294,967,295 would take as many calls, so both are
//! done through a view of that box. Sizes are asserted, and check/histogram.rs shows that what is
//! written there is what the public questions answer, and that public adds arrive there.
//!
//! **Energies.** A queue is asked with a ballast beside it: a histogram with so many blocks in bin 0
//! that the gate of both lies below boundary 0. The public iterator then shows every held energy,
//! oldest first. An infinity lifts the gate, and only infinities are shown; a NaN shows nothing else.

use std::mem::{align_of, size_of};

use ebur128::history::{Histogram, History};

use crate::oracle::{BOUNDARIES, ENERGIES};

type Counters = Box<[u64; 1000]>;

const _: () = assert!(size_of::<Histogram>() == size_of::<Counters>());
const _: () = assert!(align_of::<Histogram>() == align_of::<Counters>());

/// The counters of a histogram.
pub fn counters(history: &mut History) -> &mut [u64; 1000] {
    match history {
        // Safety: the box is the only field of `Histogram` and has its size, so both stand at one
        // address; the borrow ends with that of the history.
        History::Histogram(histogram) => unsafe {
            &mut *(histogram as *mut Histogram).cast::<Counters>()
        },
        History::Queue(_) => panic!("a queue has no counters"),
    }
}

/// A histogram of these counters.
pub fn histogram(given: &[u32]) -> History {
    let mut history = History::new(true, 0);
    for (counter, &count) in counters(&mut history).iter_mut().zip(given) {
        *counter = u64::from(count);
    }
    history
}

/// A queue that holds these energies, oldest first.
pub fn queue(maximum: usize, held: impl IntoIterator<Item = f64>) -> History {
    let mut history = History::new(false, maximum);
    held.into_iter().for_each(|energy| history.add(energy));
    history
}

/// What a queue shows of its energies: the patterns of those at or above the gate that it has with
/// the ballast, oldest first, or none of them where it holds a NaN.
pub type Shown = Option<Vec<u64>>;

pub struct Ballast(History);

impl Ballast {
    const BLOCKS: u64 = 1 << 62;

    #[allow(clippy::new_without_default)]
    pub fn new() -> Self {
        let mut history = History::new(true, 0);
        counters(&mut history)[0] = Self::BLOCKS;
        Ballast(history)
    }

    /// What the Rust's queue shows.
    pub fn shown(&self, queue: &History) -> Shown {
        let set = [queue, &self.0];
        let blocks = History::iter_gating_block_count_and_energy(&set).ok()?;
        // The ballast's bins come with the count of the ballast, or 0.
        let queued = blocks.filter(|&(count, _)| count == 1);
        Some(queued.map(|(_, energy)| energy.to_bits()).collect())
    }

    /// What a queue that holds these energies has to show.
    pub fn expected(held: &[f64]) -> Shown {
        let sum = held.iter().sum::<f64>() + Self::BLOCKS as f64 * ENERGIES[0];
        let gate = sum / (held.len() as u64 + Self::BLOCKS) as f64 * 0.1;
        assert!(gate < BOUNDARIES[0] || held.iter().any(|energy| *energy > 1e9 || energy.is_nan()));
        let at_or_above = held.iter().filter(|&&energy| energy >= gate);
        (!sum.is_nan()).then(|| at_or_above.map(|energy| energy.to_bits()).collect())
    }
}
