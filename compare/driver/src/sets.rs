//! Sets of histories, as both sides take them: five numbers an entry over two slices, and the Rust's
//! `History` values.

use ebur128::history::History;

use crate::histories;
use crate::oracle::ENERGIES;
use crate::refusals::{self, Check, SET};
use crate::words::{self, Queue};

const HISTOGRAM: usize = 0;
const QUEUE: usize = 1;

/// The checks of SET. The first and the third are the header's: a set is five numbers an entry there.
pub const UNEVEN: Check = Check::new(SET, "not five numbers an entry");
pub const TOO_MANY: Check = Check::new(SET, "more than 16 histories");
pub const NO_KIND: Check = Check::new(SET, "neither histogram nor queue");
pub const OUTSIDE: Check = Check::new(SET, "reaches outside its slice");

/// All that refuses a set. A queue cannot be unlike its store there: the store is as long as its maximum.
pub const CHECKS: [Check; 8] = [
    UNEVEN,
    TOO_MANY,
    NO_KIND,
    OUTSIDE,
    words::MAXIMUM,
    words::HEAD,
    words::HELD,
    words::BELOW,
];

/// What a question is asked about on our side.
#[derive(Clone, Debug, Default)]
pub struct Set {
    pub entries: Vec<usize>,
    pub counters: Vec<u32>,
    pub energies: Vec<f64>,
}

impl Set {
    /// One more history, at the end of the counters.
    pub fn push_histogram(&mut self, counters: &[u32]) {
        self.entries
            .extend([HISTOGRAM, self.counters.len(), 0, 0, 0]);
        self.counters.extend(counters);
    }

    /// One more history, at the end of the energies.
    pub fn push_queue(&mut self, queue: &Queue) {
        let start = self.energies.len();
        self.entries
            .extend([QUEUE, start, queue.maximum, queue.head, queue.held]);
        self.energies.extend(&queue.store);
    }

    /// One more queue with these energies, its oldest at place `head` of a store of `maximum`. Other
    /// places hold what no question may look at: an energy below boundary 0.
    pub fn push_held(&mut self, maximum: usize, head: usize, held: &[f64]) {
        let mut store = vec![-1.0; maximum];
        for (i, &energy) in held.iter().enumerate() {
            store[(head + i) % maximum] = energy;
        }
        self.push_queue(&Queue {
            maximum,
            head,
            held: held.len(),
            store,
        });
    }

    /// The number of the first refusal, or 0.
    pub fn refusal(&self) -> u8 {
        refusals::number(self.check())
    }

    /// What refuses it. Document 01: "SET comes first for every entry, then STORE entry by entry."
    pub fn check(&self) -> Option<Check> {
        let mut entries = self.entries.chunks(5);
        if self.entries.len() % 5 != 0 {
            return Some(UNEVEN);
        }
        if entries.len() > 16 {
            return Some(TOO_MANY);
        }
        let outside = entries.clone().find_map(|entry| self.outside(entry));
        outside.or_else(|| entries.find_map(|entry| self.unsound(entry)))
    }

    fn outside(&self, entry: &[usize]) -> Option<Check> {
        let (length, reach) = match entry[0] {
            HISTOGRAM => (self.counters.len(), 1000),
            QUEUE => (self.energies.len(), entry[2]),
            _ => return Some(NO_KIND),
        };
        let end = entry[1].checked_add(reach);
        end.map_or(true, |end| end > length).then_some(OUTSIDE)
    }

    fn unsound(&self, entry: &[usize]) -> Option<Check> {
        match entry[0] {
            HISTOGRAM => None,
            _ => self.queue(entry).check_held(),
        }
    }

    fn queue(&self, entry: &[usize]) -> Queue {
        Queue {
            maximum: entry[2],
            head: entry[3],
            held: entry[4],
            store: self.energies[entry[1]..entry[1] + entry[2]].to_vec(),
        }
    }

    /// All energies that its queues hold, entry by entry, oldest first.
    pub fn held(&self) -> Vec<f64> {
        let queues = self.entries.chunks(5).filter(|entry| entry[0] == QUEUE);
        queues
            .flat_map(|entry| self.queue(entry).energies())
            .collect()
    }

    /// The counters of its histograms, added bin by bin.
    pub fn counted(&self) -> [u64; 1000] {
        let mut sums = [0; 1000];
        for entry in self.entries.chunks(5).filter(|entry| entry[0] == HISTOGRAM) {
            for (sum, &count) in sums.iter_mut().zip(&self.counters[entry[1]..]) {
                *sum += u64::from(count);
            }
        }
        sums
    }

    /// Document 01's step 8: the relative threshold of all its histories, where they have blocks and their
    /// sum is a number. "Each history gives count and sum (histogram: count times energy, bins upward; queue:
    /// oldest first), added history by history from 0. Threshold = (sum / count) times the f64 nearest 1/10."
    pub fn threshold(&self) -> Option<f64> {
        let (mut count, mut sum) = (0, 0.0);
        for entry in self.entries.chunks(5) {
            let (more, energies) = match entry[0] {
                HISTOGRAM => {
                    let counters = &self.counters[entry[1]..entry[1] + 1000];
                    let products = counters.iter().zip(&ENERGIES);
                    let product = |(&count, energy): (&u32, &f64)| f64::from(count) * energy;
                    let counted = counters.iter().map(|&count| u64::from(count)).sum();
                    (counted, products.map(product).fold(0.0, |sum, x| sum + x))
                }
                _ => {
                    let held = self.queue(entry).energies();
                    (held.len() as u64, held.iter().fold(0.0, |sum, x| sum + x))
                }
            };
            count += more;
            sum += energies;
        }
        (count > 0 && !sum.is_nan()).then(|| sum / count as f64 * 0.1)
    }

    /// Whether it has a histogram.
    pub fn has_histogram(&self) -> bool {
        self.entries.chunks(5).any(|entry| entry[0] == HISTOGRAM)
    }

    /// Whether it has entries of both kinds.
    pub fn is_mixed(&self) -> bool {
        let queues = self.entries.chunks(5).filter(|entry| entry[0] == QUEUE);
        let queues = queues.count();
        queues > 0 && queues < self.entries.len() / 5
    }

    /// The same histories in the Rust; nothing refuses them.
    pub fn rust(&self) -> Vec<History> {
        let history = |entry: &[usize]| match entry[0] {
            HISTOGRAM => histories::histogram(&self.counters[entry[1]..entry[1] + 1000]),
            _ => histories::queue(entry[2], self.queue(entry).energies()),
        };
        self.entries.chunks(5).map(history).collect()
    }
}
