//! What both programs share: random numbers, the energies and sounds that are tried, the Rust's answers,
//! and document 01's words where the Rust has none.

pub mod energies;
pub mod filters;
pub mod histories;
pub mod libebur128;
pub mod oracle;
pub mod refusals;
pub mod rng;
pub mod sets;
pub mod shown;
pub mod signals;
pub mod sounds;
pub mod words;
