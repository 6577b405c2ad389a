//! The proved library's functions, as include/xelamphoun.h declares them, and safe names for them.

pub mod filter;
pub mod interleaved;
pub mod records;

use driver::sets::Set;

mod c {
    extern "C" {
        pub fn xel_boundary(i: usize) -> f64;
        pub fn xel_energy(i: usize) -> f64;
        pub fn xel_find_histogram_index(energy: f64) -> usize;
        pub fn xel_reading(energy: f64, tenths: *mut i32) -> u8;
        pub fn xel_histogram_add(counters: *mut u32, counters_len: usize, energy: f64) -> u8;
        pub fn xel_histogram_merge(
            into: *mut u32,
            into_len: usize,
            from: *const u32,
            from_len: usize,
        ) -> u8;
        pub fn xel_histogram_reset(counters: *mut u32, counters_len: usize) -> u8;
        pub fn xel_queue_add(
            maximum: usize,
            head: *mut usize,
            held: *mut usize,
            store: *mut f64,
            store_len: usize,
            energy: f64,
        ) -> u8;
        pub fn xel_gate(
            entries: *const usize,
            entries_len: usize,
            counters: *const u32,
            counters_len: usize,
            energies: *const f64,
            energies_len: usize,
            blocks: *mut u64,
            sum: *mut f64,
        ) -> u8;
        pub fn xel_gated_energy(
            entries: *const usize,
            entries_len: usize,
            counters: *const u32,
            counters_len: usize,
            energies: *const f64,
            energies_len: usize,
            energy: *mut f64,
        ) -> u8;
        pub fn xel_relative_threshold(
            entry: *const usize,
            entry_len: usize,
            counters: *const u32,
            counters_len: usize,
            energies: *const f64,
            energies_len: usize,
            value: *mut f64,
        ) -> u8;
        pub fn xel_loudness_range(
            entries: *const usize,
            entries_len: usize,
            counters: *const u32,
            counters_len: usize,
            energies: *const f64,
            energies_len: usize,
            work: *mut f64,
            work_len: usize,
            low: *mut f64,
            high: *mut f64,
        ) -> u8;
    }
}

// Safety, of each: the function is total and touches no memory beyond what its pointers lend.

#[inline]
pub fn boundary(i: usize) -> f64 {
    unsafe { c::xel_boundary(i) }
}

#[inline]
pub fn energy(i: usize) -> f64 {
    unsafe { c::xel_energy(i) }
}

#[inline]
pub fn find_histogram_index(energy: f64) -> usize {
    unsafe { c::xel_find_histogram_index(energy) }
}

/// The refusal's number, or 0 with the reading in `tenths`.
#[inline]
pub fn reading(energy: f64, tenths: &mut i32) -> u8 {
    unsafe { c::xel_reading(energy, tenths) }
}

// Each of those below answers 0 or the refusal's number.

#[inline]
pub fn histogram_add(counters: &mut [u32], energy: f64) -> u8 {
    unsafe { c::xel_histogram_add(counters.as_mut_ptr(), counters.len(), energy) }
}

#[inline]
pub fn histogram_merge(into: &mut [u32], from: &[u32]) -> u8 {
    unsafe { c::xel_histogram_merge(into.as_mut_ptr(), into.len(), from.as_ptr(), from.len()) }
}

#[inline]
pub fn histogram_reset(counters: &mut [u32]) -> u8 {
    unsafe { c::xel_histogram_reset(counters.as_mut_ptr(), counters.len()) }
}

#[inline]
pub fn queue_add(
    maximum: usize,
    head: &mut usize,
    held: &mut usize,
    store: &mut [f64],
    energy: f64,
) -> u8 {
    unsafe { c::xel_queue_add(maximum, head, held, store.as_mut_ptr(), store.len(), energy) }
}

// The questions over a set: `set` is what they all begin with, pointers and lengths.

macro_rules! asked {
    ($question:ident, $set:expr, $($out:expr),*) => {{
        let set: &Set = $set;
        let (entries, counters, energies) = (&set.entries, &set.counters, &set.energies);
        unsafe {
            c::$question(
                entries.as_ptr(),
                entries.len(),
                counters.as_ptr(),
                counters.len(),
                energies.as_ptr(),
                energies.len(),
                $($out),*
            )
        }
    }};
}

#[inline]
pub fn gate(set: &Set, blocks: &mut u64, sum: &mut f64) -> u8 {
    asked!(xel_gate, set, blocks, sum)
}

#[inline]
pub fn gated_energy(set: &Set, energy: &mut f64) -> u8 {
    asked!(xel_gated_energy, set, energy)
}

#[inline]
pub fn relative_threshold(set: &Set, value: &mut f64) -> u8 {
    asked!(xel_relative_threshold, set, value)
}

/// The codes of a range that answers no energies.
pub const NOTHING: u8 = 128;
pub const NOT_A_NUMBER: u8 = 129;

#[inline]
pub fn loudness_range(set: &Set, work: &mut [f64], low: &mut f64, high: &mut f64) -> u8 {
    let length = work.len();
    asked!(
        xel_loudness_range,
        set,
        work.as_mut_ptr(),
        length,
        low,
        high
    )
}
