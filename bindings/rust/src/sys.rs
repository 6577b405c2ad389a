//! The functions of the archive, as include/xelamphoun.h describes them. tools/check-header holds every line against the
//! source. A slice is a pointer and its length; a fixed array and a number to write are references, which are never null.
//!
//! They touch no memory beyond what they are lent and answer for every value, so a call is sound where each pointer has as
//! many elements as its length says, and what may be written overlaps nothing else that is lent.

extern "C" {
    pub fn xel_boundary(i: usize) -> f64;
    pub fn xel_energy(i: usize) -> f64;
    pub fn xel_find_histogram_index(energy: f64) -> usize;
    pub fn xel_reading(energy: f64, tenths: &mut i32) -> u8;

    pub fn xel_process_i16(
        channels: usize,
        rate: u32,
        on: u8,
        a: &[f64; 5],
        b: &[f64; 5],
        state: &mut [f64; 40],
        peaks: &mut [f64; 8],
        memory: &mut [f32; 184],
        true_peaks: &mut [f32; 8],
        data: *const i16,
        data_len: usize,
        map: *const u8,
        map_len: usize,
        dest: *mut f64,
        dest_len: usize,
        start: usize,
    ) -> u8;
    pub fn xel_process_f32(
        channels: usize,
        rate: u32,
        on: u8,
        a: &[f64; 5],
        b: &[f64; 5],
        state: &mut [f64; 40],
        peaks: &mut [f64; 8],
        memory: &mut [f32; 184],
        true_peaks: &mut [f32; 8],
        data: *const f32,
        data_len: usize,
        map: *const u8,
        map_len: usize,
        dest: *mut f64,
        dest_len: usize,
        start: usize,
    ) -> u8;
    pub fn xel_seed_i16(
        channels: usize,
        rate: u32,
        on: u8,
        a: &[f64; 5],
        state: &mut [f64; 40],
        memory: &mut [f32; 184],
        data: *const i16,
        data_len: usize,
        map: *const u8,
        map_len: usize,
    ) -> u8;
    pub fn xel_seed_f32(
        channels: usize,
        rate: u32,
        on: u8,
        a: &[f64; 5],
        state: &mut [f64; 40],
        memory: &mut [f32; 184],
        data: *const f32,
        data_len: usize,
        map: *const u8,
        map_len: usize,
    ) -> u8;

    pub fn xel_interleaved_channels_i16(
        data: *const i16,
        data_len: usize,
        channels: usize,
        first: usize,
        end: usize,
    ) -> usize;
    pub fn xel_interleaved_frames_i16(
        data: *const i16,
        data_len: usize,
        channels: usize,
        first: usize,
        end: usize,
        frames: &mut usize,
    ) -> u8;
    pub fn xel_interleaved_sample_i16(
        data: *const i16,
        data_len: usize,
        channels: usize,
        first: usize,
        end: usize,
        channel: usize,
        frame: usize,
        sample: &mut f64,
    ) -> u8;
    pub fn xel_interleaved_channels_f32(
        data: *const f32,
        data_len: usize,
        channels: usize,
        first: usize,
        end: usize,
    ) -> usize;
    pub fn xel_interleaved_frames_f32(
        data: *const f32,
        data_len: usize,
        channels: usize,
        first: usize,
        end: usize,
        frames: &mut usize,
    ) -> u8;
    pub fn xel_interleaved_sample_f32(
        data: *const f32,
        data_len: usize,
        channels: usize,
        first: usize,
        end: usize,
        channel: usize,
        frame: usize,
        sample: &mut f64,
    ) -> u8;

    pub fn xel_phases_fourfold(samples: &[f32; 12], out: &mut [f32; 4]);
    pub fn xel_phases_twofold(samples: &[f32; 24], out: &mut [f32; 2]);

    pub fn xel_histogram_add(counters: *mut u32, counters_len: usize, energy: f64) -> u8;
    pub fn xel_histogram_merge(
        into: *mut u32,
        into_len: usize,
        from: *const u32,
        from_len: usize,
    ) -> u8;
    pub fn xel_histogram_reset(counters: *mut u32, counters_len: usize) -> u8;
    pub fn xel_queue_add(
        maximum: usize,
        head: &mut usize,
        held: &mut usize,
        store: *mut f64,
        store_len: usize,
        energy: f64,
    ) -> u8;

    pub fn xel_gate(
        entries: *const usize,
        entries_len: usize,
        counters: *const u32,
        counters_len: usize,
        energies: *const f64,
        energies_len: usize,
        blocks: &mut u64,
        sum: &mut f64,
    ) -> u8;
    pub fn xel_gated_energy(
        entries: *const usize,
        entries_len: usize,
        counters: *const u32,
        counters_len: usize,
        energies: *const f64,
        energies_len: usize,
        energy: &mut f64,
    ) -> u8;
    pub fn xel_relative_threshold(
        entry: *const usize,
        entry_len: usize,
        counters: *const u32,
        counters_len: usize,
        energies: *const f64,
        energies_len: usize,
        value: &mut f64,
    ) -> u8;
    pub fn xel_loudness_range(
        entries: *const usize,
        entries_len: usize,
        counters: *const u32,
        counters_len: usize,
        energies: *const f64,
        energies_len: usize,
        work: *mut f64,
        work_len: usize,
        low: &mut f64,
        high: &mut f64,
    ) -> u8;

    pub fn xel_histogram_read(
        bytes: *const u8,
        bytes_len: usize,
        counters: *mut u32,
        counters_len: usize,
    ) -> u8;
    pub fn xel_third_histogram_read(
        bytes: *const u8,
        bytes_len: usize,
        counters: *mut u32,
        counters_len: usize,
    ) -> u8;
    pub fn xel_histogram_write(
        counters: *const u32,
        counters_len: usize,
        out: *mut u8,
        out_len: usize,
        written: &mut usize,
    ) -> u8;
    pub fn xel_third_histogram_write(
        counters: *const u32,
        counters_len: usize,
        out: *mut u8,
        out_len: usize,
        written: &mut usize,
    ) -> u8;
    pub fn xel_queue_read(
        bytes: *const u8,
        bytes_len: usize,
        maximum: &mut usize,
        head: &mut usize,
        held: &mut usize,
        store: *mut f64,
        store_len: usize,
    ) -> u8;
    pub fn xel_third_queue_read(
        bytes: *const u8,
        bytes_len: usize,
        maximum: &mut usize,
        head: &mut usize,
        held: &mut usize,
        store: *mut f64,
        store_len: usize,
    ) -> u8;
    pub fn xel_queue_write(
        maximum: usize,
        head: usize,
        held: usize,
        store: *const f64,
        store_len: usize,
        out: *mut u8,
        out_len: usize,
        written: &mut usize,
    ) -> u8;
    pub fn xel_third_queue_write(
        maximum: usize,
        head: usize,
        held: usize,
        store: *const f64,
        store_len: usize,
        out: *mut u8,
        out_len: usize,
        written: &mut usize,
    ) -> u8;
    pub fn xel_record_convert(
        kind: u16,
        bytes: *const u8,
        bytes_len: usize,
        out: *mut u8,
        out_len: usize,
        written: &mut usize,
    ) -> u8;
}
