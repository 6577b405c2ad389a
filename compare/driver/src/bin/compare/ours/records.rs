//! Records, read, written and converted, each by the number of its kind. Each answers 0 or the refusal's
//! number.

use driver::words::Queue;

mod c {
    extern "C" {
        pub fn xel_histogram_read(
            bytes: *const u8,
            bytes_len: usize,
            counters: *mut u32,
            counters_len: usize,
        ) -> u8;
        pub fn xel_third_histogram_read(
            bytes: *const u8,
            bytes_len: usize,
            counters: *mut u32,
            counters_len: usize,
        ) -> u8;
        pub fn xel_histogram_write(
            counters: *const u32,
            counters_len: usize,
            out: *mut u8,
            out_len: usize,
            written: *mut usize,
        ) -> u8;
        pub fn xel_third_histogram_write(
            counters: *const u32,
            counters_len: usize,
            out: *mut u8,
            out_len: usize,
            written: *mut usize,
        ) -> u8;
        pub fn xel_queue_read(
            bytes: *const u8,
            bytes_len: usize,
            maximum: *mut usize,
            head: *mut usize,
            held: *mut usize,
            store: *mut f64,
            store_len: usize,
        ) -> u8;
        pub fn xel_third_queue_read(
            bytes: *const u8,
            bytes_len: usize,
            maximum: *mut usize,
            head: *mut usize,
            held: *mut usize,
            store: *mut f64,
            store_len: usize,
        ) -> u8;
        pub fn xel_queue_write(
            maximum: usize,
            head: usize,
            held: usize,
            store: *const f64,
            store_len: usize,
            out: *mut u8,
            out_len: usize,
            written: *mut usize,
        ) -> u8;
        pub fn xel_third_queue_write(
            maximum: usize,
            head: usize,
            held: usize,
            store: *const f64,
            store_len: usize,
            out: *mut u8,
            out_len: usize,
            written: *mut usize,
        ) -> u8;
        pub fn xel_record_convert(
            kind: u16,
            bytes: *const u8,
            bytes_len: usize,
            out: *mut u8,
            out_len: usize,
            written: *mut usize,
        ) -> u8;
    }
}

// Safety, of each: the function is total and touches no memory beyond what its pointers lend.

#[inline]
pub fn histogram_read(kind: u16, bytes: &[u8], counters: &mut [u32]) -> u8 {
    let read = match kind {
        1 => c::xel_histogram_read,
        257 => c::xel_third_histogram_read,
        _ => panic!("kind {kind} is not that of a histogram"),
    };
    let (places, number) = (counters.as_mut_ptr(), counters.len());
    unsafe { read(bytes.as_ptr(), bytes.len(), places, number) }
}

#[inline]
pub fn histogram_write(kind: u16, counters: &[u32], out: &mut [u8], written: &mut usize) -> u8 {
    let write = match kind {
        1 => c::xel_histogram_write,
        257 => c::xel_third_histogram_write,
        _ => panic!("kind {kind} is not that of a histogram"),
    };
    let (places, number) = (counters.as_ptr(), counters.len());
    unsafe { write(places, number, out.as_mut_ptr(), out.len(), written) }
}

/// The queue's numbers and store are those of `queue`.
#[inline]
pub fn queue_read(kind: u16, bytes: &[u8], queue: &mut Queue) -> u8 {
    let read = match kind {
        2 => c::xel_queue_read,
        258 => c::xel_third_queue_read,
        _ => panic!("kind {kind} is not that of a queue"),
    };
    let (places, number) = (queue.store.as_mut_ptr(), queue.store.len());
    unsafe {
        read(
            bytes.as_ptr(),
            bytes.len(),
            &mut queue.maximum,
            &mut queue.head,
            &mut queue.held,
            places,
            number,
        )
    }
}

#[inline]
pub fn queue_write(kind: u16, queue: &Queue, out: &mut [u8], written: &mut usize) -> u8 {
    let write = match kind {
        2 => c::xel_queue_write,
        258 => c::xel_third_queue_write,
        _ => panic!("kind {kind} is not that of a queue"),
    };
    unsafe {
        write(
            queue.maximum,
            queue.head,
            queue.held,
            queue.store.as_ptr(),
            queue.store.len(),
            out.as_mut_ptr(),
            out.len(),
            written,
        )
    }
}

/// From the kind, which may be any number, to the other kind of the same content.
#[inline]
pub fn convert(kind: u16, bytes: &[u8], out: &mut [u8], written: &mut usize) -> u8 {
    let (places, room) = (out.as_mut_ptr(), out.len());
    unsafe { c::xel_record_convert(kind, bytes.as_ptr(), bytes.len(), places, room, written) }
}
