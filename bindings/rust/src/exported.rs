//! The functions of `include/register.h`, which has the duties that the comments
//! here name. All unsafe code of this crate is in this file.

#![allow(unsafe_code)]

use crate::OUTPUT;

extern "C" {
    fn register_run(input: *const u8, length: usize, output: *mut u8) -> usize;
    fn register_write_job(
        figures: *const u64,
        count: usize,
        output: *mut u8,
        size: usize,
        length: *mut usize,
    ) -> u64;
}

/// `register_run`: how many bytes were written.
pub fn run(input: &[u8], output: &mut [u8; OUTPUT]) -> usize {
    // SAFETY: the duties of the header, in its order.
    // input: a slice has `length` readable bytes with values; it is never NULL.
    // output: the array has REGISTER_OUTPUT_SIZE writable bytes, and is not NULL.
    // Overlap, other reads and writes: `output` is borrowed by this call alone,
    // and `input` is shared, so that nothing writes it meanwhile.
    // Stack: one that has too little left ends at its guard page, as any does.
    unsafe { register_run(input.as_ptr(), input.len(), output.as_mut_ptr()) }
}

/// `register_write_job`: the number answered, and the length.
pub fn write_job(figures: &[u64], output: &mut [u8]) -> (u64, usize) {
    // No text has this length: the function has to set it.
    let mut length = usize::MAX;
    // SAFETY: the duties of the header, in its order.
    // figures: a slice has `count` readable figures with values, aligned.
    // output: a slice has `size` writable bytes.
    // length: a local has room for one size_t, aligned, and is not NULL.
    // Overlap, other reads and writes: `output` and `length` are borrowed by this
    // call alone, and `figures` is shared, so that nothing writes it meanwhile.
    // Stack: one that has too little left ends at its guard page, as any does.
    let number = unsafe {
        register_write_job(
            figures.as_ptr(),
            figures.len(),
            output.as_mut_ptr(),
            output.len(),
            &mut length,
        )
    };
    (number, length)
}
