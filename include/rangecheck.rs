//! The C functions of the static library for Rust, each behind a safe function. rangecheck.h says what they do.

mod c {
    extern "C" {
        pub fn rangecheck_record(record: *const u8, record_length: usize) -> u32;

        pub fn rangecheck_job(
            input: *const u8,
            input_length: usize,
            output: *mut u8,
            output_length: usize,
        ) -> i64;

        pub fn rangecheck_enclose(
            form: u8,
            record: *const u8,
            record_length: usize,
            cells: *const u8,
            cells_length: usize,
            ends: *mut i64,
            ends_length: usize,
        ) -> u32;
    }
}

/// An output buffer of so many bytes holds the answer of every job; rangecheck.h argues the figure.
pub const ENOUGH: usize = 1_365 * 76;

/// 0, or the number of the refusal.
pub fn record(bytes: &[u8]) -> u32 {
    // The pointer and the length are those of one slice, which is only read.
    unsafe { c::rangecheck_record(bytes.as_ptr(), bytes.len()) }
}

/// The number of bytes that were written to the output, or a negative number.
pub fn job(input: &[u8], output: &mut [u8]) -> i64 {
    // Both pairs are those of a slice, and a slice that may change overlaps no other.
    unsafe {
        c::rangecheck_job(
            input.as_ptr(),
            input.len(),
            output.as_mut_ptr(),
            output.len(),
        )
    }
}

/// 0, or the number of the refusal.
pub fn enclose(form: u8, record: &[u8], cells: &[u8], ends: &mut [i64]) -> u32 {
    // As above.
    unsafe {
        c::rangecheck_enclose(
            form,
            record.as_ptr(),
            record.len(),
            cells.as_ptr(),
            cells.len(),
            ends.as_mut_ptr(),
            ends.len(),
        )
    }
}
