//! The exported calls of the crate `stand`.

#[link(name = "stand", kind = "static")]
extern "C" {
    fn stand_session(
        records: *const u8,
        records_len: usize,
        lengths: *const u32,
        lengths_len: usize,
        replies: *mut u8,
        replies_len: usize,
        sizes: *const u32,
        sizes_len: usize,
        numbers: *mut u8,
        numbers_len: usize,
    ) -> u32;
    fn stand_operations(
        kinds: *const u8,
        kinds_len: usize,
        records: *const u8,
        records_len: usize,
        lengths: *const u32,
        lengths_len: usize,
        replies: *mut u8,
        replies_len: usize,
        sizes: *const u32,
        sizes_len: usize,
        numbers: *mut u8,
        numbers_len: usize,
        counts: *mut u32,
        counts_len: usize,
    ) -> u32;
    fn stand_run(
        image: *mut u8,
        image_len: usize,
        used: u32,
        records: *const u8,
        records_len: usize,
        replies: *mut u8,
        replies_len: usize,
    ) -> u64;
    fn stand_judge(
        sheet: *const u8,
        sheet_len: usize,
        number: u32,
        records: *const u8,
        records_len: usize,
    ) -> u64;
}

/// A whole session from a fresh monitor. Gives 0, or 11 with nothing written.
pub fn session(
    records: &[u8],
    lengths: &[u32],
    replies: &mut [u8],
    sizes: &[u32],
    numbers: &mut [u8],
) -> u32 {
    // The call takes any bytes; the pointers and lengths are those of slices.
    unsafe {
        stand_session(
            records.as_ptr(),
            records.len(),
            lengths.as_ptr(),
            lengths.len(),
            replies.as_mut_ptr(),
            replies.len(),
            sizes.as_ptr(),
            sizes.len(),
            numbers.as_mut_ptr(),
            numbers.len(),
        )
    }
}

/// A session of operations from a fresh monitor: single calls, batches, keeping
/// and restoring. Gives 0, or 11 with nothing written.
pub fn operations(
    kinds: &[u8],
    records: &[u8],
    lengths: &[u32],
    replies: &mut [u8],
    sizes: &[u32],
    numbers: &mut [u8],
    counts: &mut [u32],
) -> u32 {
    unsafe {
        stand_operations(
            kinds.as_ptr(),
            kinds.len(),
            records.as_ptr(),
            records.len(),
            lengths.as_ptr(),
            lengths.len(),
            replies.as_mut_ptr(),
            replies.len(),
            sizes.as_ptr(),
            sizes.len(),
            numbers.as_mut_ptr(),
            numbers.len(),
            counts.as_mut_ptr(),
            counts.len(),
        )
    }
}

/// A round: the monitor of the used records of the image takes the batch, and the image
/// is rewritten. The refusal times 2^32, and the used number afterwards.
pub fn run(image: &mut [u8], used: u32, records: &[u8], replies: &mut [u8]) -> u64 {
    unsafe {
        stand_run(
            image.as_mut_ptr(),
            image.len(),
            used,
            records.as_ptr(),
            records.len(),
            replies.as_mut_ptr(),
            replies.len(),
        )
    }
}

/// The refusal times 2^32, and 1 for yes.
pub fn judge(sheet: &[u8], number: u32, records: &[u8]) -> u64 {
    unsafe {
        stand_judge(
            sheet.as_ptr(),
            sheet.len(),
            number,
            records.as_ptr(),
            records.len(),
        )
    }
}
