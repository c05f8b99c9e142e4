//! The proved calls (`calls.rt.txt`): a slice is passed as a pointer and a length. An answer is one number: document 01's
//! number in the low 16 bits, then what goes with it, 16 bits each.

extern "C" {
    fn bench_read(bundle: *const u8, bytes: usize, tables: *mut u8, room: usize) -> u64;
    fn bench_fit(sheet: *const u8, bytes: usize, told: usize) -> u64;
    #[cfg(feature = "run")]
    fn bench_check(sheet: *const u8, bytes: usize, working: *mut u8, working_bytes: usize) -> u64;
    #[cfg(feature = "run")]
    fn bench_run(
        sheet: *const u8,
        bytes: usize,
        working: *mut u8,
        working_bytes: usize,
        result: *mut u8,
        result_bytes: usize,
    ) -> u64;
}

/// The reader: 0, 1, 2 or 13.
pub fn read(bundle: &[u8], tables: &mut [u8]) -> u64 {
    // SAFETY: both slices are lent for the length of the call, as the call's parameters ask.
    unsafe {
        bench_read(
            bundle.as_ptr(),
            bundle.len(),
            tables.as_mut_ptr(),
            tables.len(),
        )
    }
}

/// Fit against a type row: 0, 2, 3, 4 or 10, and what it carries.
pub fn fit(sheet: &[u8], told: u16) -> u64 {
    // SAFETY: as above.
    unsafe { bench_fit(sheet.as_ptr(), sheet.len(), usize::from(told)) }
}

/// The check: its number, units, and carried row and flag.
#[cfg(feature = "run")]
pub fn check(sheet: &[u8], working: &mut [u8]) -> u64 {
    // SAFETY: as above.
    unsafe {
        bench_check(
            sheet.as_ptr(),
            sheet.len(),
            working.as_mut_ptr(),
            working.len(),
        )
    }
}

/// The run: its number, units, root or carried row, and flag or rival.
#[cfg(feature = "run")]
pub fn run(sheet: &[u8], working: &mut [u8], result: &mut [u8]) -> u64 {
    // SAFETY: as above.
    unsafe {
        bench_run(
            sheet.as_ptr(),
            sheet.len(),
            working.as_mut_ptr(),
            working.len(),
            result.as_mut_ptr(),
            result.len(),
        )
    }
}
