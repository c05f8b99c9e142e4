//! The calls of `include/chukelowa.h`: a slice is passed as a pointer and a length.

/// An answer: `chukelowa_reply`.
#[repr(C)]
#[derive(Clone, Copy, Debug, Default, PartialEq, Eq)]
pub struct Reply {
    pub number: usize,
    pub a: usize,
    pub b: usize,
    pub check_units: usize,
    pub run_units: usize,
    pub root: usize,
}

type Copies = unsafe extern "C" fn(*const u8, usize, *mut u8, usize) -> Reply;
type Edits = unsafe extern "C" fn(*const u8, usize, *mut u8, usize, *mut u8, usize) -> Reply;

extern "C" {
    fn chukelowa_read(bundle: *const u8, bytes: usize, tables: *mut u8, room: usize) -> Reply;
    fn chukelowa_write(tables: *const u8, bytes: usize, blocks: *mut u8, room: usize) -> Reply;
    fn chukelowa_check(bundle: *const u8, bytes: usize, work: *mut u8, lent: usize) -> Reply;
    fn chukelowa_fit(bundle: *const u8, bytes: usize, row: usize) -> Reply;
    fn chukelowa_run(
        bundle: *const u8,
        bytes: usize,
        work: *mut u8,
        lent: usize,
        result: *mut u8,
        room: usize,
    ) -> Reply;
    fn chukelowa_apply(
        bundle: *const u8,
        bytes: usize,
        work: *mut u8,
        lent: usize,
        result: *mut u8,
        room: usize,
    ) -> Reply;
}

fn copy(call: Copies, from: &[u8], to: &mut [u8]) -> Reply {
    // SAFETY: both slices are lent for the length of the call, as the header asks.
    unsafe { call(from.as_ptr(), from.len(), to.as_mut_ptr(), to.len()) }
}

fn edit(call: Edits, bundle: &[u8], work: &mut [u8], result: &mut [u8]) -> Reply {
    let (from, bytes) = (bundle.as_ptr(), bundle.len());
    let (working, lent) = (work.as_mut_ptr(), work.len());
    // SAFETY: as above.
    unsafe {
        call(
            from,
            bytes,
            working,
            lent,
            result.as_mut_ptr(),
            result.len(),
        )
    }
}

pub fn read(bundle: &[u8], tables: &mut [u8]) -> Reply {
    copy(chukelowa_read, bundle, tables)
}

pub fn write(tables: &[u8], blocks: &mut [u8]) -> Reply {
    copy(chukelowa_write, tables, blocks)
}

pub fn check(bundle: &[u8], work: &mut [u8]) -> Reply {
    copy(chukelowa_check, bundle, work)
}

pub fn fit(bundle: &[u8], row: usize) -> Reply {
    // SAFETY: as above.
    unsafe { chukelowa_fit(bundle.as_ptr(), bundle.len(), row) }
}

pub fn run(bundle: &[u8], work: &mut [u8], result: &mut [u8]) -> Reply {
    edit(chukelowa_run, bundle, work, result)
}

pub fn apply(bundle: &[u8], work: &mut [u8], result: &mut [u8]) -> Reply {
    edit(chukelowa_apply, bundle, work, result)
}

/// Whether the linked archive is one that was proved (tools/archive), not only compiled (tools/unproved).
pub const PROVED: bool = matches!(env!("CHUKELOWA_PROVED").as_bytes(), b"yes");
