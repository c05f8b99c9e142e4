//! Document 01, "Bundles: blocks of 512 bytes": what the reader and the writer refuse. The bytes are in `notation`.

use crate::refusals::Refusal;
use crate::shape::well_shaped;
use crate::tables::Sheet;
pub use notation::bundles::{block, counts, to_bundle, unframe, BLOCK_BYTES};

/// The writer: "the writer 2, 13", with so many blocks lent.
pub fn write(sheet: &Sheet, lent_blocks: usize) -> Result<Vec<u8>, Refusal> {
    if !well_shaped(sheet) {
        return Err(Refusal::Shape);
    }
    let bundle = to_bundle(sheet);
    if bundle.len() / BLOCK_BYTES > lent_blocks {
        return Err(Refusal::Room);
    }
    Ok(bundle)
}

/// The reader where room is not short: refusals 1, then 2.
pub fn read(bundle: &[u8]) -> Result<Sheet, Refusal> {
    let sheet = unframe(bundle).ok_or(Refusal::Block)?;
    if well_shaped(&sheet) {
        Ok(sheet)
    } else {
        Err(Refusal::Shape)
    }
}

/// The reader: "the reader gives 1, 2, 13", with so many rows of each table lent, in the order of
/// the counts, and so many pool bytes.
pub fn read_within(bundle: &[u8], lent: [usize; 7]) -> Result<Sheet, Refusal> {
    let sheet = read(bundle)?;
    let needed = counts(&sheet);
    if needed
        .iter()
        .zip(lent)
        .all(|(&needed, lent)| needed <= lent)
    {
        Ok(sheet)
    } else {
        Err(Refusal::Room)
    }
}
