//! Document 01, "Limits": how much a sheet may hold.

pub const NAMES: usize = 32;
pub const TYPE_ROWS: usize = 512;
pub const QUERY_ROWS: usize = 512;
pub const STATEMENT_ROWS: usize = 512;
pub const PROCEDURES: usize = 16;
/// "16 variables in scope".
pub const SCOPE: usize = 16;
pub const LAST_LABEL: u16 = 1023;
pub const FOREST_ROWS: usize = 2048;
pub const POOL_BYTES: usize = 16384;
/// The most of either fuel.
pub const FUEL: u16 = 4096;
