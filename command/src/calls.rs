//! The proved calls, with as much lent as the command lends.

use archive::Reply;

/// Each call's stack is at most some megabytes (docs/STACK.md); `on_a_deep_stack` gives it.
const STACK_BYTES: usize = 64 << 20;

const ROW_BYTES: usize = 8;
const TABLES_BYTES: usize = 44_704;
const BUNDLE_BYTES: usize = 45_056;

/// How many rows a call is lent.
#[derive(Clone, Copy)]
pub struct Lent {
    pub work: u16,
    pub result: u16,
}

/// Working rows that are always enough, so that Scratch never comes, and result rows as the program `apply` lends them.
impl Default for Lent {
    fn default() -> Lent {
        Lent { work: 6_144, result: 8_192 }
    }
}

/// Forest rows of a result, from row 1: kind, p, q, next.
pub type Rows = Vec<[u16; 4]>;

pub fn on_a_deep_stack<T: Send + 'static>(work: impl FnOnce() -> T + Send + 'static) -> T {
    let thread = std::thread::Builder::new().stack_size(STACK_BYTES);
    let worker = thread.spawn(work).expect("a thread can be started");
    worker.join().unwrap_or_else(|panic| std::panic::resume_unwind(panic))
}

/// The tables of a bundle, or the refusal 1 or 2.
pub fn read(bundle: &[u8]) -> Result<Vec<u8>, Reply> {
    let mut tables = vec![0; TABLES_BYTES];
    done(archive::read(bundle, &mut tables)).map(|_| tables)
}

/// The bundle of these tables, or the refusal 2.
pub fn write(tables: &[u8]) -> Result<Vec<u8>, Reply> {
    let mut blocks = vec![0; BUNDLE_BYTES];
    done(archive::write(tables, &mut blocks))?;
    blocks.truncate(512 * tables.len().div_ceil(508));
    Ok(blocks)
}

/// Does the script take type A into type B?
pub fn check(bundle: &[u8], lent: Lent) -> Reply {
    archive::check(bundle, &mut rows(lent.work))
}

/// Is the forest of the type at this row?
pub fn fit(bundle: &[u8], type_row: u16) -> Reply {
    archive::fit(bundle, type_row.into())
}

/// The edited forest, without the check.
pub fn run(bundle: &[u8], lent: Lent) -> Result<(Reply, Rows), Reply> {
    edited(archive::run, bundle, lent)
}

/// Check, fit against A, run.
pub fn apply(bundle: &[u8], lent: Lent) -> Result<(Reply, Rows), Reply> {
    edited(archive::apply, bundle, lent)
}

fn edited(call: fn(&[u8], &mut [u8], &mut [u8]) -> Reply, bundle: &[u8], lent: Lent) -> Result<(Reply, Rows), Reply> {
    let mut result = rows(lent.result);
    let reply = done(call(bundle, &mut rows(lent.work), &mut result))?;
    let word = |row: &[u8], at: usize| u16::from_le_bytes([row[2 * at], row[2 * at + 1]]);
    let rows = result.chunks_exact(ROW_BYTES).take(reply.root);
    Ok((reply, rows.map(|row| std::array::from_fn(|at| word(row, at))).collect()))
}

fn rows(count: u16) -> Vec<u8> {
    vec![0; ROW_BYTES * usize::from(count)]
}

fn done(reply: Reply) -> Result<Reply, Reply> {
    match reply.number {
        0 => Ok(reply),
        _ => Err(reply),
    }
}
