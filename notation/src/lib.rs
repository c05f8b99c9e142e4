//! The notation: sheets as plain text (taught in docs/NOTATION.md).
//!
//! `assemble_all` reads one or several sources into a sheet and says where each row was written, `list` writes
//! any sheet that keeps the rules under Tables as a text, and the text that `list` writes assembles to the same
//! sheet, row numbers and pool places included. `bundles` has sheets as bytes.
//!
//! | Module | What |
//! |---|---|
//! | `tables`, `limits` | the sheet, what its rows say, how much it may hold |
//! | `bundles` | a sheet as the bytes of a bundle, and back, unjudged |
//! | `lexer`, `parser`, `drafts` | text to tokens, to rows, to a sheet |
//! | `places`, `faults` | where each row was written, names; what is wrong with a text, and where |
//! | `order`, `printer`, `layout` | a sheet to text: what must be said, in which words, on which lines |
//! | `words` | which words of a row refer to which table |

pub mod bundles;
mod drafts;
mod faults;
mod layout;
mod lexer;
pub mod limits;
mod order;
mod parser;
mod places;
mod printer;
mod sources;
pub mod tables;
pub mod words;

pub use drafts::put;
pub use faults::{line_and_column, Fault, Place};
pub use parser::{Assembled, Spare};
pub use places::{Names, Places, Table, Written};
pub use printer::quoted;
pub use sources::{outline, Source};

use std::fmt;
use tables::Sheet;

/// The first fault of a text, by line and column, both from 1.
#[derive(Clone, Debug, PartialEq, Eq)]
pub struct NotationError {
    pub line: usize,
    pub column: usize,
    pub message: String,
}

impl fmt::Display for NotationError {
    fn fmt(&self, f: &mut fmt::Formatter) -> fmt::Result {
        let (line, column) = (self.line, self.column);
        write!(f, "line {line}, column {column}: {}", self.message)
    }
}

impl std::error::Error for NotationError {}

/// What the sources say together, in whatever order they are given, or all that is wrong with them. The sheet
/// keeps every rule under Tables; Barren and Tie are not judged.
pub fn assemble_all(sources: &[Source], spare: Spare) -> Result<Assembled, Vec<Fault>> {
    deep(|| sources::assemble(sources, spare))
}

/// The sheet that one text describes, or what is wrong with it first.
pub fn assemble(text: &str) -> Result<Sheet, NotationError> {
    let source = Source {
        name: "",
        bytes: text.as_bytes(),
    };
    let assembled = assemble_all(&[source], Spare::default());
    assembled.map(|it| it.sheet).map_err(|faults| {
        let fault = &faults[0];
        let (line, column) = line_and_column(text.as_bytes(), fault.place.start);
        let message = fault.to_string();
        NotationError {
            line,
            column,
            message,
        }
    })
}

/// The text of a sheet that keeps every rule under Tables.
pub fn list(sheet: &Sheet) -> String {
    list_named(sheet, &Names::default())
}

/// The same with these names.
pub fn list_named(sheet: &Sheet, names: &Names) -> String {
    deep(|| printer::print(sheet, names))
}

/// All of it but the forest.
pub fn list_script(sheet: &Sheet, names: &Names) -> String {
    deep(|| printer::print_script(sheet, names))
}

/// The forest alone, with the labels that it uses: a description.
pub fn list_forest(sheet: &Sheet, names: &Names) -> String {
    deep(|| printer::print_forest(sheet, names))
}

/// Works on a stack that is deep enough for whatever is nested to its limit.
pub fn deep<T: Send>(work: impl FnOnce() -> T + Send) -> T {
    const STACK_BYTES: usize = 256 << 20;
    std::thread::scope(|scope| {
        let thread = std::thread::Builder::new().stack_size(STACK_BYTES);
        let worker = thread
            .spawn_scoped(scope, work)
            .expect("a thread can be started");
        match worker.join() {
            Ok(value) => value,
            Err(panic) => std::panic::resume_unwind(panic),
        }
    })
}
