//! Document 01, "Refusals by number": the order of refusals in each question, and what is printed.

use crate::bundles;
use crate::check::{check, Checked};
use crate::forests::Forest;
use crate::places::{lowest_tie, Fit};
use crate::refusals::Refusal;
use crate::run::{run, Ran};
use crate::tables::Sheet;
use crate::types::{declared_types, Types};
use crate::unfit::Reading;
pub use notation::deep;
use std::fmt::Write;

/// The working rows that the program `apply` lends.
pub const WORKING_ROWS: usize = 6_144;
/// The result rows that the program `apply` lends.
pub const RESULT_ROWS: usize = 8_192;

/// A question's answer: what it gives or why it refuses, and the units of its walk, 0 if not begun.
#[derive(Clone, Debug, PartialEq)]
pub struct Reply<T> {
    pub units: u16,
    pub result: Result<T, Refusal>,
}

/// The answer of *apply*: both walks' units.
#[derive(Clone, Debug, PartialEq)]
pub struct Applied {
    pub check_units: u16,
    pub run_units: u16,
    pub result: Result<Forest, Refusal>,
}

/// "A lent slice counts … at most 65,535" rows.
#[derive(Clone, Copy, Debug)]
pub struct Lent {
    working: usize,
    result: usize,
}

impl Lent {
    pub fn new(working: usize, result: usize) -> Lent {
        let most = usize::from(u16::MAX);
        Lent {
            working: working.min(most),
            result: result.min(most),
        }
    }
}

/// A sheet that has passed Shape, with what refusals 3 and 4 say of it; each question begins here.
pub struct Judged<'a> {
    sheet: &'a Sheet,
    types: Types,
    forest: Forest,
    refusal: Option<Refusal>,
}

impl<'a> Judged<'a> {
    /// "judges refusals 2 to 4 over all of it": 2 was judged by the reader.
    pub fn new(sheet: &'a Sheet) -> Judged<'a> {
        let types = Types::of(sheet);
        let barren = types.lowest_barren();
        let refusal = match barren {
            Some(name) => Some(Refusal::Barren { name }),
            None => {
                let tie = lowest_tie(&types, &declared_types(sheet));
                tie.map(|(row, rival)| Refusal::Tie { row, rival })
            }
        };
        Judged {
            sheet,
            forest: Forest::of_rows(&sheet.forest, sheet.root),
            types,
            refusal,
        }
    }

    fn sound(&self) -> Result<(), Refusal> {
        self.refusal.map_or(Ok(()), Err)
    }

    /// *check*: 2 to 4, then 12, then the walk.
    pub fn check(&self, lent: Lent) -> Reply<()> {
        let scratch = lent.working < usize::from(self.sheet.check_fuel);
        if let Err(refusal) = self.sound().and(refuse_if(scratch, Refusal::Scratch)) {
            return Reply::not_begun(refusal);
        }
        let Checked { units, result } = check(self.sheet);
        Reply { units, result }
    }

    /// *fit* against each of the rows: 2 ("no such row: Shape") to 4, then 10.
    pub fn fits(&self, rows: impl Iterator<Item = u16>) -> Vec<Result<(), Refusal>> {
        let mut fit = Fit::new(&self.types, &self.forest);
        let reading = Reading::new(self.sheet, &self.forest);
        rows.map(|row| {
            refuse_if(!self.types.declared().contains(&row), Refusal::Shape)?;
            self.sound()?;
            let fault = reading.fault(&mut fit, row);
            fault.map_or(Ok(()), |tree| Err(Refusal::Unfit { tree }))
        })
        .collect()
    }

    /// *fit* against one row.
    pub fn fit(&self, row: u16) -> Result<(), Refusal> {
        self.fits([row].into_iter())[0]
    }

    /// *run*: 2 to 4, then 12, then the walk, "13 last".
    pub fn run(&self, lent: Lent) -> Reply<Forest> {
        let needed = self.sheet.forest.len() + usize::from(self.sheet.run_fuel);
        let scratch = refuse_if(lent.working < needed, Refusal::Scratch);
        if let Err(refusal) = self.sound().and(scratch) {
            return Reply::not_begun(refusal);
        }
        let Ran { units, result } = run(self.sheet);
        let room = |forest: &Forest| forest.rows() <= lent.result as u64;
        let result = result.and_then(|forest| {
            refuse_if(!room(&forest), Refusal::Room)?;
            Ok(forest)
        });
        Reply { units, result }
    }

    /// *apply*, asked by itself.
    pub fn apply(&self, lent: Lent) -> Applied {
        let fit = || self.fit(self.sheet.a);
        Applied::of(&self.check(lent), fit, || self.run(lent))
    }
}

impl Applied {
    /// "check, fit against A, run, in that order; the first refusal ends it".
    fn of(
        check: &Reply<()>,
        fit: impl FnOnce() -> Result<(), Refusal>,
        run: impl FnOnce() -> Reply<Forest>,
    ) -> Applied {
        let run = match check.result.and_then(|()| fit()) {
            Ok(()) => run(),
            Err(refusal) => Reply::not_begun(refusal),
        };
        Applied {
            check_units: check.units,
            run_units: run.units,
            result: run.result,
        }
    }
}

impl<T> Reply<T> {
    fn not_begun(refusal: Refusal) -> Reply<T> {
        Reply {
            units: 0,
            result: Err(refusal),
        }
    }
}

fn refuse_if(refused: bool, refusal: Refusal) -> Result<(), Refusal> {
    if refused {
        Err(refusal)
    } else {
        Ok(())
    }
}

/// Number and carried values of a result; 0 is done.
fn fields<T>(result: &Result<T, Refusal>) -> (u16, u16, u16) {
    match result {
        Ok(_) => (0, 0, 0),
        Err(refusal) => {
            let (a, b) = refusal.carried();
            (refusal.number(), a, b)
        }
    }
}

/// The rows and root of a result that there is room for; nothing of a refusal.
fn rows<T>(result: &Result<Forest, T>) -> (Vec<[u16; 4]>, u16) {
    result.as_ref().map_or((Vec::new(), 0), Forest::to_rows)
}

/// "then row and its four words".
fn print_rows(text: &mut String, rows: &[[u16; 4]]) {
    for (number, [kind, p, q, next]) in (1..).zip(rows) {
        line(text, format_args!("{number} {kind} {p} {q} {next}"));
    }
}

fn line(text: &mut String, words: std::fmt::Arguments) {
    writeln!(text, "{words}").expect("a string takes all");
}

/// Every question's reply, each asked by itself, with so many working and result rows lent.
pub fn answers(bundle: &[u8], work: usize, result: usize) -> String {
    let bundle = bundle.to_vec();
    deep(move || all_answers(&bundle, Lent::new(work, result)))
}

fn all_answers(bundle: &[u8], lent: Lent) -> String {
    let mut text = String::new();
    let sheet = bundles::read(bundle);
    line(&mut text, format_args!("read {}", fields(&sheet).0));
    let Ok(sheet) = sheet else { return text };
    let judged = Judged::new(&sheet);

    let check = judged.check(lent);
    let (number, a, b) = fields(&check.result);
    line(
        &mut text,
        format_args!("check {number} {} {a} {b}", check.units),
    );

    let fits = judged.fits(judged.types.declared());
    for (row, fit) in (1..).zip(&fits) {
        let (number, a, b) = fields(fit);
        line(&mut text, format_args!("fit {row} {number} {a} {b}"));
    }

    let run = judged.run(lent);
    let (number, a, b) = fields(&run.result);
    let (written, root) = rows(&run.result);
    line(
        &mut text,
        format_args!("run {number} {} {a} {b} {root}", run.units),
    );
    print_rows(&mut text, &written);

    // The questions do not change their answers, so apply's is made of those above.
    let fit_a = fits[usize::from(sheet.a) - 1];
    let apply = Applied::of(&check, || fit_a, || run);
    let (number, a, b) = fields(&apply.result);
    let (_, root) = rows(&apply.result);
    let (check_units, run_units) = (apply.check_units, apply.run_units);
    line(
        &mut text,
        format_args!("apply {number} {check_units} {run_units} {a} {b} {root}"),
    );
    text
}

/// What the program `apply` prints for a bundle.
pub fn apply_listing(bundle: &[u8]) -> String {
    let bundle = bundle.to_vec();
    deep(move || listing(&bundle))
}

/// "A refusal ends the listing with its line, without root, 'load N' for 1 to 4."
fn listing(bundle: &[u8]) -> String {
    let mut text = String::new();
    let sheet = match bundles::read(bundle) {
        Ok(sheet) => sheet,
        Err(refusal) => {
            line(&mut text, format_args!("load {}", refusal.number()));
            return text;
        }
    };
    let judged = Judged::new(&sheet);
    if let Some(refusal) = judged.refusal {
        line(&mut text, format_args!("load {}", refusal.number()));
        return text;
    }
    let lent = Lent::new(WORKING_ROWS, RESULT_ROWS);

    let check = judged.check(lent);
    let (number, ..) = fields(&check.result);
    line(&mut text, format_args!("check {number} {}", check.units));
    if number != 0 {
        return text;
    }

    let (number, tree, _) = fields(&judged.fit(sheet.a));
    line(&mut text, format_args!("fit {number} {tree}"));
    if number != 0 {
        return text;
    }

    let run = judged.run(lent);
    let (number, ..) = fields(&run.result);
    if number != 0 {
        line(&mut text, format_args!("run {number} {}", run.units));
        return text;
    }
    let (written, root) = rows(&run.result);
    line(&mut text, format_args!("run 0 {} {root}", run.units));
    print_rows(&mut text, &written);
    text
}
