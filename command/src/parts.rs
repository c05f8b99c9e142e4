//! Which part of the script a refusal of the check is about, where it carries no row or a row has several parts: the proved
//! check is asked about sheets in which a part alone is left.

use crate::calls::{self, Lent};
use crate::copies::Copy;
use notation::tables::Sheet;

/// Whose declared output a refusal without a row is about.
#[derive(Clone, Copy, Debug, PartialEq, Eq)]
pub enum Output {
    /// A procedure's, by its index.
    Procedure(usize),
    Script,
}

/// Of each procedure in turn the body alone is left to check: the other bodies only call themselves, which is always right,
/// and the script is `skip` from () to (). None where that breaks a limit of the tables.
pub fn output_refused(sheet: &Sheet, number: usize) -> Option<Output> {
    for index in 0..sheet.procedures.len() {
        let reply = asked(&with_body_of(sheet, index))?;
        if (reply.number, reply.a) == (number, 0) {
            return Some(Output::Procedure(index));
        }
    }
    Some(Output::Script)
}

fn with_body_of(sheet: &Sheet, index: usize) -> Copy<'_> {
    let mut copy = Copy::of(sheet);
    copy.names();
    for (at, [first, second, input, output, body]) in sheet.procedures.iter().copied().enumerate() {
        let parameters = [first, second].iter().filter(|row| **row != 0).count();
        let types = [first, second, input, output].map(|row| copy.types(row));
        let body = if at == index { copy.statement(body) } else { copy.call_of_itself(at + 1, parameters) };
        copy.new.procedures.push([types[0], types[1], types[2], types[3], body]);
    }
    copy.no_script();
    copy
}

/// What of a call is not in its declared type.
#[derive(Clone, Copy, Debug, PartialEq, Eq)]
pub enum Passed {
    Focus,
    /// The first or the second argument: 0 or 1.
    Argument(usize),
}

/// Of a call that is refused with this number, 7 or 9. With no arguments the focus alone is asked about; with the first alone,
/// the focus, which is right, and the first. None where one procedure more breaks a limit of the tables.
pub fn part_of_call(sheet: &Sheet, call: u16, number: usize) -> Option<Passed> {
    let [_, _, first, second] = sheet.statements[usize::from(call) - 1];
    let given = [first, second].iter().filter(|row| **row != 0).count();
    let mut kept = 0;
    while kept < given {
        let copy = with_fewer_arguments(sheet, call, kept);
        let reply = asked(&copy)?;
        if (reply.number, reply.a, reply.b) == (number, usize::from(copy.statements[&call]), 2) {
            break;
        }
        kept += 1;
    }
    Some(if kept == 0 { Passed::Focus } else { Passed::Argument(kept - 1) })
}

/// This call is of a procedure of its own, like the one that it was of, but with fewer parameters.
fn with_fewer_arguments(sheet: &Sheet, call: u16, kept: usize) -> Copy<'_> {
    let [_, procedure, ..] = sheet.statements[usize::from(call) - 1];
    let [first, second, input, output, _] = sheet.procedures[usize::from(procedure) - 1];
    let mut copy = Copy::of(sheet);
    copy.fewer = Some((call, kept));
    copy.all();
    let parameter = |at: usize, row: u16| if at < kept { row } else { 0 };
    let types = [parameter(0, first), parameter(1, second), input, output].map(|row| copy.types(row));
    let body = copy.call_of_itself(sheet.procedures.len() + 1, kept);
    copy.new.procedures.push([types[0], types[1], types[2], types[3], body]);
    copy
}

fn asked(copy: &Copy) -> Option<archive::Reply> {
    Some(calls::check(&copy.bundle()?, Lent::default()))
}

/// Of `q = q` the side that is refused with this number, 7 or 8: 0 or 1. With a text for the right side the left alone is asked about.
pub fn side_of_same(sheet: &Sheet, same: u16, number: usize) -> usize {
    let [_, _, right, _] = sheet.queries[usize::from(same) - 1];
    let mut changed = sheet.clone();
    changed.queries[usize::from(right) - 1] = [4, 0, 0, 0];
    let mut copy = Copy::of(&changed);
    copy.all();
    let row = copy.queries.get(&same).copied().map(usize::from);
    let left = asked(&copy).is_some_and(|reply| (reply.number, reply.b) == (number, 1) && Some(reply.a) == row);
    usize::from(!left)
}
