//! Document 01, "How a check goes": the rules of document 000, figures 4 and 13, with their units.
//! Each row goes thus: unit, focus, parts in the order written, their values, rows written.

use crate::inclusion;
use crate::places;
use crate::purse::Purse;
use crate::refusals::{Asker, Refusal};
use crate::run::matches;
use crate::scope::Scope;
use crate::tables::{last_row, Query, Sheet, Statement, Type};
use crate::types::{Head, Types};
use std::collections::HashSet;

/// "more than 512 rows written out … is Wide".
const WIDE: usize = 512;

/// How a check ended, and the units it spent.
pub struct Checked {
    pub units: u16,
    pub result: Result<(), Refusal>,
}

/// "Procedures in number order, then the main statement."
pub fn check(sheet: &Sheet) -> Checked {
    let mut walk = Walk::new(sheet);
    let result = walk.all();
    Checked {
        units: walk.purse.spent(),
        result,
    }
}

/// The type that the main statement alone yields from A, as a row of the types with what was
/// written; B is not asked about.
pub fn output_type(sheet: &Sheet) -> Result<(Types, u16), Refusal> {
    let mut walk = Walk::new(sheet);
    let row = walk.statement(sheet.main, sheet.a, &Scope::none(), 1)?;
    Ok((walk.types, row))
}

struct Walk<'a> {
    sheet: &'a Sheet,
    purse: Purse,
    types: Types,
    empty: u16,
    text: u16,
    bool: u16,
    included: HashSet<(u16, u16)>,
}

impl<'a> Walk<'a> {
    /// The walk has an unwritten `()`, text and bool of its own to ask about; "The `()` of left and
    /// right is not written."
    fn new(sheet: &'a Sheet) -> Walk<'a> {
        let mut types = Types::of(sheet);
        Walk {
            sheet,
            purse: Purse::new(sheet.check_fuel),
            empty: types.write(Type::Empty),
            text: types.write(Type::Text),
            bool: types.write(Type::Bool),
            types,
            included: HashSet::new(),
        }
    }

    fn all(&mut self) -> Result<(), Refusal> {
        for number in 1..=last_row(&self.sheet.procedures) {
            let procedure = self.sheet.procedure(number);
            let parameters = Scope::of(procedure.parameter_types());
            self.body(
                procedure.body,
                procedure.input,
                procedure.output,
                &parameters,
            )?;
        }
        let sheet = self.sheet;
        self.body(sheet.main, sheet.a, sheet.b, &Scope::none())
    }

    /// "Each starts at depth 1"; "a body's or the main output in the declared output".
    fn body(
        &mut self,
        row: u16,
        input: u16,
        output: u16,
        parameters: &Scope<u16>,
    ) -> Result<(), Refusal> {
        let found = self.statement(row, input, parameters, 1)?;
        let asker = Asker::Declaration;
        self.ask(found, output, asker, Refusal::NotIncluded(asker))
    }

    /// Figure 13.
    fn query(&mut self, row: u16, scope: &Scope<u16>, depth: u16) -> Result<u16, Refusal> {
        self.purse.start(depth)?;
        let below = depth + 1;
        let asker = Asker::Query(row);
        let mismatch = Refusal::Mismatch(asker);
        match self.sheet.query(row) {
            Query::Empty => self.write(Type::Empty),
            Query::Join(p, q) => {
                let left = self.query(p, scope, below)?;
                let right = self.query(q, scope, below)?;
                self.write(Type::Sequence(left, right))
            }
            Query::Tree { label, content } => {
                let content = self.query(content, scope, below)?;
                self.write(Type::Label { label, content })
            }
            Query::Text { .. } => self.write(Type::Text),
            Query::True | Query::False => self.write(Type::Bool),
            Query::Variable(variable) => Ok(*scope.value(variable)),
            Query::Let { value, body } => {
                let value = self.query(value, scope, below)?;
                self.query(body, &scope.with(value), below)
            }
            Query::If { condition, yes, no } => {
                let condition = self.query(condition, scope, below)?;
                self.ask(condition, self.bool, asker, mismatch)?;
                let yes = self.query(yes, scope, below)?;
                let no = self.query(no, scope, below)?;
                self.write(Type::Choice(yes, no))
            }
            Query::Same(p, q) => {
                let left = self.query(p, scope, below)?;
                let right = self.query(q, scope, below)?;
                self.ask(left, self.text, asker, mismatch)?;
                self.ask(right, self.text, asker, mismatch)?;
                self.write(Type::Bool)
            }
            // A label's content. For text or bool "such a query shall have type empty, with one
            // type row written".
            Query::Children { variable } => match self.types.content(*scope.value(variable)) {
                Some(content) => Ok(content),
                None => self.write(Type::Empty),
            },
            Query::Pick { from, label } => {
                let from = self.query(from, scope, below)?;
                self.each_atom(from, &mut |walk, atom| walk.pick(atom, label))
            }
            Query::For { each, body } => {
                let each = self.query(each, scope, below)?;
                self.each_atom(each, &mut |walk, atom| {
                    walk.query(body, &scope.with(atom), below)
                })
            }
        }
    }

    /// Figure 4.
    fn statement(
        &mut self,
        row: u16,
        focus: u16,
        scope: &Scope<u16>,
        depth: u16,
    ) -> Result<u16, Refusal> {
        self.purse.start(depth)?;
        let below = depth + 1;
        let asker = Asker::Statement(row);
        let mismatch = Refusal::Mismatch(asker);
        match self.sheet.statement(row) {
            Statement::Skip => Ok(focus),
            Statement::Then(p, q) => {
                let focus = self.statement(p, focus, scope, below)?;
                self.statement(q, focus, scope, below)
            }
            Statement::If { condition, yes, no } => {
                let condition = self.query(condition, scope, below)?;
                self.ask(condition, self.bool, asker, mismatch)?;
                let yes = self.statement(yes, focus, scope, below)?;
                let no = self.statement(no, focus, scope, below)?;
                self.write(Type::Choice(yes, no))
            }
            Statement::Insert { value } => {
                self.ask(focus, self.empty, asker, mismatch)?;
                self.query(value, scope, below)
            }
            Statement::Delete => self.write(Type::Empty),
            Statement::Rename { label } => {
                let content = self.types.content(focus).ok_or(mismatch)?;
                self.write(Type::Label { label, content })
            }
            Statement::Let { value, body } => {
                let value = self.query(value, scope, below)?;
                self.statement(body, focus, &scope.with(value), below)
            }
            Statement::Snapshot { body } => self.statement(body, focus, &scope.with(focus), below),
            Statement::Test { test, body } => {
                // "Test, children and rename need an atom as written".
                let head = self.types.head(focus).ok_or(mismatch)?;
                if matches(test, head) {
                    self.statement(body, focus, scope, below)
                } else {
                    Ok(focus)
                }
            }
            Statement::Children { body } => {
                let (label, content) = self.types.labelled(focus).ok_or(mismatch)?;
                let content = self.statement(body, content, scope, below)?;
                self.write(Type::Label { label, content })
            }
            Statement::Left { body } => {
                let new = self.statement(body, self.empty, scope, below)?;
                self.write(Type::Sequence(new, focus))
            }
            Statement::Right { body } => {
                let new = self.statement(body, self.empty, scope, below)?;
                self.write(Type::Sequence(focus, new))
            }
            Statement::Iter { body } => self.each_atom(focus, &mut |walk, atom| {
                walk.statement(body, atom, scope, below)
            }),
            Statement::Call { callee, arguments } => {
                self.call(asker, callee, arguments, focus, scope, below)
            }
        }
    }

    /// "a call's focus and arguments in the declared types".
    fn call(
        &mut self,
        asker: Asker,
        callee: u16,
        arguments: [u16; 2],
        focus: u16,
        scope: &Scope<u16>,
        below: u16,
    ) -> Result<u16, Refusal> {
        let procedure = self.sheet.procedure(callee);
        let refusal = Refusal::NotIncluded(asker);
        self.ask(focus, procedure.input, asker, refusal)?;
        let mut found = Vec::new();
        for argument in arguments.into_iter().filter(|&row| row != 0) {
            found.push(self.query(argument, scope, below)?);
        }
        for (found, wanted) in found.into_iter().zip(procedure.parameter_types()) {
            self.ask(found, wanted, asker, refusal)?;
        }
        Ok(procedure.output)
    }

    /// "Iter and for work through empty, sequence, choice and star part by part". Visits "are paid
    /// on arrival, rows written at the end". A name is an atom, visited once and handed on.
    fn each_atom(
        &mut self,
        row: u16,
        body: &mut dyn FnMut(&mut Self, u16) -> Result<u16, Refusal>,
    ) -> Result<u16, Refusal> {
        self.purse.take()?;
        match self.types.row(row) {
            Type::Empty => Ok(row),
            Type::Text | Type::Bool | Type::Label { .. } | Type::Name(_) => body(self, row),
            Type::Sequence(p, q) => {
                let p = self.each_atom(p, body)?;
                let q = self.each_atom(q, body)?;
                self.write(Type::Sequence(p, q))
            }
            Type::Choice(p, q) => {
                let p = self.each_atom(p, body)?;
                let q = self.each_atom(q, body)?;
                self.write(Type::Choice(p, q))
            }
            Type::Star(p) => {
                let p = self.each_atom(p, body)?;
                self.write(Type::Star(p))
            }
        }
    }

    /// "pick turns an atom of another head into `()`".
    fn pick(&mut self, atom: u16, label: u16) -> Result<u16, Refusal> {
        if self.types.head(atom) == Some(Head::Label(label)) {
            Ok(atom)
        } else {
            self.write(Type::Empty)
        }
    }

    /// "one for each type row written".
    fn write(&mut self, row: Type) -> Result<u16, Refusal> {
        self.purse.take()?;
        Ok(self.types.write(row))
    }

    /// "each inclusion in turn, Wide before 8 or 9".
    fn ask(
        &mut self,
        found: u16,
        wanted: u16,
        asker: Asker,
        refusal: Refusal,
    ) -> Result<(), Refusal> {
        if self.types.written_out(found) > WIDE {
            return Err(Refusal::Wide(asker));
        }
        if self.included.contains(&(found, wanted)) {
            return Ok(());
        }
        if let Some(forest) = inclusion::refute(&self.types, found, wanted) {
            assert!(
                places::is_of(&self.types, &forest, found)
                    && !places::is_of(&self.types, &forest, wanted),
                "a refuting forest is of the found type and not of the wanted one"
            );
            return Err(refusal);
        }
        self.included.insert((found, wanted));
        Ok(())
    }
}
