//! The sections of a text, from the type names to the forest.

use super::statements::NEXT_SECTION;
use super::tokens::{begins_section, SECTIONS};
use super::{Assembled, Failed, Parsed, Parser, Spare, PARAMETERS};
use crate::drafts::{pool_is_full, Origin};
use crate::faults::{shown, Fault, Place};
use crate::lexer::Token;
use crate::limits::{FUEL, NAMES, POOL_BYTES, PROCEDURES};
use crate::places::Names;
use crate::tables::Variable;
use std::collections::BTreeMap;

/// The sections that may stand more than once.
const REPEATED: [&str; 3] = ["labels", "type", "procedure"];

impl<'a> Parser<'a> {
    /// Reads everything.
    pub fn read(mut self, spare: Spare) -> Result<Assembled, Vec<Fault>> {
        let labels = self.beginnings("labels");
        self.read_labels(&labels);
        self.names = self.declared("type", "types", NAMES);
        self.procedures = self.declared("procedure", "procedures", PROCEDURES);
        self.drafts.sheet.names = vec![0; self.names.len()];
        self.drafts.sheet.procedures = vec![[0; 5]; self.procedures.len()];
        (self.drafts.sheet.check_fuel, self.drafts.sheet.run_fuel) = (FUEL, FUEL);
        self.at = 0;
        self.tried.clear();
        while self.at < self.tokens.len() {
            let first = self.at;
            if self.section().is_err() {
                self.skip_section(first);
            }
            self.ended.clear();
        }
        self.check_calls();
        self.finish(spare)
    }

    /// The sheet, if nothing is absent and nothing was wrong.
    fn finish(mut self, spare: Spare) -> Result<Assembled, Vec<Fault>> {
        for (section, spared) in [("from", spare.types), ("script", spare.script)] {
            if !self.sections.contains(&section) {
                self.absent(section, spared);
            }
        }
        if !self.faults.is_empty() {
            return Err(self.faults);
        }
        let names = self.all_names();
        let (sheet, rows) = self.drafts.finish()?;
        let mut places = self.places;
        places.labels = self.labels.places;
        (places.types, places.queries) = (rows.types, rows.queries);
        (places.statements, places.forest) = (rows.statements, rows.forest);
        Ok(Assembled {
            sheet,
            places,
            names,
        })
    }

    fn all_names(&self) -> Names {
        let labels = self.labels.names.iter();
        Names {
            labels: labels
                .map(|(number, name)| (*number, name.to_string()))
                .collect(),
            types: in_order(&self.names),
            procedures: in_order(&self.procedures),
        }
    }

    /// What stands for a section that is not there, or the fault that it is not.
    fn absent(&mut self, section: &'static str, spared: bool) {
        let place = self
            .tokens
            .last()
            .map_or_else(Place::default, |(_, place)| *place);
        if !spared {
            let form = match section {
                "from" => "`from TYPE to TYPE`",
                _ => "`script STATEMENT`",
            };
            if !self.lost {
                let fault = place.fault(format!("there is no `{section}`"));
                self.faults
                    .push(fault.hint(format!("it is written {form}")));
            }
            return;
        }
        let (sign, start) = (place, place.start);
        let mark = None;
        let origin = Origin { sign, start, mark };
        let added = match section {
            "from" => self.empty_types(origin),
            _ => self.skip_alone(origin),
        };
        // What fails has been told.
        drop(added);
    }

    fn empty_types(&mut self, origin: Origin) -> Parsed<()> {
        self.drafts.sheet.a = self.add_type(origin, [1, 0, 0])?;
        self.drafts.sheet.b = self.add_type(origin, [1, 0, 0])?;
        Ok(())
    }

    fn skip_alone(&mut self, origin: Origin) -> Parsed<()> {
        self.drafts.sheet.main = self.add_statement(origin, [1, 0, 0, 0])?;
        Ok(())
    }

    /// The tokens at which sections with this word begin.
    fn beginnings(&self, word: &str) -> Vec<usize> {
        let begins = |at: &usize| self.stands_at(*at, word) && begins_section(&self.tokens, *at);
        (0..self.tokens.len()).filter(begins).collect()
    }

    /// The names that follow `keyword`, numbered from 1 in the order written.
    fn declared(
        &mut self,
        keyword: &'static str,
        what: &'static str,
        limit: usize,
    ) -> BTreeMap<&'a str, u16> {
        let mut numbers = BTreeMap::new();
        for at in self.beginnings(keyword) {
            let Some((Token::Word(name), place)) = self.tokens.get(at + 1).cloned() else {
                continue;
            };
            if numbers.contains_key(name) {
                let message = format!("{keyword} {} is there twice", shown(name));
                self.faults.push(place.fault(message));
                continue;
            }
            if numbers.len() == limit {
                self.tell_once(place.fault(format!("more than {limit} {what}")));
            }
            numbers.insert(name, numbers.len() as u16 + 1);
        }
        numbers
    }

    fn section(&mut self) -> Parsed<()> {
        if *self.token() == Token::End {
            self.advance();
            return Ok(());
        }
        let place = self.place();
        let Some(word) = SECTIONS.into_iter().find(|word| self.stands(word)) else {
            return Err(self.no_section());
        };
        self.advance();
        if !REPEATED.contains(&word) {
            self.only_once(word, place);
        }
        let first = self.at;
        let read = match word {
            "labels" => self.pass_labels(),
            "type" => self.type_name(),
            "procedure" => self.procedure(),
            "pool" => self.pool(),
            "from" => self.header_types(),
            "fuel" => self.fuel(),
            "script" => self.script(),
            _ => self.forest(),
        };
        if read.is_err() && self.at == first {
            // The word alone may have been meant as something else.
            self.sections.retain(|held| *held != word);
            self.lost = true;
        }
        read?;
        let whole = place.to(self.tokens[self.at - 1].1);
        self.places.sections.push((word, whole));
        Ok(())
    }

    /// No section begins here: so what should be one may be lost.
    fn no_section(&mut self) -> Failed {
        self.lost = true;
        let begins_source = match self.at.checked_sub(1) {
            Some(before) => self.tokens[before].0 == Token::End,
            None => true,
        };
        if begins_source {
            self.tried.extend(SECTIONS);
        } else {
            self.tried.push(NEXT_SECTION);
        }
        self.unexpected()
    }

    /// Passes over the rest of a section that began at the token numbered `first`.
    fn skip_section(&mut self, first: usize) {
        self.scope.clear();
        self.nesting = 0;
        // A procedure has a `from` of its own.
        let passed = self.tokens[first..self.at].iter();
        let mut own = self.stands_at(first, "procedure")
            && !passed
                .into_iter()
                .any(|(token, _)| *token == Token::Word("from"));
        self.at = self.at.max(first + 1);
        while self.at < self.tokens.len() && !self.at_section_end() || own && self.stands("from") {
            own = own && !self.stands("from");
            self.at += 1;
        }
        self.tried.clear();
    }

    /// Does a section, or the source, end here?
    pub(super) fn at_section_end(&self) -> bool {
        *self.token() == Token::End || begins_section(&self.tokens, self.at)
    }

    pub(super) fn end_section(&mut self) -> Parsed<()> {
        if self.at_section_end() {
            return Ok(());
        }
        Err(self.expected(NEXT_SECTION))
    }

    /// Tells that a section is there twice, unless its word, just taken, is blamed for something else.
    fn only_once(&mut self, section: &'static str, place: Place) {
        let blamed = self.blamed.is_some_and(|blamed| blamed + 1 == self.at);
        if self.sections.contains(&section) && !blamed {
            let message = format!("`{section}` is there twice");
            self.faults.push(place.fault(message));
        }
        self.sections.push(section);
    }

    /// Labels have been read before all else.
    fn pass_labels(&mut self) -> Parsed<()> {
        while !self.at_section_end() {
            self.advance();
        }
        Ok(())
    }

    fn type_name(&mut self) -> Parsed<()> {
        let place = self.place();
        let name = self.name("a type name", &["="])?;
        self.expect("=")?;
        let (word, origin) = self.opening("a label")?;
        if !self.stands("[") {
            let found = shown(word);
            let message = format!("a type name stands for one labelled tree, not {found}");
            self.faults.push(
                origin
                    .sign
                    .fault(message)
                    .hint("it is written `label[...]`"),
            );
            return Err(Failed);
        }
        let row = self.named_type(word, origin)?;
        self.places.names.push(place);
        if let Some(number) = self.names.get(name) {
            self.drafts.sheet.names[usize::from(*number) - 1] = row;
        }
        self.end_section()
    }

    fn procedure(&mut self) -> Parsed<()> {
        let place = self.place();
        let name = self.name("a procedure name", &["("])?;
        self.expect("(")?;
        let mut row = [0; 5];
        while !self.accept(")") {
            let count = self.scope.len();
            if count > 0 {
                self.expect(",")?;
            }
            if count == PARAMETERS {
                let message = "a procedure has at most two parameters";
                self.faults.push(self.place().fault(message));
                return Err(Failed);
            }
            row[count] = self.parameter()?;
        }
        self.expect("from")?;
        row[2] = self.types()?;
        self.expect("to")?;
        row[3] = self.types()?;
        self.expect("=")?;
        // Its head is known from here on, even if its body fails.
        self.set_procedure(name, row);
        row[4] = self.main_statement()?;
        self.scope.clear();
        self.places.procedures.push(place);
        self.set_procedure(name, row);
        Ok(())
    }

    /// A word of the notation has no number, and is told where it is read.
    fn set_procedure(&mut self, name: &str, row: [u16; 5]) {
        if let Some(number) = self.procedures.get(name) {
            self.drafts.sheet.procedures[usize::from(*number) - 1] = row;
        }
    }

    fn parameter(&mut self) -> Parsed {
        let (name, place) = self.binder(":")?;
        if self.scope.iter().any(|(held, _)| *held == name) {
            let message = format!("parameter {} is there twice", shown(name));
            self.faults.push(place.fault(message));
        }
        self.expect(":")?;
        self.scope.push((name, Variable::Forest));
        self.item()
    }

    fn pool(&mut self) -> Parsed<()> {
        loop {
            let place = self.place();
            let bytes = self.text_token("a text")?;
            self.drafts.sheet.pool.extend(bytes);
            if self.drafts.sheet.pool.len() > POOL_BYTES {
                self.tell_once(pool_is_full(place));
                return Err(Failed);
            }
            if !matches!(self.token(), Token::Text(_)) {
                return Ok(());
            }
        }
    }

    fn header_types(&mut self) -> Parsed<()> {
        self.drafts.sheet.a = self.types()?;
        self.expect("to")?;
        self.drafts.sheet.b = self.types()?;
        Ok(())
    }

    fn fuel(&mut self) -> Parsed<()> {
        self.expect("check")?;
        self.drafts.sheet.check_fuel = self.number_up_to(FUEL, "fuels")?;
        self.expect(",")?;
        self.expect("run")?;
        self.drafts.sheet.run_fuel = self.number_up_to(FUEL, "fuels")?;
        Ok(())
    }

    fn script(&mut self) -> Parsed<()> {
        self.drafts.sheet.main = self.main_statement()?;
        Ok(())
    }

    /// A call gives as many queries as its procedure has parameters; one whose head fails is not judged.
    fn check_calls(&mut self) {
        for call in &self.calls {
            let row = self.drafts.sheet.procedures[usize::from(call.procedure) - 1];
            let parameters = row[..PARAMETERS].iter().filter(|row| **row != 0).count();
            let name = shown(call.name);
            if row[2] != 0 && parameters != call.arguments {
                let message = format!(
                    "procedure {name} takes {}, not {}",
                    queries(parameters),
                    call.arguments
                );
                self.faults.push(call.place.fault(message));
            }
        }
    }
}

fn queries(count: usize) -> String {
    match count {
        1 => "1 query".into(),
        _ => format!("{count} queries"),
    }
}

/// The names by their numbers.
fn in_order(numbers: &BTreeMap<&str, u16>) -> Vec<String> {
    let mut names: Vec<(&u16, &&str)> = numbers
        .iter()
        .map(|(name, number)| (number, name))
        .collect();
    names.sort();
    names
        .into_iter()
        .map(|(_, name)| name.to_string())
        .collect()
}
