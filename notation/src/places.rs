//! Where each row was written, and the names that a bundle does not keep.

use crate::faults::Place;
use std::collections::BTreeMap;

/// Where a row was written.
#[derive(Clone, Copy, Debug, Default, PartialEq, Eq)]
pub struct Written {
    /// The word or sign that brings the row, such as `insert` or `,`.
    pub sign: Place,
    /// The row with all its parts.
    pub whole: Place,
}

/// A table whose rows are written as phrases.
#[derive(Clone, Copy, Debug, PartialEq, Eq)]
pub enum Table {
    Types,
    Queries,
    Statements,
    Forest,
}

/// Where everything was written. A row that nobody wrote has an empty range at the end of the last source.
#[derive(Clone, Debug, Default, PartialEq, Eq)]
pub struct Places {
    /// Row 1 comes first, in these four.
    pub types: Vec<Written>,
    pub queries: Vec<Written>,
    pub statements: Vec<Written>,
    pub forest: Vec<Written>,
    /// The name of each declared type, where it is declared.
    pub names: Vec<Place>,
    /// The name of each procedure, where it is declared.
    pub procedures: Vec<Place>,
    /// Where each label is declared; in a text without `labels`, where it stands first.
    pub labels: BTreeMap<u16, Place>,
    /// The sections, each by its first word.
    pub sections: Vec<(&'static str, Place)>,
}

impl Places {
    pub fn row(&self, table: Table, row: u16) -> Option<Written> {
        let rows = match table {
            Table::Types => &self.types,
            Table::Queries => &self.queries,
            Table::Statements => &self.statements,
            Table::Forest => &self.forest,
        };
        rows.get(usize::from(row).checked_sub(1)?).copied()
    }

    /// The first section that begins with this word.
    pub fn section(&self, word: &str) -> Option<Place> {
        let found = self.sections.iter().find(|(held, _)| *held == word);
        found.map(|(_, place)| *place)
    }
}

/// What a bundle has numbers for and a text has names.
#[derive(Clone, Debug, Default, PartialEq, Eq)]
pub struct Names {
    pub labels: BTreeMap<u16, String>,
    pub types: Vec<String>,
    pub procedures: Vec<String>,
}

impl Names {
    /// The label's name; one that a lower number has too is not its name.
    pub fn label(&self, number: u16) -> String {
        let known = self.labels.get(&number).filter(|name| {
            let mut lower = self.labels.range(..number);
            !lower.any(|(_, held)| held == *name)
        });
        let name = known.cloned();
        name.unwrap_or_else(|| made_up('l', number, self.labels.values()))
    }

    pub fn type_name(&self, number: u16) -> String {
        numbered('X', number, &self.types)
    }

    pub fn procedure(&self, number: u16) -> String {
        numbered('p', number, &self.procedures)
    }
}

/// The name of this number, counted from 1.
fn numbered(letter: char, number: u16, names: &[String]) -> String {
    let known = usize::from(number)
        .checked_sub(1)
        .and_then(|index| names.get(index));
    known
        .cloned()
        .unwrap_or_else(|| made_up(letter, number, names.iter()))
}

/// A name by the number, other than those that are there.
fn made_up<'a>(
    letter: char,
    number: u16,
    taken: impl Iterator<Item = &'a String> + Clone,
) -> String {
    let mut name = format!("{letter}{number}");
    while taken.clone().any(|held| *held == name) {
        name.push('_');
    }
    name
}
