//! Type rows as document 01 uses them: atoms, heads, names opened, rows written out, Barren.
//! Places and fit are in `places`, inclusion in `inclusion`.

use crate::forests::Tree;
use crate::tables::{last_row, Procedure, Sheet, Type};

/// "The *head* of an atom is text, bool or its label."
#[derive(Clone, Copy, Debug, PartialEq, Eq, PartialOrd, Ord, Hash)]
pub enum Head {
    Text,
    Bool,
    Label(u16),
}

impl Head {
    pub fn of_tree(tree: &Tree) -> Head {
        match tree {
            Tree::Text { .. } => Head::Text,
            Tree::Bool(_) => Head::Bool,
            Tree::Label(label, _) => Head::Label(*label),
        }
    }
}

/// The declared type rows and, after them, rows written by a check. A written row refers to lower
/// rows as a declared one does, but may share them with others.
#[derive(Clone, Debug, Default)]
pub struct Types {
    names: Vec<u16>,
    rows: Vec<Type>,
    declared: u16,
    nullable: Vec<bool>,
    written_out: Vec<usize>,
}

impl Types {
    /// The declared types of a sheet that has passed Shape.
    pub fn of(sheet: &Sheet) -> Types {
        let mut types = Types {
            names: sheet.names.clone(),
            ..Types::default()
        };
        for &row in &sheet.types {
            types.write(Type::of(row).expect("a type row that passed Shape"));
        }
        types.declared = last_row(&types.rows);
        types
    }

    /// Adds a row, whose parts are lower rows, and gives its number.
    pub fn write(&mut self, row: Type) -> u16 {
        let (nullable, parts) = match row {
            Type::Empty => (true, 0),
            Type::Text | Type::Bool | Type::Name(_) => (false, 0),
            Type::Label { content, .. } => (false, self.written_out(content)),
            Type::Sequence(p, q) => (self.nullable(p) && self.nullable(q), self.both(p, q)),
            Type::Choice(p, q) => (self.nullable(p) || self.nullable(q), self.both(p, q)),
            Type::Star(p) => (true, self.written_out(p)),
        };
        self.rows.push(row);
        self.nullable.push(nullable);
        self.written_out.push(parts.saturating_add(1));
        last_row(&self.rows)
    }

    fn both(&self, p: u16, q: u16) -> usize {
        self.written_out(p).saturating_add(self.written_out(q))
    }

    pub fn row(&self, number: u16) -> Type {
        self.rows[usize::from(number) - 1]
    }

    /// The numbers of all rows.
    pub fn rows(&self) -> std::ops::RangeInclusive<u16> {
        1..=last_row(&self.rows)
    }

    /// The numbers of the declared rows.
    pub fn declared(&self) -> std::ops::RangeInclusive<u16> {
        1..=self.declared
    }

    /// True if the empty forest is of the type.
    pub fn nullable(&self, number: u16) -> bool {
        self.nullable[usize::from(number) - 1]
    }

    /// "rows written out (names not opened)": a shared part counts at each place where it stands.
    pub fn written_out(&self, number: u16) -> usize {
        self.written_out[usize::from(number) - 1]
    }

    /// "a name acts everywhere as its label row".
    pub fn opened(&self, number: u16) -> Type {
        match self.row(number) {
            Type::Name(name) => self.row(self.names[usize::from(name) - 1]),
            row => row,
        }
    }

    /// The head of the row; none if it is no atom: "a row of kind 2, 3, 4 or 8".
    pub fn head(&self, number: u16) -> Option<Head> {
        match self.opened(number) {
            Type::Text => Some(Head::Text),
            Type::Bool => Some(Head::Bool),
            Type::Label { label, .. } => Some(Head::Label(label)),
            Type::Empty | Type::Sequence(..) | Type::Choice(..) | Type::Star(_) => None,
            Type::Name(_) => unreachable!("a name stands for a row of kind 4"),
        }
    }

    /// Label and content row of a labelled atom.
    pub fn labelled(&self, number: u16) -> Option<(u16, u16)> {
        match self.opened(number) {
            Type::Label { label, content } => Some((label, content)),
            _ => None,
        }
    }

    /// Content row of a labelled atom.
    pub fn content(&self, number: u16) -> Option<u16> {
        self.labelled(number).map(|(_, content)| content)
    }

    /// "A name is Barren if no finite forest is of it": the lowest such name.
    pub fn lowest_barren(&self) -> Option<u16> {
        let inhabited = self.inhabited();
        let barren = |&row: &u16| !inhabited[usize::from(row) - 1];
        let index = self.names.iter().position(barren)?;
        u16::try_from(index + 1).ok()
    }

    /// For each row whether some finite forest is of it: the least solution, from none upwards.
    fn inhabited(&self) -> Vec<bool> {
        let mut known = vec![false; self.rows.len()];
        loop {
            let before = known.clone();
            for (index, &row) in self.rows.iter().enumerate() {
                let has = |number: u16| known[usize::from(number) - 1];
                known[index] = match row {
                    Type::Empty | Type::Text | Type::Bool | Type::Star(_) => true,
                    Type::Label { content, .. } => has(content),
                    Type::Sequence(p, q) => has(p) && has(q),
                    Type::Choice(p, q) => has(p) || has(q),
                    Type::Name(name) => has(self.names[usize::from(name) - 1]),
                };
            }
            if known == before {
                return known;
            }
        }
    }

    /// The declared rows and after them the type written out, where no row is shared; its row.
    pub fn write_out(&self, number: u16) -> (Types, u16) {
        let mut types = Types {
            names: self.names.clone(),
            ..Types::default()
        };
        for row in self.declared() {
            types.write(self.row(row));
        }
        types.declared = self.declared;
        let copy = types.copy(self, number);
        (types, copy)
    }

    fn copy(&mut self, from: &Types, number: u16) -> u16 {
        let row = match from.row(number) {
            Type::Label { label, content } => Type::Label {
                label,
                content: self.copy(from, content),
            },
            Type::Sequence(p, q) => {
                let p = self.copy(from, p);
                Type::Sequence(p, self.copy(from, q))
            }
            Type::Choice(p, q) => {
                let p = self.copy(from, p);
                Type::Choice(p, self.copy(from, q))
            }
            Type::Star(p) => Type::Star(self.copy(from, p)),
            atom => atom,
        };
        self.write(row)
    }
}

/// "All declared types": A, B, each name's row, parameters, inputs and outputs.
pub fn declared_types(sheet: &Sheet) -> Vec<u16> {
    let procedures = sheet.procedures.iter().flat_map(|&words| {
        let it = Procedure::of(words);
        it.parameter_types().chain([it.input, it.output])
    });
    let names = sheet.names.iter().copied();
    [sheet.a, sheet.b]
        .into_iter()
        .chain(names)
        .chain(procedures)
        .collect()
}
