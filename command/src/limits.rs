//! Where a walk came to a limit: the statement in which its units ended, the row that would be level 201.

use crate::calls::{self, Lent};
use crate::copies::Copy;
use crate::inputs::Work;
use archive::Reply;
use notation::limits::FUEL;
use notation::tables::Sheet;
use notation::Table;
use std::collections::{BTreeMap, BTreeSet};

/// A walk over the script's rows.
#[derive(Clone, Copy, Debug, PartialEq, Eq)]
pub enum Walk {
    Check,
    Run,
}

impl Walk {
    pub fn word(self) -> &'static str {
        match self {
            Walk::Check => "check",
            Walk::Run => "run",
        }
    }

    pub fn fuel(self, sheet: &Sheet) -> u16 {
        match self {
            Walk::Check => sheet.check_fuel,
            Walk::Run => sheet.run_fuel,
        }
    }
}

/// The innermost statement in which the units end: from each the way goes on to the last of its parts that is reached.
pub fn spent_in(work: &Work, walk: Walk) -> u16 {
    let sheet = &work.sheet;
    let reached = |row: u16| is_reached(sheet, walk, row);
    let bodies = sheet.procedures.iter().map(|procedure| procedure[4]);
    // A check goes through the bodies first; a run begins with the script.
    let mut row = match walk {
        Walk::Check if !reached(sheet.main) => bodies.rev().find(|body| reached(*body)).unwrap_or(sheet.main),
        _ => sheet.main,
    };
    loop {
        // The parts that are statements, the last first.
        let parts = match sheet.statements[usize::from(row) - 1] {
            [2, p, q, _] => vec![q, p],
            [3, _, p, q] => vec![q, p],
            [7, _, s, _] | [9, _, _, s] | [8 | 10..=13, s, ..] => vec![s],
            _ => vec![],
        };
        match parts.into_iter().find(|part| reached(*part)) {
            Some(part) => row = part,
            None => return row,
        }
    }
}

/// Whether a walk comes to a statement before its units end: one stands there that is refused at once. It takes some units
/// more, which are given; of 4,096, the most there is, the last few are not seen.
fn is_reached(sheet: &Sheet, walk: Walk, row: u16) -> bool {
    let mut copy = Copy::of(sheet);
    copy.refused = Some(row);
    copy.all();
    // Itself, its condition, and in a check the type that is written.
    copy.new.check_fuel = (sheet.check_fuel + 3).min(FUEL);
    copy.new.run_fuel = (sheet.run_fuel + 2).min(FUEL);
    let new = copy.statements.get(&row).copied().map(usize::from);
    asked(&copy, walk).is_some_and(|reply| [8, 11].contains(&reply.number) && new == Some(reply.a))
}

/// The walk over a copy; none where it breaks a limit of the tables.
fn asked(copy: &Copy, walk: Walk) -> Option<Reply> {
    let bundle = copy.bundle()?;
    Some(match walk {
        Walk::Check => calls::check(&bundle, Lent::default()),
        Walk::Run => match calls::run(&bundle, Lent::default()) {
            Ok((reply, _)) | Err(reply) => reply,
        },
    })
}

/// How many levels a walk goes down at most.
const LEVELS: usize = 200;

/// The row that would be level 201: the first in the order of the walk, on a way that it takes.
pub fn too_deep(sheet: &Sheet, walk: Walk) -> Option<(Table, u16)> {
    let mut levels =
        Levels { sheet, walk, told: told_without(sheet, walk, None), known: BTreeMap::new(), tried: BTreeSet::new() };
    let bodies = sheet.procedures.iter().map(|procedure| procedure[4]).filter(|_| walk == Walk::Check);
    let roots: Vec<u16> = bodies.chain([sheet.main]).collect();
    roots.into_iter().find_map(|root| levels.too_deep((Table::Statements, root), 1))
}

/// What is answered with `skip` in a statement's place.
fn told_without(sheet: &Sheet, walk: Walk, skipped: Option<u16>) -> Option<Reply> {
    let mut copy = Copy::of(sheet);
    copy.skipped = skipped;
    copy.all();
    asked(&copy, walk)
}

type Row = (Table, u16);

struct Levels<'a> {
    sheet: &'a Sheet,
    walk: Walk,
    /// What is answered to the sheet as it is.
    told: Option<Reply>,
    /// How many levels there are from a row down; none yet where it is being counted, so that it is met again in itself.
    known: BTreeMap<(u8, u16), Option<usize>>,
    /// Rows that lead to no such row from their level.
    tried: BTreeSet<(u8, u16, usize)>,
}

impl Levels<'_> {
    /// From a row at its level down, through parts that are deep enough and that the walk comes to.
    fn too_deep(&mut self, row: Row, level: usize) -> Option<Row> {
        if level > LEVELS {
            return Some(row);
        }
        for part in self.parts(row) {
            let deep_enough = level + self.below(part) > LEVELS;
            if deep_enough && self.tried.insert((part.0 as u8, part.1, level)) && self.matters(part) {
                if let Some(found) = self.too_deep(part, level + 1) {
                    return Some(found);
                }
            }
        }
        None
    }

    /// How many levels there are from a row down, itself counted; in a circle of calls as many as one likes.
    fn below(&mut self, row: Row) -> usize {
        let key = (row.0 as u8, row.1);
        match self.known.get(&key) {
            Some(Some(levels)) => return *levels,
            Some(None) => return LEVELS + 1,
            None => self.known.insert(key, None),
        };
        let levels = 1 + self.parts(row).into_iter().map(|part| self.below(part)).max().unwrap_or(0);
        self.known.insert(key, Some(levels));
        levels
    }

    /// Whether a row makes a difference; a statement without parts always may, since it is at the end of the way.
    fn matters(&self, row: Row) -> bool {
        row.0 == Table::Queries
            || self.parts(row).is_empty()
            || told_without(self.sheet, self.walk, Some(row.1)) != self.told
    }

    fn parts(&self, (table, row): Row) -> Vec<Row> {
        let index = usize::from(row) - 1;
        let (queries, statements) = match table {
            Table::Queries => match self.sheet.queries[index] {
                [2 | 8 | 10 | 13, p, q, _] => (vec![p, q], vec![]),
                [3, _, q, _] => (vec![q], vec![]),
                [9, p, q, r] => (vec![p, q, r], vec![]),
                [12, p, ..] => (vec![p], vec![]),
                _ => (vec![], vec![]),
            },
            _ => match self.sheet.statements[index] {
                [2, p, q, _] => (vec![], vec![p, q]),
                [3, p, q, r] => (vec![p], vec![q, r]),
                [4, p, ..] => (vec![p], vec![]),
                [7, p, q, _] => (vec![p], vec![q]),
                [8 | 10..=13, p, ..] => (vec![], vec![p]),
                [9, _, _, r] => (vec![], vec![r]),
                [14, procedure, q, r] => {
                    // A run goes from a call into the body; a check does not.
                    let body = self.sheet.procedures[usize::from(procedure) - 1][4];
                    (vec![q, r], if self.walk == Walk::Run { vec![body] } else { vec![] })
                }
                _ => (vec![], vec![]),
            },
        };
        let queries = queries.into_iter().filter(|row| *row != 0).map(|row| (Table::Queries, row));
        queries.chain(statements.into_iter().map(|row| (Table::Statements, row))).collect()
    }
}
