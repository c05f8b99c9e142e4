//! Sheets that are like another in all but a part. The proved calls are asked about them, to find which part a refusal
//! is about where it carries no row.

use crate::calls;
use notation::bundles;
use notation::tables::Sheet;
use std::collections::BTreeMap;

/// Rows copied with all their parts. Each old row is copied at most once; what is added takes the place of rows that are
/// left out, or goes past a limit, and then the proved writer says so and there is no answer.
pub struct Copy<'a> {
    old: &'a Sheet,
    pub new: Sheet,
    /// New query and statement rows by the old.
    pub queries: BTreeMap<u16, u16>,
    pub statements: BTreeMap<u16, u16>,
    /// A statement row in whose place one stands that is refused wherever it is reached.
    pub refused: Option<u16>,
    /// A statement row in whose place `skip` stands.
    pub skipped: Option<u16>,
    /// A call that is of one procedure more, the last, and how many arguments it keeps.
    pub fewer: Option<(u16, usize)>,
}

impl<'a> Copy<'a> {
    /// Without rows as yet.
    pub fn of(old: &'a Sheet) -> Copy<'a> {
        let (pool, check_fuel, run_fuel) = (old.pool.clone(), old.check_fuel, old.run_fuel);
        let new = Sheet { pool, check_fuel, run_fuel, ..Sheet::default() };
        Copy {
            old,
            new,
            queries: BTreeMap::new(),
            statements: BTreeMap::new(),
            refused: None,
            skipped: None,
            fewer: None,
        }
    }

    pub fn types(&mut self, row: u16) -> u16 {
        if row == 0 {
            return 0;
        }
        let [kind, p, q] = self.old.types[usize::from(row) - 1];
        let copied = match kind {
            4 => [kind, p, self.types(q)],
            5..=7 => [kind, self.types(p), self.types(q)],
            _ => [kind, p, q],
        };
        added(&mut self.new.types, copied)
    }

    pub fn names(&mut self) {
        self.new.names = self.old.names.iter().map(|row| self.types(*row)).collect();
    }

    fn query(&mut self, row: u16) -> u16 {
        if row == 0 {
            return 0;
        }
        let [kind, p, q, r] = self.old.queries[usize::from(row) - 1];
        let copied = match kind {
            2 | 8 | 9 | 10 | 13 => [kind, self.query(p), self.query(q), self.query(r)],
            3 => [kind, p, self.query(q), r],
            12 => [kind, self.query(p), q, r],
            _ => [kind, p, q, r],
        };
        let new = added(&mut self.new.queries, copied);
        self.queries.insert(row, new);
        new
    }

    pub fn statement(&mut self, row: u16) -> u16 {
        let copied = match Some(row) {
            it if it == self.refused => self.always_refused(),
            it if it == self.skipped => [1, 0, 0, 0],
            _ => self.alike(row),
        };
        let new = added(&mut self.new.statements, copied);
        self.statements.insert(row, new);
        new
    }

    fn alike(&mut self, row: u16) -> [u16; 4] {
        let [kind, p, q, r] = self.old.statements[usize::from(row) - 1];
        match kind {
            2 => [kind, self.statement(p), self.statement(q), r],
            3 => [kind, self.query(p), self.statement(q), self.statement(r)],
            4 => [kind, self.query(p), q, r],
            7 => [kind, self.query(p), self.statement(q), r],
            8 | 10..=13 => [kind, self.statement(p), q, r],
            9 => [kind, p, q, self.statement(r)],
            14 => {
                let fewer = self.fewer.filter(|(call, _)| *call == row);
                let (procedure, kept) = fewer.map_or((p, 2), |(_, kept)| (self.old.procedures.len() as u16 + 1, kept));
                let mut argument = |at: usize, query: u16| if at < kept { self.query(query) } else { 0 };
                [kind, procedure, argument(0, q), argument(1, r)]
            }
            _ => [kind, p, q, r],
        }
    }

    /// `if () then skip else skip`: no bool, so a check says Mismatch and a run Stuck.
    fn always_refused(&mut self) -> [u16; 4] {
        let condition = added(&mut self.new.queries, [1, 0, 0, 0]);
        let skips = [(); 2].map(|()| added(&mut self.new.statements, [1, 0, 0, 0]));
        [3, condition, skips[0], skips[1]]
    }

    /// `p(x, y)`, with p's own parameters: a body that is always right.
    pub fn call_of_itself(&mut self, procedure: usize, parameters: usize) -> u16 {
        let mut argument = |at: usize| match at < parameters {
            true => added(&mut self.new.queries, [7, at as u16, 0, 0]),
            false => 0,
        };
        let arguments = [argument(0), argument(1)];
        added(&mut self.new.statements, [14, procedure as u16, arguments[0], arguments[1]])
    }

    /// Names, procedures, script and forest, with what is put in a statement's place.
    pub fn all(&mut self) {
        self.names();
        for [first, second, input, output, body] in self.old.procedures.iter().copied() {
            let [first, second, input, output] = [first, second, input, output].map(|row| self.types(row));
            let body = self.statement(body);
            self.new.procedures.push([first, second, input, output, body]);
        }
        self.main();
        (self.new.forest, self.new.root) = (self.old.forest.clone(), self.old.root);
    }

    /// The script, from A to B.
    pub fn main(&mut self) {
        (self.new.a, self.new.b) = (self.types(self.old.a), self.types(self.old.b));
        self.new.main = self.statement(self.old.main);
    }

    /// `skip` from () to ().
    pub fn no_script(&mut self) {
        let [a, b] = [(); 2].map(|()| added(&mut self.new.types, [1, 0, 0]));
        self.skip_from(a, b);
    }

    fn skip_from(&mut self, a: u16, b: u16) {
        (self.new.a, self.new.b) = (a, b);
        self.new.main = added(&mut self.new.statements, [1, 0, 0, 0]);
    }

    /// None where the copy breaks a limit.
    pub fn bundle(&self) -> Option<Vec<u8>> {
        calls::write(&bundles::encode(&self.new)).ok()
    }
}

/// The new row's number. More rows than a word counts are far past every limit, and the writer says so.
pub fn added<T>(table: &mut Vec<T>, row: T) -> u16 {
    table.push(row);
    u16::try_from(table.len()).unwrap_or(u16::MAX)
}

/// A sheet that holds a description alone: its forest, of type B, with the script `skip` from B to B.
pub fn description(sheet: &Sheet, forest: Vec<[u16; 4]>) -> Sheet {
    let mut copy = Copy::of(sheet);
    copy.names();
    let (a, b) = (copy.types(sheet.b), copy.types(sheet.b));
    copy.skip_from(a, b);
    let mut new = copy.new;
    new.root = u16::try_from(forest.len()).expect("a result's root is a word");
    Sheet { forest, ..new }
}
