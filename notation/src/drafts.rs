//! Rows on their way into a sheet: which number each row gets, and which place each text gets in the pool.

use crate::faults::{Fault, Place};
use crate::limits::{FOREST_ROWS, POOL_BYTES, QUERY_ROWS, STATEMENT_ROWS, TYPE_ROWS};
use crate::places::{Places, Written};
use crate::tables::Sheet;
use crate::words::{self, Word};

/// A mark such as `@12`: the number that a row asks for.
#[derive(Clone, Copy, Debug)]
pub struct Mark {
    pub row: u16,
    pub place: Place,
}

/// The word or sign that brings a row, where the row's first part begins, and the row's mark if it has one.
#[derive(Clone, Copy, Debug)]
pub struct Origin {
    pub sign: Place,
    pub start: usize,
    pub mark: Option<Mark>,
}

impl Origin {
    /// Without a mark; for rows that a short form brings besides its own.
    pub fn unmarked(self) -> Origin {
        Origin { mark: None, ..self }
    }

    /// The origin of a row whose first part began at `start`.
    pub fn from(self, start: usize) -> Origin {
        Origin { start, ..self }
    }
}

/// One table: its rows in natural order, each referring to others by their natural numbers.
pub struct Draft<const N: usize> {
    table: Word,
    what: &'static str,
    limit: usize,
    words: fn(&[u16; N]) -> [Word; N],
    rows: Vec<[u16; N]>,
    origins: Vec<(Written, Option<Mark>)>,
}

impl<const N: usize> Draft<N> {
    /// Adds a row that ends before the byte `end`, and gives its natural number.
    pub fn add(&mut self, origin: Origin, end: usize, row: [u16; N]) -> Result<u16, Fault> {
        self.check_room(self.rows.len(), origin.sign)?;
        let (start, file) = (origin.start, origin.sign.file);
        let whole = Place { file, start, end };
        let sign = origin.sign;
        self.rows.push(row);
        self.origins.push((Written { sign, whole }, origin.mark));
        Ok(self.rows.len() as u16)
    }

    /// Refuses one more row after `count` rows if the table's limit is reached.
    pub fn check_room(&self, count: usize, place: Place) -> Result<(), Fault> {
        if count < self.limit {
            return Ok(());
        }
        Err(place.fault(format!("more than {} {} rows", self.limit, self.what)))
    }

    /// The row of a natural number, with its place.
    pub fn row(&self, number: u16) -> ([u16; N], Written) {
        let index = usize::from(number) - 1;
        (self.rows[index], self.origins[index].0)
    }

    /// Each row's number: a marked row has the one it asks for, the others take those left, in order.
    fn numbers(&self, faults: &mut Vec<Fault>) -> Vec<u16> {
        let mut taken = vec![false; self.rows.len()];
        for mark in self.origins.iter().filter_map(|(_, mark)| *mark) {
            faults.extend(self.take(&mut taken, mark).err());
        }
        let mut left = (1u16..).zip(taken).filter(|(_, taken)| !taken);
        let number = |(_, mark): &(Written, Option<Mark>)| match mark {
            Some(mark) => mark.row,
            None => left.next().map_or(0, |(number, _)| number),
        };
        let numbers: Vec<u16> = self.origins.iter().map(number).collect();
        if faults.is_empty() {
            faults.extend(self.check_order(&numbers).err());
        }
        numbers
    }

    fn take(&self, taken: &mut [bool], mark: Mark) -> Result<(), Fault> {
        let (row, what) = (mark.row, self.what);
        match taken.get_mut(usize::from(row).wrapping_sub(1)) {
            Some(free @ false) => {
                *free = true;
                Ok(())
            }
            Some(true) => Err(mark
                .place
                .fault(format!("two {what} rows are marked @{row}"))),
            None => Err(mark.place.fault(format!(
                "there is no {what} row {row}: they go from 1 to {}",
                self.rows.len()
            ))),
        }
    }

    fn check_order(&self, numbers: &[u16]) -> Result<(), Fault> {
        for (index, row) in self.rows.iter().enumerate() {
            for (&part, meaning) in row.iter().zip((self.words)(row)) {
                if meaning == self.table && part != 0 {
                    self.check_lower(numbers, usize::from(part) - 1, index)?;
                }
            }
        }
        Ok(())
    }

    fn check_lower(&self, numbers: &[u16], part: usize, whole: usize) -> Result<(), Fault> {
        if numbers[part] < numbers[whole] {
            return Ok(());
        }
        let (written, mark) = self.origins[whole];
        let place = mark.map_or(written.sign, |mark| mark.place);
        Err(place.fault(format!(
            "{} row {} would refer to row {}, and rows refer to lower rows only",
            self.what, numbers[whole], numbers[part]
        )))
    }

    /// Rows and places, each moved to the place of its number.
    fn ordered(self, numbers: &[u16]) -> (Vec<[u16; N]>, Vec<Written>) {
        let mut rows = self.rows.clone();
        let mut places: Vec<Written> = self.origins.iter().map(|(written, _)| *written).collect();
        let moved = self.rows.iter().zip(&self.origins).zip(numbers);
        for ((row, (written, _)), number) in moved {
            let index = usize::from(*number) - 1;
            (rows[index], places[index]) = (*row, *written);
        }
        (rows, places)
    }
}

/// A text of a query or forest row, not yet placed in the pool.
pub struct Text {
    pub bytes: Vec<u8>,
    pub place: Place,
    /// The place asked for by `at`.
    pub at: Option<(u16, Place)>,
}

/// All tables of a sheet.
pub struct Drafts {
    pub types: Draft<3>,
    pub queries: Draft<4>,
    pub statements: Draft<4>,
    pub forest: Draft<4>,
    /// The texts of query and forest rows, in the order written, each with its table and row.
    pub texts: Vec<(Word, u16, Text)>,
    /// What has no row numbers of its own: names, procedures, header, pool.
    pub sheet: Sheet,
}

impl Drafts {
    pub fn new() -> Drafts {
        fn draft<const N: usize>(
            table: Word,
            what: &'static str,
            limit: usize,
            words: fn(&[u16; N]) -> [Word; N],
        ) -> Draft<N> {
            Draft {
                table,
                what,
                limit,
                words,
                rows: Vec::new(),
                origins: Vec::new(),
            }
        }
        Drafts {
            types: draft(Word::Type, "type", TYPE_ROWS, words::of_type),
            queries: draft(Word::Query, "query", QUERY_ROWS, words::of_query),
            statements: draft(
                Word::Statement,
                "statement",
                STATEMENT_ROWS,
                words::of_statement,
            ),
            forest: draft(Word::Forest, "forest", FOREST_ROWS, words::of_forest),
            texts: Vec::new(),
            sheet: Sheet::default(),
        }
    }

    /// The sheet, with every text placed and every row numbered, and where its rows were written.
    pub fn finish(mut self) -> Result<(Sheet, Places), Vec<Fault>> {
        let mut faults = self.place_texts();
        let types = self.types.numbers(&mut faults);
        let queries = self.queries.numbers(&mut faults);
        let statements = self.statements.numbers(&mut faults);
        let forest = self.forest.numbers(&mut faults);
        if !faults.is_empty() {
            return Err(faults);
        }
        let (mut sheet, mut places) = (self.sheet, Places::default());
        (sheet.types, places.types) = self.types.ordered(&types);
        (sheet.queries, places.queries) = self.queries.ordered(&queries);
        (sheet.statements, places.statements) = self.statements.ordered(&statements);
        (sheet.forest, places.forest) = self.forest.ordered(&forest);
        words::visit(&mut sheet, |meaning, word| {
            let numbers = match meaning {
                Word::Type => &types,
                Word::Query => &queries,
                Word::Statement => &statements,
                Word::Forest => &forest,
                _ => return,
            };
            if *word != 0 {
                *word = numbers[usize::from(*word) - 1];
            }
        });
        Ok((sheet, places))
    }

    fn place_texts(&mut self) -> Vec<Fault> {
        let pool = &mut self.sheet.pool;
        let free = self
            .texts
            .iter_mut()
            .filter(|(_, _, text)| text.at.is_none());
        for (_, _, text) in free {
            text.at = Some((put(pool, &text.bytes), text.place));
            if pool.len() > POOL_BYTES {
                return vec![pool_is_full(text.place)];
            }
        }
        let mut faults = Vec::new();
        for (table, row, text) in &self.texts {
            let (offset, place) = text.at.expect("every text has a place by now");
            let length = text.bytes.len();
            if pool.get(offset.into()..usize::from(offset) + length) != Some(&text.bytes) {
                faults.push(place.fault(format!("the pool does not hold this text at {offset}")));
            }
            let rows = match table {
                Word::Query => &mut self.queries.rows,
                _ => &mut self.forest.rows,
            };
            let row = &mut rows[usize::from(*row) - 1];
            (row[1], row[2]) = (offset, length as u16);
        }
        faults
    }
}

pub fn pool_is_full(place: Place) -> Fault {
    place.fault(format!("more than {POOL_BYTES} pool bytes"))
}

/// Puts a text into the pool: at the first place where its bytes stand already, or else at the end.
pub fn put(pool: &mut Vec<u8>, text: &[u8]) -> u16 {
    let offset = natural_place(pool, text);
    if offset == pool.len() {
        pool.extend(text);
    }
    offset as u16
}

/// Where `put` would put a text.
pub fn natural_place(pool: &[u8], text: &[u8]) -> usize {
    if text.is_empty() {
        return 0;
    }
    let mut places = pool.windows(text.len());
    places.position(|held| held == text).unwrap_or(pool.len())
}
