//! The order in which the text of a sheet writes its rows, and what the text must say where the sheet
//! differs from what that order alone would give.

use crate::drafts::{natural_place, put};
use crate::tables::Sheet;
use crate::words::{self, is_text, Word};
use std::collections::{BTreeMap, BTreeSet};

/// What the text must say besides.
#[derive(Default)]
pub struct Notes {
    /// The rows that need a mark.
    pub marked: BTreeSet<(Word, u16)>,
    /// The text rows that need their place in the pool.
    pub placed: BTreeSet<(Word, u16)>,
    pub pool_shown: bool,
}

impl Notes {
    pub fn of(sheet: &Sheet) -> Notes {
        let order = Order::of(sheet);
        let (pool_shown, placed) = texts_placed(sheet, &order.texts);
        Notes {
            marked: order.marked(),
            placed,
            pool_shown,
        }
    }
}

/// The rows of a sheet in the order in which its text writes them.
struct Order<'a> {
    sheet: &'a Sheet,
    /// Per table the row numbers, in natural order.
    rows: BTreeMap<Word, Vec<u16>>,
    /// The text rows of queries and the forest, in the order written.
    texts: Vec<(Word, u16)>,
}

impl<'a> Order<'a> {
    fn of(sheet: &'a Sheet) -> Order<'a> {
        let mut order = Order {
            sheet,
            rows: BTreeMap::new(),
            texts: Vec::new(),
        };
        for row in sheet.names.iter().chain([&sheet.a, &sheet.b]) {
            order.parts_first(Word::Type, *row);
        }
        for [first, second, input, output, body] in sheet.procedures.iter().copied() {
            for row in [first, second, input, output] {
                order.parts_first(Word::Type, row);
            }
            order.parts_first(Word::Statement, body);
        }
        order.parts_first(Word::Statement, sheet.main);
        order.forest();
        order
    }

    fn parts_first(&mut self, table: Word, row: u16) {
        if row == 0 {
            return;
        }
        let index = usize::from(row) - 1;
        match table {
            Word::Type => {
                let row = &self.sheet.types[index];
                self.parts(row, words::of_type(row));
            }
            Word::Query => {
                let row = &self.sheet.queries[index];
                self.parts(row, words::of_query(row));
            }
            Word::Statement => {
                let row = &self.sheet.statements[index];
                self.parts(row, words::of_statement(row));
            }
            _ => return,
        }
        self.add(table, row);
    }

    fn parts<const N: usize>(&mut self, row: &[u16; N], words: [Word; N]) {
        for (part, table) in row.iter().zip(words) {
            self.parts_first(table, *part);
        }
    }

    fn add(&mut self, table: Word, row: u16) {
        self.rows.entry(table).or_default().push(row);
        if is_text(table, self.kind(table, row)) {
            self.texts.push((table, row));
        }
    }

    fn kind(&self, table: Word, row: u16) -> u16 {
        match table {
            Word::Query => self.sheet.queries[usize::from(row) - 1][0],
            Word::Forest => self.sheet.forest[usize::from(row) - 1][0],
            _ => 0,
        }
    }

    /// The forest is written from its first tree on and numbered from its last.
    fn forest(&mut self) {
        let mut ahead = vec![self.sheet.root];
        while let Some(row) = ahead.pop() {
            if row == 0 {
                continue;
            }
            self.add(Word::Forest, row);
            let [kind, _, child, next] = self.sheet.forest[usize::from(row) - 1];
            ahead.push(next);
            if kind == 4 {
                ahead.push(child);
            }
        }
        if let Some(rows) = self.rows.get_mut(&Word::Forest) {
            rows.reverse();
        }
    }

    /// The rows that need marks, as few as can be: unmarked rows get rising numbers.
    fn marked(&self) -> BTreeSet<(Word, u16)> {
        let mut marked = BTreeSet::new();
        for (table, rows) in &self.rows {
            let unmarked = longest_rising(rows);
            let others = rows.iter().filter(|row| !unmarked.contains(row));
            marked.extend(others.map(|row| (*table, *row)));
        }
        marked
    }
}

/// A longest rising part of a list of different numbers.
fn longest_rising(numbers: &[u16]) -> BTreeSet<u16> {
    // ends[n] is the least number that ends a rising part of n + 1 numbers; `before` gives what stands
    // before a number in the longest part that it ends.
    let mut ends: Vec<u16> = Vec::new();
    let mut before: BTreeMap<u16, u16> = BTreeMap::new();
    for number in numbers {
        let length = ends.partition_point(|end| end < number);
        if length > 0 {
            before.insert(*number, ends[length - 1]);
        }
        match ends.get_mut(length) {
            Some(end) => *end = *number,
            None => ends.push(*number),
        }
    }
    std::iter::successors(ends.last().copied(), |number| before.get(number).copied()).collect()
}

/// Whether the pool must be shown, and the text rows that must show their places.
fn texts_placed(sheet: &Sheet, texts: &[(Word, u16)]) -> (bool, BTreeSet<(Word, u16)>) {
    let mut pool = Vec::new();
    let placed = texts_at_other_places(sheet, texts, &mut pool);
    if pool == sheet.pool {
        return (false, placed);
    }
    let placed = texts_at_other_places(sheet, texts, &mut sheet.pool.clone());
    (true, placed)
}

/// The text rows that would not get their places by themselves if the pool began as `pool`.
fn texts_at_other_places(
    sheet: &Sheet,
    texts: &[(Word, u16)],
    pool: &mut Vec<u8>,
) -> BTreeSet<(Word, u16)> {
    let mut others = BTreeSet::new();
    for (table, row) in texts {
        let (offset, text) = text_of(sheet, *table, *row);
        if natural_place(pool, text) == usize::from(offset) {
            put(pool, text);
        } else {
            others.insert((*table, *row));
        }
    }
    others
}

/// The offset and the bytes of a text row.
pub fn text_of(sheet: &Sheet, table: Word, row: u16) -> (u16, &[u8]) {
    let rows = match table {
        Word::Query => &sheet.queries,
        _ => &sheet.forest,
    };
    let [_, offset, length, _] = rows[usize::from(row) - 1];
    let start = usize::from(offset);
    (offset, &sheet.pool[start..start + usize::from(length)])
}
