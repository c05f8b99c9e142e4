//! Smaller sheets in which a difference stays.

use crate::shape::well_shaped;
use crate::tables::Sheet;
use notation::put;
use notation::words::{self, is_text, Word};

/// One way to make a sheet smaller. Rows and numbers count from 1.
#[derive(Clone, Copy)]
enum Edit {
    EmptyForest,
    /// The trees after this one go.
    LastTree(u16),
    WithoutChildren(u16),
    WithoutTree(u16),
    /// Its children take the tree's place.
    ChildrenOnly(u16),
    /// The text becomes empty.
    WithoutText(u16),
    /// Its calls become skip.
    WithoutProcedure(u16),
    /// Its uses become `()`.
    WithoutName(u16),
    /// The row becomes kind 1 of its table: `()` or skip.
    Least(Word, u16),
    /// The row's user uses the row's part instead, the one in this word.
    PartOnly(Word, u16, usize),
    /// Bytes that no text has go.
    PackedPool,
}

/// The sheet made smaller while `stays` holds, which is asked at most `effort` times.
pub fn shrunk(mut sheet: Sheet, effort: usize, mut stays: impl FnMut(&Sheet) -> bool) -> Sheet {
    let mut left = effort;
    loop {
        let before = size(&sheet);
        let mut place = 0;
        while let Some(edit) = edits(&sheet).get(place) {
            place += 1;
            let candidate = swept(edit.applied(sheet.clone()));
            if size(&candidate) >= size(&sheet) || !well_shaped(&candidate) {
                continue;
            }
            if left == 0 {
                return sheet;
            }
            left -= 1;
            if stays(&candidate) {
                sheet = candidate;
                place -= 1;
            }
        }
        if size(&sheet) == before {
            return sheet;
        }
    }
}

/// Falls with every edit that is taken: rows and pool bytes, then the sum of all words.
fn size(sheet: &Sheet) -> (usize, u64) {
    let rows = sheet.names.len()
        + sheet.types.len()
        + sheet.queries.len()
        + sheet.statements.len()
        + sheet.procedures.len()
        + sheet.forest.len();
    let mut sum = 0;
    words::visit(&mut sheet.clone(), |_, word| sum += u64::from(*word));
    (rows + sheet.pool.len(), sum)
}

/// All edits, those first that may take most away.
fn edits(sheet: &Sheet) -> Vec<Edit> {
    let mut edits = vec![Edit::EmptyForest];
    edits.extend(downwards(&sheet.procedures).map(Edit::WithoutProcedure));
    edits.extend(downwards(&sheet.names).map(Edit::WithoutName));
    for row in downwards(&sheet.statements) {
        let words = words::of_statement(&sheet.statements[usize::from(row) - 1]);
        edits.extend(edits_of(Word::Statement, row, words));
    }
    for row in downwards(&sheet.queries) {
        let words = words::of_query(&sheet.queries[usize::from(row) - 1]);
        edits.extend(edits_of(Word::Query, row, words));
    }
    for row in downwards(&sheet.types) {
        let words = words::of_type(&sheet.types[usize::from(row) - 1]);
        edits.extend(edits_of(Word::Type, row, words));
    }
    for row in downwards(&sheet.forest) {
        edits.extend([
            Edit::LastTree(row),
            Edit::WithoutChildren(row),
            Edit::WithoutTree(row),
            Edit::ChildrenOnly(row),
            Edit::WithoutText(row),
        ]);
    }
    edits.push(Edit::PackedPool);
    edits
}

/// The row numbers of a table from the last to the first.
fn downwards<T>(rows: &[T]) -> impl Iterator<Item = u16> {
    (1..=rows.len() as u16).rev()
}

fn edits_of<const N: usize>(table: Word, row: u16, words: [Word; N]) -> Vec<Edit> {
    let parts = (0..N).filter(|place| words[*place] == table);
    let mut edits = vec![Edit::Least(table, row)];
    edits.extend(parts.map(|place| Edit::PartOnly(table, row, place)));
    edits
}

impl Edit {
    fn applied(self, mut sheet: Sheet) -> Sheet {
        match self {
            Edit::EmptyForest => sheet.root = 0,
            Edit::LastTree(row) => sheet.forest[usize::from(row) - 1][3] = 0,
            Edit::WithoutChildren(row) => {
                let row = &mut sheet.forest[usize::from(row) - 1];
                if row[0] == 4 {
                    row[2] = 0;
                }
            }
            Edit::WithoutTree(row) => {
                let next = sheet.forest[usize::from(row) - 1][3];
                replace_use(&mut sheet, Word::Forest, row, next);
            }
            Edit::ChildrenOnly(row) => children_only(&mut sheet, row),
            Edit::WithoutText(row) => {
                let row = &mut sheet.forest[usize::from(row) - 1];
                if row[0] == 1 {
                    (row[1], row[2]) = (0, 0);
                }
            }
            Edit::WithoutProcedure(number) => without_procedure(&mut sheet, number),
            Edit::WithoutName(number) => without_name(&mut sheet, number),
            Edit::Least(table, row) => {
                let index = usize::from(row) - 1;
                match table {
                    Word::Type => sheet.types[index] = [1, 0, 0],
                    Word::Query => sheet.queries[index] = [1, 0, 0, 0],
                    _ => sheet.statements[index] = [1, 0, 0, 0],
                }
            }
            Edit::PartOnly(table, row, place) => {
                let index = usize::from(row) - 1;
                let part = match table {
                    Word::Type => sheet.types[index][place],
                    Word::Query => sheet.queries[index][place],
                    _ => sheet.statements[index][place],
                };
                replace_use(&mut sheet, table, row, part);
            }
            Edit::PackedPool => pack_pool(&mut sheet),
        }
        sheet
    }
}

/// The one user of `row` uses `other` instead.
fn replace_use(sheet: &mut Sheet, table: Word, row: u16, other: u16) {
    words::visit(sheet, |meaning, word| {
        if meaning == table && *word == row {
            *word = other;
        }
    });
}

fn children_only(sheet: &mut Sheet, row: u16) {
    let [4, _, child @ (1..), next] = sheet.forest[usize::from(row) - 1] else {
        return;
    };
    let mut last = child;
    while sheet.forest[usize::from(last) - 1][3] != 0 {
        last = sheet.forest[usize::from(last) - 1][3];
    }
    sheet.forest[usize::from(last) - 1][3] = next;
    replace_use(sheet, Word::Forest, row, child);
}

fn without_procedure(sheet: &mut Sheet, number: u16) {
    for row in sheet
        .statements
        .iter_mut()
        .filter(|row| row[0] == 14 && row[1] == number)
    {
        *row = [1, 0, 0, 0];
    }
    sheet.procedures.remove(usize::from(number) - 1);
    close_gap(sheet, Word::Procedure, number);
}

fn without_name(sheet: &mut Sheet, number: u16) {
    for row in sheet
        .types
        .iter_mut()
        .filter(|row| row[0] == 8 && row[1] == number)
    {
        *row = [1, 0, 0];
    }
    sheet.names.remove(usize::from(number) - 1);
    close_gap(sheet, Word::Name, number);
}

/// Numbers above one that is gone fall by one.
fn close_gap(sheet: &mut Sheet, meaning: Word, gone: u16) {
    words::visit(sheet, |other, word| {
        if other == meaning && *word > gone {
            *word -= 1;
        }
    });
}

/// Puts the texts into a pool of their own, as the notation does.
fn pack_pool(sheet: &mut Sheet) {
    let pool = std::mem::take(&mut sheet.pool);
    let queries = sheet
        .queries
        .iter_mut()
        .filter(|row| is_text(Word::Query, row[0]));
    let trees = sheet
        .forest
        .iter_mut()
        .filter(|row| is_text(Word::Forest, row[0]));
    for row in queries.chain(trees) {
        let start = usize::from(row[1]);
        row[1] = put(&mut sheet.pool, &pool[start..start + usize::from(row[2])]);
    }
}

/// The sheet without the rows that nobody uses; the others keep their order.
fn swept(mut sheet: Sheet) -> Sheet {
    let used = Used::of(&sheet);
    let tables = [&used.types, &used.queries, &used.statements, &used.forest];
    let [types, queries, statements, forest] = tables.map(|used| numbers_left(used));
    keep(&mut sheet.types, &used.types);
    keep(&mut sheet.queries, &used.queries);
    keep(&mut sheet.statements, &used.statements);
    keep(&mut sheet.forest, &used.forest);
    words::visit(&mut sheet, |meaning, word| match meaning {
        Word::Type => *word = types[usize::from(*word)],
        Word::Query => *word = queries[usize::from(*word)],
        Word::Statement => *word = statements[usize::from(*word)],
        Word::Forest => *word = forest[usize::from(*word)],
        _ => {}
    });
    sheet
}

/// For each row number, 0 included, whether the roots reach it.
struct Used {
    types: Vec<bool>,
    queries: Vec<bool>,
    statements: Vec<bool>,
    forest: Vec<bool>,
}

impl Used {
    /// A row's users are higher rows, or rows of a table that is gone through before.
    fn of(sheet: &Sheet) -> Used {
        let mut used = Used {
            types: vec![false; sheet.types.len() + 1],
            queries: vec![false; sheet.queries.len() + 1],
            statements: vec![false; sheet.statements.len() + 1],
            forest: vec![false; sheet.forest.len() + 1],
        };
        words::visit_roots(&mut sheet.clone(), |meaning, word| used.add(meaning, *word));
        for (index, row) in sheet.statements.iter().enumerate().rev() {
            used.add_parts(used.statements[index + 1], row, words::of_statement(row));
        }
        for (index, row) in sheet.queries.iter().enumerate().rev() {
            used.add_parts(used.queries[index + 1], row, words::of_query(row));
        }
        for (index, row) in sheet.types.iter().enumerate().rev() {
            used.add_parts(used.types[index + 1], row, words::of_type(row));
        }
        for (index, row) in sheet.forest.iter().enumerate().rev() {
            used.add_parts(used.forest[index + 1], row, words::of_forest(row));
        }
        used
    }

    fn add_parts<const N: usize>(&mut self, reached: bool, row: &[u16; N], words: [Word; N]) {
        if reached {
            row.iter()
                .zip(words)
                .for_each(|(part, meaning)| self.add(meaning, *part));
        }
    }

    fn add(&mut self, meaning: Word, row: u16) {
        let used = match meaning {
            Word::Type => &mut self.types,
            Word::Query => &mut self.queries,
            Word::Statement => &mut self.statements,
            Word::Forest => &mut self.forest,
            _ => return,
        };
        used[usize::from(row)] = row != 0;
    }
}

/// For each row number, 0 included, its number once unused rows are gone.
fn numbers_left(used: &[bool]) -> Vec<u16> {
    let mut last = 0;
    let number = |used: &bool| {
        last += u16::from(*used);
        if *used {
            last
        } else {
            0
        }
    };
    used.iter().map(number).collect()
}

fn keep<const N: usize>(rows: &mut Vec<[u16; N]>, used: &[bool]) {
    let mut used = used.iter().skip(1);
    rows.retain(|_| *used.next().expect("a mark for each row"));
}

#[cfg(test)]
mod tests {
    use super::{shrunk, Sheet};
    use crate::notation::{assemble, list};

    #[test]
    fn what_matters_stays_and_all_else_goes() {
        let text = "labels a = 1, b = 2, c = 3
            type X = a[X*]
            procedure p(x: text) from X to X = insert x
            from X*, b[text] to text
            fuel check 9, run 8
            script iter [a? p(\"one\")]; children [let y = \"two\" in insert b[y, c[]]]
            forest a[b[\"three\", c[true]]], c[\"four\"], false";
        let sheet = assemble(text).expect("a text");
        let holds_c = |sheet: &Sheet| {
            let in_forest = sheet.forest.iter().any(|row| row[..2] == [4, 3]);
            let in_script = sheet.queries.iter().any(|row| row[..2] == [3, 3]);
            in_forest && in_script
        };
        let small = list(&shrunk(sheet, 1_000, holds_c));
        let expected = "labels l3 = 3
from ()
to ()
fuel check 9, run 8
script
  insert l3[]
forest
  l3[]
";
        assert_eq!(small, expected);
    }

    #[test]
    fn effort_is_bounded() {
        let trees = vec!["true"; 500].join(", ");
        let text = format!("from () to () script skip forest {trees}");
        let sheet = assemble(&text).expect("a text");
        let mut asked = 0;
        let same = shrunk(sheet.clone(), 10, |_| {
            asked += 1;
            false
        });
        assert_eq!((asked, same), (10, sheet));
    }
}
