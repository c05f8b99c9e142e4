//! What each word of a row says: the one place that knows which words refer to which table.

use crate::tables::Sheet;

/// The meaning of one word of a row.
#[derive(Clone, Copy, Debug, PartialEq, Eq, PartialOrd, Ord)]
pub enum Word {
    Plain,
    Type,
    Query,
    Statement,
    Forest,
    Label,
    Name,
    Procedure,
}

use Word::*;

pub fn of_type(row: &[u16; 3]) -> [Word; 3] {
    match row[0] {
        4 => [Plain, Label, Type],
        5 | 6 => [Plain, Type, Type],
        7 => [Plain, Type, Plain],
        8 => [Plain, Name, Plain],
        _ => [Plain; 3],
    }
}

pub fn of_query(row: &[u16; 4]) -> [Word; 4] {
    match row[0] {
        2 | 8 | 10 | 13 => [Plain, Query, Query, Plain],
        3 => [Plain, Label, Query, Plain],
        9 => [Plain, Query, Query, Query],
        12 => [Plain, Query, Label, Plain],
        _ => [Plain; 4],
    }
}

pub fn of_statement(row: &[u16; 4]) -> [Word; 4] {
    match row[0] {
        2 => [Plain, Statement, Statement, Plain],
        3 => [Plain, Query, Statement, Statement],
        4 => [Plain, Query, Plain, Plain],
        6 => [Plain, Label, Plain, Plain],
        7 => [Plain, Query, Statement, Plain],
        8 | 10..=13 => [Plain, Statement, Plain, Plain],
        9 if row[1] == 2 => [Plain, Plain, Label, Statement],
        9 => [Plain, Plain, Plain, Statement],
        14 => [Plain, Procedure, Query, Query],
        _ => [Plain; 4],
    }
}

pub fn of_forest(row: &[u16; 4]) -> [Word; 4] {
    match row[0] {
        4 => [Plain, Label, Forest, Forest],
        _ => [Plain, Plain, Plain, Forest],
    }
}

/// Is this query or forest row a text?
pub fn is_text(meaning: Word, kind: u16) -> bool {
    matches!((meaning, kind), (Query, 4) | (Forest, 1))
}

/// Shows every word of the sheet's tables and header, with its meaning, to `see`, which may change it.
pub fn visit(sheet: &mut Sheet, mut see: impl FnMut(Word, &mut u16)) {
    visit_rows(&mut sheet.types, of_type, &mut see);
    visit_rows(&mut sheet.queries, of_query, &mut see);
    visit_rows(&mut sheet.statements, of_statement, &mut see);
    visit_rows(&mut sheet.forest, of_forest, &mut see);
    visit_roots(sheet, see);
}

/// As `visit`, for the words of names, procedures and the header alone.
pub fn visit_roots(sheet: &mut Sheet, mut see: impl FnMut(Word, &mut u16)) {
    sheet.names.iter_mut().for_each(|row| see(Type, row));
    let of_procedure = |_: &[u16; 5]| [Type, Type, Type, Type, Statement];
    visit_rows(&mut sheet.procedures, of_procedure, &mut see);
    see(Type, &mut sheet.a);
    see(Type, &mut sheet.b);
    see(Statement, &mut sheet.main);
    see(Forest, &mut sheet.root);
}

fn visit_rows<const N: usize>(
    rows: &mut [[u16; N]],
    words: impl Fn(&[u16; N]) -> [Word; N],
    see: &mut impl FnMut(Word, &mut u16),
) {
    for row in rows {
        let meanings = words(row);
        for (word, meaning) in row.iter_mut().zip(meanings) {
            see(meaning, word);
        }
    }
}
