//! Which rule of the tables is broken where the proved calls say 2, Shape: the first that is found, and the row. The verdict is
//! the calls'; this only says in words what docs/REFUSALS.md lists.

use notation::limits::{
    FOREST_ROWS, FUEL, LAST_LABEL, NAMES, POOL_BYTES, PROCEDURES, QUERY_ROWS, SCOPE, STATEMENT_ROWS, TYPE_ROWS,
};
use notation::tables::Sheet;
use notation::Table;

/// A broken rule.
#[derive(Debug, PartialEq, Eq)]
pub struct Broken {
    /// The row, where one is concerned.
    pub row: Option<(Table, u16)>,
    /// Where: `statement row 3`.
    pub place: String,
    /// What is wrong there.
    pub why: String,
}

/// What a word of a row is for.
#[derive(Clone, Copy, PartialEq, Eq)]
enum Role {
    Unused,
    Label,
    Name,
    Procedure,
    Variable,
    TreeVariable,
    Offset,
    Length,
    Row(Table),
    RowOrNone(Table),
}

use Role::{Label, Length, Name, Offset, Procedure, RowOrNone, TreeVariable, Unused, Variable};

const TYPE: Role = Role::Row(Table::Types);
const QUERY: Role = Role::Row(Table::Queries);
const STATEMENT: Role = Role::Row(Table::Statements);

/// The words of a row behind its kind; none where there is no such kind, or no such test.
fn roles(table: Table, row: &[u16]) -> Option<Vec<Role>> {
    Some(match (table, row[0]) {
        (Table::Types, 1..=3) => vec![Unused, Unused],
        (Table::Types, 4) => vec![Label, TYPE],
        (Table::Types, 5 | 6) => vec![TYPE, TYPE],
        (Table::Types, 7) => vec![TYPE, Unused],
        (Table::Types, 8) => vec![Name, Unused],
        (Table::Queries, 1 | 5 | 6) => vec![Unused; 3],
        (Table::Queries, 2 | 8 | 10 | 13) => vec![QUERY, QUERY, Unused],
        (Table::Queries, 3) => vec![Label, QUERY, Unused],
        (Table::Queries, 4) => vec![Offset, Length, Unused],
        (Table::Queries, 7) => vec![Variable, Unused, Unused],
        (Table::Queries, 9) => vec![QUERY; 3],
        (Table::Queries, 11) => vec![TreeVariable, Unused, Unused],
        (Table::Queries, 12) => vec![QUERY, Label, Unused],
        (Table::Statements, 1 | 5) => vec![Unused; 3],
        (Table::Statements, 2) => vec![STATEMENT, STATEMENT, Unused],
        (Table::Statements, 3) => vec![QUERY, STATEMENT, STATEMENT],
        (Table::Statements, 4) => vec![QUERY, Unused, Unused],
        (Table::Statements, 6) => vec![Label, Unused, Unused],
        (Table::Statements, 7) => vec![QUERY, STATEMENT, Unused],
        (Table::Statements, 8 | 10..=13) => vec![STATEMENT, Unused, Unused],
        (Table::Statements, 9) => match row[1] {
            1 | 3 => vec![Unused, STATEMENT],
            2 => vec![Label, STATEMENT],
            _ => return None,
        },
        (Table::Statements, 14) => vec![Procedure, RowOrNone(Table::Queries), RowOrNone(Table::Queries)],
        (Table::Forest, 1) => vec![Offset, Length, RowOrNone(Table::Forest)],
        (Table::Forest, 2 | 3) => vec![Unused, Unused, RowOrNone(Table::Forest)],
        (Table::Forest, 4) => vec![Label, RowOrNone(Table::Forest), RowOrNone(Table::Forest)],
        _ => return None,
    })
}

/// The words of a row with their roles. A test's kind is not among them.
fn words(table: Table, row: &[u16]) -> Vec<(Role, u16)> {
    let roles = roles(table, row).unwrap_or_default();
    let skipped = row.len() - roles.len();
    roles.into_iter().zip(row[skipped..].iter().copied()).collect()
}

/// A word, where it stands, and what it is for.
struct Word {
    row: Option<(Table, u16)>,
    place: String,
    role: Role,
    value: u16,
}

fn table_word(table: Table) -> &'static str {
    match table {
        Table::Types => "type",
        Table::Queries => "query",
        Table::Statements => "statement",
        Table::Forest => "forest",
    }
}

const TABLES: [Table; 4] = [Table::Types, Table::Queries, Table::Statements, Table::Forest];

/// The rows of a table, as words, numbered from 1.
fn rows(sheet: &Sheet, table: Table) -> Vec<(u16, &[u16])> {
    fn numbered<const WORDS: usize>(rows: &[[u16; WORDS]]) -> Vec<(u16, &[u16])> {
        (1..).zip(rows.iter().map(|row| &row[..])).collect()
    }
    match table {
        Table::Types => numbered(&sheet.types),
        Table::Queries => numbered(&sheet.queries),
        Table::Statements => numbered(&sheet.statements),
        Table::Forest => numbered(&sheet.forest),
    }
}

fn place(table: Table, number: u16) -> String {
    format!("{} row {number}", table_word(table))
}

/// The first rule found broken; none of a sheet that keeps them all.
pub fn broken(sheet: &Sheet) -> Option<Broken> {
    let words = all_words(sheet);
    limits(sheet)
        .or_else(|| kinds(sheet))
        .or_else(|| words.iter().find_map(|word| word_fault(sheet, word)))
        .or_else(|| pool(sheet))
        .or_else(|| names(sheet))
        .or_else(|| procedures(sheet))
        .or_else(|| users(sheet, &words))
        .or_else(|| scopes(sheet))
}

fn fault(place: impl Into<String>, why: impl Into<String>) -> Broken {
    Broken { row: None, place: place.into(), why: why.into() }
}

fn at(row: (Table, u16), why: impl Into<String>) -> Broken {
    Broken { row: Some(row), place: place(row.0, row.1), why: why.into() }
}

fn limits(sheet: &Sheet) -> Option<Broken> {
    let counts = [
        ("names", sheet.names.len(), NAMES),
        ("type rows", sheet.types.len(), TYPE_ROWS),
        ("query rows", sheet.queries.len(), QUERY_ROWS),
        ("statement rows", sheet.statements.len(), STATEMENT_ROWS),
        ("procedures", sheet.procedures.len(), PROCEDURES),
        ("forest rows", sheet.forest.len(), FOREST_ROWS),
        ("pool bytes", sheet.pool.len(), POOL_BYTES),
        ("units of check fuel", sheet.check_fuel.into(), FUEL.into()),
        ("units of run fuel", sheet.run_fuel.into(), FUEL.into()),
    ];
    let (what, count, most) = counts.into_iter().find(|(_, count, most)| count > most)?;
    Some(fault("the first words", format!("there are {count} {what}, and {most} is the most")))
}

fn kinds(sheet: &Sheet) -> Option<Broken> {
    TABLES.into_iter().find_map(|table| {
        let (number, row) = rows(sheet, table).into_iter().find(|(_, row)| roles(table, row).is_none())?;
        Some(match (table, row[0]) {
            (Table::Statements, 9) => at((table, number), format!("there is no test {}", row[1])),
            (_, kind) => at((table, number), format!("there is no kind {kind}")),
        })
    })
}

/// Every word of rows, names, procedures and header that is for something.
fn all_words(sheet: &Sheet) -> Vec<Word> {
    let mut all = Vec::new();
    for table in TABLES {
        for (number, row) in rows(sheet, table) {
            let word = |(role, value)| Word { row: Some((table, number)), place: place(table, number), role, value };
            all.extend(words(table, row).into_iter().map(word));
        }
    }
    let mut add = |place: String, role, value| all.push(Word { row: None, place, role, value });
    for (number, row) in (1..).zip(&sheet.names) {
        add(format!("name {number}"), TYPE, *row);
    }
    for (number, procedure) in (1..).zip(&sheet.procedures) {
        let roles = [RowOrNone(Table::Types), RowOrNone(Table::Types), TYPE, TYPE, STATEMENT];
        for (role, value) in roles.into_iter().zip(procedure) {
            add(format!("procedure {number}"), role, *value);
        }
    }
    add("the type A".into(), TYPE, sheet.a);
    add("the type B".into(), TYPE, sheet.b);
    add("the script".into(), STATEMENT, sheet.main);
    add("the forest's root".into(), RowOrNone(Table::Forest), sheet.root);
    all
}

fn word_fault(sheet: &Sheet, word: &Word) -> Option<Broken> {
    let value = word.value;
    let why = match word.role {
        Unused if value != 0 => format!("a word without a use is {value}, and is to be 0"),
        Label if value > LAST_LABEL => format!("label {value}: labels go from 0 to {LAST_LABEL}"),
        Name if !(1..=sheet.names.len()).contains(&value.into()) => format!("there is no type name {value}"),
        Procedure if !(1..=sheet.procedures.len()).contains(&value.into()) => {
            format!("the call is of procedure {value}, and there is none")
        }
        Role::Row(table) if value == 0 => format!("a {} row is wanted, and there is 0", table_word(table)),
        Role::Row(table) | RowOrNone(table) => return row_fault(sheet, word, table),
        _ => return None,
    };
    Some(Broken { row: word.row, place: word.place.clone(), why })
}

fn row_fault(sheet: &Sheet, word: &Word, table: Table) -> Option<Broken> {
    let (value, name) = (word.value, table_word(table));
    let own = word.row.filter(|(own, _)| *own == table);
    let why = match own {
        _ if usize::from(value) > rows(sheet, table).len() => format!("there is no {name} row {value}"),
        Some((_, number)) if value >= number => {
            format!("it refers to row {value}, and a row refers to lower rows alone")
        }
        _ => return None,
    };
    Some(Broken { row: word.row, place: word.place.clone(), why })
}

fn pool(sheet: &Sheet) -> Option<Broken> {
    [Table::Queries, Table::Forest].into_iter().find_map(|table| {
        let places = rows(sheet, table).into_iter().map(|(number, row)| (number, words(table, row)));
        let outside = |found: &(u16, Vec<(Role, u16)>)| match found.1[..] {
            [(Offset, offset), (Length, length), ..] => usize::from(offset) + usize::from(length) > sheet.pool.len(),
            _ => false,
        };
        let (number, _) = places.into_iter().find(outside)?;
        Some(at(
            (table, number),
            format!("its text goes past the end of the pool, which has {} bytes", sheet.pool.len()),
        ))
    })
}

fn names(sheet: &Sheet) -> Option<Broken> {
    let (number, row) = (1..).zip(&sheet.names).find(|(_, row)| sheet.types[usize::from(**row) - 1][0] != 4)?;
    Some(Broken {
        row: Some((Table::Types, *row)),
        place: format!("name {number}"),
        why: format!("it stands for type row {row}, which is no label"),
    })
}

fn procedures(sheet: &Sheet) -> Option<Broken> {
    let gap = (1..).zip(&sheet.procedures).find(|(_, procedure)| procedure[0] == 0 && procedure[1] != 0);
    if let Some((number, _)) = gap {
        return Some(fault(format!("procedure {number}"), "it has a second parameter and no first"));
    }
    (1..).zip(&sheet.statements).find_map(|(number, row)| {
        let [14, procedure, first, second] = *row else {
            return None;
        };
        let given = [first, second].map(|query| query != 0);
        let taken = [0, 1].map(|at: usize| sheet.procedures[usize::from(procedure) - 1][at] != 0);
        let count = |held: [bool; 2]| held.into_iter().filter(|held| *held).count();
        let why = format!("procedure {procedure} has {} parameters, and the call gives {}", count(taken), count(given));
        match given {
            _ if given == taken => None,
            [false, true] => Some(at((Table::Statements, number), "the call has a second argument and no first")),
            _ => Some(at((Table::Statements, number), why)),
        }
    })
}

fn users(sheet: &Sheet, words: &[Word]) -> Option<Broken> {
    TABLES.into_iter().find_map(|table| {
        let mut users = vec![0; rows(sheet, table).len() + 1];
        for word in words.iter().filter(|word| [Role::Row(table), RowOrNone(table)].contains(&word.role)) {
            users[usize::from(word.value)] += 1;
        }
        let (number, count) = users.into_iter().enumerate().skip(1).find(|(_, count)| *count != 1)?;
        let why = match count {
            0 => "nothing uses it, and each row has exactly one user".into(),
            _ => format!("{count} places use it, and each row has exactly one user"),
        };
        Some(at((table, number as u16), why))
    })
}

/// Whether each variable in scope is a tree's, outermost first.
type Scope = Vec<bool>;

/// Every row is used once, so each has one scope, which goes down from the bodies and the script.
fn scopes(sheet: &Sheet) -> Option<Broken> {
    let bodies = sheet.procedures.iter().map(|procedure| {
        let parameters = procedure[..2].iter().filter(|row| **row != 0).count();
        (procedure[4], vec![false; parameters])
    });
    let roots: Vec<(u16, Scope)> = bodies.chain([(sheet.main, Scope::new())]).collect();
    roots.into_iter().find_map(|(row, scope)| scope_fault(sheet, (Table::Statements, row), &scope))
}

fn scope_fault(sheet: &Sheet, row: (Table, u16), scope: &Scope) -> Option<Broken> {
    let index = usize::from(row.1) - 1;
    let words = match row.0 {
        Table::Queries => words(row.0, &sheet.queries[index]),
        _ => words(row.0, &sheet.statements[index]),
    };
    let kind = if row.0 == Table::Queries { sheet.queries[index][0] } else { sheet.statements[index][0] };
    // What a kind adds for its last part: let and snapshot a forest, for a tree.
    let added = match (row.0, kind) {
        (Table::Queries, 8) | (Table::Statements, 7 | 8) => Some(false),
        (Table::Queries, 13) => Some(true),
        _ => None,
    };
    if added.is_some() && scope.len() == SCOPE {
        return Some(at(row, format!("more than {SCOPE} variables would be in scope")));
    }
    let inner: Scope = scope.iter().copied().chain(added).collect();
    let parts: Vec<(Role, u16)> =
        words.iter().copied().filter(|(role, _)| matches!(role, Role::Row(_) | RowOrNone(_))).collect();
    for (role, value) in words {
        let held = scope.get(usize::from(value));
        match role {
            Variable | TreeVariable if held.is_none() => {
                let count = scope.len();
                return Some(at(row, format!("variable {value} is not in scope: {count} are, counted from 0")));
            }
            TreeVariable if held == Some(&false) => {
                return Some(at(row, format!("variable {value} is a forest's, and `children` needs one of `for`")));
            }
            _ => {}
        }
    }
    let last = parts.len().saturating_sub(1);
    parts.into_iter().enumerate().find_map(|(part, (role, value))| match role {
        Role::Row(table) | RowOrNone(table) if value != 0 => {
            scope_fault(sheet, (table, value), if part == last { &inner } else { scope })
        }
        _ => None,
    })
}
