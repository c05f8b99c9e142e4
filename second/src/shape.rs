//! Document 01, "Tables": refusal 2, Shape, is "a rule or limit under Tables is broken".
//! Each rule is one function over the words of the sheet, and total: a sheet may break many.

use crate::tables::{last_row, row, Procedure, Sheet};
pub use notation::limits::*;
pub use notation::tables::Variable;

/// A table whose rows have users.
#[derive(Clone, Copy, Debug, PartialEq, Eq)]
pub enum Table {
    Types,
    Queries,
    Statements,
    Forest,
}

/// What one word of a row is for.
#[derive(Clone, Copy, Debug, PartialEq, Eq)]
pub enum Role {
    Unused,
    Label,
    Name,
    Procedure,
    TestKind,
    Variable,
    TreeVariable,
    PoolPlace,
    Row(Table),
    RowOrNone(Table),
}

/// Where a word stands.
#[derive(Clone, Copy, Debug, PartialEq, Eq)]
pub enum Place {
    Header,
    Names,
    Procedure,
    Row(Table, u16),
}

/// One word that is no kind and no count: where it stands, what it is for and what it says.
#[derive(Clone, Copy, Debug)]
pub struct Word {
    pub place: Place,
    /// Its index in the row, or among the words of the header or the names.
    pub index: usize,
    pub role: Role,
    pub value: u16,
}

/// What the rules look at: the sheet, all its words and the scope at each query and statement row.
pub struct Reading<'a> {
    sheet: &'a Sheet,
    words: Vec<Word>,
    scopes: Scopes,
}

type Rule = fn(&Reading) -> bool;

/// Every rule under Tables by name.
pub const RULES: [(&str, Rule); 18] = [
    ("limits", limits),
    ("fuels", fuels),
    ("kinds", kinds),
    ("lower rows", lower_rows),
    ("rows exist", rows_exist),
    ("zero rows", zero_rows),
    ("one user", one_user),
    ("unused words", unused_words),
    ("labels", labels),
    ("names used", names_used),
    ("names stand for labels", names_stand_for_labels),
    ("test kinds", test_kinds),
    ("parameters in order", parameters_in_order),
    ("calls", calls),
    ("texts in pool", texts_in_pool),
    ("variables in scope", variables_in_scope),
    ("sixteen places", sixteen_places),
    ("tree variables", tree_variables),
];

/// True if no rule or limit under Tables is broken.
pub fn well_shaped(sheet: &Sheet) -> bool {
    let reading = Reading::of(sheet);
    RULES.iter().all(|(_, rule)| rule(&reading))
}

/// The names of the rules that the sheet breaks.
pub fn broken_rules(sheet: &Sheet) -> Vec<&'static str> {
    let reading = Reading::of(sheet);
    let broken = RULES.iter().filter(|(_, rule)| !rule(&reading));
    broken.map(|&(name, _)| name).collect()
}

/// "32 names, 512 type rows, 512 query rows, 512 statement rows, 16 procedures, … 2,048 forest
/// rows, 16,384 pool bytes".
fn limits(it: &Reading) -> bool {
    let sheet = it.sheet;
    sheet.names.len() <= NAMES
        && sheet.types.len() <= TYPE_ROWS
        && sheet.queries.len() <= QUERY_ROWS
        && sheet.statements.len() <= STATEMENT_ROWS
        && sheet.procedures.len() <= PROCEDURES
        && sheet.forest.len() <= FOREST_ROWS
        && sheet.pool.len() <= POOL_BYTES
}

/// "check fuel and run fuel 0 to 4,096 each".
fn fuels(it: &Reading) -> bool {
    it.sheet.check_fuel <= FUEL && it.sheet.run_fuel <= FUEL
}

/// "Each row's kind is one of the numbers below, and any other is Shape."
fn kinds(it: &Reading) -> bool {
    let sheet = it.sheet;
    sheet.types.iter().all(|row| type_roles(row).is_some())
        && sheet.queries.iter().all(|row| query_roles(row).is_some())
        && sheet
            .statements
            .iter()
            .all(|row| statement_roles(row).is_some())
        && sheet.forest.iter().all(|row| forest_roles(row).is_some())
}

/// "Within its own table a row refers only to lower rows."
fn lower_rows(it: &Reading) -> bool {
    it.references().all(|(word, table)| match word.place {
        Place::Row(own, number) if own == table => word.value < number,
        _ => true,
    })
}

/// A row number that is not 0 is that of a row.
fn rows_exist(it: &Reading) -> bool {
    it.references()
        .all(|(word, table)| word.value <= rows_of(it.sheet, table))
}

/// "A row number may be 0 only for child, next, forest root (the empty forest), and parameters or
/// arguments that are absent."
fn zero_rows(it: &Reading) -> bool {
    it.all(|role| matches!(role, Role::Row(_)), |value| value != 0)
}

/// "Every type, query, statement and forest row has exactly one user; a root named by a header, a
/// name or a procedure counts as a user."
fn one_user(it: &Reading) -> bool {
    let tables = [
        Table::Types,
        Table::Queries,
        Table::Statements,
        Table::Forest,
    ];
    tables.into_iter().all(|table| {
        let mut users = vec![0usize; usize::from(rows_of(it.sheet, table)) + 1];
        for (word, _) in it.references().filter(|&(_, of)| of == table) {
            if let Some(count) = users.get_mut(usize::from(word.value)) {
                *count += 1;
            }
        }
        users.iter().skip(1).all(|&count| count == 1)
    })
}

/// "Words without a use are 0."
fn unused_words(it: &Reading) -> bool {
    it.all(|role| role == Role::Unused, |value| value == 0)
}

/// "labels 0 to 1,023".
fn labels(it: &Reading) -> bool {
    it.all(|role| role == Role::Label, |value| value <= LAST_LABEL)
}

/// "8 name p. Names are numbered from 1".
fn names_used(it: &Reading) -> bool {
    let names = last_row(&it.sheet.names);
    it.all(|role| role == Role::Name, |p| (1..=names).contains(&p))
}

/// "each stands for one row of kind 4".
fn names_stand_for_labels(it: &Reading) -> bool {
    let mut rows = it.sheet.names.iter();
    rows.all(|&number| row(&it.sheet.types, number).is_none_or(|[kind, ..]| kind == 4))
}

/// "9 test (p: 1 text, 2 label q, 3 any tree)".
fn test_kinds(it: &Reading) -> bool {
    it.all(
        |role| role == Role::TestKind,
        |value| (1..=3).contains(&value),
    )
}

/// "The first parameter may be 0 only if the second is."
fn parameters_in_order(it: &Reading) -> bool {
    let mut rows = it.sheet.procedures.iter();
    rows.all(|&[first, second, ..]| first != 0 || second == 0)
}

/// "14 call procedure p"; "A call gives exactly as many queries as there are parameters."
fn calls(it: &Reading) -> bool {
    let mut calls = it.sheet.statements.iter().filter(|row| row[0] == 14);
    calls.all(|&[_, callee, q, r]| {
        row(&it.sheet.procedures, callee)
            .is_some_and(|[first, second, ..]| (q != 0, r != 0) == (first != 0, second != 0))
    })
}

/// "Offset plus length is at most the pool's bytes."
fn texts_in_pool(it: &Reading) -> bool {
    let queries = it.sheet.queries.iter().filter(|row| row[0] == 4);
    let trees = it.sheet.forest.iter().filter(|row| row[0] == 1);
    let mut texts = queries.chain(trees);
    texts.all(|&[_, offset, length, _]| {
        usize::from(offset) + usize::from(length) <= it.sheet.pool.len()
    })
}

/// "Variables count from 0, outermost first": a variable is one of those in scope.
fn variables_in_scope(it: &Reading) -> bool {
    it.variables().all(|(_, scope, value)| value < scope.len())
}

/// "16 variables in scope".
fn sixteen_places(it: &Reading) -> bool {
    let Scopes {
        queries,
        statements,
    } = &it.scopes;
    let mut scopes = queries.iter().chain(statements).flatten();
    scopes.all(|scope| scope.len() <= SCOPE)
}

/// "Kind 11 needs a tree variable."
fn tree_variables(it: &Reading) -> bool {
    it.variables()
        .filter(|&(role, ..)| role == Role::TreeVariable)
        .all(|(_, scope, value)| scope.get(value) != Some(&Variable::Forest))
}

impl<'a> Reading<'a> {
    fn of(sheet: &'a Sheet) -> Reading<'a> {
        Reading {
            sheet,
            words: words(sheet),
            scopes: Scopes::of(sheet),
        }
    }

    /// True if every word of the chosen roles keeps the rule.
    fn all(&self, chosen: impl Fn(Role) -> bool, rule: impl Fn(u16) -> bool) -> bool {
        let mut words = self.words.iter().filter(|word| chosen(word.role));
        words.all(|word| rule(word.value))
    }

    /// The words that are row numbers, with the table they speak of.
    fn references(&self) -> impl Iterator<Item = (&Word, Table)> {
        self.words.iter().filter_map(|word| match word.role {
            Role::Row(table) | Role::RowOrNone(table) => Some((word, table)),
            _ => None,
        })
    }

    /// The variables of queries: role, the scope there, and the number.
    fn variables(&self) -> impl Iterator<Item = (Role, &Vec<Variable>, usize)> {
        self.words.iter().filter_map(|word| {
            let Place::Row(Table::Queries, number) = word.place else {
                return None;
            };
            if !matches!(word.role, Role::Variable | Role::TreeVariable) {
                return None;
            }
            let scope = self.scopes.queries[usize::from(number) - 1].as_ref()?;
            Some((word.role, scope, usize::from(word.value)))
        })
    }
}

/// How many rows a table has.
fn rows_of(sheet: &Sheet, table: Table) -> u16 {
    match table {
        Table::Types => last_row(&sheet.types),
        Table::Queries => last_row(&sheet.queries),
        Table::Statements => last_row(&sheet.statements),
        Table::Forest => last_row(&sheet.forest),
    }
}

/// The use of p, q of a type row.
fn type_roles(row: &[u16; 3]) -> Option<[Role; 2]> {
    use Role::{Label, Name, Unused};
    let part = Role::Row(Table::Types);
    Some(match row[0] {
        1..=3 => [Unused, Unused],
        4 => [Label, part],
        5 | 6 => [part, part],
        7 => [part, Unused],
        8 => [Name, Unused],
        _ => return None,
    })
}

/// The use of p, q, r of a query row.
fn query_roles(row: &[u16; 4]) -> Option<[Role; 3]> {
    use Role::{Label, PoolPlace, TreeVariable, Unused, Variable};
    let part = Role::Row(Table::Queries);
    Some(match row[0] {
        1 | 5 | 6 => [Unused, Unused, Unused],
        2 | 8 | 10 | 13 => [part, part, Unused],
        3 => [Label, part, Unused],
        4 => [PoolPlace, PoolPlace, Unused],
        7 => [Variable, Unused, Unused],
        9 => [part, part, part],
        11 => [TreeVariable, Unused, Unused],
        12 => [part, Label, Unused],
        _ => return None,
    })
}

/// The use of p, q, r of a statement row.
fn statement_roles(row: &[u16; 4]) -> Option<[Role; 3]> {
    use Role::{Label, Procedure, TestKind, Unused};
    let part = Role::Row(Table::Statements);
    let query = Role::Row(Table::Queries);
    let argument = Role::RowOrNone(Table::Queries);
    Some(match (row[0], row[1]) {
        (1 | 5, _) => [Unused, Unused, Unused],
        (2, _) => [part, part, Unused],
        (3, _) => [query, part, part],
        (4, _) => [query, Unused, Unused],
        (6, _) => [Label, Unused, Unused],
        (7, _) => [query, part, Unused],
        (9, 2) => [TestKind, Label, part],
        (9, _) => [TestKind, Unused, part],
        (8 | 10..=13, _) => [part, Unused, Unused],
        (14, _) => [Procedure, argument, argument],
        _ => return None,
    })
}

/// The use of p, q, next of a forest row.
fn forest_roles(row: &[u16; 4]) -> Option<[Role; 3]> {
    use Role::{Label, PoolPlace, Unused};
    let next = Role::RowOrNone(Table::Forest);
    Some(match row[0] {
        1 => [PoolPlace, PoolPlace, next],
        2 | 3 => [Unused, Unused, next],
        4 => [Label, next, next],
        _ => return None,
    })
}

/// "rows of A, B, main; forest root".
const HEADER_ROLES: [Role; 4] = [
    Role::Row(Table::Types),
    Role::Row(Table::Types),
    Role::Row(Table::Statements),
    Role::RowOrNone(Table::Forest),
];

/// The use of the words of a procedure.
const PROCEDURE_ROLES: [Role; 5] = [
    Role::RowOrNone(Table::Types),
    Role::RowOrNone(Table::Types),
    Role::Row(Table::Types),
    Role::Row(Table::Types),
    Role::Row(Table::Statements),
];

/// All words of the sheet that have a role; rows of unknown kind have none.
pub fn words(sheet: &Sheet) -> Vec<Word> {
    let header = [sheet.a, sheet.b, sheet.main, sheet.root];
    let names = vec![Role::Row(Table::Types); sheet.names.len()];
    let mut words = Vec::new();
    add_words(&mut words, Place::Header, &HEADER_ROLES, &header, 0);
    add_words(&mut words, Place::Names, &names, &sheet.names, 0);
    add_rows(&mut words, Table::Types, &sheet.types, type_roles);
    add_rows(&mut words, Table::Queries, &sheet.queries, query_roles);
    let statements = &sheet.statements;
    add_rows(&mut words, Table::Statements, statements, statement_roles);
    for row in &sheet.procedures {
        add_words(&mut words, Place::Procedure, &PROCEDURE_ROLES, row, 0);
    }
    add_rows(&mut words, Table::Forest, &sheet.forest, forest_roles);
    words
}

/// Adds the words after the kind of each row of one table.
fn add_rows<const ROW: usize, const WORDS: usize>(
    words: &mut Vec<Word>,
    table: Table,
    rows: &[[u16; ROW]],
    roles: fn(&[u16; ROW]) -> Option<[Role; WORDS]>,
) {
    for (number, row) in (1..).zip(rows) {
        if let Some(roles) = roles(row) {
            add_words(words, Place::Row(table, number), &roles, row, 1);
        }
    }
}

/// Adds the words of one place from the first that has a role.
fn add_words(words: &mut Vec<Word>, place: Place, roles: &[Role], values: &[u16], first: usize) {
    let values = values.iter().enumerate().skip(first);
    for (&role, (index, &value)) in roles.iter().zip(values) {
        words.push(Word {
            place,
            index,
            role,
            value,
        });
    }
}

/// The variables in scope at each query and statement row, outermost first; none at a row that no
/// body and no main statement reaches.
struct Scopes {
    queries: Vec<Option<Vec<Variable>>>,
    statements: Vec<Option<Vec<Variable>>>,
}

impl Scopes {
    /// A row's users are higher rows or roots, so each table is gone through from its last row.
    fn of(sheet: &Sheet) -> Scopes {
        let mut scopes = Scopes {
            queries: vec![None; sheet.queries.len()],
            statements: vec![None; sheet.statements.len()],
        };
        hand(&mut scopes.statements, sheet.main, &[], None);
        // "parameters come first"; "A body sees its parameters only."
        for &words in &sheet.procedures {
            let procedure = Procedure::of(words);
            let parameters = vec![Variable::Forest; procedure.parameter_types().count()];
            hand(&mut scopes.statements, procedure.body, &parameters, None);
        }
        for (index, &row) in sheet.statements.iter().enumerate().rev() {
            if let Some(scope) = scopes.statements[index].clone() {
                scopes.statement(row, &scope);
            }
        }
        for (index, &row) in sheet.queries.iter().enumerate().rev() {
            if let Some(scope) = scopes.queries[index].clone() {
                scopes.query(row, &scope);
            }
        }
        scopes
    }

    /// Hands the scope of a statement row to its parts; "let, snapshot … add one".
    fn statement(&mut self, row: [u16; 4], scope: &[Variable]) {
        let [kind, p, q, r] = row;
        let Scopes {
            queries,
            statements,
        } = self;
        match kind {
            2 => {
                hand(statements, p, scope, None);
                hand(statements, q, scope, None);
            }
            3 => {
                hand(queries, p, scope, None);
                hand(statements, q, scope, None);
                hand(statements, r, scope, None);
            }
            4 => hand(queries, p, scope, None),
            7 => {
                hand(queries, p, scope, None);
                hand(statements, q, scope, Some(Variable::Forest));
            }
            8 => hand(statements, p, scope, Some(Variable::Forest)),
            9 => hand(statements, r, scope, None),
            10..=13 => hand(statements, p, scope, None),
            14 => {
                hand(queries, q, scope, None);
                hand(queries, r, scope, None);
            }
            _ => {}
        }
    }

    /// Hands the scope of a query row to its parts; "let … and for add one".
    fn query(&mut self, row: [u16; 4], scope: &[Variable]) {
        let [kind, p, q, r] = row;
        let queries = &mut self.queries;
        match kind {
            2 | 10 => {
                hand(queries, p, scope, None);
                hand(queries, q, scope, None);
            }
            3 => hand(queries, q, scope, None),
            8 => {
                hand(queries, p, scope, None);
                hand(queries, q, scope, Some(Variable::Forest));
            }
            9 => {
                hand(queries, p, scope, None);
                hand(queries, q, scope, None);
                hand(queries, r, scope, None);
            }
            12 => hand(queries, p, scope, None),
            13 => {
                hand(queries, p, scope, None);
                hand(queries, q, scope, Some(Variable::Tree));
            }
            _ => {}
        }
    }
}

/// Gives a row its scope, with one place more if its user binds one.
fn hand(
    rows: &mut [Option<Vec<Variable>>],
    number: u16,
    scope: &[Variable],
    added: Option<Variable>,
) {
    let index = usize::from(number).checked_sub(1);
    if let Some(place) = index.and_then(|index| rows.get_mut(index)) {
        *place = Some(scope.iter().copied().chain(added).collect());
    }
}
