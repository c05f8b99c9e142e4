//! Sheets that break one rule under Tables, sheets at the edge of one, and bundles with one fault
//! of their blocks.

use crate::bundles::{block, to_bundle};
use crate::forests::{Forest, Tree};
use crate::scripts::{nested, AddRows, Declaration, Qu, Script, St, Ty};
use crate::shape;
use crate::tables::{Sheet, Test};

/// A sheet that breaks this rule of `shape::RULES` and no other.
pub struct Fault {
    pub rule: &'static str,
    pub sheet: Sheet,
}

/// The smallest script: `()` to `()` by skip.
fn smallest() -> Script {
    Script::new(Ty::Empty, St::Skip, Ty::Empty)
}

/// The smallest script with another main statement.
fn with_main(main: St) -> Sheet {
    Script::new(Ty::Empty, main, Ty::Empty).sheet()
}

fn with_query(query: Qu) -> Sheet {
    with_main(St::Insert(query))
}

fn with_forest(trees: Vec<Tree>) -> Sheet {
    let forest = trees.into_iter().collect();
    Script {
        forest,
        ..smallest()
    }
    .sheet()
}

fn with_procedure(parameters: usize, body: St, main: St) -> Sheet {
    Script {
        procedures: vec![Declaration {
            parameters: vec![Ty::Text; parameters],
            input: Ty::Empty,
            output: Ty::Empty,
            body,
        }],
        ..Script::new(Ty::Empty, main, Ty::Empty)
    }
    .sheet()
}

fn changed(mut sheet: Sheet, change: impl FnOnce(&mut Sheet)) -> Sheet {
    change(&mut sheet);
    sheet
}

fn leaf(label: u16) -> Tree {
    Tree::Label(label, Forest::empty())
}

/// Every rule broken alone, most in several ways.
pub fn faults() -> Vec<Fault> {
    let groups: [(&'static str, Vec<Sheet>); 18] = [
        ("limits", at_limits(1)),
        ("fuels", fuels(shape::FUEL + 1)),
        ("kinds", unknown_kinds()),
        ("lower rows", own_rows()),
        ("rows exist", missing_rows()),
        ("zero rows", zero_rows()),
        ("one user", users()),
        ("unused words", used_words()),
        ("labels", labels(shape::LAST_LABEL + 1)),
        ("names used", missing_names()),
        ("names stand for labels", names_of_other_rows()),
        ("test kinds", tests()),
        ("parameters in order", second_parameter_only()),
        ("calls", wrong_calls()),
        ("texts in pool", texts(1)),
        ("variables in scope", out_of_scope()),
        ("sixteen places", binders(shape::SCOPE + 1)),
        ("tree variables", forest_variables()),
    ];
    let faults = groups.into_iter().flat_map(|(rule, sheets)| {
        let sheets = sheets.into_iter();
        sheets.map(move |sheet| Fault { rule, sheet })
    });
    faults.collect()
}

/// Sheets at the edge of a rule, which break none.
pub fn edges() -> Vec<Sheet> {
    let mut edges = at_limits(0);
    edges.extend(fuels(shape::FUEL));
    edges.extend(fuels(0));
    edges.extend(labels(shape::LAST_LABEL));
    edges.extend(labels(0));
    edges.extend(texts(0));
    edges.extend(binders(shape::SCOPE));
    edges.push(with_main(St::test(Test::Label(0), St::Skip)));
    edges.push(with_query(Qu::Empty.each(Qu::Children(0))));
    edges.push(with_procedure(2, St::Insert(Qu::Variable(1)), St::Skip));
    edges.push(with_procedure(1, St::Skip, St::Call(1, vec![Qu::Empty])));
    edges
}

/// One sheet for each limit on a table, this many past it.
fn at_limits(past: usize) -> Vec<Sheet> {
    let labels = |count: usize| vec![Ty::label(1, Ty::Empty); count];
    let procedure = Declaration {
        parameters: Vec::new(),
        input: Ty::Empty,
        output: Ty::Empty,
        body: St::Skip,
    };
    let names = labels(shape::NAMES + past);
    let procedures = vec![procedure; shape::PROCEDURES + past];
    let stars = nested(Ty::Empty, shape::TYPE_ROWS + past - 2, Ty::star);
    let trees = nested(Qu::Empty, shape::QUERY_ROWS + past - 1, |it| {
        Qu::tree(1, it)
    });
    let iters = nested(St::Skip, shape::STATEMENT_ROWS + past - 1, St::iter);
    let pool = vec![7; shape::POOL_BYTES + past];
    vec![
        Script {
            names,
            ..smallest()
        }
        .sheet(),
        Script {
            procedures,
            ..smallest()
        }
        .sheet(),
        Script::new(stars, St::Skip, Ty::Empty).sheet(),
        with_query(trees),
        with_main(iters),
        with_forest(vec![leaf(1); shape::FOREST_ROWS + past]),
        Script { pool, ..smallest() }.sheet(),
    ]
}

fn fuels(fuel: u16) -> Vec<Sheet> {
    vec![
        changed(smallest().sheet(), |it| it.check_fuel = fuel),
        changed(smallest().sheet(), |it| it.run_fuel = fuel),
    ]
}

/// Kinds one past the last, 0 and the greatest, in each table.
fn unknown_kinds() -> Vec<Sheet> {
    let mut sheets = Vec::new();
    for kind in [0, 9, u16::MAX] {
        sheets.push(changed(smallest().sheet(), |it| it.types[0][0] = kind));
    }
    for kind in [0, 14, u16::MAX] {
        let sheet = with_query(Qu::Empty);
        sheets.push(changed(sheet, |it| it.queries[0][0] = kind));
    }
    for kind in [0, 15, u16::MAX] {
        sheets.push(changed(smallest().sheet(), |it| it.statements[0][0] = kind));
    }
    for kind in [0, 5, u16::MAX] {
        let sheet = with_forest(vec![leaf(0)]);
        sheets.push(changed(sheet, |it| it.forest[0][0] = kind));
    }
    sheets
}

/// Rows whose one user is the row itself, or a row and the next that use each other.
fn own_rows() -> Vec<Sheet> {
    let sheet = || smallest().sheet();
    vec![
        changed(sheet(), |it| it.types.push([7, 3, 0])),
        changed(sheet(), |it| it.types.extend([[7, 4, 0], [7, 3, 0]])),
        changed(sheet(), |it| it.queries.push([12, 1, 0, 0])),
        changed(sheet(), |it| {
            it.queries.extend([[12, 2, 0, 0], [3, 0, 1, 0]])
        }),
        changed(sheet(), |it| it.statements.push([13, 2, 0, 0])),
        changed(sheet(), |it| {
            it.statements.extend([[8, 3, 0, 0], [10, 2, 0, 0]])
        }),
        changed(sheet(), |it| it.forest.push([4, 0, 1, 0])),
        changed(sheet(), |it| it.forest.push([2, 0, 0, 1])),
        changed(sheet(), |it| it.forest.extend([[4, 0, 0, 2], [4, 0, 1, 0]])),
    ]
}

/// Row numbers past the last row of another table.
fn missing_rows() -> Vec<Sheet> {
    let sheet = || smallest().sheet();
    vec![
        changed(sheet(), |it| it.root = 1),
        changed(sheet(), |it| it.root = u16::MAX),
        changed(sheet(), |it| {
            it.types.pop();
        }),
        changed(sheet(), |it| it.statements.clear()),
        changed(sheet(), |it| it.names.push(3)),
        changed(with_query(Qu::Empty), |it| it.queries.clear()),
        changed(
            with_procedure(1, St::Skip, St::Call(1, vec![Qu::Empty])),
            |it| it.queries.clear(),
        ),
        changed(with_procedure(0, St::Skip, St::Skip), |it| {
            it.types.pop();
        }),
    ]
}

/// Row numbers that are 0 where a row is needed.
fn zero_rows() -> Vec<Sheet> {
    let mut sheets = zero_parts();
    sheets.push(changed(smallest().sheet(), |it| {
        it.types.pop();
        it.b = 0;
    }));
    sheets.push(changed(smallest().sheet(), |it| {
        it.types.pop();
        it.b = 1;
        it.a = 0;
    }));
    sheets.push(changed(smallest().sheet(), |it| {
        it.statements.clear();
        it.main = 0;
    }));
    sheets.push(changed(smallest().sheet(), |it| it.names.push(0)));
    let procedure = |row: fn(&mut Sheet) -> [u16; 5]| {
        changed(smallest().sheet(), |it| {
            let row = row(it);
            it.procedures.push(row);
        })
    };
    fn ty(sheet: &mut Sheet) -> u16 {
        sheet.add_type(&Ty::Empty)
    }
    fn body(sheet: &mut Sheet) -> u16 {
        sheet.add_statement(&St::Skip)
    }
    sheets.push(procedure(|it| [0, 0, 0, ty(it), body(it)]));
    sheets.push(procedure(|it| [0, 0, ty(it), 0, body(it)]));
    sheets.push(procedure(|it| [0, 0, ty(it), ty(it), 0]));
    sheets
}

/// Leaves turned into rows of every kind with parts, all 0.
fn zero_parts() -> Vec<Sheet> {
    let mut sheets = Vec::new();
    for kind in 4..=7 {
        sheets.push(changed(smallest().sheet(), |it| it.types[0][0] = kind));
    }
    for kind in [2, 3, 8, 9, 10, 12, 13] {
        let sheet = with_query(Qu::Empty);
        sheets.push(changed(sheet, |it| it.queries[0][0] = kind));
    }
    for kind in [2, 3, 4, 7, 8, 10, 11, 12, 13] {
        sheets.push(changed(smallest().sheet(), |it| it.statements[0][0] = kind));
    }
    sheets.push(changed(smallest().sheet(), |it| {
        it.statements[0] = [9, 3, 0, 0]
    }));
    sheets
}

/// Rows with no user and rows with two.
fn users() -> Vec<Sheet> {
    let sheet = || smallest().sheet();
    let two_names = |it: &mut Sheet| {
        let row = it.add_type(&Ty::label(1, Ty::Empty));
        it.names = vec![row, row];
    };
    let twice_in_procedure = |it: &mut Sheet| {
        let row = it.add_type(&Ty::Empty);
        let body = it.add_statement(&St::Skip);
        it.procedures.push([0, 0, row, row, body]);
    };
    let call = with_procedure(2, St::Skip, St::Call(1, vec![Qu::Empty; 2]));
    vec![
        changed(sheet(), |it| it.types.push([1, 0, 0])),
        changed(sheet(), |it| it.queries.push([1, 0, 0, 0])),
        changed(sheet(), |it| it.statements.push([1, 0, 0, 0])),
        changed(sheet(), |it| it.forest.push([2, 0, 0, 0])),
        changed(sheet(), |it| {
            it.types.pop();
            it.b = 1;
        }),
        changed(sheet(), |it| {
            it.types.push([5, 1, 1]);
            it.a = 3;
        }),
        changed(with_query(Qu::Empty), |it| {
            it.queries.push([2, 1, 1, 0]);
            it.statements[0][1] = 2;
        }),
        changed(sheet(), |it| {
            it.statements.push([2, 1, 1, 0]);
            it.main = 2;
        }),
        changed(with_forest(vec![leaf(1)]), |it| {
            it.forest.push([4, 1, 1, 1]);
            it.root = 2;
        }),
        changed(call, |it| {
            it.queries.pop();
            it.statements[1][3] = 1;
        }),
        changed(sheet(), two_names),
        changed(sheet(), twice_in_procedure),
    ]
}

/// Each word without a use, in each kind of row, not 0.
fn used_words() -> Vec<Sheet> {
    let sheet = every_kind();
    let words = shape::words(&sheet).into_iter();
    let unused = words.filter(|word| word.role == shape::Role::Unused);
    unused
        .map(|word| changed(sheet.clone(), |it| set(it, word, 1)))
        .collect()
}

/// Sets a word of a row.
fn set(sheet: &mut Sheet, word: shape::Word, value: u16) {
    let shape::Place::Row(table, number) = word.place else {
        unreachable!("only rows have words without a use");
    };
    let row = usize::from(number) - 1;
    match table {
        shape::Table::Types => sheet.types[row][word.index] = value,
        shape::Table::Queries => sheet.queries[row][word.index] = value,
        shape::Table::Statements => sheet.statements[row][word.index] = value,
        shape::Table::Forest => sheet.forest[row][word.index] = value,
    }
}

/// A sheet with every kind of row in every table.
pub fn every_kind() -> Sheet {
    let text = Qu::Text {
        offset: 0,
        length: 1,
    };
    let loops = Qu::Variable(0).each(Qu::Children(1)).pick(2);
    let value = text
        .clone()
        .same(text.clone())
        .choose(Qu::Bool(true), Qu::Bool(false))
        .bind(loops);
    let tests = St::test(Test::Text, St::Delete)
        .then(St::test(Test::Label(1), St::Rename(2)))
        .then(St::test(Test::Any, St::children(St::iter(St::Skip))));
    let main = St::choose(
        Qu::Bool(true),
        St::left(St::Insert(Qu::tree(1, value).join(Qu::Empty))),
        St::bind(Qu::Empty, St::snapshot(St::right(St::Call(1, vec![text])))),
    );
    let declaration = Declaration {
        parameters: vec![Ty::Text],
        input: Ty::Bool,
        output: Ty::Text.or(Ty::Bool),
        body: tests,
    };
    let trees = [
        Tree::Text {
            offset: 0,
            length: 2,
        },
        Tree::Bool(false),
        Tree::Bool(true),
        Tree::Label(1, Forest::from(leaf(2))),
    ];
    Script {
        names: vec![Ty::label(1, Ty::Name(1).star())],
        procedures: vec![declaration],
        forest: trees.into_iter().collect(),
        pool: b"ab".to_vec(),
        ..Script::new(Ty::Name(1), main, Ty::Empty.then(Ty::Text))
    }
    .sheet()
}

/// This label wherever a label stands.
fn labels(label: u16) -> Vec<Sheet> {
    vec![
        Script::new(Ty::label(label, Ty::Empty), St::Skip, Ty::Empty).sheet(),
        with_query(Qu::tree(label, Qu::Empty)),
        with_query(Qu::Empty.pick(label)),
        with_main(St::Rename(label)),
        with_main(St::test(Test::Label(label), St::Skip)),
        with_forest(vec![leaf(label)]),
    ]
}

fn missing_names() -> Vec<Sheet> {
    let with_name = |name| Script {
        names: vec![Ty::label(1, Ty::Empty)],
        ..Script::new(Ty::Name(name), St::Skip, Ty::Empty)
    };
    let missing = [0, 2, u16::MAX].into_iter();
    missing.map(|name| with_name(name).sheet()).collect()
}

fn names_of_other_rows() -> Vec<Sheet> {
    let others = [
        Ty::Empty,
        Ty::Text,
        Ty::Bool,
        Ty::Empty.then(Ty::Text),
        Ty::Empty.or(Ty::Text),
        Ty::Empty.star(),
        Ty::Name(1),
    ];
    let sheets = others.into_iter().map(|ty| Script {
        names: vec![ty],
        ..smallest()
    });
    sheets.map(|script| script.sheet()).collect()
}

fn tests() -> Vec<Sheet> {
    let kinds = [0, 4, u16::MAX].into_iter();
    let sheet = || with_main(St::test(Test::Any, St::Skip));
    kinds
        .map(|kind| changed(sheet(), |it| it.statements[1][1] = kind))
        .collect()
}

fn second_parameter_only() -> Vec<Sheet> {
    let sheet = with_procedure(1, St::Skip, St::Skip);
    vec![changed(sheet, |it| it.procedures[0].swap(0, 1))]
}

fn wrong_calls() -> Vec<Sheet> {
    let call = |arguments| St::Call(1, vec![Qu::Empty; arguments]);
    let pairs = [(0, 1), (0, 2), (1, 0), (1, 2), (2, 0), (2, 1)];
    let mut sheets: Vec<Sheet> = pairs
        .into_iter()
        .map(|(parameters, arguments)| with_procedure(parameters, St::Skip, call(arguments)))
        .collect();
    for callee in [0, 2, u16::MAX] {
        let main = St::Call(callee, Vec::new());
        sheets.push(with_procedure(0, St::Skip, main));
    }
    let one = with_procedure(1, St::Skip, call(1));
    sheets.push(changed(one, |it| it.statements[1].swap(2, 3)));
    sheets
}

/// Texts that end this far past the pool of four bytes.
fn texts(past: u16) -> Vec<Sheet> {
    let places = [(0, 4 + past), (4 + past, 0), (3, 1 + past)];
    let mut texts = places.to_vec();
    if past > 0 {
        texts.push((u16::MAX, u16::MAX));
    }
    let sheets = texts.into_iter().flat_map(|(offset, length)| {
        let in_query = with_query(Qu::Text { offset, length });
        let in_forest = with_forest(vec![Tree::Text { offset, length }]);
        [in_query, in_forest]
    });
    sheets
        .map(|sheet| changed(sheet, |it| it.pool = b"abab".to_vec()))
        .collect()
}

fn out_of_scope() -> Vec<Sheet> {
    let of = |variable| St::Insert(Qu::Variable(variable));
    vec![
        with_main(of(0)),
        with_main(of(u16::MAX)),
        with_main(St::snapshot(of(1))),
        with_main(St::bind(Qu::Variable(0), St::Skip)),
        with_main(St::snapshot(St::Skip).then(of(0))),
        with_query(Qu::Variable(0).bind(Qu::Empty)),
        with_query(Qu::Empty.bind(Qu::Variable(1))),
        with_query(Qu::Variable(0).each(Qu::Empty)),
        with_query(Qu::Empty.each(Qu::Variable(1))),
        with_query(Qu::Children(0)),
        with_procedure(1, of(1), St::Skip),
        with_procedure(0, of(0), St::snapshot(St::Call(1, Vec::new()))),
    ]
}

/// So many places in scope, bound in each way; the innermost is not used.
fn binders(places: usize) -> Vec<Sheet> {
    let lets = nested(St::Skip, places, |it| St::bind(Qu::Empty, it));
    let snapshots = nested(St::Skip, places, St::snapshot);
    let query_lets = nested(Qu::Empty, places, |it| Qu::Empty.bind(it));
    let fors = nested(Qu::Empty, places, |it| Qu::Empty.each(it));
    let after_parameters = nested(St::Skip, places - 2, St::snapshot);
    vec![
        with_main(lets),
        with_main(snapshots),
        with_query(query_lets),
        with_query(fors),
        with_procedure(2, after_parameters, St::Skip),
    ]
}

fn forest_variables() -> Vec<Sheet> {
    let children = || St::Insert(Qu::Children(0));
    vec![
        with_main(St::snapshot(children())),
        with_main(St::bind(Qu::Empty, children())),
        with_query(Qu::Empty.bind(Qu::Children(0))),
        with_procedure(1, children(), St::Skip),
        with_query(Qu::Empty.each(Qu::Empty.bind(Qu::Children(1)))),
    ]
}

/// Each fault of blocks: "a bundle's length, numbering, check, padding or word count is wrong".
pub fn block_faults() -> Vec<Vec<u8>> {
    let sheet = with_forest(vec![leaf(1); 100]);
    let two = to_bundle(&sheet);
    let one = to_bundle(&smallest().sheet());
    let odd = changed(smallest().sheet(), |it| it.pool = b"abc".to_vec());
    let mut faults = vec![
        Vec::new(),
        one[..511].to_vec(),
        [&one[..], &[0]].concat(),
        [&one[..], &one].concat(),
        two[..512].to_vec(),
        two[512..].to_vec(),
        [&two[512..], &two[..512]].concat(),
        [&one[..], &block(&[], 2)].concat(),
        [&two[..], &block(&[], 3)].concat(),
        reframed(&one, |words| words[0] = 0),
        reframed(&one, |words| words[0] = 2),
        reframed(&one, |words| words[254] = 1),
        reframed(&to_bundle(&odd), high_pool_byte),
        reframed(&one, |words| words[6] = 100),
        reframed(&one, |words| words[7] = u16::MAX),
        changed_check(&one, |check| check ^ 1),
        changed_check(&one, |_| 0),
        changed_check(&remainder_zero(), |_| u16::MAX),
    ];
    let mut long = sheet;
    long.pool = vec![0; usize::from(u16::MAX)];
    faults.push(to_bundle(&long));
    faults
}

/// The first block with its words changed and its check made right.
fn reframed(bundle: &[u8], change: impl FnOnce(&mut [u16])) -> Vec<u8> {
    let mut words: Vec<u16> = bundle[..510]
        .chunks(2)
        .map(|it| u16::from_le_bytes([it[0], it[1]]))
        .collect();
    change(&mut words);
    let changed = block(&words[1..], words[0]);
    [&changed, &bundle[512..]].concat()
}

/// Sets the byte after the last of an odd pool, which ends the payload of the smallest script.
fn high_pool_byte(words: &mut [u16]) {
    let last = words.iter().rposition(|&word| word != 0);
    words[last.expect("the pool is not empty")] |= 0x100;
}

fn changed_check(bundle: &[u8], change: impl FnOnce(u16) -> u16) -> Vec<u8> {
    let check = change(u16::from_le_bytes([bundle[510], bundle[511]]));
    [&bundle[..510], &check.to_le_bytes()].concat()
}

/// A bundle whose check word is 0: the sum of its words is a multiple of 65,535.
pub fn remainder_zero() -> Vec<u8> {
    let mut sheet = smallest().sheet();
    sheet.pool = vec![0, 0];
    let bundle = to_bundle(&sheet);
    let check = u16::from_le_bytes([bundle[510], bundle[511]]);
    sheet.pool = (u16::MAX - check).to_le_bytes().to_vec();
    to_bundle(&sheet)
}
