//! The bundles that are measured, made by the second program.

use second::bundles::to_bundle;
use second::forests::{Forest, Tree};
use second::scripts::{nested, Declaration, Qu, Script, St, Ty};
use second::shape::{
    broken_rules, FOREST_ROWS, NAMES, POOL_BYTES, PROCEDURES, QUERY_ROWS, STATEMENT_ROWS, TYPE_ROWS,
};
use second::tables::{Sheet, Test};

/// A bundle and the sheet in it.
pub struct Input {
    pub name: String,
    pub sheet: Sheet,
    pub bundle: Vec<u8>,
}

impl Input {
    fn of(name: impl Into<String>, script: &Script) -> Input {
        let sheet = script.sheet();
        let name = name.into();
        assert_eq!(broken_rules(&sheet), [""; 0], "{name}");
        let bundle = to_bundle(&sheet);
        Input {
            name,
            sheet,
            bundle,
        }
    }

    fn at_every_limit(self) -> Input {
        let sheet = &self.sheet;
        assert_eq!(sheet.names.len(), NAMES);
        assert_eq!(sheet.types.len(), TYPE_ROWS);
        assert_eq!(sheet.queries.len(), QUERY_ROWS);
        assert_eq!(sheet.statements.len(), STATEMENT_ROWS);
        assert_eq!(sheet.procedures.len(), PROCEDURES);
        assert_eq!(sheet.forest.len(), FOREST_ROWS);
        assert_eq!(sheet.pool.len(), POOL_BYTES);
        assert_eq!(self.bundle.len(), 88 * 512);
        self
    }
}

const MACHINE: u16 = 0;
const NAME: u16 = 1;
const OP: u16 = 2;
const EMIT: u16 = 3;
/// Labels from here on are those of patterns, then of other fields.
const PATTERNS: u16 = 100;
const FIELDS: u16 = 200;

fn leaf(label: u16) -> Tree {
    Tree::Label(label, Forest::empty())
}

fn field(label: u16) -> Ty {
    Ty::label(label, Ty::Text)
}

fn text(place: usize) -> Tree {
    Tree::Text {
        offset: (place * 7 % POOL_BYTES.saturating_sub(8)) as u16,
        length: 8,
    }
}

fn text_query(place: usize) -> Qu {
    Qu::Text {
        offset: (place * 11 % POOL_BYTES.saturating_sub(8)) as u16,
        length: 8,
    }
}

fn all(types: impl Iterator<Item = Ty>, join: fn(Ty, Ty) -> Ty) -> Ty {
    types.reduce(join).expect("at least one type")
}

/// `machine[name[text], (X1 | … | X32)*]`.
fn machine() -> Ty {
    let patterns = all((1..=NAMES as u16).map(Ty::Name), Ty::or);
    Ty::label(MACHINE, field(NAME).then(patterns.star()))
}

/// A machine with so many patterns, each of five rows, after the three of the machine and its name.
fn machine_of(patterns: usize) -> Forest {
    let pattern = |place: usize| {
        let part = |label, place| Tree::Label(label, text(place).into());
        let parts = [part(OP, 2 * place), part(EMIT, 2 * place + 1)];
        Tree::Label(
            PATTERNS + (place % NAMES) as u16,
            parts.into_iter().collect(),
        )
    };
    let name = Tree::Label(NAME, text(0).into());
    let trees: Forest = std::iter::once(name)
        .chain((1..=patterns).map(pattern))
        .collect();
    Tree::Label(MACHINE, trees).into()
}

/// `iter [Xi? children [iter [emit? children [snapshot old in if old = q then (delete; insert q) else skip]]]]`.
fn emit_edit(place: usize) -> St {
    let old = St::choose(
        Qu::Variable(0).same(text_query(place)),
        St::Delete.then(St::Insert(text_query(place + 1))),
        St::Skip,
    );
    let inside = St::test(Test::Label(EMIT), St::children(St::snapshot(old)));
    let label = PATTERNS + (place % NAMES) as u16;
    St::iter(St::test(Test::Label(label), St::children(St::iter(inside))))
}

/// The same in a procedure, where two parameters come first.
fn procedure(place: usize) -> Declaration {
    let pattern = || Ty::Name((place % NAMES) as u16 + 1);
    let old = St::choose(
        Qu::Variable(2).same(Qu::Variable(0)),
        St::Delete.then(St::Insert(Qu::Variable(1))),
        St::Skip,
    );
    let inside = St::test(Test::Label(EMIT), St::children(St::snapshot(old)));
    Declaration {
        parameters: vec![Ty::Text, Ty::Text],
        input: pattern().star(),
        output: pattern().star(),
        body: St::iter(St::children(St::iter(inside))),
    }
}

/// Every table and the pool at its limit: a machine description of 409 patterns under 32 names, sixteen
/// procedures, and edits until the tables are full.
pub fn largest() -> Input {
    let fields = |name: u16| {
        let more = if name == 0 { 22 } else { 0 };
        let first = field(OP).then(field(EMIT));
        (0..more).fold(first, |it, at| it.then(field(FIELDS + at).star()))
    };
    let names = (0..NAMES as u16).map(|name| Ty::label(PATTERNS + name, fields(name)));
    let call = |at: usize| {
        let arguments = vec![text_query(2 * at), text_query(2 * at + 1)];
        St::Call(at as u16 + 1, arguments)
    };
    let calls = (0..PROCEDURES).fold(St::Skip, |it, at| {
        it.then(St::iter(St::children(St::right(call(at)))))
    });
    let edits = (0..15).fold(calls, |it, at| it.then(St::iter(emit_edit(at))));
    let mut script = Script {
        names: names.collect(),
        procedures: (0..PROCEDURES).map(procedure).collect(),
        forest: machine_of(409),
        pool: (0..POOL_BYTES).map(|at| (at * 31 % 251) as u8).collect(),
        ..Script::new(machine(), edits, machine())
    };
    fill(&mut script);
    Input::of("largest, a machine", &script).at_every_limit()
}

/// How many rows a table has left.
fn left<T>(limit: usize, rows: &[T]) -> usize {
    limit
        .checked_sub(rows.len())
        .expect("a table within its limit")
}

/// Fills the tables of queries and statements: `left` around the main statement, and queries joined in its end.
fn fill(script: &mut Script) {
    let queries = left(QUERY_ROWS, &script.sheet().queries);
    let last = nested(Qu::Bool(true), (queries - 1) / 2, |it| {
        it.join(text_query(queries))
    });
    let last = nested(last, (queries - 1) % 2, |it| it.pick(NAME));
    let main = std::mem::replace(&mut script.main, St::Skip);
    script.main = main.then(St::left(St::Insert(last)));
    let statements = left(STATEMENT_ROWS, &script.sheet().statements);
    let main = std::mem::replace(&mut script.main, St::Skip);
    script.main = nested(main, statements, St::left);
}

/// The largest tables again, but most type rows are one loop over 138 labels: at each point all of them may stand.
pub fn largest_wide() -> Input {
    let mut script = largest_script_of(138);
    let types = left(TYPE_ROWS, &script.sheet().types);
    script.b = nested(Ty::Empty, types, Ty::star);
    Input::of("largest, a wide loop", &script).at_every_limit()
}

fn largest_script_of(wide: u16) -> Script {
    let names = (0..NAMES as u16).map(|name| Ty::label(PATTERNS + name, Ty::Empty));
    let atoms = (0..wide).map(|at| Ty::label(FIELDS + at, Ty::Empty));
    let loop_of = all(atoms, Ty::or).star();
    let trees = (0..FOREST_ROWS).map(|at| leaf(FIELDS + (at as u16 * 5) % wide));
    let empty = |_| Declaration {
        parameters: Vec::new(),
        input: Ty::Empty,
        output: Ty::Empty,
        body: St::Skip,
    };
    let edits = (0..30).fold(St::Skip, |it, at| it.then(emit_edit(at)));
    let mut script = Script {
        names: names.collect(),
        procedures: (0..PROCEDURES).map(empty).collect(),
        forest: trees.collect(),
        pool: vec![b'x'; POOL_BYTES],
        ..Script::new(loop_of, edits, Ty::Empty)
    };
    fill(&mut script);
    script
}

/// A loop over one label, on so many siblings; the script deletes each, for 2 units.
pub fn siblings(rows: usize) -> Input {
    let ty = || empty(1).star();
    let script = Script {
        forest: (0..rows).map(|_| leaf(1)).collect(),
        ..Script::new(ty(), St::iter(St::Delete), ty())
    };
    Input::of(format!("{rows} siblings"), &script)
}

/// The same siblings in a query's loop, `for x in v return ()`: 2 units each.
pub fn siblings_asked(rows: usize) -> Input {
    let query = Qu::Variable(0).each(Qu::Empty);
    let script = Script {
        forest: (0..rows).map(|_| leaf(1)).collect(),
        ..Script::new(
            Ty::Empty,
            St::snapshot(St::bind(query, St::Skip)),
            Ty::Empty,
        )
    };
    Input::of(format!("{rows} siblings asked"), &script)
}

/// A procedure that only calls itself with two texts: 200 levels, then Depth.
pub fn calls() -> Input {
    let call = |one: Qu, two: Qu| St::Call(1, vec![one, two]);
    let empty_text = || Qu::Text {
        offset: 0,
        length: 0,
    };
    let body = call(Qu::Variable(0), Qu::Variable(1));
    let script = Script {
        procedures: vec![Declaration {
            parameters: vec![Ty::Text, Ty::Text],
            input: Ty::Empty,
            output: Ty::Empty,
            body,
        }],
        ..Script::new(Ty::Empty, call(empty_text(), empty_text()), Ty::Empty)
    };
    Input::of("200 levels of calls", &script)
}

/// A query nested to the depth: 199 trees around `()`, under the insert.
pub fn deep_query() -> Input {
    let query = nested(Qu::Empty, 198, |it| Qu::tree(A, it));
    let script = Script::new(Ty::Empty, St::Insert(query), Ty::Empty);
    Input::of("200 levels of queries", &script)
}

/// A statement nested to the depth: loops around a query's loops, as many as there are places.
pub fn deep_loops() -> Input {
    let query = nested(Qu::Empty, 14, |it| Qu::Variable(0).each(it));
    let inside = St::snapshot(St::bind(query, St::Skip));
    let script = Script {
        forest: leaf(A).into(),
        ..Script::new(Ty::Empty, nested(inside, 183, St::iter), Ty::Empty)
    };
    Input::of("200 levels of loops", &script)
}

/// `X = a[X*]`, on a tree nested so deep.
pub fn nest(rows: usize) -> Input {
    let script = Script {
        names: vec![Ty::label(1, Ty::Name(1).star())],
        forest: nested(Forest::empty(), rows, |it| Tree::Label(1, it).into()),
        ..Script::new(Ty::Name(1).star(), St::Skip, Ty::Empty)
    };
    Input::of(format!("{rows} nested"), &script)
}

/// A machine of so many rows: 3, and 5 for each pattern, and the rest in fields of the last.
pub fn machine_rows(rows: usize) -> Input {
    let names = (0..NAMES as u16)
        .map(|name| Ty::label(PATTERNS + name, field(OP).then(field(EMIT).star())));
    let patterns = (rows - 3) / 5;
    let script = Script {
        names: names.collect(),
        forest: machine_of(patterns),
        pool: vec![b'x'; POOL_BYTES],
        ..Script::new(machine(), St::Skip, Ty::Empty)
    };
    Input::of(format!("a machine of {} rows", 3 + 5 * patterns), &script)
}

const A: u16 = 1;
const B: u16 = 2;
const C: u16 = 3;
const D: u16 = 4;

/// `iter [a? children [iter [b? right [insert c]]]]`.
fn script_s() -> St {
    let insert = St::Insert(Qu::tree(C, Qu::Empty));
    let inside = St::iter(St::test(Test::Label(B), St::right(insert)));
    St::iter(St::test(Test::Label(A), St::children(inside)))
}

fn empty(label: u16) -> Ty {
    Ty::label(label, Ty::Empty)
}

/// a[…],d with these labels inside.
fn group(inside: &[u16]) -> [Tree; 2] {
    let trees: Forest = inside.iter().map(|&label| leaf(label)).collect();
    [Tree::Label(A, trees), leaf(D)]
}

/// P1: S on a[b,c,b],d, with P3's types.
pub fn p1() -> Input {
    let with = |part: fn() -> Ty| {
        let inside = part().star().then(empty(C)).then(part().star());
        Ty::label(A, inside).then(empty(D))
    };
    let script = Script {
        forest: group(&[B, C, B]).into_iter().collect(),
        ..Script::new(
            with(|| empty(B)),
            script_s(),
            with(|| empty(B).then(empty(C))),
        )
    };
    Input::of("P1", &script)
}

/// The same sheet, for its check.
pub fn p3() -> Input {
    Input {
        name: "P3".into(),
        ..p1()
    }
}

/// S on so many groups a[b,b,b,c,b,b],d: 62 units for each, and 1.
pub fn groups(count: usize) -> Input {
    let script = Script {
        forest: (0..count)
            .flat_map(|_| group(&[B, B, B, C, B, B]))
            .collect(),
        ..Script::new(Ty::Empty, script_s(), Ty::Bool)
    };
    Input::of(format!("S on {count} groups of 8 trees"), &script)
}

/// The same with P3's types, each any number of times: the check passes, and the forest is of A.
#[cfg(feature = "archive")]
pub fn groups_of_a(count: usize) -> Input {
    let with = |part: fn() -> Ty| {
        let inside = part().star().then(empty(C)).then(part().star());
        Ty::label(A, inside).then(empty(D)).star()
    };
    let script = Script {
        forest: (0..count)
            .flat_map(|_| group(&[B, B, B, C, B, B]))
            .collect(),
        ..Script::new(
            with(|| empty(B)),
            script_s(),
            with(|| empty(B).then(empty(C))),
        )
    };
    Input::of(format!("S on {count} groups of 8 trees, of A"), &script)
}

/// The largest machine description, 2,048 rows, with one pattern's emit edited.
#[cfg(feature = "archive")]
pub fn machine_edited() -> Input {
    let names = (0..NAMES as u16)
        .map(|name| Ty::label(PATTERNS + name, field(OP).then(field(EMIT).star())));
    let script = Script {
        names: names.collect(),
        forest: machine_of(409),
        pool: vec![b'x'; POOL_BYTES],
        ..Script::new(machine(), St::children(emit_edit(1)), machine())
    };
    Input::of("a machine of 2,048 rows, edited", &script)
}

/// 2,048 rows of which S touches the first group and sees three trees more.
pub fn few_touched() -> Input {
    let deep = |rows: usize| nested(leaf(D), rows - 1, |it| Tree::Label(D, it.into()));
    let first = Tree::Label(A, [leaf(B), leaf(C), leaf(B)].into_iter().collect());
    let wide = Tree::Label(D, (0..680).map(|_| leaf(B)).collect());
    let forest = [first, deep(681), wide, deep(682)].into_iter().collect();
    let script = Script {
        forest,
        ..Script::new(Ty::Empty, script_s(), Ty::Bool)
    };
    Input::of("few of 2,048 rows touched", &script)
}

/// `snapshot v in (delete; insert for x in v return for y in v return for z in v return z)`.
pub fn nested_loops(trees: usize, fuel: u16) -> Input {
    let v = || Qu::Variable(0);
    let innermost = v().each(Qu::Variable(3));
    let query = v().each(v().each(innermost));
    let body = St::snapshot(St::Delete.then(St::Insert(query)));
    let script = Script {
        forest: (0..trees).map(|_| leaf(B)).collect(),
        run_fuel: fuel,
        ..Script::new(Ty::Empty, body, Ty::Bool)
    };
    Input::of(format!("three loops over {trees} trees"), &script)
}

/// `1*, 2*, …`: 4 rows for each label.
fn row_of_stars(labels: u16) -> Ty {
    all((1..=labels).map(|label| empty(label).star()), Ty::then)
}

fn no_text() -> Qu {
    Qu::Text {
        offset: 0,
        length: 0,
    }
}

/// The slowest sheet of the second program's `tests/limits.rs`: each question has one more text in the found type.
pub fn limits() -> Input {
    let call = || St::Call(1, Vec::new());
    let step = |it: St| it.then(St::right(St::Insert(no_text())).then(call()));
    let script = Script {
        procedures: vec![Declaration {
            parameters: Vec::new(),
            input: row_of_stars(58).then(Ty::Text.star()),
            output: row_of_stars(58),
            body: St::iter(St::test(Test::Text, St::Delete)),
        }],
        ..Script::new(
            (1..6).map(empty).fold(Ty::Text, Ty::then),
            St::iter(St::left(nested(call(), 95, step))),
            Ty::Text.star(),
        )
    };
    Input::of("slowest of the limits test", &script)
}

/// Full tables of the second program's cases: the check goes through.
pub fn full() -> Input {
    let script = second::cases::special::full(&mut second::dice::Dice::new(3));
    Input::of("full tables", &script)
}

/// So many statements one after the other, no deeper than they must be.
fn chain(count: usize, one: &dyn Fn() -> St) -> St {
    match count {
        1 => one(),
        _ => chain(count / 2, one).then(chain(count - count / 2, one)),
    }
}

/// Calls until fuel is out, each of which asks whether an argument of some 490 rows is of a declared type of 491.
fn asks(name: &str, calls: usize, argument: fn() -> Qu) -> Input {
    let body = chain(calls, &|| St::Call(1, vec![argument()]));
    let atoms = [1, 2, 3, 4].map(empty);
    let any_of = atoms.into_iter().fold(Ty::Text.or(Ty::Bool), Ty::or);
    let script = Script {
        procedures: vec![Declaration {
            parameters: vec![row_of_stars(123)],
            input: any_of.star(),
            output: Ty::Empty,
            body: St::iter(St::left(body)),
        }],
        ..Script::new(Ty::Empty, St::Skip, Ty::Empty)
    };
    Input::of(name, &script)
}

/// Each found type is written anew: 7 units a question.
pub fn many_inclusions() -> Input {
    asks("many inclusions", 170, || Qu::Variable(0).join(Qu::Empty))
}

/// One question again and again, 3 units each: the second program keeps its answer, the proved one decides it each time.
pub fn one_inclusion_again() -> Input {
    asks("one inclusion, again", 250, || Qu::Variable(0))
}

/// `X = a[…X…]` with so many rows around X in its content.
fn deep_name(rows: usize, around: fn(Ty) -> Ty) -> Vec<Ty> {
    let inside = nested(Ty::Name(1).star(), rows - 1, around);
    vec![Ty::label(A, inside)]
}

/// Type rows visited one in the other, as many as fuel lets, at 200 levels of statements: tests around
/// `children [iter [children [iter […]]]]` around a call, whose focus is asked.
fn deep_visits(name: &str, levels: usize, rows: usize, around: fn(Ty) -> Ty) -> Input {
    let into = |it| St::children(St::iter(it));
    let visits = nested(St::Call(1, Vec::new()), levels, into);
    let tests = 199 - 2 * levels;
    let script = Script {
        names: deep_name(rows, around),
        procedures: vec![Declaration {
            parameters: Vec::new(),
            input: Ty::Name(1),
            output: Ty::Name(1),
            body: St::Skip,
        }],
        ..Script::new(
            Ty::Name(1),
            nested(visits, tests, |it| St::test(Test::Any, it)),
            Ty::Name(1),
        )
    };
    Input::of(name, &script)
}

/// The same in a query: `for x in v return for y in children of x return …`, around a same, whose sides are asked.
fn deep_visits_asked(name: &str, levels: usize, rows: usize, around: fn(Ty) -> Ty) -> Input {
    let loops = |it, at| Qu::Children(at).each(it);
    let innermost = no_text().same(no_text());
    let query = (1..=levels as u16).rev().fold(innermost, loops);
    let inside = St::snapshot(St::bind(Qu::Variable(0).each(query), St::Skip));
    let tests = 195 - levels;
    let script = Script {
        names: deep_name(rows, around),
        ..Script::new(
            Ty::Name(1),
            nested(inside, tests, |it| St::test(Test::Any, it)),
            Ty::Name(1),
        )
    };
    Input::of(name, &script)
}

/// What makes the check's stack deep: stars, and sequences of which the first part is the deep one.
pub fn deep_types() -> [Input; 6] {
    let pair = |it: Ty| it.then(Ty::Empty);
    [
        deep_visits("stars of 500, to fuel", 9, 500, Ty::star),
        deep_visits("stars, a call asked", 9, 431, Ty::star),
        deep_visits("pairs of 250, to fuel", 17, 250, pair),
        deep_visits("pairs, a call asked", 16, 241, pair),
        deep_visits_asked("stars in queries, asked", 9, 430, Ty::star),
        deep_visits_asked("pairs in queries, asked", 14, 254, pair),
    ]
}

/// 199 levels of ifs, then a call that is asked.
pub fn deep_ifs() -> Input {
    let around = |it| St::choose(Qu::Bool(true), St::Skip, it);
    let script = Script {
        procedures: vec![Declaration {
            parameters: Vec::new(),
            input: Ty::Empty,
            output: Ty::Empty,
            body: St::Skip,
        }],
        ..Script::new(
            Ty::Empty,
            nested(St::Call(1, Vec::new()), 199, around),
            Ty::Empty,
        )
    };
    Input::of("199 levels of ifs, a call asked", &script)
}
