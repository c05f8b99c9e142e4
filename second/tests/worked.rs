//! Document 01, "Worked on paper": P1 to P12, the recursion example and the listing.

use second::answers::{answers, apply_listing, Judged, Lent};
use second::bundles::to_bundle;
use second::check::{check, output_type};
use second::forests::{Forest, Tree};
use second::inclusion::refute;
use second::places::is_of;
use second::refusals::{Asker, Refusal};
use second::run::{run, run_query};
use second::scripts::{Declaration, Qu, Script, St, Ty};
use second::shape::well_shaped;
use second::tables::{Sheet, Test};
use second::types::Types;

const A: u16 = 1;
const B: u16 = 2;
const C: u16 = 3;
const D: u16 = 4;

/// "`a` alone means empty content".
fn alone(label: u16) -> Ty {
    Ty::label(label, Ty::Empty)
}

fn tree(label: u16, content: &[Tree]) -> Tree {
    Tree::Label(label, content.iter().cloned().collect())
}

fn leaf(label: u16) -> Tree {
    tree(label, &[])
}

fn forest(trees: &[Tree]) -> Forest {
    trees.iter().cloned().collect()
}

/// "*S* is: iter [a? children [iter [b? right [insert c]]]]."
fn s() -> St {
    let insert = St::Insert(Qu::tree(C, Qu::Empty));
    let inner = St::iter(St::test(Test::Label(B), St::right(insert)));
    St::iter(St::test(Test::Label(A), St::children(inner)))
}

/// P1's script and forest with P3's two types.
fn example() -> Script {
    let bc = || alone(B).then(alone(C)).star();
    let before = alone(B).star().then(alone(C)).then(alone(B).star());
    let after = bc().then(alone(C)).then(bc());
    let a = Ty::label(A, before).then(alone(D));
    let b = Ty::label(A, after).then(alone(D));
    Script {
        forest: forest(&[tree(A, &[leaf(B), leaf(C), leaf(B)]), leaf(D)]),
        ..Script::new(a, s(), b)
    }
}

fn with_run_fuel(script: Script, run_fuel: u16) -> Sheet {
    let script = Script { run_fuel, ..script };
    script.sheet()
}

/// A script that is only run: its types do not matter.
fn only_run(main: St, trees: &[Tree]) -> Script {
    Script {
        forest: forest(trees),
        ..Script::new(Ty::Empty, main, Ty::Empty)
    }
}

fn ran(sheet: &Sheet) -> (u16, Result<Forest, Refusal>) {
    assert!(well_shaped(sheet));
    let ran = run(sheet);
    (ran.units, ran.result)
}

#[test]
fn p1_and_p2_the_run() {
    let after = tree(A, &[leaf(B), leaf(C), leaf(C), leaf(B), leaf(C)]);
    let expected = forest(&[after, leaf(D)]);
    assert_eq!(ran(&example().sheet()), (33, Ok(expected.clone())));
    assert_eq!(ran(&with_run_fuel(example(), 33)), (33, Ok(expected)));
    let short = with_run_fuel(example(), 32);
    assert_eq!(ran(&short), (32, Err(Refusal::Fuel)));
}

#[test]
fn p3_and_p4_the_check() {
    let script = example();
    let (types, row) = output_type(&script.sheet()).expect("S has an output type");
    assert_eq!(Ty::of(&types, row), script.b);
    let checked = check(&script.sheet());
    assert_eq!((checked.units, checked.result), (38, Ok(())));
    let short = Script {
        check_fuel: 37,
        ..script
    };
    let checked = check(&short.sheet());
    assert_eq!((checked.units, checked.result), (37, Err(Refusal::Fuel)));
}

#[test]
fn p5_iter_on_nothing() {
    let script = only_run(St::iter(St::Delete), &[]);
    assert_eq!(ran(&script.sheet()), (1, Ok(Forest::empty())));
}

fn tie_of(ty: Ty) -> Option<Refusal> {
    let sheet = Script::new(ty, St::Skip, Ty::Empty).sheet();
    assert!(well_shaped(&sheet));
    let judged = Judged::new(&sheet);
    judged.fit(sheet.a).err().filter(|it| it.number() == 4)
}

#[test]
fn p6_ties() {
    let tied = alone(A).star().then(alone(A));
    let expected = Some(Refusal::Tie { row: 2, rival: 5 });
    assert_eq!(tie_of(tied), expected);
    assert_eq!(tie_of(alone(A).star().star()), None);
}

#[test]
fn p7_inclusion() {
    let sheet = Script::new(alone(A).star(), St::Skip, alone(A).or(alone(B)).star()).sheet();
    let types = Types::of(&sheet);
    assert_eq!(refute(&types, sheet.a, sheet.b), None);
    let forest = refute(&types, sheet.b, sheet.a).expect("b is not of a*");
    assert!(is_of(&types, &forest, sheet.b) && !is_of(&types, &forest, sheet.a));
}

fn barren(content: Ty) -> Option<u16> {
    let script = Script {
        names: vec![Ty::label(A, content)],
        ..Script::new(Ty::Empty, St::Skip, Ty::Empty)
    };
    assert!(well_shaped(&script.sheet()));
    Types::of(&script.sheet()).lowest_barren()
}

#[test]
fn p8_barren() {
    assert_eq!(barren(Ty::Name(1)), Some(1));
    assert_eq!(barren(Ty::Name(1).star()), None);
}

#[test]
fn p9_children_on_a_text() {
    let text = Tree::Text {
        offset: 0,
        length: 0,
    };
    let script = only_run(St::children(St::Skip), &[text]);
    let sheet = script.sheet();
    let stuck = Refusal::Stuck(Asker::Statement(sheet.main));
    assert_eq!(ran(&sheet), (1, Err(stuck)));
}

#[test]
fn p10_delete() {
    let script = only_run(St::Delete, &[leaf(A), leaf(D)]);
    assert_eq!(ran(&script.sheet()), (1, Ok(Forest::empty())));
}

#[test]
fn p11_same() {
    let ab = |offset| Qu::Text { offset, length: 2 };
    let script = Script {
        pool: b"abab".to_vec(),
        ..only_run(St::Insert(ab(0).same(ab(2))), &[])
    };
    let sheet = script.sheet();
    let same = forest(&[Tree::Bool(true)]);
    let query = run_query(&sheet, sheet.queries.len() as u16);
    assert_eq!((query.units, query.result), (6, Ok(same.clone())));
    assert_eq!(ran(&sheet), (7, Ok(same)));
}

#[test]
fn p12_rename() {
    let script = only_run(St::Rename(A), &[leaf(A)]);
    assert_eq!(ran(&script.sheet()), (2, Ok(forest(&[leaf(A)]))));
}

/// "A main row that calls a procedure that only calls itself gives Depth at fuel 200 and Fuel at
/// 199."
#[test]
fn recursion() {
    let script = Script {
        procedures: vec![Declaration {
            parameters: Vec::new(),
            input: Ty::Empty,
            output: Ty::Empty,
            body: St::Call(1, Vec::new()),
        }],
        ..only_run(St::Call(1, Vec::new()), &[])
    };
    let depth = with_run_fuel(script.clone(), 200);
    assert_eq!(ran(&depth), (200, Err(Refusal::Depth)));
    let fuel = with_run_fuel(script, 199);
    assert_eq!(ran(&fuel), (199, Err(Refusal::Fuel)));
}

const ROWS: &str = "\
1 4 4 0 0
2 4 3 0 0
3 4 2 0 2
4 4 3 0 3
5 4 3 0 4
6 4 2 0 5
7 4 1 6 1
";

#[test]
fn the_listing() {
    let bundle = to_bundle(&example().sheet());
    let listing = format!("check 0 38\nfit 0 0\nrun 0 33 7\n{ROWS}");
    assert_eq!(apply_listing(&bundle), listing);
}

#[test]
fn all_answers() {
    let sheet = example().sheet();
    let text = answers(&to_bundle(&sheet), 6144, 8192);
    let lines: Vec<&str> = text.lines().collect();
    assert_eq!(lines[..2], ["read 0", "check 0 38 0 0"]);
    assert!(lines.contains(&format!("fit {} 0 0 0", sheet.a).as_str()));
    // In B a c follows each b, so the content of a, which is row 5, ends too soon.
    assert!(lines.contains(&format!("fit {} 10 5 0", sheet.b).as_str()));
    let end = format!("run 0 33 0 0 7\n{ROWS}apply 0 38 33 0 0 7\n");
    assert!(text.ends_with(&end));
}

#[test]
fn room_and_scratch() {
    let sheet = example().sheet();
    let judged = Judged::new(&sheet);
    let reply = judged.run(Lent::new(4096 + 6, 6));
    assert_eq!((reply.units, reply.result), (33, Err(Refusal::Room)));
    let reply = judged.run(Lent::new(4096 + 5 - 1, 7));
    assert_eq!((reply.units, reply.result), (0, Err(Refusal::Scratch)));
    let reply = judged.run(Lent::new(4096 + 5, 7));
    assert!(reply.result.is_ok());
    let reply = judged.check(Lent::new(4095, 0));
    assert_eq!((reply.units, reply.result), (0, Err(Refusal::Scratch)));
    let applied = judged.apply(Lent::new(4096, 0));
    let units = (applied.check_units, applied.run_units);
    assert_eq!((units, applied.result), ((38, 0), Err(Refusal::Scratch)));
}
