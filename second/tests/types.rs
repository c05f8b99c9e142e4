//! Ties and barren names by their lowest rows, Wide at its edge, and what names act as.

use second::answers::Judged;
use second::check::{check, output_type};
use second::forests::{Forest, Tree};
use second::refusals::{Asker, Refusal};
use second::scripts::{nested, Declaration, Qu, Script, St, Ty};
use second::shape::well_shaped;
use second::tables::Test;

const A: u16 = 1;
const B: u16 = 2;

fn leaf(label: u16) -> Ty {
    Ty::label(label, Ty::Empty)
}

fn refusal(script: &Script) -> Option<Refusal> {
    let sheet = script.sheet();
    assert!(well_shaped(&sheet));
    let fit = Judged::new(&sheet).fit(sheet.b);
    fit.err().filter(|it| it.number() != 10)
}

fn tie(row: u16, rival: u16) -> Option<Refusal> {
    Some(Refusal::Tie { row, rival })
}

#[test]
fn ties_by_their_lowest_rows() {
    let of = |a: Ty, b: Ty| refusal(&Script::new(a, St::Skip, b));
    // A is rows 1 to 8: label rows 2, 4 and 7.
    let three = || leaf(A).or(leaf(A)).or(leaf(A));
    assert_eq!(of(three(), Ty::Empty), tie(2, 4));
    // Heads, not contents, make a tie; text and bool are heads of their own.
    assert_eq!(of(leaf(A).or(Ty::label(A, Ty::Text)), Ty::Empty), tie(2, 4));
    assert_eq!(of(leaf(A).or(leaf(B)), Ty::Text.or(Ty::Bool)), None);
    assert_eq!(of(Ty::Text.or(Ty::Text), Ty::Empty), tie(1, 2));
    // Another point of the type: after an a comes an a of the star, or the last.
    assert_eq!(
        of(leaf(B).then(leaf(A).star()).then(leaf(A)), Ty::Empty),
        tie(4, 8)
    );
    assert_eq!(of(leaf(A).then(leaf(A)), Ty::Empty), None);
    // A tie within a content, with lower rows than one outside.
    let inside = Ty::label(B, Ty::Bool.or(Ty::Bool));
    assert_eq!(
        of(inside.then(Ty::Text.star()).then(Ty::Text), Ty::Empty),
        tie(1, 2)
    );
    assert_eq!(of(Ty::Empty, Ty::Text.or(Ty::Text)), tie(2, 3));
}

#[test]
fn two_rows_of_one_name_are_two_places() {
    let with_name = |a: Ty| Script {
        names: vec![leaf(A)],
        ..Script::new(a, St::Skip, Ty::Empty)
    };
    let tied = with_name(Ty::Name(1).star().then(Ty::Name(1)));
    assert_eq!(refusal(&tied), tie(3, 5));
    let with_label = with_name(Ty::Name(1).or(leaf(A)));
    assert_eq!(refusal(&with_label), tie(3, 5));
    assert_eq!(refusal(&with_name(Ty::Name(1).star())), None);
}

#[test]
fn ties_of_procedures_and_names_are_judged() {
    let tied = || Ty::Text.or(Ty::Text);
    let name = Script {
        names: vec![Ty::label(A, tied())],
        ..Script::new(Ty::Empty, St::Skip, Ty::Empty)
    };
    assert_eq!(refusal(&name), tie(1, 2));
    for place in 0..4 {
        let mut types = vec![Ty::Empty; 4];
        types[place] = tied();
        let declaration = Declaration {
            parameters: types[..2].to_vec(),
            input: types[2].clone(),
            output: types[3].clone(),
            body: St::Skip,
        };
        let script = Script {
            procedures: vec![declaration],
            ..Script::new(Ty::Empty, St::Skip, Ty::Empty)
        };
        let row = 3 + place as u16;
        assert_eq!(refusal(&script), tie(row, row + 1));
    }
}

#[test]
fn barren_names() {
    let with_names = |contents: &[Ty]| {
        let names = contents.iter().map(|it| Ty::label(A, it.clone()));
        let script = Script {
            names: names.collect(),
            ..Script::new(Ty::Text.or(Ty::Text), St::Skip, Ty::Empty)
        };
        refusal(&script)
    };
    let barren = |name| Some(Refusal::Barren { name });
    // Each needs the other; the third has a way out.
    let (x, y, z) = (Ty::Name(1), Ty::Name(2), Ty::Name(3));
    let out = z.clone().or(Ty::Empty);
    assert_eq!(with_names(&[out.clone(), z.clone(), y.clone()]), barren(2));
    assert_eq!(with_names(&[y.clone(), x.clone(), out]), barren(1));
    assert_eq!(
        with_names(&[y.clone().then(Ty::Text), Ty::Empty]).map(|it| it.number()),
        Some(4)
    );
    assert_eq!(with_names(&[y, x.star()]).map(|it| it.number()), Some(4));
}

/// A sequence of 511 rows, and so many labels around it.
fn wide(labels: usize) -> Script {
    let double = |variable| Qu::Variable(variable).join(Qu::Variable(variable));
    let text = Qu::Text {
        offset: 0,
        length: 0,
    };
    let last = nested(Qu::Variable(8), labels, |it| Qu::tree(A, it));
    let lets = (0..8).rev().fold(St::Insert(last), |it, variable| {
        St::bind(double(variable), it)
    });
    let wanted = nested(Ty::Text.star(), labels, |it| Ty::label(A, it));
    Script::new(Ty::Empty, St::bind(text, lets), wanted)
}

#[test]
fn wide_at_its_edge() {
    let (types, row) = output_type(&wide(0).sheet()).expect("it has a type");
    assert_eq!(types.written_out(row), 511);
    assert_eq!(check(&wide(0).sheet()).result, Ok(()));
    assert_eq!(check(&wide(1).sheet()).result, Ok(()));
    let refused = check(&wide(2).sheet()).result;
    assert_eq!(refused, Err(Refusal::Wide(Asker::Declaration)));
    // Wide comes before Not included.
    let other = Script {
        b: Ty::Empty,
        ..wide(2)
    };
    let refused = check(&other.sheet()).result;
    assert_eq!(refused, Err(Refusal::Wide(Asker::Declaration)));
}

/// "a name acts everywhere as its label row": test, children, rename, pick and kind 11.
#[test]
fn names_are_opened() {
    let yields = |main: St, expected: Ty| {
        let script = Script {
            names: vec![Ty::label(A, Ty::Text)],
            ..Script::new(Ty::Name(1), main, Ty::Empty)
        };
        let (types, row) = output_type(&script.sheet()).expect("it has a type");
        assert_eq!(Ty::of(&types, row), expected);
    };
    yields(St::Skip, Ty::Name(1));
    yields(St::test(Test::Label(A), St::Delete), Ty::Empty);
    yields(St::test(Test::Label(B), St::Delete), Ty::Name(1));
    yields(St::children(St::Skip), Ty::label(A, Ty::Text));
    yields(St::Rename(B), Ty::label(B, Ty::Text));
    let with_focus = |query| St::snapshot(St::Delete.then(St::Insert(query)));
    yields(with_focus(Qu::Variable(0).pick(A)), Ty::Name(1));
    yields(with_focus(Qu::Variable(0).pick(B)), Ty::Empty);
    yields(with_focus(Qu::Variable(0).each(Qu::Children(1))), Ty::Text);
    yields(St::iter(St::Skip), Ty::Name(1));
}

/// Children of a text or bool are nothing, so a loop over mixed content has a type.
#[test]
fn children_of_mixed_content() {
    let mixed = Ty::Text.or(Ty::label(A, Ty::Bool)).or(Ty::Bool).star();
    let children = Qu::Variable(0).each(Qu::Children(1));
    let main = St::snapshot(St::Delete.then(St::Insert(children)));
    let (types, row) =
        output_type(&Script::new(mixed, main, Ty::Empty).sheet()).expect("it has a type");
    let inside = Ty::Empty.or(Ty::Bool).or(Ty::Empty).star();
    assert_eq!(Ty::of(&types, row), inside);
}

/// Types are never simplified, and a visited `()` is handed on.
#[test]
fn types_are_rebuilt_as_they_are() {
    let yields = |a: Ty, main: St, expected: Ty| {
        let script = Script::new(a, main, Ty::Empty);
        let (types, row) = output_type(&script.sheet()).expect("it has a type");
        assert_eq!(Ty::of(&types, row), expected);
    };
    yields(leaf(A).star(), St::iter(St::Delete), Ty::Empty.star());
    yields(leaf(A), St::left(St::Skip), Ty::Empty.then(leaf(A)));
    yields(leaf(A), St::right(St::Skip), leaf(A).then(Ty::Empty));
    let both = || leaf(A).or(Ty::Empty).then(Ty::Text);
    yields(both(), St::iter(St::Skip), both());
    let either = St::choose(Qu::Bool(true), St::Skip, St::Skip);
    yields(Ty::Text, either, Ty::Text.or(Ty::Text));
}

#[test]
fn fit_of_rows_within_types() {
    let b = Ty::label(A, Ty::Text.star().then(leaf(B)));
    let forest: Forest = Forest::from(Tree::Label(B, Forest::empty()));
    let script = Script {
        forest,
        ..Script::new(Ty::Empty, St::Skip, b)
    };
    let sheet = script.sheet();
    let judged = Judged::new(&sheet);
    // Rows: 1 A; 2 text, 3 star, 4 (), 5 b[()], 6 sequence, 7 a[…].
    let numbers: Vec<u16> = (0..=8)
        .map(|row| judged.fit(row).err().map_or(0, |it| it.number()))
        .collect();
    assert_eq!(numbers, [2, 10, 10, 10, 10, 0, 0, 10, 2]);
}
