//! Where a forest is unfit: the row of the first tree whose head cannot stand at its place, or of the parent whose content
//! ends too soon, 0 at the top.

use second::answers::{answers, apply_listing, Judged, RESULT_ROWS, WORKING_ROWS};
use second::bundles::{read, to_bundle};
use second::cases::Cases;
use second::forests::Forest;
use second::notation::assemble;
use second::refusals::Refusal;
use second::scripts::Ty;
use second::tables::Sheet;
use second::types::Types;
use std::collections::{BTreeMap, BTreeSet};

/// Rows are written the rest first, then the children, then the tree: the last tree of the top is row 1.
fn sheet(from: &str, forest: &str) -> Sheet {
    let labels = "labels a = 1, b = 2, c = 3, d = 4";
    let trees = if forest.is_empty() { "" } else { "forest" };
    let text = format!("{labels} from {from} to {from} script skip {trees} {forest}");
    assemble(&text).unwrap_or_else(|error| panic!("{text}: {error:?}"))
}

/// The row of the fault; none if there is none.
fn fault_at(sheet: &Sheet, type_row: u16) -> Option<u16> {
    match Judged::new(sheet).fit(type_row) {
        Ok(()) => None,
        Err(Refusal::Unfit { tree }) => Some(tree),
        Err(other) => panic!("{other:?}"),
    }
}

fn fault(from: &str, forest: &str) -> Option<u16> {
    let sheet = sheet(from, forest);
    fault_at(&sheet, sheet.a)
}

#[test]
fn a_head_that_cannot_stand() {
    // Texts and bools are trees too.
    assert_eq!(fault("a[]", r#""x""#), Some(1));
    assert_eq!(fault("text", "true"), Some(1));
    assert_eq!(fault("bool", "a[]"), Some(1));
    assert_eq!(fault("bool, bool", "true, false"), None);
    // The first one, left before right.
    assert_eq!(fault("a[]*", "a[], b[], a[], b[]"), Some(3));
    // A tree too many.
    assert_eq!(fault("text", r#""x", "y""#), Some(1));
    assert_eq!(fault("()", "a[a[]]"), Some(2));
    // Parents before children.
    assert_eq!(fault("a[b[]]", "c[c[]]"), Some(2));
    // A place is judged by the heads before it, never by what could follow.
    assert_eq!(fault("(a[], b[]) | (c[], d[])", "a[], d[]"), Some(1));
    assert_eq!(fault("a[]*, b[]", "a[], a[], c[]"), Some(1));
}

#[test]
fn a_content_that_ends_too_soon() {
    assert_eq!(fault("a[], b[]", "a[]"), Some(0));
    assert_eq!(fault("text", ""), Some(0));
    assert_eq!(fault("a[b[], c[]], d[]", "a[b[]], d[]"), Some(3));
    assert_eq!(fault("a[b[text]]", "a[b[]]"), Some(1));
    // The end of what is inside comes first, then that of what is around it.
    assert_eq!(fault("a[b[text], c[]], d[]", "a[b[]]"), Some(1));
    assert_eq!(fault("a[b[text], c[]], d[]", r#"a[b["x"]]"#), Some(3));
}

#[test]
fn the_first_fault_decides() {
    // A head inside a left tree, before a head to its right.
    assert_eq!(fault("a[b[]], d[]", "a[c[]], c[]"), Some(2));
    // The end of a content, before its parent's next neighbour.
    assert_eq!(fault("a[b[]], d[]", "a[], c[]"), Some(2));
    // A head, before the end of the content that it stands in.
    assert_eq!(fault("a[b[], c[]]", "a[d[]]"), Some(1));
    // All that is inside, before the end at the top.
    assert_eq!(fault("a[b[]], d[]", "a[c[]]"), Some(1));
    assert_eq!(fault("a[b[]], d[]", "a[b[]]"), Some(0));
}

/// Trees nested in each other: the one at each depth has another label, or has nothing in it.
#[test]
fn at_every_depth() {
    const LEVELS: u16 = 60;
    let nested = |heads: &[&str]| {
        heads
            .iter()
            .rev()
            .fold(String::new(), |inside, head| format!("{head}[{inside}]"))
    };
    let from = nested(&["a"; LEVELS as usize]);
    assert_eq!(fault(&from, &from), None);
    for depth in 0..LEVELS {
        let mut heads = ["a"; LEVELS as usize];
        heads[usize::from(depth)] = "b";
        assert_eq!(fault(&from, &nested(&heads)), Some(LEVELS - depth));
        // The innermost of so many trees ends too soon; of none, the top does.
        let cut = nested(&heads[..usize::from(depth)]);
        let ends = if depth == 0 { 0 } else { 1 };
        assert_eq!(fault(&from, &cut), Some(ends));
    }
}

/// `X = a[X*]`: a name acts as its label row.
#[test]
fn through_names() {
    let text = "labels a = 1, b = 2 type X = a[X*, b[]] from X to X script skip forest ";
    let of = |forest: &str| {
        let sheet = assemble(&format!("{text}{forest}")).expect("a sheet");
        fault_at(&sheet, sheet.a)
    };
    assert_eq!(of("a[a[b[]], b[]]"), None);
    assert_eq!(of("a[a[], b[]]"), Some(2));
    assert_eq!(of("a[a[b[]], a[b[], b[]], b[]]"), Some(2));
    assert_eq!(of("a[a[b[]]]"), Some(3));
}

#[test]
fn against_a_row_within_a_type() {
    // The rows of A: 1 text, 2 star, 3 (), 4 b[()], 5 sequence, 6 a[…]; the forest's: 1 b, 2 text.
    let sheet = sheet("a[text*, b[]]", r#""x", b[]"#);
    let faults: Vec<_> = (1..=6).map(|row| fault_at(&sheet, row)).collect();
    assert_eq!(faults, [Some(1), Some(1), Some(2), Some(2), None, Some(2)]);
    assert_eq!(Judged::new(&sheet).fit(13), Err(Refusal::Shape));
}

/// The table's own row numbers, and not those of the order in which a result is written.
#[test]
fn rows_of_the_lent_table() {
    let mut sheet = sheet("a[b[]], d[]", "a[c[]], d[]");
    assert_eq!(sheet.forest, [[4, 4, 0, 0], [4, 3, 0, 0], [4, 1, 2, 1]]);
    assert_eq!(fault_at(&sheet, sheet.a), Some(2));
    sheet.forest = vec![[4, 3, 0, 0], [4, 4, 0, 0], [4, 1, 1, 2]];
    assert_eq!(fault_at(&sheet, sheet.a), Some(1));
}

#[test]
fn what_is_printed() {
    let bundle = |forest| to_bundle(&sheet("a[b[]], d[]", forest));
    let listing = |forest| apply_listing(&bundle(forest));
    assert!(listing("a[b[]], d[]").starts_with("check 0 1\nfit 0 0\nrun 0 1 3\n"));
    assert_eq!(listing("a[c[]], d[]"), "check 0 1\nfit 10 2\n");
    assert_eq!(listing("a[b[]]"), "check 0 1\nfit 10 0\n");
    let sheet = sheet("a[b[]], d[]", "a[c[]], d[]");
    let text = answers(&to_bundle(&sheet), WORKING_ROWS, RESULT_ROWS);
    assert!(
        text.contains(&format!("\nfit {} 10 2 0\n", sheet.a)),
        "{text}"
    );
    assert!(text.ends_with("\napply 10 1 0 2 0 0\n"), "{text}");
}

/// What is left of a type behind a tree of this kind and label, and the tree's content; the type has no ties.
fn behind(names: &[Ty], ty: &Ty, head: (u16, u16)) -> Option<(Ty, Ty)> {
    match ty {
        Ty::Empty => None,
        Ty::Text => (head.0 == 1).then_some((Ty::Empty, Ty::Empty)),
        Ty::Bool => [2, 3].contains(&head.0).then_some((Ty::Empty, Ty::Empty)),
        Ty::Label(label, content) => {
            (head == (4, *label)).then(|| ((**content).clone(), Ty::Empty))
        }
        Ty::Name(name) => behind(names, &names[usize::from(*name) - 1], head),
        Ty::Choice(p, q) => behind(names, p, head).or_else(|| behind(names, q, head)),
        Ty::Star(p) => {
            behind(names, p, head).map(|(content, rest)| (content, rest.then(ty.clone())))
        }
        Ty::Sequence(p, q) => match behind(names, p, head) {
            Some((content, rest)) => Some((content, rest.then((**q).clone()))),
            None if may_be_empty(p) => behind(names, q, head),
            None => None,
        },
    }
}

fn may_be_empty(ty: &Ty) -> bool {
    match ty {
        Ty::Empty | Ty::Star(_) => true,
        Ty::Sequence(p, q) => may_be_empty(p) && may_be_empty(q),
        Ty::Choice(p, q) => may_be_empty(p) || may_be_empty(q),
        Ty::Text | Ty::Bool | Ty::Label(..) | Ty::Name(_) => false,
    }
}

/// The first fault by going through the trees in their order, and how deep it is; both methods must agree.
fn walked(
    names: &[Ty],
    ty: &Ty,
    rows: &[[u16; 4]],
    (first, parent, depth): (u16, u16, usize),
) -> Option<(u16, usize)> {
    let mut left = ty.clone();
    let mut number = first;
    while number != 0 {
        let [kind, p, q, next] = rows[usize::from(number) - 1];
        let label = if kind == 4 { p } else { 0 };
        let Some((content, rest)) = behind(names, &left, (kind, label)) else {
            return Some((number, depth));
        };
        let inside = if kind == 4 {
            walked(names, &content, rows, (q, number, depth + 1))
        } else {
            None
        };
        if inside.is_some() {
            return inside;
        }
        (left, number) = (rest, next);
    }
    (!may_be_empty(&left)).then_some((parent, depth))
}

/// Every type row of cases that are one fault away from A, against a walk; the faults are of every kind, at every depth.
#[test]
fn random_cases() {
    const COUNT: usize = 500;
    let cases = Cases::half_unfit(7);
    let (mut depths, mut kinds) = (BTreeMap::<usize, usize>::new(), BTreeSet::new());
    let mut moved = 0;
    for number in (1..2 * COUNT).step_by(2) {
        let sheet = read(&cases.case(number).bundle).expect("it passes Shape");
        let types = Types::of(&sheet);
        let names: Vec<Ty> = sheet.names.iter().map(|&row| Ty::of(&types, row)).collect();
        for row in types.declared() {
            let expected = walked(
                &names,
                &Ty::of(&types, row),
                &sheet.forest,
                (sheet.root, 0, 0),
            );
            assert_eq!(
                fault_at(&sheet, row),
                expected.map(|(tree, _)| tree),
                "case {number}, row {row}"
            );
            if row == sheet.a {
                let (tree, depth) = expected.expect("the forest is not of A");
                *depths.entry(depth).or_default() += 1;
                kinds.insert(
                    sheet
                        .forest
                        .get(usize::from(tree).wrapping_sub(1))
                        .map(|row| row[0]),
                );
            }
        }
        let (rows, _) = Forest::of_rows(&sheet.forest, sheet.root).to_rows();
        moved += usize::from(rows != sheet.forest);
    }
    assert!(
        (0..=10).all(|depth| depths.get(&depth) > Some(&4)),
        "{depths:?}"
    );
    assert_eq!(
        kinds.len(),
        5,
        "the top's end, and a text, false, true and a label: {kinds:?}"
    );
    assert!(
        moved > COUNT / 4,
        "rows in another order than a result's in {moved} cases"
    );
}
