//! Where each row was written.

use notation::tables::{Node, Query, Statement, Test, Type};
use notation::{assemble_all, list, Assembled, Place, Source, Spare, Table, Written};
use std::path::Path;

fn assembled(text: &str) -> Assembled {
    let bytes = text.as_bytes();
    let read = assemble_all(&[Source { name: "", bytes }], Spare::default());
    read.unwrap_or_else(|faults| panic!("{faults:?}\n{text}"))
}

fn shown(text: &str, place: Place) -> &str {
    &text[place.start..place.end]
}

#[test]
fn signs_and_wholes() {
    let text = "labels a, b
type X = a[b[]+, (text | X?)]
from X to ()
procedure p(x: X) from () to X = insert x
script
  (a? children [iter [skip; rename b]]);
  p((let y = \"t\", true in y) :: a)
forest b[], a[\"t\", (b[])]";
    let it = assembled(text);
    let both = |rows: &[Written]| -> Vec<(String, String)> {
        let shown = |row: &Written| (shown(text, row.sign), shown(text, row.whole));
        rows.iter()
            .map(shown)
            .map(|(sign, whole)| (sign.into(), whole.into()))
            .collect()
    };
    let wanted = |rows: &[(&str, &str)]| -> Vec<(String, String)> {
        rows.iter()
            .map(|(sign, whole)| (sign.to_string(), whole.to_string()))
            .collect()
    };
    let types = [
        ("[]", "[]"),
        ("b", "b[]"),
        ("[]", "[]"),
        ("b", "b[]"),
        ("+", "b[]+"),
        ("+", "b[]+"),
        ("text", "text"),
        ("X", "X"),
        ("?", "X?"),
        ("?", "X?"),
        ("|", "text | X?"),
        (",", "b[]+, (text | X?)"),
        ("a", "a[b[]+, (text | X?)]"),
        ("X", "X"),
        ("()", "()"),
        ("X", "X"),
        ("()", "()"),
        ("X", "X"),
    ];
    assert_eq!(both(&it.places.types), wanted(&types));
    let queries = [
        ("x", "x"),
        ("\"t\"", "\"t\""),
        ("true", "true"),
        (",", "\"t\", true"),
        ("y", "y"),
        ("let", "let y = \"t\", true in y"),
        ("::", "(let y = \"t\", true in y) :: a"),
    ];
    assert_eq!(both(&it.places.queries), wanted(&queries));
    let script = "(a? children [iter [skip; rename b]]);\n  p((let y = \"t\", true in y) :: a)";
    let statements = [
        ("insert", "insert x"),
        ("skip", "skip"),
        ("rename", "rename b"),
        (";", "skip; rename b"),
        ("iter", "iter [skip; rename b]"),
        ("children", "children [iter [skip; rename b]]"),
        ("a", "a? children [iter [skip; rename b]]"),
        ("p", "p((let y = \"t\", true in y) :: a)"),
        (";", script),
    ];
    assert_eq!(both(&it.places.statements), wanted(&statements));
    let forest = [
        ("b", "b[]"),
        ("\"t\"", "\"t\""),
        ("a", "a[\"t\", (b[])]"),
        ("b", "b[]"),
    ];
    assert_eq!(both(&it.places.forest), wanted(&forest));
}

#[test]
fn names_labels_and_sections() {
    let text = "\u{feff}labels a, b = 7\n\ntype X = a[]\nprocedure p() from () to X = insert a[]\n\
                from X to X\nscript p()\nforest\n  b[]\n";
    let it = assembled(text);
    let names: Vec<&str> = it
        .places
        .names
        .iter()
        .map(|place| shown(text, *place))
        .collect();
    let procedures: Vec<&str> = it
        .places
        .procedures
        .iter()
        .map(|place| shown(text, *place))
        .collect();
    assert_eq!((names, procedures), (vec!["X"], vec!["p"]));
    assert_eq!(
        (&it.names.types[..], &it.names.procedures[..]),
        (&["X".to_string()][..], &["p".into()][..])
    );
    assert_eq!(
        it.places.labels.keys().copied().collect::<Vec<u16>>(),
        [1, 7]
    );
    assert_eq!(shown(text, it.places.labels[&7]), "b");
    assert_eq!(it.names.label(7), "b");
    let sections: Vec<(&str, &str)> = it
        .places
        .sections
        .iter()
        .map(|(word, place)| (*word, shown(text, *place)))
        .collect();
    let wanted = [
        ("labels", "labels a, b = 7"),
        ("type", "type X = a[]"),
        ("procedure", "procedure p() from () to X = insert a[]"),
        ("from", "from X to X"),
        ("script", "script p()"),
        ("forest", "forest\n  b[]"),
    ];
    assert_eq!(sections, wanted);
    assert_eq!(
        it.places.section("script").map(|place| shown(text, place)),
        Some("script p()")
    );
}

/// In every example, and in what `list` writes of it, each row's sign is that of its kind, and parts stand
/// within their wholes.
#[test]
fn every_row_of_the_examples_has_its_place() {
    let mut rows = 0;
    for folder in ["../examples", "../examples/worked"] {
        let folder = Path::new(env!("CARGO_MANIFEST_DIR")).join(folder);
        for entry in std::fs::read_dir(folder).expect("the examples") {
            let path = entry.expect("an example").path();
            if path.extension().is_some_and(|it| it == "flux") {
                let text = std::fs::read_to_string(&path).expect("an example");
                rows += check_signs(&text);
                rows += check_signs(&list(&assembled(&text).sheet));
            }
        }
    }
    assert!(rows > 2_000, "{rows} rows");
}

fn check_signs(text: &str) -> usize {
    let it = assembled(text);
    let label = |number: u16| it.names.label(number);
    for (row, written) in it.sheet.types.iter().zip(&it.places.types) {
        let (sign, parts) = match Type::of(*row).expect("a type") {
            Type::Empty => ("()[]".into(), vec![]),
            Type::Text => ("text".into(), vec![]),
            Type::Bool => ("bool".into(), vec![]),
            Type::Label {
                label: number,
                content,
            } => (label(number), vec![content]),
            Type::Sequence(p, q) => (",".into(), vec![p, q]),
            Type::Choice(p, q) => ("|".into(), vec![p, q]),
            Type::Star(p) => ("*".into(), vec![p]),
            Type::Name(number) => (it.names.type_name(number), vec![]),
        };
        check(text, &it, *written, &sign, Table::Types, &parts);
    }
    for (row, written) in it.sheet.queries.iter().zip(&it.places.queries) {
        let (sign, parts) = match Query::of(*row).expect("a query") {
            Query::Empty => ("()[]".into(), vec![]),
            Query::Join(p, q) => (",".into(), vec![p, q]),
            Query::Tree {
                label: number,
                content,
            } => (label(number), vec![content]),
            Query::Text { .. } => ("\"".into(), vec![]),
            Query::True => ("true".into(), vec![]),
            Query::False => ("false".into(), vec![]),
            Query::Variable(_) => (shown(text, written.sign).into(), vec![]),
            Query::Let { value, body } => ("let".into(), vec![value, body]),
            Query::If { condition, yes, no } => ("if".into(), vec![condition, yes, no]),
            Query::Same(p, q) => ("=".into(), vec![p, q]),
            Query::Children { .. } => ("children".into(), vec![]),
            Query::Pick { from, .. } => ("::".into(), vec![from]),
            Query::For { each, body } => ("for".into(), vec![each, body]),
        };
        check(text, &it, *written, &sign, Table::Queries, &parts);
    }
    for (row, written) in it.sheet.statements.iter().zip(&it.places.statements) {
        let (sign, parts) = match Statement::of(*row).expect("a statement") {
            Statement::Skip => ("skip".into(), vec![]),
            Statement::Then(p, q) => (";".into(), vec![p, q]),
            Statement::If { yes, no, .. } => ("if".into(), vec![yes, no]),
            Statement::Insert { .. } => ("insert".into(), vec![]),
            Statement::Delete => ("delete".into(), vec![]),
            Statement::Rename { .. } => ("rename".into(), vec![]),
            Statement::Let { body, .. } => ("let".into(), vec![body]),
            Statement::Snapshot { body } => ("snapshot".into(), vec![body]),
            Statement::Test { test, body } => match test {
                Test::Text => ("text".into(), vec![body]),
                Test::Label(number) => (label(number), vec![body]),
                Test::Any => ("node".into(), vec![body]),
            },
            Statement::Children { body } => ("children".into(), vec![body]),
            Statement::Left { body } => ("left".into(), vec![body]),
            Statement::Right { body } => ("right".into(), vec![body]),
            Statement::Iter { body } => ("iter".into(), vec![body]),
            Statement::Call { callee, .. } => (it.names.procedure(callee), vec![]),
        };
        check(text, &it, *written, &sign, Table::Statements, &parts);
    }
    for (row, written) in it.sheet.forest.iter().zip(&it.places.forest) {
        let (sign, parts) = match Node::of(*row).expect("a tree").0 {
            Node::Text { .. } => ("\"".into(), vec![]),
            Node::Bool(value) => (value.to_string(), vec![]),
            Node::Label {
                label: number,
                child,
            } => (label(number), Vec::from_iter((child > 0).then_some(child))),
        };
        check(text, &it, *written, &sign, Table::Forest, &parts);
    }
    let tables = [
        &it.places.types,
        &it.places.queries,
        &it.places.statements,
        &it.places.forest,
    ];
    let sheet = &it.sheet;
    let rows = [
        sheet.types.len(),
        sheet.queries.len(),
        sheet.statements.len(),
        sheet.forest.len(),
    ];
    assert_eq!(tables.map(|places| places.len()), rows);
    rows.iter().sum()
}

fn check(text: &str, it: &Assembled, written: Written, sign: &str, table: Table, parts: &[u16]) {
    let found = shown(text, written.sign);
    let right = match sign {
        "\"" => found.starts_with('"') && found.ends_with('"'),
        "()[]" => ["()", "[]"].contains(&found),
        _ => found == sign,
    };
    assert!(right, "{found:?}, not {sign:?}\n{text}");
    let within = |inner: Place, outer: Place| outer.start <= inner.start && inner.end <= outer.end;
    assert!(within(written.sign, written.whole));
    for part in parts {
        let part = it.places.row(table, *part).expect("a part");
        assert!(
            within(part.whole, written.whole),
            "{}",
            shown(text, written.whole)
        );
    }
}
