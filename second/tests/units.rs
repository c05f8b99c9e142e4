//! The units of each kind of row in a run and in a check, counted by hand from document 01, and the
//! order in which refusals are met.

use second::check::check;
use second::forests::{Forest, Tree};
use second::refusals::{Asker, Refusal};
use second::run::run;
use second::scripts::{Declaration, Qu, Script, St, Ty};
use second::shape::well_shaped;
use second::tables::Test;

const A: u16 = 1;
const B: u16 = 2;

fn text() -> Qu {
    Qu::Text {
        offset: 0,
        length: 0,
    }
}

fn leaf(label: u16) -> Qu {
    Qu::tree(label, Qu::Empty)
}

fn leaf_tree(label: u16) -> Tree {
    Tree::Label(label, Forest::empty())
}

fn leaf_type(label: u16) -> Ty {
    Ty::label(label, Ty::Empty)
}

fn procedure(parameters: Vec<Ty>, ty: Ty, body: St) -> Declaration {
    Declaration {
        parameters,
        input: ty.clone(),
        output: ty,
        body,
    }
}

/// The script ends so with exactly these run units, and with any less in Fuel.
fn run_takes(units: u16, main: St, trees: &[Tree]) {
    let script = Script {
        forest: trees.iter().cloned().collect(),
        procedures: vec![procedure(vec![Ty::Text; 2], leaf_type(A), St::Skip)],
        ..Script::new(Ty::Empty, main, Ty::Empty)
    };
    for run_fuel in 0..units {
        let short = Script {
            run_fuel,
            ..script.clone()
        };
        let ran = run(&short.sheet());
        assert_eq!((ran.units, ran.result), (run_fuel, Err(Refusal::Fuel)));
    }
    for run_fuel in [units, 4096] {
        let enough = Script {
            run_fuel,
            ..script.clone()
        };
        assert!(well_shaped(&enough.sheet()));
        let ran = run(&enough.sheet());
        assert!(ran.result.is_ok(), "{enough:?}");
        assert_eq!(ran.units, units, "{enough:?}");
    }
}

/// The check ends so, after these units, of which one is of the procedure's body.
fn check_takes(units: u16, a: Ty, main: St, b: Ty, expected: Result<(), Refusal>) {
    let script = Script {
        procedures: vec![procedure(vec![Ty::Text; 2], leaf_type(A), St::Skip)],
        ..Script::new(a, main, b)
    };
    for check_fuel in [units, 4096] {
        let enough = Script {
            check_fuel,
            ..script.clone()
        };
        assert!(well_shaped(&enough.sheet()));
        let checked = check(&enough.sheet());
        assert_eq!(
            (checked.units, checked.result),
            (units, expected),
            "{enough:?}"
        );
    }
    for check_fuel in 0..units {
        let short = Script {
            check_fuel,
            ..script.clone()
        };
        let checked = check(&short.sheet());
        let fuel = (check_fuel, Err(Refusal::Fuel));
        assert_eq!((checked.units, checked.result), fuel);
    }
}

/// The run units of a query, without the insert around it.
fn query_runs_in(units: u16, query: Qu) {
    run_takes(units + 1, St::Insert(query), &[]);
}

#[test]
fn run_units_of_queries() {
    query_runs_in(1, Qu::Empty);
    query_runs_in(2, text());
    query_runs_in(2, Qu::Bool(true));
    query_runs_in(2, Qu::Bool(false));
    query_runs_in(3, leaf(A));
    // Both texts, the row and one tree of the left value.
    query_runs_in(2 + 2 + 1 + 1, text().join(text()));
    query_runs_in(1 + 2 + 1, Qu::Empty.join(text()));
    query_runs_in(2 + 1 + 1, text().bind(Qu::Variable(0)));
    query_runs_in(2 + 1 + 1, Qu::Bool(true).choose(Qu::Empty, text()));
    query_runs_in(2 + 1 + 2, Qu::Bool(false).choose(Qu::Empty, text()));
    query_runs_in(2 + 2 + 1 + 1, text().same(text()));
    let pair = || leaf(A).join(leaf(B));
    query_runs_in(3 + 3 + 1 + 1, pair());
    query_runs_in(8 + 1 + 1, pair().pick(A));
    query_runs_in(8 + 1, pair().pick(7));
    // At each tree 1, then its body, then the trees of that body's result.
    query_runs_in(8 + 1 + 2 * (1 + 1 + 1), pair().each(Qu::Variable(0)));
    query_runs_in(8 + 1 + 2 * (1 + 1), pair().each(Qu::Empty));
    query_runs_in(
        5 + 1 + (1 + 1 + 1),
        Qu::tree(A, leaf(B)).each(Qu::Children(0)),
    );
    query_runs_in(2 + 1 + (1 + 1), text().each(Qu::Children(0)));
}

#[test]
fn run_units_of_statements() {
    let (a, two) = ([leaf_tree(A)], [leaf_tree(A), leaf_tree(B)]);
    let insert = || St::Insert(text());
    run_takes(1, St::Skip, &two);
    run_takes(3, St::Skip.then(St::Delete), &two);
    run_takes(
        2 + 1 + 1,
        St::choose(Qu::Bool(true), St::Skip, insert()),
        &two,
    );
    run_takes(3, insert(), &[]);
    run_takes(1, St::Delete, &two);
    run_takes(2, St::Rename(B), &a);
    run_takes(1 + 2 + 1, St::bind(text(), St::Skip), &two);
    run_takes(2, St::snapshot(St::Skip), &two);
    run_takes(2, St::test(Test::Label(A), St::Skip), &a);
    run_takes(1, St::test(Test::Label(B), St::Skip), &a);
    run_takes(1, St::test(Test::Text, St::Skip), &[Tree::Bool(true)]);
    run_takes(2, St::test(Test::Any, St::Skip), &[Tree::Bool(true)]);
    run_takes(3, St::children(St::Skip), &a);
    // Left pays the new part, right the old focus.
    run_takes(1 + 3 + 1, St::left(insert()), &two);
    run_takes(1 + 1, St::left(St::Skip), &two);
    run_takes(1 + 3 + 2, St::right(insert()), &two);
    run_takes(1 + 1 + 2, St::right(St::Skip), &two);
    run_takes(1 + 2 * (1 + 1 + 1), St::iter(St::Skip), &two);
    run_takes(1 + 2 * (1 + 1), St::iter(St::Delete), &two);
    run_takes(1 + 2 + 2 + 1, St::Call(1, vec![text(), text()]), &two);
}

/// The check units of a query from `()`, without the insert around it.
fn query_checks_in(units: u16, query: Qu) {
    let any = [leaf_type(A), leaf_type(B), Ty::Bool];
    let any = any.into_iter().fold(Ty::Text, Ty::or).star();
    check_takes(1 + 1 + units, Ty::Empty, St::Insert(query), any, Ok(()));
}

#[test]
fn check_units_of_queries() {
    query_checks_in(2, Qu::Empty);
    query_checks_in(2, text());
    query_checks_in(2, Qu::Bool(true));
    query_checks_in(4, leaf(A));
    query_checks_in(2 + 2 + 2, text().join(text()));
    query_checks_in(2 + 1 + 1, text().bind(Qu::Variable(0)));
    query_checks_in(2 + 2 + 2 + 2, Qu::Bool(true).choose(Qu::Empty, text()));
    query_checks_in(2 + 2 + 2, text().same(text()));
    let pair = || leaf(A).join(text());
    query_checks_in(4 + 2 + 2, pair());
    // Three rows visited; the text picked away and the sequence rebuilt are written.
    query_checks_in(8 + 1 + 3 + 2, pair().pick(A));
    // Three rows visited, the body typed twice, the sequence rebuilt.
    query_checks_in(8 + 1 + 3 + 2 + 1, pair().each(Qu::Variable(0)));
    query_checks_in(4 + 1 + 1 + 1, leaf(A).each(Qu::Children(0)));
    // Children of a text or bool write their `()`.
    query_checks_in(2 + 1 + 1 + 2, text().each(Qu::Children(0)));
    query_checks_in(2 + 1 + 1 + 2, Qu::Bool(true).each(Qu::Children(0)));
    query_checks_in(2 + 1 + 1, Qu::Empty.each(Qu::Variable(0)));
}

#[test]
fn check_units_of_statements() {
    let a = || leaf_type(A);
    let takes = |units: u16, a: Ty, main, b: Ty| check_takes(1 + units, a, main, b, Ok(()));
    takes(1, a(), St::Skip, a());
    takes(1 + 1 + 2, a(), St::Skip.then(St::Delete), Ty::Empty);
    let either = St::choose(Qu::Bool(true), St::Skip, St::Delete);
    takes(1 + 2 + 1 + 2 + 1, a(), either, a().star());
    takes(1 + 2, Ty::Empty, St::Insert(text()), Ty::Text);
    takes(2, a(), St::Delete, Ty::Empty);
    takes(2, a(), St::Rename(B), leaf_type(B));
    takes(1 + 2 + 1, a(), St::bind(text(), St::Skip), a());
    takes(2, a(), St::snapshot(St::Skip), a());
    takes(2, a(), St::test(Test::Label(A), St::Skip), a());
    takes(1, a(), St::test(Test::Label(B), St::Skip), a());
    takes(3, a(), St::children(St::Skip), a());
    takes(3, a(), St::left(St::Skip), a());
    takes(3, a(), St::right(St::Skip), a());
    takes(1 + 2 + 1 + 1, a().star(), St::iter(St::Skip), a().star());
    takes(1 + 1, Ty::Empty, St::iter(St::Skip), Ty::Empty);
    takes(1 + 2 + 2, a(), St::Call(1, vec![text(), text()]), a());
}

fn mismatch(row: u16) -> Result<(), Refusal> {
    Err(Refusal::Mismatch(Asker::Statement(row)))
}

/// Where a rule is unmet the parts after it are not typed. The body of the procedure is statement 1.
#[test]
fn check_refusals_come_in_the_order_of_a_row() {
    let a = || leaf_type(A);
    let refused = |units: u16, from: Ty, main, expected| {
        check_takes(1 + units, from, main, Ty::Empty, expected);
    };
    refused(1, a(), St::Insert(text()), mismatch(2));
    refused(1, a().star(), St::Rename(B), mismatch(2));
    refused(1, Ty::Text, St::Rename(B), mismatch(2));
    refused(
        1,
        a().or(a()).or(Ty::Empty),
        St::test(Test::Any, St::Skip),
        mismatch(3),
    );
    refused(1, Ty::Text, St::children(St::Skip), mismatch(3));
    let condition = St::choose(text(), St::Skip, St::Skip);
    refused(1 + 2, Ty::Empty, condition, mismatch(4));
    let query = |row| Err(Refusal::Mismatch(Asker::Query(row)));
    let same = St::Insert(Qu::Bool(true).same(text()));
    refused(1 + 1 + 2 + 2, Ty::Empty, same, query(3));
    let not_included = |asker| Err(Refusal::NotIncluded(asker));
    let call = |first, second| St::Call(1, vec![first, second]);
    let by_call = || not_included(Asker::Statement(2));
    // The focus is asked before the arguments are typed, and they before any of them is asked.
    refused(1, Ty::Text, call(text(), text()), by_call());
    refused(1 + 2 + 2, a(), call(Qu::Bool(true), text()), by_call());
    refused(1 + 2 + 2, a(), call(text(), Qu::Bool(true)), by_call());
    refused(1, a(), St::Skip, not_included(Asker::Declaration));
}

#[test]
fn stuck_comes_in_the_order_of_a_row() {
    let stuck = |units, main: St, trees: &[Tree], asker| {
        let script = Script {
            forest: trees.iter().cloned().collect(),
            ..Script::new(Ty::Empty, main, Ty::Empty)
        };
        let ran = run(&script.sheet());
        assert_eq!((ran.units, ran.result), (units, Err(Refusal::Stuck(asker))));
    };
    let statement = Asker::Statement;
    let (a, two) = ([leaf_tree(A)], [leaf_tree(A), leaf_tree(B)]);
    stuck(1, St::Insert(text()), &a, statement(1));
    for trees in [&[][..], &two] {
        stuck(1, St::test(Test::Any, St::Skip), trees, statement(2));
        stuck(1, St::children(St::Skip), trees, statement(2));
        stuck(1, St::Rename(A), trees, statement(1));
    }
    stuck(1, St::Rename(A), &[Tree::Bool(true)], statement(1));
    stuck(3, St::choose(text(), St::Skip, St::Skip), &a, statement(3));
    stuck(
        2,
        St::choose(Qu::Empty, St::Skip, St::Skip),
        &a,
        statement(3),
    );
    // Both sides of same are run before either is tested.
    let same = Qu::Bool(true).same(text());
    stuck(1 + 1 + 2 + 2, St::Insert(same), &[], Asker::Query(3));
    let choice = Qu::Empty.choose(text(), text());
    stuck(1 + 1 + 1, St::Insert(choice), &[], Asker::Query(4));
}

/// "`same` by offset, not by bytes" and "a failed test that drops its tree", among the slips.
#[test]
fn slips() {
    let result = |script: &Script| run(&script.sheet()).result.expect("it runs");
    let at = |offset, length| Qu::Text { offset, length };
    let same = |p: Qu, q: Qu| Script {
        pool: b"aab".to_vec(),
        ..Script::new(Ty::Empty, St::Insert(p.same(q)), Ty::Bool)
    };
    let is = |value| Forest::from(Tree::Bool(value));
    assert_eq!(result(&same(at(0, 1), at(1, 1))), is(true));
    assert_eq!(result(&same(at(0, 1), at(0, 2))), is(false));
    assert_eq!(result(&same(at(0, 1), at(2, 1))), is(false));
    assert_eq!(result(&same(at(0, 0), at(3, 0))), is(true));

    let forest: Forest = [leaf_tree(A), leaf_tree(B)].into_iter().collect();
    let on_both = |main| Script {
        forest: forest.clone(),
        ..Script::new(Ty::Empty, main, Ty::Empty)
    };
    let failed = on_both(St::iter(St::test(Test::Label(7), St::Delete)));
    assert_eq!(result(&failed), forest);
    let doubled = on_both(St::iter(St::snapshot(St::right(St::Insert(Qu::Variable(
        0,
    ))))));
    let [a, b] = [leaf_tree(A), leaf_tree(B)];
    let twice: Forest = [a.clone(), a, b.clone(), b].into_iter().collect();
    assert_eq!(result(&doubled), twice);
}
