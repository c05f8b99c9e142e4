//! Sheets at the limits are answered soon. The bound is wide here, for slow builds and busy
//! machines; docs state what a release build takes.

use second::answers::{answers, deep};
use second::bundles::to_bundle;
use second::cases::special::full;
use second::dice::Dice;
use second::forests::{Forest, Tree};
use second::scripts::{nested, Declaration, Qu, Script, St, Ty};
use second::shape::broken_rules;
use std::time::{Duration, Instant};

const BOUND: Duration = Duration::from_secs(20);

/// Answers the script's bundle, shows how long that took, and gives the answers.
fn timed(name: &str, script: Script) -> String {
    let sheet = script.sheet();
    assert_eq!(broken_rules(&sheet), [""; 0], "{name}");
    let bundle = to_bundle(&sheet);
    let started = Instant::now();
    let text = answers(&bundle, 6144, 8192);
    let took = started.elapsed();
    let told: Vec<&str> = text
        .lines()
        .filter(|line| line.starts_with("check") || line.starts_with("run"))
        .collect();
    println!("{name}: {} ms, {told:?}", took.as_millis());
    assert!(took < BOUND, "{name}");
    text
}

fn leaves(count: usize) -> Forest {
    (0..count)
        .map(|_| Tree::Label(1, Forest::empty()))
        .collect()
}

fn name_of_leaves() -> Vec<Ty> {
    vec![Ty::label(1, Ty::Empty)]
}

#[test]
fn full_tables() {
    deep(|| {
        for seed in 0..5 {
            timed("full tables", full(&mut Dice::new(seed)));
        }
    });
}

#[test]
fn nested_stars_and_a_long_forest() {
    deep(|| {
        let stars = nested(Ty::Name(1), 500, Ty::star);
        let script = Script {
            names: name_of_leaves(),
            forest: leaves(2048),
            ..Script::new(stars, St::Skip, Ty::Name(1).star())
        };
        let text = timed("nested stars", script);
        assert!(text.contains("check 0 1 0 0\n"));
    });
}

#[test]
fn many_atoms_that_may_stand_next() {
    deep(|| {
        let atoms = (2..64).map(|label| Ty::label(label, Ty::Empty));
        let model = atoms.fold(Ty::Name(1).star(), |it, atom| it.then(atom.star()));
        let stars = nested(model, 190, Ty::star);
        let script = Script {
            names: name_of_leaves(),
            forest: leaves(2048),
            ..Script::new(stars, St::Skip, Ty::Name(1).star())
        };
        timed("many atoms", script);
    });
}

#[test]
fn a_forest_nested_to_the_limit() {
    deep(|| {
        let forest = nested(Forest::empty(), 2048, |it| Tree::Label(1, it).into());
        let into = St::iter(St::children(St::Call(1, Vec::new())));
        let ty = Ty::Name(1).star();
        let script = Script {
            names: vec![Ty::label(1, ty.clone())],
            procedures: vec![Declaration {
                parameters: Vec::new(),
                input: ty.clone(),
                output: ty.clone(),
                body: into,
            }],
            forest,
            ..Script::new(ty.clone(), St::Call(1, Vec::new()), ty)
        };
        timed("nested forest", script);
    });
}

/// `(X, (X, (… X* …)?)?)?`.
fn counted(levels: usize) -> Ty {
    nested(Ty::Name(1).star(), levels, |it| {
        Ty::Name(1).then(it).or(Ty::Empty)
    })
}

/// 170 times `X*` in a row.
fn many_stars() -> Qu {
    nested(Qu::Variable(0), 169, |it| Qu::Variable(0).join(it))
}

#[test]
fn found_and_wanted_places_in_all_pairs() {
    deep(|| {
        let star = || Ty::Name(1).star();
        let script = Script {
            names: name_of_leaves(),
            procedures: vec![Declaration {
                parameters: vec![star()],
                input: Ty::Empty,
                output: counted(110),
                body: St::Insert(many_stars()),
            }],
            ..Script::new(Ty::Empty, St::Skip, Ty::Empty)
        };
        let text = timed("all pairs", script);
        assert!(text.contains("check 0 "));
    });
}

/// `1*, 2*, …`: 4 rows for each label.
fn row_of_stars(labels: u16) -> Ty {
    let stars = (2..=labels).map(|label| Ty::label(label, Ty::Empty).star());
    stars.fold(Ty::label(1, Ty::Empty).star(), Ty::then)
}

#[test]
fn many_inclusions_of_wide_types() {
    deep(|| {
        let step = |it: St| {
            let text = Qu::Text {
                offset: 0,
                length: 0,
            };
            let beside = St::right(St::Insert(text));
            it.then(beside.then(St::Call(1, Vec::new())))
        };
        let chain = nested(St::Call(1, Vec::new()), 95, step);
        let trees = (1..6).map(|label| Ty::label(label, Ty::Empty));
        let trees = trees.fold(Ty::Text, Ty::then);
        let script = Script {
            procedures: vec![Declaration {
                parameters: Vec::new(),
                input: row_of_stars(58).then(Ty::Text.star()),
                output: row_of_stars(58),
                body: St::iter(St::test(second::tables::Test::Text, St::Delete)),
            }],
            ..Script::new(trees, St::iter(St::left(chain)), Ty::Text.star())
        };
        timed("many inclusions", script);
    });
}
