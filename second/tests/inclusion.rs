//! Inclusion against two other methods, on small types of every sort, also tied and barren:
//! trees sorted bottom-up by all that they fit, and forests written out up to a size.

use second::dice::Dice;
use second::forests::{Forest, Tree};
use second::inclusion::refute;
use second::places::is_of;
use second::scripts::{Script, St, Ty};
use second::shape::well_shaped;
use second::types::Types;
use std::collections::{BTreeMap, BTreeSet};

const LABELS: usize = 2;
const NAMES: usize = 2;

fn random_type(dice: &mut Dice, size: usize) -> Ty {
    if size <= 1 {
        return match dice.below(7) {
            0 => Ty::Empty,
            1 => Ty::Text,
            2 => Ty::Bool,
            3 | 4 => Ty::Name(1 + dice.below(NAMES) as u16),
            _ => Ty::label(dice.below(LABELS) as u16, Ty::Empty),
        };
    }
    let left = 1 + dice.below(size - 1);
    match dice.below(8) {
        0..=2 => random_type(dice, left).then(random_type(dice, size - left)),
        3 | 4 => random_type(dice, left).or(random_type(dice, size - left)),
        5 => random_type(dice, size - 1).star(),
        _ => random_label(dice, size),
    }
}

fn random_label(dice: &mut Dice, size: usize) -> Ty {
    Ty::label(dice.below(LABELS) as u16, random_type(dice, size - 1))
}

fn random_script(dice: &mut Dice) -> Script {
    let names = (0..NAMES).map(|_| 2 + dice.below(4)).collect::<Vec<_>>();
    let names = names.into_iter().map(|size| random_label(dice, size));
    let names = names.collect();
    let (found, wanted) = (1 + dice.below(7), 1 + dice.below(9));
    let found = random_type(dice, found);
    let wanted = match dice.below(4) {
        0 => random_type(dice, wanted).or(found.clone()),
        1 => found.clone().or(random_type(dice, wanted)).star(),
        _ => random_type(dice, wanted),
    };
    Script {
        names,
        ..Script::new(found, St::Skip, wanted)
    }
}

/// All that a tree fits: text, bool, or a label with the contents, of all there are, that its
/// content is of.
#[derive(Clone, Debug, PartialEq, Eq, PartialOrd, Ord)]
enum Sort {
    Text,
    Bool,
    Label(u16, BTreeSet<Ty>),
}

/// Types to come in sequence after some trees: a set for each type followed.
type States = Vec<BTreeSet<Ty>>;

fn label_of<'a>(names: &'a [Ty], ty: &'a Ty) -> Option<(u16, &'a Ty)> {
    match ty {
        Ty::Label(label, content) => Some((*label, content)),
        Ty::Name(name) => label_of(names, &names[usize::from(*name) - 1]),
        _ => None,
    }
}

fn nullable(ty: &Ty) -> bool {
    match ty {
        Ty::Empty | Ty::Star(_) => true,
        Ty::Sequence(p, q) => nullable(p) && nullable(q),
        Ty::Choice(p, q) => nullable(p) || nullable(q),
        Ty::Text | Ty::Bool | Ty::Label(..) | Ty::Name(_) => false,
    }
}

/// What may come after a tree of this sort.
fn after(names: &[Ty], ty: &Ty, sort: &Sort) -> BTreeSet<Ty> {
    let with = |set: BTreeSet<Ty>, then: &Ty| -> BTreeSet<Ty> {
        let set = set.into_iter();
        set.map(|it| match it {
            Ty::Empty => then.clone(),
            it => it.then(then.clone()),
        })
        .collect()
    };
    let fits = match (ty, sort) {
        (Ty::Empty, _) => false,
        (Ty::Sequence(p, q), _) => {
            let mut set = with(after(names, p, sort), q);
            if nullable(p) {
                set.extend(after(names, q, sort));
            }
            return set;
        }
        (Ty::Choice(p, q), _) => return &after(names, p, sort) | &after(names, q, sort),
        (Ty::Star(p), _) => return with(after(names, p, sort), ty),
        (Ty::Text, sort) => *sort == Sort::Text,
        (Ty::Bool, sort) => *sort == Sort::Bool,
        (_, Sort::Label(label, contents)) => {
            let (own, content) = label_of(names, ty).expect("a label");
            own == *label && contents.contains(content)
        }
        _ => false,
    };
    fits.then_some(Ty::Empty).into_iter().collect()
}

/// All sets of types that a forest of trees of these sorts is of at once.
fn reached(names: &[Ty], types: &[Ty], sorts: &BTreeSet<Sort>) -> BTreeSet<States> {
    let start: States = types
        .iter()
        .map(|ty| BTreeSet::from([ty.clone()]))
        .collect();
    let mut seen = BTreeSet::from([start.clone()]);
    let mut open = vec![start];
    while let Some(states) = open.pop() {
        for sort in sorts {
            let step =
                |set: &BTreeSet<Ty>| set.iter().flat_map(|ty| after(names, ty, sort)).collect();
            let next: States = states.iter().map(step).collect();
            if seen.insert(next.clone()) {
                open.push(next);
            }
        }
    }
    seen
}

fn contents(ty: &Ty, found: &mut BTreeMap<u16, BTreeSet<Ty>>) {
    match ty {
        Ty::Label(label, content) => {
            found.entry(*label).or_default().insert((**content).clone());
            contents(content, found);
        }
        Ty::Sequence(p, q) | Ty::Choice(p, q) => {
            contents(p, found);
            contents(q, found);
        }
        Ty::Star(p) => contents(p, found),
        Ty::Empty | Ty::Text | Ty::Bool | Ty::Name(_) => {}
    }
}

/// Inclusion by a determinised automaton from the leaves up.
fn included_bottom_up(script: &Script) -> bool {
    let names = &script.names;
    let mut by_label = BTreeMap::new();
    for ty in names.iter().chain([&script.a, &script.b]) {
        contents(ty, &mut by_label);
    }
    let mut sorts = BTreeSet::from([Sort::Text, Sort::Bool]);
    loop {
        let before = sorts.len();
        for (label, contents) in &by_label {
            let list: Vec<Ty> = contents.iter().cloned().collect();
            for states in reached(names, &list, &sorts) {
                let fits = list
                    .iter()
                    .zip(&states)
                    .filter(|(_, set)| set.iter().any(nullable));
                let fits = fits.map(|(ty, _)| ty.clone()).collect();
                sorts.insert(Sort::Label(*label, fits));
            }
        }
        if sorts.len() == before {
            break;
        }
    }
    let pair = [script.a.clone(), script.b.clone()];
    let mut all = reached(names, &pair, &sorts).into_iter();
    all.all(|states| !states[0].iter().any(nullable) || states[1].iter().any(nullable))
}

/// All forests of at most so many rows with these labels.
fn forests(rows: usize) -> Vec<Forest> {
    let mut by_size: Vec<Vec<Vec<Tree>>> = vec![vec![Vec::new()]];
    for size in 1..=rows {
        let mut found = Vec::new();
        for inside in 0..size {
            for rest in by_size[size - 1 - inside].clone() {
                for tree in trees(inside, &by_size) {
                    found.push([vec![tree], rest.clone()].concat());
                }
            }
        }
        by_size.push(found);
    }
    let all = by_size.into_iter().flatten();
    all.map(|trees| trees.into_iter().collect()).collect()
}

/// All trees whose content has so many rows.
fn trees(inside: usize, by_size: &[Vec<Vec<Tree>>]) -> Vec<Tree> {
    let mut found = Vec::new();
    if inside == 0 {
        found.push(Tree::Text {
            offset: 0,
            length: 0,
        });
        found.push(Tree::Bool(true));
    }
    for content in &by_size[inside] {
        for label in 0..LABELS {
            let content = content.iter().cloned().collect();
            found.push(Tree::Label(label as u16, content));
        }
    }
    found
}

#[test]
fn three_methods_agree() {
    let mut dice = Dice::new(7);
    let small = forests(4);
    let (mut yes, mut no) = (0, 0);
    for _ in 0..3000 {
        let script = random_script(&mut dice);
        let sheet = script.sheet();
        assert!(well_shaped(&sheet));
        let types = Types::of(&sheet);
        let refutation = refute(&types, sheet.a, sheet.b);
        let included = refutation.is_none();
        assert_eq!(included, included_bottom_up(&script), "{script:?}");
        let breaks =
            |forest: &Forest| is_of(&types, forest, sheet.a) && !is_of(&types, forest, sheet.b);
        match &refutation {
            Some(forest) => assert!(breaks(forest), "{script:?} {forest:?}"),
            None if dice.once_in(8) => assert!(!small.iter().any(breaks), "{script:?}"),
            None => {}
        }
        *(if included { &mut yes } else { &mut no }) += 1;
    }
    assert!(yes > 500 && no > 500, "{yes} included, {no} not");
}

/// The forests that the set of a type holds, by its meaning in document 000, section 3.1.
fn meant(names: &[Ty], ty: &Ty, forest: &[Tree]) -> bool {
    let parts = |p: &Ty, q: &Ty, from: usize| {
        (from..=forest.len())
            .any(|at| meant(names, p, &forest[..at]) && meant(names, q, &forest[at..]))
    };
    match ty {
        Ty::Empty => forest.is_empty(),
        Ty::Text => matches!(forest, [Tree::Text { .. }]),
        Ty::Bool => matches!(forest, [Tree::Bool(_)]),
        Ty::Label(label, content) => match forest {
            [Tree::Label(own, inside)] => own == label && meant(names, content, inside.trees()),
            _ => false,
        },
        Ty::Sequence(p, q) => parts(p, q, 0),
        Ty::Choice(p, q) => meant(names, p, forest) || meant(names, q, forest),
        Ty::Star(p) => forest.is_empty() || parts(p, ty, 1),
        Ty::Name(name) => meant(names, &names[usize::from(*name) - 1], forest),
    }
}

#[test]
fn fit_is_the_meaning_of_types() {
    let mut dice = Dice::new(11);
    let small = forests(4);
    for _ in 0..150 {
        let script = random_script(&mut dice);
        let sheet = script.sheet();
        let types = Types::of(&sheet);
        for forest in &small {
            let expected = meant(&script.names, &script.b, forest.trees());
            assert_eq!(is_of(&types, forest, sheet.b), expected, "{script:?}");
        }
    }
}
