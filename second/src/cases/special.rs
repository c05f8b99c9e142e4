//! Scripts made to meet one refusal, or just not to: Depth, Wide and Room, and tables at their
//! limits.

use crate::dice::Dice;
use crate::forests::{Forest, Tree};
use crate::scripts::{nested, Declaration, Qu, Script, St, Ty};
use crate::shape::{QUERY_ROWS, STATEMENT_ROWS, TYPE_ROWS};
use crate::tables::Test;

const LABEL: u16 = 1;

/// One of the special scripts.
pub fn script(dice: &mut Dice) -> Script {
    match dice.below(9) {
        0 => deep_statements(197 + dice.below(6)),
        1 => deep_queries(196 + dice.below(6)),
        2 => endless_calls(197 + dice.below(6) as u16),
        3 => calls_into(46 + dice.below(7)),
        4 | 5 => wide(dice),
        6 => roomy(dice.below(3)),
        7 => shared_trees(7 + dice.below(9), dice.below(2)),
        _ => full(dice),
    }
}

/// `X = 1[X*]`.
fn recursive() -> Ty {
    Ty::label(LABEL, Ty::Name(1).star())
}

fn text() -> Qu {
    Qu::Text {
        offset: 0,
        length: 0,
    }
}

fn deep_statements(levels: usize) -> Script {
    let main = nested(St::Insert(Qu::Bool(true)), levels, St::left);
    Script::new(Ty::Empty, main, Ty::Bool)
}

fn deep_queries(levels: usize) -> Script {
    let query = nested(Qu::Empty, levels, |it| Qu::tree(LABEL, it));
    Script {
        names: vec![recursive()],
        ..Script::new(Ty::Empty, St::Insert(query), Ty::Name(1))
    }
}

fn procedure(ty: Ty, body: St) -> Declaration {
    Declaration {
        parameters: Vec::new(),
        input: ty.clone(),
        output: ty,
        body,
    }
}

/// "A main row that calls a procedure that only calls itself".
fn endless_calls(run_fuel: u16) -> Script {
    let call = || St::Call(1, Vec::new());
    Script {
        procedures: vec![procedure(Ty::Empty, call())],
        run_fuel,
        ..Script::new(Ty::Empty, call(), Ty::Empty)
    }
}

/// A procedure that calls itself on the children of each tree, so many levels down.
fn calls_into(levels: usize) -> Script {
    let call = || St::Call(1, Vec::new());
    let into = St::iter(St::test(Test::Any, St::children(call())));
    let forest = nested(Forest::empty(), levels, |it| Tree::Label(LABEL, it).into());
    let ty = Ty::Name(1).star();
    Script {
        names: vec![recursive()],
        procedures: vec![procedure(ty.clone(), into)],
        forest,
        ..Script::new(ty.clone(), call(), ty)
    }
}

/// A type of 510 to 514 rows where an inclusion is asked.
fn wide(dice: &mut Dice) -> Script {
    // Eight variables, the last of 511 rows written out.
    let last = Qu::Variable(7);
    let around = match dice.below(5) {
        0 => last,
        1 => Qu::tree(LABEL, last),
        2 => Qu::tree(LABEL, Qu::tree(LABEL, last)),
        3 => last.join(Qu::Empty),
        _ => Qu::Empty.join(last).join(Qu::Empty),
    };
    let any = Ty::Name(1).or(Ty::Text).star();
    let inner = match dice.below(7) {
        0 => St::Insert(around),
        1 => St::choose(around, St::Skip, St::Skip),
        5 => St::Insert(around.choose(text(), text())),
        2 => St::Insert(around.same(text())),
        3 => St::Insert(around).then(St::Insert(Qu::Empty)),
        4 => St::Insert(around).then(St::Call(1, vec![text()])),
        _ => St::Call(1, vec![around]),
    };
    let double = |variable: u16| Qu::Variable(variable).join(Qu::Variable(variable));
    let lets = (0..7)
        .rev()
        .fold(inner, |it, variable| St::bind(double(variable), it));
    let three = text().join(text());
    let main = St::bind(three, lets);
    Script {
        names: vec![Ty::label(LABEL, any.clone())],
        procedures: vec![Declaration {
            parameters: vec![any.clone()],
            input: any.clone(),
            output: any.clone(),
            body: St::Skip,
        }],
        ..Script::new(Ty::Empty, main, any)
    }
}

/// A tree of 2,048 rows set four or five times in a row: 8,192 result rows, or too many.
fn roomy(more: usize) -> Script {
    let children = vec![Tree::Label(LABEL, Forest::empty()); 2047];
    let tree = Tree::Label(LABEL, children.into_iter().collect());
    let copies = nested(Qu::Variable(0), 2 + more, |it| Qu::Variable(0).join(it));
    let ty = Ty::Name(1).star();
    Script {
        names: vec![recursive()],
        forest: tree.into(),
        ..Script::new(ty.clone(), St::snapshot(St::right(St::Insert(copies))), ty)
    }
}

/// A tree whose content holds the one before twice, so many times, and after it so many leaves; its
/// type is as large. After fifteen times it has 65,535 rows.
fn shared_trees(times: usize, leaves: usize) -> Script {
    let double =
        |variable: u16| Qu::tree(LABEL, Qu::Variable(variable).join(Qu::Variable(variable)));
    let leaf = || Qu::tree(LABEL, Qu::Empty);
    let last = nested(Qu::Variable(times as u16), leaves, |it| it.join(leaf()));
    let lets = (0..times as u16)
        .rev()
        .fold(St::Insert(last), |it, variable| {
            St::bind(double(variable), it)
        });
    Script {
        names: vec![recursive()],
        ..Script::new(Ty::Empty, St::bind(leaf(), lets), Ty::Name(1).star())
    }
}

/// Tables filled to their limits: 32 names that lead to each other, 512 rows of each table, 2,048
/// forest rows.
pub fn full(dice: &mut Dice) -> Script {
    let names: Vec<u16> = (1..=32).collect();
    let next = |name: u16| name % 32 + 1;
    let label_row = |&name: &u16| {
        let content = Ty::Name(next(name)).or(Ty::Name(next(next(name))));
        Ty::label(name, content.or(Ty::Text).star())
    };
    let atoms = || {
        names
            .iter()
            .map(|&name| Ty::Name(name))
            .fold(Ty::Text, Ty::or)
    };
    let mut trees = Vec::new();
    for _ in 0..1024 {
        let label = 1 + dice.below(32) as u16;
        let inside = Tree::Label(next(label), Forest::empty());
        trees.push(Tree::Label(label, inside.into()));
    }
    let mut script = Script {
        names: names.iter().map(label_row).collect(),
        procedures: vec![procedure(atoms().star(), St::Skip)],
        forest: trees.into_iter().collect(),
        ..Script::new(atoms().star(), full_statement(dice), atoms().star())
    };
    fill(&mut script);
    script
}

/// Some edits in sequence, with calls between them.
fn full_statement(dice: &mut Dice) -> St {
    let edit = |label: u16, dice: &mut Dice| {
        match dice.below(3) {
            0 => St::children(St::right(St::Insert(text()))),
            1 => St::snapshot(St::Delete.then(St::Insert(Qu::Variable(0)))),
            _ => St::children(St::iter(St::test(Test::Text, St::Delete))),
        }
        .then(St::test(Test::Label(label), St::Skip))
    };
    (0..24).fold(St::Skip, |it, _| {
        let label = 1 + dice.below(32) as u16;
        let edits = St::iter(St::test(Test::Label(label), edit(label, dice)));
        it.then(edits).then(St::Call(1, Vec::new()))
    })
}

/// Fills the tables of types, queries and statements by a last procedure, whose loops on `()` end
/// at once.
fn fill(script: &mut Script) {
    let sheet = script.sheet();
    let types = TYPE_ROWS - sheet.types.len();
    let queries = QUERY_ROWS - sheet.queries.len();
    let statements = STATEMENT_ROWS - sheet.statements.len();
    let query = nested(Qu::Empty, queries - 1, |it| it.pick(LABEL));
    script.procedures.push(Declaration {
        parameters: Vec::new(),
        input: Ty::Empty,
        output: nested(Ty::Empty, types - 2, Ty::star),
        body: nested(St::Insert(query), statements - 1, St::iter),
    });
}
