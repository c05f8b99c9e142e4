//! A description split over two desks: P1's, splits that are stuck, random ones; and a reply that is not as it should be is found.

use second::answers::{Judged, Lent, RESULT_ROWS, WORKING_ROWS};
use second::forests::{Forest, Tree};
use second::refusals::Refusal;
use second::scripts::{Qu, Script, St, Ty};
use second::splits::{compare, law, Ending, Seen};
use second::tables::Test;

const A: u16 = 1;
const B: u16 = 2;
const C: u16 = 3;
const D: u16 = 4;

fn tree(label: u16, content: &[Tree]) -> Tree {
    Tree::Label(label, content.iter().cloned().collect())
}

fn leaf(label: u16) -> Tree {
    tree(label, &[])
}

/// The run of a statement on these trees.
fn seen(main: &St, trees: &[Tree]) -> Seen {
    let script = Script {
        forest: trees.iter().cloned().collect(),
        ..Script::new(Ty::Empty, main.clone(), Ty::Empty)
    };
    let sheet = script.sheet();
    let reply = Judged::new(&sheet).run(Lent::new(WORKING_ROWS, RESULT_ROWS));
    let refusal = reply.result.as_ref().err().copied();
    Seen {
        number: refusal.map_or(0, Refusal::number),
        carried: refusal.map_or((0, 0), Refusal::carried),
        units: reply.units,
        forest: reply.result.ok(),
    }
}

/// "*S* is: iter [a? children [iter [b? right [insert c]]]]."
fn s() -> St {
    let insert = St::Insert(Qu::tree(C, Qu::Empty));
    let inner = St::iter(St::test(Test::Label(B), St::right(insert)));
    St::iter(St::test(Test::Label(A), St::children(inner)))
}

#[test]
fn p1_on_two_desks() {
    let before = tree(A, &[leaf(B), leaf(C), leaf(B)]);
    let after = tree(A, &[leaf(B), leaf(C), leaf(C), leaf(B), leaf(C)]);
    let whole = seen(&s(), &[before.clone(), leaf(D)]);
    let (first, second) = (seen(&s(), &[before]), seen(&s(), &[leaf(D)]));
    assert_eq!((first.units, second.units, whole.units), (30, 4, 33));
    let joined: Forest = [after, leaf(D)].into_iter().collect();
    assert_eq!(whole.forest, Some(joined));
    assert_eq!(law(&whole, &first, &second), Ok(Ending::Finished));
}

#[test]
fn stuck_in_either_half() {
    let main = St::iter(St::Rename(A));
    let (a, yes) = (leaf(A), Tree::Bool(true));
    let (first, second) = (seen(&main, &[a.clone()]), seen(&main, &[yes.clone()]));
    assert_eq!((first.number, first.units), (0, 5));
    assert_eq!(
        (second.number, second.carried, second.units),
        (11, (1, 2), 3)
    );
    let whole = seen(&main, &[a.clone(), yes.clone()]);
    assert_eq!((whole.number, whole.carried, whole.units), (11, (1, 2), 7));
    assert_eq!(law(&whole, &first, &second), Ok(Ending::SecondStuck));
    let whole = seen(&main, &[yes, a]);
    assert_eq!((whole.number, whole.carried, whole.units), (11, (1, 2), 3));
    assert_eq!(law(&whole, &second, &first), Ok(Ending::FirstStuck));
}

/// A whole with other units, another row or another forest is not what the halves say.
#[test]
fn what_breaks_the_law_is_found() {
    let (one, two) = ([leaf(A)], [leaf(B), leaf(D)]);
    let main = St::iter(St::Rename(A));
    let (first, second) = (seen(&main, &one), seen(&main, &two));
    let whole = seen(&main, &[&one[..], &two].concat());
    assert_eq!(law(&whole, &first, &second), Ok(Ending::Finished));
    let more = Seen {
        units: whole.units + 1,
        ..whole.clone()
    };
    let other = Seen {
        forest: Some(Forest::empty()),
        ..whole.clone()
    };
    let stuck = seen(&main, &[Tree::Bool(true)]);
    let elsewhere = Seen {
        carried: (2, 2),
        ..stuck.clone()
    };
    for wrong in [&more, &other, &stuck] {
        assert!(law(wrong, &first, &second).is_err(), "{wrong:?}");
    }
    for wrong in [&whole, &elsewhere] {
        assert!(law(wrong, &stuck, &second).is_err(), "{wrong:?}");
    }
    let spent = Seen {
        number: 5,
        ..whole.clone()
    };
    assert_eq!(law(&spent, &first, &second), Ok(Ending::Stopped));
}

#[test]
fn random_splits() {
    let tally = compare(1, 3000).expect("the law holds");
    assert_eq!(tally.compared(), 3000);
    let each = [tally.finished, tally.first_stuck, tally.second_stuck];
    assert!(each.into_iter().all(|times| times > 50), "{tally}");
}
