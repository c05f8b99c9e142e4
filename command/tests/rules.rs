//! Each rule of the tables broken alone, by the second program's sheets: the message names that rule. And each fault of blocks.

mod common;

use common::chukelowa;
use second::bundles::to_bundle;
use second::faults::{block_faults, edges, faults};

/// What a message says of a broken rule, by the second program's name for it.
const SAID: [(&str, &str); 18] = [
    ("limits", "is the most"),
    ("fuels", "is the most"),
    ("kinds", "there is no kind"),
    ("lower rows", "a row refers to lower rows alone"),
    ("rows exist", "there is no"),
    ("zero rows", "row is wanted, and there is 0"),
    ("one user", "each row has exactly one user"),
    ("unused words", "a word without a use"),
    ("labels", "labels go from 0 to 1023"),
    ("names used", "there is no type name"),
    ("names stand for labels", "which is no label"),
    ("test kinds", "there is no test"),
    ("parameters in order", "a second parameter and no first"),
    ("calls", "the call "),
    ("texts in pool", "past the end of the pool"),
    ("variables in scope", "is not in scope"),
    ("sixteen places", "more than 16 variables"),
    ("tree variables", "needs one of `for`"),
];

#[test]
fn the_broken_rule_is_named() {
    for fault in faults() {
        let said = chukelowa(&["list"], &to_bundle(&fault.sheet));
        let (_, wanted) = SAID.iter().find(|(rule, _)| *rule == fault.rule).expect("a rule of the list");
        assert_eq!((said.status, said.refusal()), (1, Some(2)), "{}: {}", fault.rule, said.err);
        assert!(said.err.lines().next().is_some_and(|line| line.contains(wanted)), "{}: {}", fault.rule, said.err);
    }
}

#[test]
fn a_sheet_at_the_edge_of_a_rule_breaks_none() {
    for sheet in edges() {
        let said = chukelowa(&["list"], &to_bundle(&sheet));
        assert_eq!((said.status, &*said.err), (0, ""));
    }
}

#[test]
fn a_fault_of_blocks_is_told() {
    for bytes in block_faults() {
        let said = chukelowa(&["list"], &bytes);
        let wanted = if bytes.contains(&0) { Some(1) } else { None };
        assert_eq!((said.status, said.refusal()), (1, wanted), "{}", said.err);
    }
}
