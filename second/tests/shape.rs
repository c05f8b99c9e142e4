//! Each rule under Tables broken alone, its edge kept; the blocks of bundles.

use second::answers::{answers, apply_listing};
use second::bundles::{counts, read, read_within, to_bundle, unframe, write};
use second::faults::{block_faults, edges, every_kind, faults, remainder_zero};
use second::refusals::Refusal;
use second::shape::{broken_rules, RULES};

#[test]
fn each_rule_is_broken_alone() {
    for fault in faults() {
        assert_eq!(
            broken_rules(&fault.sheet),
            [fault.rule],
            "{:?}",
            fault.sheet
        );
        let bundle = to_bundle(&fault.sheet);
        assert_eq!(unframe(&bundle).as_ref(), Some(&fault.sheet));
        assert_eq!(read(&bundle), Err(Refusal::Shape));
        assert_eq!(write(&fault.sheet, 88), Err(Refusal::Shape));
        assert_eq!(answers(&bundle, 6144, 8192), "read 2\n");
        assert_eq!(apply_listing(&bundle), "load 2\n");
    }
    let broken: Vec<&str> = faults().iter().map(|fault| fault.rule).collect();
    assert!(RULES.iter().all(|(rule, _)| broken.contains(rule)));
}

#[test]
fn edges_break_no_rule() {
    for sheet in edges() {
        assert_eq!(broken_rules(&sheet), [""; 0], "{sheet:?}");
    }
    assert_eq!(broken_rules(&every_kind()), [""; 0]);
}

#[test]
fn each_block_fault_is_block() {
    for bundle in block_faults() {
        assert_eq!(read(&bundle), Err(Refusal::Block));
        assert_eq!(answers(&bundle, 6144, 8192), "read 1\n");
        assert_eq!(apply_listing(&bundle), "load 1\n");
    }
    assert!(read(&remainder_zero()).is_ok());
}

#[test]
fn what_is_written_is_read_and_what_is_read_is_written() {
    for sheet in edges().into_iter().chain([every_kind()]) {
        let bundle = write(&sheet, 88).expect("the edge of a rule keeps it");
        let blocks = bundle.len() / 512;
        assert_eq!(read(&bundle).as_ref(), Ok(&sheet));
        assert_eq!(write(&sheet, blocks).as_ref(), Ok(&bundle));
        assert_eq!(write(&sheet, blocks - 1), Err(Refusal::Room));
    }
}

#[test]
fn the_readers_room() {
    let sheet = every_kind();
    let bundle = to_bundle(&sheet);
    let exact = counts(&sheet);
    assert_eq!(read_within(&bundle, exact).as_ref(), Ok(&sheet));
    for short in 0..exact.len() {
        let mut lent = exact;
        lent[short] -= 1;
        assert_eq!(read_within(&bundle, lent), Err(Refusal::Room));
    }
}
