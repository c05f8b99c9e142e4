//! Random cases: every possible refusal of every question occurs, answers do not change with more
//! fuel, and a passed script on a fitting forest is never Stuck and its result is of B.

use second::cases::{self_check, Cases};

#[test]
fn demands_hold_and_every_refusal_occurs() {
    let report = self_check(3, 3000).expect("the demands hold");
    assert!(!report.contains("missing"), "{report}");
}

#[test]
fn cases_are_the_same_for_a_seed() {
    let (one, other, third) = (Cases::new(5), Cases::new(5), Cases::new(6));
    let mut differences = 0;
    for number in 0..60 {
        let case = one.case(number);
        assert_eq!(case.bundle, other.case(number).bundle);
        assert_eq!(case.lent, other.case(number).lent);
        differences += usize::from(case.bundle != third.case(number).bundle);
    }
    assert!(differences > 20, "another seed gives other cases");
}
