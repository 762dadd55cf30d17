//! A short self-check with every test run; README has the long ones.

use oracle::selfcheck::selfcheck;

#[test]
fn short() {
    let counts = selfcheck(1, 20_000).unwrap_or_else(|what| panic!("{what}"));
    assert!(counts.operations >= 20_000 && counts.back_steps > 0 && counts.refused > 0 && counts.rounds > 0);
    assert!(counts.false_sums > 0 && counts.false_sums < counts.runs && counts.sums_wrapped > 0);
}
