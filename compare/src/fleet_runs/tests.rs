//! The inputs without any program: what they find, and that there are enough.

use super::*;

#[test]
fn each_wrong_fleet_rule_is_found() {
    let inputs = fleet_inputs();
    for &wrong in WrongFleet::ALL {
        assert!(first_found(&inputs, wrong).is_some(), "{wrong:?}");
    }
}

#[test]
fn the_fleets_are_many_and_are_calls_that_are_accepted() {
    let mut counts = Counts::default();
    for input in fleet_inputs() {
        let due = written(&input.bytes, None);
        assert!(reads_back(&input.bytes, &due) && is_accepted(&input.bytes, &due));
        counts.add(&due);
    }
    assert!(counts.reaches(&LEAST), "{counts:?}");
}
