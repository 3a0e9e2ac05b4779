//! Every case written by hand, against each of the three sides.

use differential::call::{Input, Outcome};
use differential::cases;
use differential::harness::{independent_outcome, wrapper_outcome, Harness};

/// Runs all cases that the side has and names every one that comes out otherwise.
fn hold(mut side: impl FnMut(&Input) -> Option<Result<Outcome, String>>) {
    let mut wrong = Vec::new();
    let cases = cases::all();
    for case in &cases {
        let found = match side(&case.input) {
            Some(Ok(outcome)) => outcome.difference(&case.expected, case.input.call),
            Some(Err(harm)) => Some(harm),
            None => None,
        };
        if let Some(found) = found {
            wrong.push(format!("{}: {found}", case.name));
        }
    }
    assert!(wrong.is_empty(), "{} of {}:\n{}", wrong.len(), cases.len(), wrong.join("\n"));
}

#[test]
fn the_independent_implementation() {
    hold(|input| Some(Ok(independent_outcome(input))));
}

#[test]
fn the_c_interface() {
    let mut harness = Harness::new();
    for manner in 0..4 {
        harness.start_case(manner);
        hold(|input| Some(harness.library_outcome(input)));
    }
}

#[test]
fn the_rust_wrapper() {
    hold(|input| wrapper_outcome(input).map(Ok));
}

#[test]
fn the_cases_can_fail() {
    // A side that refuses everything with 2 and one that changes nothing but says done.
    for number in [2, 0] {
        let agreeing = cases::all()
            .into_iter()
            .filter(|case| {
                let mut outcome = case.expected.clone();
                outcome.answer.0 = [number, 0, 0, 0, 0];
                outcome.buffers = case.input.buffers.clone();
                outcome.difference(&case.expected, case.input.call).is_none()
            })
            .count();
        assert!(agreeing * 4 < cases::all().len(), "{agreeing} cases take {number} for right");
    }
}
