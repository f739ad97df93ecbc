//! By library: single calls, on lanes that no text can make as well.

mod binding;
mod case;
mod check;
mod generate;
mod handovers;
mod host;
mod host_call;
mod notation;
mod openings;
mod outcome;
mod reference;
mod steps;
mod words;

use crate::regressions;
use crate::tally::Tally;
use crate::texts;
use case::Case;
use lane_reference::random::Random;
use lane_reference::Lane;
use std::fs;
use std::time::Instant;

/// Random cases, and now and then a text step by step, until `end`.
pub fn explore(random: &mut Random, end: Instant, tally: &mut Tally) {
    check_interface(tally);
    while Instant::now() < end && !tally.enough() {
        if random.chance(2) {
            check_text(&texts::input(random), tally);
        } else {
            check_case(&generate::case(random), tally);
        }
    }
}

/// The cases of the library that once differed.
pub fn replay(tally: &mut Tally) {
    for path in regressions::files("case") {
        let text = fs::read_to_string(&path).expect("a readable file");
        match notation::parse(&text) {
            Ok(case) => check_case(&case, tally),
            Err(fault) => tally.differs(&fault, &path.display().to_string()),
        }
    }
}

/// The text of a program, by the library's steps.
pub fn check_text(input: &[u8], tally: &mut Tally) {
    let (calls, outcome) = steps::run(input);
    tally.by_library += calls;
    if let Err(what) = outcome {
        let file = regressions::save_input(input, &[("step", what.as_bytes())]);
        tally.differs(&what, &file);
    }
}

fn check_case(case: &Case, tally: &mut Tally) {
    let (calls, outcome) = check::run(case);
    tally.by_library += calls;
    if let Err(what) = outcome {
        let shortest = check::shortened(case, calls);
        let file = regressions::save_case(&notation::print(&shortest), &what);
        tally.differs(&what, &file);
    }
}

/// The interface is the one of the binding, and of the empty lane all words but
/// those of the house rows are 0.
fn check_interface(tally: &mut Tally) {
    if !host::is_bound() {
        tally.differs("the interface has another version", "none");
    }
    let empty = host::empty();
    if empty != words::plain(&Lane::default()) {
        tally.differs(&format!("the empty lane is {empty:?}"), "none");
    }
}
