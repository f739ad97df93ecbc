//! A case through both implementations, and through the road book.

use super::binding::Words;
use super::case::Case;
use super::handovers;
use super::host;
use super::host_call::{gap, HostCall};
use super::openings;
use super::outcome::Outcome;
use super::reference;
use super::words;
use lane_reference::road_book::Checker;
use lane_reference::stopping::Fast;
use lane_reference::{Call, Lane, Wish, PLACES};

/// How many calls were made, and what the last of them did wrong.
///
/// Each call gets the lane that the product left after the one before, but
/// with other words where no answer may depend on them.
pub fn run(case: &Case) -> (u64, Result<(), String>) {
    let mut lane = case.first;
    // The road book is for histories, which begin without carriers or with a reading.
    let first = words::lane(&lane);
    let mut book = (first.count == 0).then(|| Checker::new(&first));
    for (calls, call) in (1..).zip(&case.calls) {
        unsettle(&mut lane, call, calls);
        let before = lane;
        let outcome = host::outcome(&mut lane, call);
        let wrong = compared(&before, call, &outcome)
            .and_then(|()| kept(&before, call, &outcome, &lane))
            .and_then(|()| openings::tried(&before, call, &outcome))
            .and_then(|()| handovers::tried(call, &outcome, &lane))
            .and_then(|()| recorded(&mut book, call, &outcome));
        if let Err(what) = wrong {
            return (calls, Err(format!("{call:?}\n{what}")));
        }
    }
    (case.calls.len() as u64, Ok(()))
}

/// Puts anything into the free words and, at every second turn, the number that
/// the call looks up behind the last carrier present. The first call gets the
/// lane of its case.
fn unsettle(lane: &mut Words, call: &HostCall, turn: u64) {
    if turn > 1 {
        words::scramble(lane, turn);
    }
    if let (Some(number), 0) = (call.number(), turn % 2) {
        words::leave_behind(lane, number);
    }
}

fn compared(before: &Words, call: &HostCall, outcome: &Outcome) -> Result<(), String> {
    let expected = reference::outcome(&words::lane(before), call);
    if *outcome == expected {
        Ok(())
    } else {
        Err(format!("wanted {expected:?}\ngot {outcome:?}"))
    }
}

/// After a refusal, and after a call that only reads, every word is as before;
/// after a change of surface, every word but that code; and after a refused reading
/// every word is that of the empty lane.
fn kept(before: &Words, call: &HostCall, outcome: &Outcome, after: &Words) -> Result<(), String> {
    let expected = match *call {
        HostCall::Plain(Call::Surface { surface }) if outcome.no == 0 => {
            words::on_surface(before, surface)
        }
        _ if outcome.no == 0 && !call.only_reads() => return Ok(()),
        HostCall::TakeOver { .. } => words::plain(&Lane::default()),
        _ => *before,
    };
    if expected == *after {
        return Ok(());
    }
    let rows = (0..before.len()).filter(|&row| expected[row] != after[row]);
    Err(format!(
        "rows that are wrong: {:?}",
        rows.collect::<Vec<_>>()
    ))
}

/// Demand 3, from the product's own answers. A reading begins a history, with a book
/// of its own.
fn recorded(book: &mut Option<Checker>, call: &HostCall, outcome: &Outcome) -> Result<(), String> {
    let (refused, after) = (outcome.no != 0, &outcome.lane);
    if let HostCall::TakeOver { text } = call {
        *book = Some(Checker::after_reading(text, refused, after)?);
    }
    let (Some(book), Some((call, word))) = (book, recordable(call, outcome)) else {
        return Ok(());
    };
    book.observe::<Fast>(&call, refused, word, after)
}

/// The call as the book takes it, and a cycle's word; none for a reading.
fn recordable(call: &HostCall, outcome: &Outcome) -> Option<(Call, u64)> {
    Some(match call {
        HostCall::Plain(call) => (call.clone(), 0),
        HostCall::Cycle {
            count,
            sorts,
            values,
        } => (meant(*count, sorts, values), outcome.values[0]),
        &HostCall::FindOpening {
            head,
            number,
            newcomer,
        } => {
            let gap = gap(head, number);
            (Call::FindOpening { gap, newcomer }, 0)
        }
        HostCall::TakeOver { .. } => return None,
    })
}

/// The cycle that a host's lists mean; the book looks at one that ran only.
fn meant(count: u64, sorts: &[u8], values: &[u32]) -> Call {
    let mut wishes = Box::new([Wish::Hold; PLACES]);
    for (place, (&sort, &value)) in wishes.iter_mut().zip(sorts.iter().zip(values)) {
        *place = Wish::of_numbers(sort, value).unwrap_or_default();
    }
    Call::Cycle { count, wishes }
}

/// The last of so many calls alone, if that shows a difference too; else all of them.
pub fn shortened(case: &Case, calls: u64) -> Case {
    let made = &case.calls[..calls as usize];
    let (last, before) = made.split_last().expect("a call that differs");
    let mut reached = case.first;
    for (turn, call) in (1..).zip(before) {
        unsettle(&mut reached, call, turn);
        host::outcome(&mut reached, call);
    }
    unsettle(&mut reached, last, calls);
    let alone = Case {
        first: reached,
        calls: vec![last.clone()],
    };
    if run(&alone).1.is_err() {
        return alone;
    }
    Case {
        first: case.first,
        calls: made.to_vec(),
    }
}
