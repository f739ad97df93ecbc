//! What an opening says of entries, by trying them.

use super::binding::Words;
use super::host;
use super::host_call::{gap, HostCall};
use super::outcome::Outcome;
use super::words;
use lane_reference::random::SHORT_END;
use lane_reference::stopping::Fast;
use lane_reference::{Call, Carrier, Gap, Lane, Newcomer, PLACES};
use std::ops::Range;

/// What is wrong with the product's answer to a question, by entries: its own about
/// both ends of the opening and, where the lane is short, the reference's everywhere.
pub fn tried(before: &Words, call: &HostCall, outcome: &Outcome) -> Result<(), String> {
    let &HostCall::FindOpening {
        head,
        number,
        newcomer,
    } = call
    else {
        return Ok(());
    };
    if outcome.no != 0 {
        return Ok(());
    }
    let (lane, gap) = (words::lane(before), gap(head, number));
    let found = match outcome.values[..] {
        [1, lowest, highest] => lowest..highest + 1,
        _ => 0..0,
    };
    if lane.road.end <= SHORT_END {
        let admitted = lane.tried_positions::<Fast>(gap, newcomer);
        if admitted != Ok(found.clone().collect()) {
            return Err(format!("found {found:?}, admitted {admitted:?}"));
        }
    }
    if lane.present().len() == PLACES {
        return Ok(()); // Nobody gets in, wherever there is room.
    }
    let admitted = |at| entered(before, &lane, newcomer, at) == Some(place_in(&lane, gap));
    match about(&found).find(|at| admitted(*at) != found.contains(at)) {
        Some(at) => Err(format!("found {found:?}, but not so by an entry at {at}")),
        None => Ok(()),
    }
}

/// The first, a middle and the last of the positions found, and one past each end.
fn about(found: &Range<u64>) -> impl Iterator<Item = u64> {
    let Range { start, end } = *found;
    let middle = start + (end - start) / 2;
    let past = start.checked_sub(1).into_iter().chain([end]);
    past.chain([start, middle, end.saturating_sub(1)])
}

fn place_in(lane: &Lane, gap: Gap) -> usize {
    match gap {
        Gap::AheadOfAll => 0,
        Gap::Behind(number) => lane.look_up(number).place.map_or(0, |ahead| ahead + 1),
    }
}

/// The place that the product gives to an entry, if it admits it.
fn entered(before: &Words, lane: &Lane, newcomer: Newcomer, position: u64) -> Option<usize> {
    let unused = (1..).find(|&number| lane.look_up(number).place.is_none());
    let entry = Call::Enter(Carrier {
        number: unused?,
        ..newcomer.at(position)
    });
    let outcome = host::outcome(&mut before.clone(), &HostCall::Plain(entry));
    (outcome.no == 0).then_some(outcome.values[0] as usize)
}
