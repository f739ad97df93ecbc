//! What is found of openings against entries tried one by one: position by position on
//! short lanes, about every edge on long ones.

mod common;

use common::{ask, place_in};
use lane_reference::random::{
    gapped_lane, question, short_lane, sound_lane, unsound_lane, Random, SHORT_END,
};
use lane_reference::stopping::{Fast, Summed};
use lane_reference::{
    Carrier, FastLane, Gap, Lane, Newcomer, Opening, Refusal, Supervisor, PLACES,
};
use std::collections::BTreeSet;

type Answer = Result<Option<Opening>, Refusal>;

fn positions(answer: Answer) -> Result<Vec<u64>, Refusal> {
    let opening = answer?;
    Ok(opening.map_or(Vec::new(), |found| (found.lowest..=found.highest).collect()))
}

/// Questions on lanes, with the answers.
fn each_question(
    seed: u64,
    lanes: usize,
    lane: fn(&mut Random) -> Lane,
    mut look: impl FnMut(&Lane, Gap, Newcomer, Answer),
) {
    let mut random = Random::new(seed);
    for _ in 0..lanes {
        let lane = lane(&mut random);
        for _ in 0..4 {
            let (gap, newcomer) = question(&mut random, &lane);
            let answer = FastLane(lane).find_opening(gap, newcomer);
            look(&lane, gap, newcomer, answer);
        }
    }
}

#[test]
fn on_short_lanes_every_position_tried_gives_the_same() {
    let (mut open, mut closed, mut refused) = (0, 0, 0);
    each_question(21, 6_000, short_lane, |lane, gap, newcomer, answer| {
        assert!(lane.road.end <= SHORT_END);
        let tried = lane.tried_positions::<Fast>(gap, newcomer);
        assert_eq!(tried, positions(answer), "{gap:?} {newcomer:?} on {lane:?}");
        match answer {
            Ok(Some(_)) => open += 1,
            Ok(None) => closed += 1,
            Err(_) => refused += 1,
        }
    });
    assert!(
        open > 5_000 && closed > 5_000 && refused > 500,
        "{open}, {closed}, {refused}"
    );
}

#[test]
fn with_stops_summed_it_is_the_same() {
    each_question(22, 200, short_lane, |lane, gap, newcomer, answer| {
        assert_eq!(lane.find_opening(gap, newcomer), answer);
        let tried = lane.tried_positions::<Summed>(gap, newcomer);
        assert_eq!(tried, positions(answer), "{gap:?} {newcomer:?} on {lane:?}");
    });
}

/// Asserts that an entry at the position gets the place of the gap exactly if the
/// position is within what was found; a full lane is skipped.
fn as_entered(lane: &Lane, gap: Gap, newcomer: Newcomer, found: Option<Opening>, position: u64) {
    let unused = (1..).find(|&number| lane.look_up(number).place.is_none());
    let entry = Carrier {
        number: unused.expect("a lane has fewer carriers than numbers"),
        ..newcomer.at(position)
    };
    let entered = FastLane(*lane).enter(entry);
    let within = found.is_some_and(|found| (found.lowest..=found.highest).contains(&position));
    assert_eq!(
        within,
        entered == Ok(place_in(lane, gap)),
        "{entry:?} in {gap:?} gives {entered:?}, {found:?} found, on {lane:?}"
    );
}

#[test]
fn on_short_lanes_entries_are_admitted_there_and_nowhere_else() {
    let mut within = 0;
    each_question(23, 600, short_lane, |lane, gap, newcomer, answer| {
        let Some(found) = answer.ok().filter(|_| lane.present().len() < PLACES) else {
            return;
        };
        within += found.map_or(0, |found| found.highest - found.lowest + 1);
        for position in 0..lane.road.end + 3 {
            as_entered(lane, gap, newcomer, found, position);
        }
    });
    assert!(within > 10_000, "{within}");
}

/// About the ends of what was found, of the lane, and of every carrier.
fn about_edges(lane: &Lane, found: Option<Opening>) -> BTreeSet<u64> {
    let fronts = lane.present().iter().map(|carrier| carrier.position);
    let tails = lane
        .present()
        .iter()
        .map(|carrier| carrier.position.saturating_sub(carrier.length));
    let ends = found.map_or(vec![], |found| {
        let middle = found.lowest + (found.highest - found.lowest) / 2;
        vec![found.lowest, middle, found.highest]
    });
    let edges = fronts.chain(tails).chain(ends).chain([0, lane.road.end]);
    edges
        .flat_map(|edge| edge.saturating_sub(2)..=edge + 2)
        .collect()
}

#[test]
fn on_long_lanes_entries_are_admitted_up_to_both_ends() {
    let mut found_on = 0;
    for lanes in [gapped_lane, sound_lane] {
        each_question(24, 1_500, lanes, |lane, gap, newcomer, answer| {
            let Some(found) = answer.ok().filter(|_| lane.present().len() < PLACES) else {
                return;
            };
            found_on += u32::from(found.is_some());
            for position in about_edges(lane, found) {
                as_entered(lane, gap, newcomer, found, position);
            }
        });
    }
    assert!(found_on > 3_000, "{found_on}");
}

/// A lane without one of its carriers that is not next to the gap.
fn without_another(lane: &Lane, gap: Gap) -> Option<Lane> {
    let place = place_in(lane, gap);
    let mut others = (0..lane.present().len()).filter(|&at| at != place && at + 1 != place);
    let number = others.next_back().map(|at| lane.carriers[at].number);
    number.map(|number| {
        let mut fewer = FastLane(*lane);
        fewer.leave(number).expect("a carrier present");
        fewer.0
    })
}

/// With a place free, entries are admitted where a full lane was said to be open.
#[test]
fn on_full_lanes_it_is_as_with_a_place_free() {
    let (mut open, mut closed) = (0, 0);
    for lanes in [gapped_lane, sound_lane, short_lane] {
        each_question(25, 6_000, lanes, |lane, gap, newcomer, answer| {
            let Some(found) = answer.ok().filter(|_| lane.present().len() == PLACES) else {
                return;
            };
            let fewer = without_another(lane, gap).expect("64 carriers");
            assert_eq!(FastLane(fewer).find_opening(gap, newcomer), Ok(found));
            for position in about_edges(&fewer, found) {
                as_entered(&fewer, gap, newcomer, found, position);
            }
            open += u32::from(found.is_some());
            closed += u32::from(found.is_none());
        });
    }
    assert!(open > 1_000 && closed > 1_000, "{open}, {closed}");
}

#[test]
fn a_question_changes_nothing() {
    for lanes in [gapped_lane, short_lane, unsound_lane] {
        each_question(26, 3_000, lanes, |lane, gap, newcomer, answer| {
            let mut asked = FastLane(*lane);
            assert_eq!(asked.call(&ask(gap, newcomer)).is_ok(), answer.is_ok());
            assert_eq!(asked.0, *lane);
        });
    }
}

#[test]
fn on_a_lane_that_breaks_a_rule_every_question_gets_21() {
    each_question(27, 6_000, unsound_lane, |_, _, _, answer| {
        assert_eq!(answer, Err(Refusal::LaneUnsound));
    });
}

#[test]
fn lanes_with_gaps_are_sound() {
    for lanes in [gapped_lane, short_lane] {
        let mut random = Random::new(28);
        for _ in 0..10_000 {
            let lane = lanes(&mut random);
            assert!(lane.sound_row::<Fast>().is_ok(), "{lane:?}");
        }
    }
}
