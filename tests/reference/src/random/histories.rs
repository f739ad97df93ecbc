//! Whole histories: tables are loaded, lanes fill up, drive, and meet all sorts
//! of calls.

use super::calls::{call_after, Weights, EVEN, LOADS, OPENINGS, RAIN};
use super::handovers::{handover_text, text_to_read};
use super::lanes::{empty_lane, sound_lane};
use super::Random;
use crate::call::{Answer, Call};
use crate::lane::{FastLane, Lane, Supervisor, LONGEST_HANDOVER};
use std::iter::repeat_n;

/// A lane without carriers and the calls on it in turn.
#[derive(Clone, Debug)]
pub struct History {
    pub first: Lane,
    pub calls: Vec<Call>,
}

/// A handover text and the calls, in turn, on what a reading of it leaves.
#[derive(Clone, Debug)]
pub struct TakenOver {
    pub text: Vec<u8>,
    pub calls: Vec<Call>,
}

const START: Weights = [0, 0, 0, 0, 0, 0, 0, 1, 0, 0, 0, 0, 0];
const LOAD: Weights = [0, 0, 0, 1, 0, 0, 0, 0, 0, 1, 8, 1, 1];
const FILL: Weights = [90, 0, 4, 2, 2, 1, 1, 0, 0, 1, 1, 3, 1];
const FILL_FOR_CHANGE: Weights = [0, 94, 0, 0, 1, 1, 1, 0, 0, 2, 1, 1, 1];
const CHANGE: Weights = [0, 25, 12, 0, 15, 1, 1, 0, 0, 45, 1, 3, 1];
const DRIVE: Weights = [5, 0, 8, 75, 4, 4, 4, 0, 0, 4, 2, 4, 3];

/// How a history goes on with the carriers of a lane taken over.
const GOING_ON: [Weights; 6] = [DRIVE, DRIVE, EVEN, RAIN, CHANGE, OPENINGS];

/// How a lane is filled, and how many turns of changes follow.
const FILLS: [(Weights, usize); 5] = [
    (FILL, 0),
    (FILL, 0),
    (FILL, 5),
    (FILL_FOR_CHANGE, 10),
    (FILL_FOR_CHANGE, 30),
];

/// A history of so many calls.
pub fn history(random: &mut Random, calls: usize) -> History {
    let first = empty_lane(random);
    let plan = plan(random, calls);
    History {
        first,
        calls: calls_on(random, first, &plan),
    }
}

/// A reading of a text that another history wrote, now and then of one that may be
/// refused, and so many calls after it.
pub fn taken_over(random: &mut Random, calls: usize) -> TakenOver {
    let text = match random.below(10) {
        0 => text_to_read(random),
        1..=2 => handover_text(&sound_lane(random)),
        _ => text_of_history(random),
    };
    let mut lane = FastLane::default();
    // A refused reading leaves a lane to go on with as well.
    let _ = lane.take_over(&text);
    let mut turns = vec![random.pick(&GOING_ON); random.pick(&[0, 5, 20, 60])];
    turns.extend(plan(random, calls));
    turns.truncate(calls);
    let calls = calls_on(random, lane.0, &turns);
    TakenOver { text, calls }
}

/// The last handover text that a history writes; empty where it writes none.
fn text_of_history(random: &mut Random) -> Vec<u8> {
    let calls = random.pick(&[20, 60, 130]);
    let History { first, calls } = history(random, calls);
    let mut lane = FastLane(first);
    let room = LONGEST_HANDOVER;
    let mut text = Vec::new();
    for call in calls.iter().chain([&Call::Handover { room }]) {
        if let Ok(Answer::HandoverText(written)) = lane.call(call) {
            text = written;
        }
    }
    text
}

/// So many calls on the empty lane.
pub fn calls_on_empty(random: &mut Random, calls: usize) -> Vec<Call> {
    let plan = plan(random, calls);
    calls_on(random, Lane::default(), &plan)
}

/// So many calls on the empty lane without a load, a question where one could enter
/// or a handover, which no call text makes.
pub fn calls_of_texts(random: &mut Random, calls: usize) -> Vec<Call> {
    let mut plan = plan(random, calls);
    for [.., load, question, handover] in &mut plan {
        (*load, *question, *handover) = (0, 0, 0);
    }
    calls_on(random, Lane::default(), &plan)
}

/// Calls as likely as planned, each fitted to the lane as this implementation
/// has it at that point.
pub fn calls_on(random: &mut Random, first: Lane, plan: &[Weights]) -> Vec<Call> {
    let mut lane = FastLane(first);
    let mut calls: Vec<Call> = Vec::with_capacity(plan.len());
    for weights in plan {
        let next = call_after(random, calls.last(), &lane.0, weights);
        // Refused calls belong to a history as well.
        let _ = lane.call(&next);
        calls.push(next);
    }
    calls
}

/// Weights for so many calls: shifts one after the other.
fn plan(random: &mut Random, calls: usize) -> Vec<Weights> {
    let mut plan = Vec::new();
    while plan.len() < calls {
        let (fill, changes) = random.pick(&FILLS);
        let shift = [
            (LOADS, random.pick(&[0, 1, 3, 8])),
            (START, usize::from(random.chance(92))),
            (LOAD, random.pick(&[0, 0, 1])),
            (fill, random.pick(&[0, 2, 5, 20, 80, 80])),
            (CHANGE, changes),
            (RAIN, random.pick(&[0, 0, 5, 20])),
            (DRIVE, random.pick(&[5, 30, 60])),
            (EVEN, random.pick(&[0, 10, 30, 130])),
        ];
        let turns = shift.into_iter();
        plan.extend(turns.flat_map(|(weights, turns)| repeat_n(weights, turns)));
    }
    plan.truncate(calls);
    plan
}
