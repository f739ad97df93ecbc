//! Edges that random histories and lanes meet, counted by their names.

use lane_reference::headway::{front_at_rest, tail_at_rest};
use lane_reference::random::{history, History, Random};
use lane_reference::stopping::Fast;
use lane_reference::{
    Answer, Call, Carrier, FastLane, Lane, Refusal, Row, Supervisor, Wish, PLACES,
};
use std::collections::BTreeMap;

pub type Outcome = Result<Answer, Refusal>;

/// Names of edges, each with whether it is met.
pub type Edges = Vec<(&'static str, bool)>;

/// How often each edge was met.
pub type Met = BTreeMap<&'static str, u32>;

pub fn add(met: &mut Met, edges: Edges) {
    for (edge, there) in edges {
        *met.entry(edge).or_insert(0) += u32::from(there);
    }
}

/// Each call of 1,000 random histories, with its outcome and the lane before and
/// after it.
pub fn each_call(mut look: impl FnMut(&Lane, &Call, &Outcome, &Lane)) {
    for seed in 0..1_000 {
        let History { first, calls } = history(&mut Random::new(seed), 130);
        let mut lane = FastLane(first);
        for call in &calls {
            let before = lane.0;
            let outcome = lane.call(call);
            look(&before, call, &outcome, &lane.0);
        }
    }
}

/// The number of a refusal, else 0.
pub fn number(outcome: &Outcome) -> u32 {
    outcome.as_ref().map_or_else(|no| no.number(), |_| 0)
}

/// How far the follower's front is below the leader's tail, now and at rest: 0
/// is level.
pub fn gaps(row: &Row, follower: Carrier, leader: Carrier) -> [i64; 2] {
    [
        leader.tail() - follower.front(),
        tail_at_rest::<Fast>(row, leader) - front_at_rest::<Fast>(row, follower),
    ]
}

/// The neighbours that a newcomer would have, ahead and behind.
pub fn neighbours(lane: &Lane, newcomer: Carrier) -> [Option<Carrier>; 2] {
    let present = lane.present();
    let lower = |carrier: &Carrier| carrier.position < newcomer.position;
    let place = present.iter().position(lower).unwrap_or(present.len());
    let ahead = place.checked_sub(1).map(|ahead| present[ahead]);
    [ahead, present.get(place).copied()]
}

/// A carrier in a cycle that ran, with one ahead of it.
#[derive(Clone, Copy)]
pub struct Follower {
    pub carrier: Carrier,
    pub leader: Carrier,
    /// Its wish, trimmed.
    pub wished: i32,
    pub replaced: bool,
}

/// All of them, as before the cycle, which gave `word`.
pub fn followers<'a>(
    lane: &'a Lane,
    row: &'a Row,
    wishes: &'a [Wish; PLACES],
    word: u64,
) -> impl Iterator<Item = Follower> + 'a {
    let pairs = (1..).zip(lane.present().windows(2));
    pairs.map(move |(place, pair)| {
        let wished = wishes[place].trimmed(row, lane.road.limit, pair[1]);
        Follower {
            carrier: pair[1],
            leader: pair[0],
            wished: wished.expect("the cycle ran"),
            replaced: word >> place & 1 == 1,
        }
    })
}
