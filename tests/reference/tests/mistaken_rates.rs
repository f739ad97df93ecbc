//! How often a mistaken rate would decide otherwise in random histories and on
//! random lanes.

mod common;

use common::edges::{each_call, followers, neighbours, number, Follower, Outcome};
use lane_reference::random::{sound_lane, unsound_lane, Random};
use lane_reference::stopping::{fast, Fast};
use lane_reference::{Answer, Call, Carrier, Lane, Row};
use std::collections::BTreeMap;

/// The rate at which one of a follower and its leader is taken to brake.
type Rate = fn(&Row, Carrier, Carrier) -> u64;

/// Those of the follower and of the leader.
type Rates = [Rate; 2];

const GUARANTEED: Rate = |row, follower, _| follower.guaranteed_braking(row);
const HARDEST: Rate = |row, _, _| row.hardest_braking;

/// Mistaken rates of the follower.
const OF_FOLLOWER: [(&str, Rate); 4] = [
    ("b alone", |row, _, _| row.guaranteed_braking),
    ("the own rate alone", |_, follower, _| follower.rate),
    ("the greater of own rate and b", |row, follower, _| {
        follower.rate.max(row.guaranteed_braking)
    }),
    ("the own rate of the one ahead", |row, _, leader| {
        leader.guaranteed_braking(row)
    }),
];

/// Mistaken rates of the leader.
const OF_LEADER: [(&str, Rate); 3] = [
    ("ahead, its own rate for B", |_, _, leader| leader.rate),
    (
        "ahead, the smaller of its own rate and B",
        |row, _, leader| leader.rate.min(row.hardest_braking),
    ),
    ("ahead, its guaranteed braking for B", |row, _, leader| {
        leader.guaranteed_braking(row)
    }),
];

fn rests_short(rates: Rates, row: &Row, follower: Carrier, leader: Carrier) -> bool {
    let [ours, theirs] = rates.map(|rate| rate(row, follower, leader) as u32);
    let follower_stop = fast(ours, follower.speed as u32) as i64;
    let leader_stop = fast(theirs, leader.speed as u32) as i64;
    follower.front() + follower_stop < leader.tail() + leader_stop
}

fn safe(rates: Rates, row: &Row, follower: Carrier, leader: Carrier) -> bool {
    follower.front() < leader.tail() && rests_short(rates, row, follower, leader)
}

fn all_safe(rates: Rates, row: &Row, carriers: &[Carrier]) -> bool {
    let mut pairs = carriers.windows(2);
    pairs.all(|pair| safe(rates, row, pair[1], pair[0]))
}

/// How often something is decided otherwise by a mistake.
#[derive(Debug, Default)]
struct Otherwise(BTreeMap<(&'static str, &'static str), u32>);

impl Otherwise {
    /// Compares what the mistakes decide with what is right.
    fn judge(&mut self, what: &'static str, decide: impl Fn(Rates) -> bool) {
        let right = decide([GUARANTEED, HARDEST]);
        let of_follower = OF_FOLLOWER.map(|(name, rate)| (name, [rate, HARDEST]));
        let of_leader = OF_LEADER.map(|(name, rate)| (name, [GUARANTEED, rate]));
        for (mistake, rates) in of_follower.into_iter().chain(of_leader) {
            self.add(what, mistake, decide(rates) != right);
        }
    }

    fn add(&mut self, what: &'static str, mistake: &'static str, differs: bool) {
        *self.0.entry((what, mistake)).or_insert(0) += u32::from(differs);
    }

    /// What was counted of one sort of decisions; each sort has come up.
    fn times(&self, what: &str) -> Vec<u32> {
        let of_sort = self.0.iter().filter(|((sort, _), _)| *sort == what);
        let times: Vec<u32> = of_sort.map(|(_, &times)| times).collect();
        assert!(!times.is_empty(), "{what}");
        times
    }

    fn enter(&mut self, lane: &Lane, row: &Row, newcomer: Carrier, no: u32) {
        let [ahead, behind] = neighbours(lane, newcomer);
        if let (Some(leader), 0 | 25 | 26) = (ahead, no) {
            self.judge("25", |rates| safe(rates, row, newcomer, leader));
        }
        if let (Some(follower), 0 | 26) = (behind, no) {
            self.judge("26", |rates| safe(rates, row, follower, newcomer));
        }
    }

    /// A wish, and the braking that is put in its place.
    fn wish(&mut self, row: &Row, follower: Follower) {
        let Follower {
            carrier, leader, ..
        } = follower;
        let moved = carrier.after(follower.wished);
        self.judge("wish", |rates| rests_short(rates, row, moved, leader));
        let braking = |rate: Rate| carrier.braking(rate(row, carrier, leader));
        for (mistake, rate) in OF_FOLLOWER.into_iter().filter(|_| follower.replaced) {
            self.add("braking", mistake, braking(rate) != braking(GUARANTEED));
        }
    }

    fn call(&mut self, lane: &Lane, call: &Call, outcome: &Outcome) {
        let Ok(row) = lane.sound_row::<Fast>() else {
            return;
        };
        match (call, outcome) {
            (Call::Enter(newcomer), _) => self.enter(lane, &row, *newcomer, number(outcome)),
            (Call::Cycle { wishes, .. }, Ok(Answer::Cycled(cycled))) => {
                for follower in followers(lane, &row, wishes, cycled.word) {
                    self.wish(&row, follower);
                }
            }
            (&Call::Surface { surface }, _) => {
                if let Some(row) = lane.tables.in_force.row(surface) {
                    self.judge("34", |rates| all_safe(rates, &row, lane.present()));
                }
            }
            _ => (),
        }
    }
}

#[test]
fn histories_tell_mistaken_rates() {
    let mut otherwise = Otherwise::default();
    each_call(|before, call, outcome, _| otherwise.call(before, call, outcome));
    for (what, least) in [
        ("25", 80),
        ("26", 50),
        ("34", 300),
        ("wish", 10_000),
        ("braking", 10_000),
    ] {
        let times = otherwise.times(what);
        assert!(times.iter().all(|&times| times > least), "{otherwise:?}");
    }
}

/// Whether a lane breaks no rule but maybe that of safety: no carrier does by itself.
fn lawful(lane: &Lane) -> bool {
    let alone = |place| {
        let mut alone = *lane;
        alone.carriers[0] = lane.carriers[place];
        alone.count = 1;
        alone.sound_row::<Fast>().is_ok()
    };
    lane.count <= 64 && (0..lane.present().len()).all(alone)
}

#[test]
fn lanes_handed_in_tell_mistaken_rates() {
    let (mut random, mut otherwise) = (Random::new(17), Otherwise::default());
    for _ in 0..20_000 {
        for lane in [sound_lane(&mut random), unsound_lane(&mut random)] {
            let row = lane.tables.in_force.row(lane.road.surface);
            if let Some(row) = row.filter(|_| lawful(&lane)) {
                otherwise.judge("21", |rates| all_safe(rates, &row, lane.present()));
            }
        }
    }
    let times = otherwise.times("21");
    assert!(times.iter().all(|&times| times > 200), "{otherwise:?}");
}
