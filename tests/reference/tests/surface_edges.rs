//! How often random histories and lanes meet the edges that changes of surface bring.

mod common;

use common::edges::{add, gaps, number, Edges, Met, Outcome};
use lane_reference::random::{call, history, sound_lane, unsound_lane, History, Random, Weights};
use lane_reference::stopping::Fast;
use lane_reference::{Answer, Call, Carrier, FastLane, Lane, Row, Supervisor, Table};

/// Changes of surface alone.
const CHANGES: Weights = [0, 0, 0, 0, 0, 0, 0, 0, 0, 1, 0, 0, 0];

/// How far each pair, front to back, is from being level, now or at rest,
/// whichever is less: it is safe from 1 on.
fn pair_gaps(row: &Row, carriers: &[Carrier]) -> Vec<i64> {
    let gap = |pair: &[Carrier]| {
        let [now, at_rest] = gaps(row, pair[1], pair[0]);
        now.min(at_rest)
    };
    carriers.windows(2).map(gap).collect()
}

fn is_safe(row: &Row, carriers: &[Carrier]) -> bool {
    pair_gaps(row, carriers).iter().all(|&gap| gap > 0)
}

/// Changes by the code and by how many carriers there are.
fn code_edges(lane: &Lane, surface: u64, no: u32) -> Edges {
    let in_force = surface == lane.road.surface;
    let (changed, count) = (no == 0 && !in_force, lane.count);
    let last_cycle = lane.cycle == u64::MAX;
    vec![
        ("1: code 8", no == 1 && surface == 8),
        ("1: code 256", no == 1 && surface == 256),
        ("1: code 2^32 - 1", no == 1 && surface == u32::MAX.into()),
        ("the code in force", no == 0 && in_force && count > 1),
        ("accepted: no carrier", changed && count == 0),
        ("accepted: one carrier", changed && count == 1),
        ("accepted: 64 carriers", changed && count == 64),
        ("accepted: the last cycle number", changed && last_cycle),
        ("34: 64 carriers", no == 34 && count == 64),
        ("34: the last cycle number", no == 34 && last_cycle),
    ]
}

/// Changes to another code, by which pairs decide; there is one at least.
fn pair_edges(gaps: &[i64], no: u32) -> Edges {
    let tightest = gaps.iter().min().copied().unwrap_or_default();
    let (foremost, last) = (gaps[0], gaps[gaps.len() - 1]);
    let unsafe_pairs = gaps.iter().filter(|&&gap| gap < 1).count();
    let just_safe = no == 0 && tightest == 1;
    let by_one = no == 34 && tightest == 0;
    let alone = no == 34 && unsafe_pairs == 1 && gaps.len() > 2;
    vec![
        ("accepted", no == 0),
        ("accepted: safe by one", just_safe),
        (
            "accepted: safe by one, not in front",
            just_safe && foremost > 1,
        ),
        ("34", no == 34),
        ("34: by one", by_one),
        ("34: by one, not in front", by_one && foremost > 0),
        ("34: by one, not at the back", by_one && last > 0),
        ("34: by one, one pair alone", alone && by_one),
        ("34: the foremost pair alone", alone && foremost < 1),
        ("34: the last pair alone", alone && last < 1),
        ("34: a pair between alone", alone && foremost.min(last) > 0),
    ]
}

/// Changes to another code, by the rows.
fn row_edges(lane: &Lane, old: &Row, new: &Row, no: u32) -> Edges {
    let (accepted, refused) = (no == 0, no == 34);
    let less = new.guaranteed_braking < old.guaranteed_braking;
    let more = new.guaranteed_braking > old.guaranteed_braking;
    let harder = new.hardest_braking > old.hardest_braking;
    let as_hard = new.hardest_braking == old.hardest_braking;
    let loaded = lane.tables.in_force != Table::HOUSE;
    let by_one = pair_gaps(new, lane.present()).iter().min() == Some(&0);
    vec![
        ("accepted: smaller b", accepted && less),
        ("accepted: greater b", accepted && more),
        ("accepted: greater B", accepted && harder),
        ("accepted: house rows", accepted && !loaded),
        ("accepted: loaded rows", accepted && loaded),
        ("34: smaller b, same B", refused && less && as_hard),
        ("34: smaller b, greater B", refused && less && harder),
        ("34: same b, greater B", refused && !less && !more && harder),
        ("34: greater b", refused && more),
        ("34: by one, b no smaller", refused && by_one && !less),
        ("34: house rows", refused && !loaded),
        ("34: loaded rows", refused && loaded),
    ]
}

/// Changes to another code that a wrong row or a wrong tail would decide otherwise.
fn mistaken_edges(lane: &Lane, surface: u64, new: &Row, no: u32) -> Edges {
    let next = lane.tables.for_next_start.row(surface).unwrap_or_default();
    let safe_next = is_safe(&next, lane.present());
    let points: Vec<Carrier> = lane
        .present()
        .iter()
        .map(|&carrier| Carrier {
            length: 0,
            ..carrier
        })
        .collect();
    vec![
        (
            "accepted: unsafe from the next start",
            no == 0 && !safe_next,
        ),
        ("34: safe from the next start", no == 34 && safe_next),
        (
            "34: safe without lengths",
            no == 34 && is_safe(new, &points),
        ),
    ]
}

/// A change on a lane that 21 passes.
fn change_edges(lane: &Lane, old: &Row, surface: u64, no: u32) -> Edges {
    let mut edges = code_edges(lane, surface, no);
    let other = lane.tables.in_force.row(surface);
    let other = other.filter(|_| surface != lane.road.surface && lane.count > 1);
    if let Some(new) = other {
        edges.extend(pair_edges(&pair_gaps(&new, lane.present()), no));
        edges.extend(row_edges(lane, old, &new, no));
        edges.extend(mistaken_edges(lane, surface, &new, no));
    }
    edges
}

/// The codes that would be in force had the last change gone otherwise.
#[derive(Clone, Copy, Default)]
struct Otherwise {
    /// That before an accepted change.
    before: Option<u64>,
    /// That of a change refused since.
    refused: Option<u64>,
}

impl Otherwise {
    fn after(self, lane: &Lane, call: &Call, outcome: &Outcome) -> Otherwise {
        let in_force = lane.road.surface;
        match (call, number(outcome)) {
            (Call::Start { .. }, 0) => Otherwise::default(),
            (&Call::Surface { surface }, 0) if surface != in_force => Otherwise {
                before: Some(in_force),
                refused: None,
            },
            (&Call::Surface { surface }, 34) => Otherwise {
                refused: Some(surface),
                ..self
            },
            _ => self,
        }
    }

    /// What an accepted change or a cycle, or an entry, tells of the last change.
    fn edges(self, lane: &Lane, call: &Call, outcome: &Outcome, after: &Lane) -> Edges {
        let mut edges = Vec::new();
        if let (Call::Surface { surface }, Ok(_)) = (call, outcome) {
            edges.push(("accepted: back again", Some(*surface) == self.before));
        }
        if let Some(code) = self.before {
            edges.extend(told_apart(lane, call, outcome, after, code));
        }
        if let (Some(code), Ok(Answer::Cycled(_))) = (self.refused, outcome) {
            let differs = on_surface(lane, call, code).0 != *outcome;
            edges.push(("cycle: not so by the row refused", differs));
        }
        edges
    }
}

/// What a call would give on another surface, and the lane then, with its own code.
fn on_surface(lane: &Lane, call: &Call, code: u64) -> (Outcome, Lane) {
    let mut other = FastLane(*lane);
    other.0.road.surface = code;
    let outcome = other.call(call);
    other.0.road.surface = lane.road.surface;
    (outcome, other.0)
}

/// A cycle or an entry that goes another way by the row before.
fn told_apart(lane: &Lane, call: &Call, outcome: &Outcome, after: &Lane, code: u64) -> Edges {
    let (other, other_after) = on_surface(lane, call, code);
    let no = number(&other);
    match (outcome, &other) {
        (Ok(Answer::Cycled(one)), Ok(Answer::Cycled(two))) => {
            let same = one.word == two.word;
            let moved = other_after != *after;
            vec![
                ("cycle: another word by the row before", !same),
                (
                    "cycle: the word, not the motion, by the row before",
                    same && moved,
                ),
            ]
        }
        (Ok(Answer::Cycled(_)), _) => vec![("cycle: 21 by the row before", no == 21)],
        (Ok(Answer::Entered(_)), _) => vec![("enter: 25 or 26 by the row before", no > 24)],
        (Err(_), Ok(Answer::Entered(_))) => vec![("25 or 26: not by the row before", true)],
        _ => Vec::new(),
    }
}

#[test]
fn histories_crowd_the_edges_of_a_change() {
    let mut met = Met::new();
    for seed in 0..1_000 {
        let History { first, calls } = history(&mut Random::new(seed), 130);
        let (mut lane, mut otherwise) = (FastLane(first), Otherwise::default());
        for call in &calls {
            let before = lane.0;
            let outcome = lane.call(call);
            add(&mut met, otherwise.edges(&before, call, &outcome, &lane.0));
            add(&mut met, edges(&before, call, &outcome));
            otherwise = otherwise.after(&before, call, &outcome);
        }
    }
    assert!(met.values().all(|&times| times > 15), "{met:?}");
    for (edge, least) in [
        ("accepted", 2_000),
        ("accepted: safe by one", 1_000),
        ("accepted: safe by one, not in front", 600),
        ("34", 800),
        ("34: by one", 100),
        ("34: by one, not in front", 60),
        ("cycle: another word by the row before", 1_500),
        ("cycle: the word, not the motion, by the row before", 1_500),
        ("cycle: not so by the row refused", 2_000),
    ] {
        assert!(met[edge] > least, "{edge}: {met:?}");
    }
}

/// Of a change, on a lane that 21 passes or on one that it doesn't.
fn edges(lane: &Lane, call: &Call, outcome: &Outcome) -> Edges {
    let Call::Surface { surface } = *call else {
        return Vec::new();
    };
    let no = number(outcome);
    match lane.sound_row::<Fast>() {
        Ok(row) => change_edges(lane, &row, surface, no),
        Err(_) => vec![
            ("21: a known code", no == 21 && surface < 8),
            ("21: an unknown code", no == 21 && surface > 7),
        ],
    }
}

/// Changes that a lane handed in unsound would be sound after.
fn mended(lane: &Lane, call: &Call) -> Edges {
    let Call::Surface { surface } = *call else {
        return Vec::new();
    };
    let mut changed = *lane;
    changed.road.surface = surface;
    let sound = changed.sound_row::<Fast>().is_ok();
    let known = lane.road.surface < 8;
    vec![
        ("21: safe by the new row", known && sound),
        ("21: a code again", !known && sound),
    ]
}

#[test]
fn lanes_handed_in_crowd_the_edges_of_a_change() {
    let (mut random, mut sound, mut unsound) = (Random::new(14), Met::new(), Met::new());
    for _ in 0..20_000 {
        let lane = sound_lane(&mut random);
        let next = call(&mut random, &lane, &CHANGES);
        let outcome = FastLane(lane).call(&next);
        add(&mut sound, edges(&lane, &next, &outcome));
        let lane = unsound_lane(&mut random);
        let next = call(&mut random, &lane, &CHANGES);
        let outcome = FastLane(lane).call(&next);
        add(&mut unsound, edges(&lane, &next, &outcome));
        add(&mut unsound, mended(&lane, &next));
    }
    assert!(sound.values().all(|&times| times > 5), "{sound:?}");
    assert!(sound["34: by one"] > 200, "{sound:?}");
    assert!(unsound.values().all(|&times| times > 40), "{unsound:?}");
}
