//! How often random histories and lanes meet the edges that own rates bring.

mod common;

use common::edges::{
    add, each_call, followers, gaps, neighbours, number, Edges, Follower, Met, Outcome,
};
use lane_reference::random::{sound_lane, unsound_lane, Random};
use lane_reference::stopping::Fast;
use lane_reference::{Answer, Call, Carrier, FastLane, Lane, Row, Supervisor};

/// Whether the own rate of a carrier that moves is smaller than b, or greater.
fn beside_b(row: &Row, carrier: Carrier) -> [bool; 2] {
    let (rate, b) = (carrier.rate, row.guaranteed_braking);
    [rate < b, rate > b].map(|beside| beside && carrier.speed > 0)
}

/// Entries that are accepted, by the own rate alone.
fn accepted_rates(row: &Row, rate: u64) -> Edges {
    let (b, hardest) = (row.guaranteed_braking, row.hardest_braking);
    vec![
        ("enter: rate 1", rate == 1 && b > 2),
        ("enter: rate b - 1", rate == b - 1 && b > 2),
        ("enter: rate b", rate == b),
        ("enter: rate b + 1", rate == b + 1),
        ("enter: rate B", rate == hardest && hardest > b + 1),
        ("enter: rate 255", rate == 255 && hardest < 255),
    ]
}

/// Whether a rate out of range would be within it, were it cut to so many bits.
fn cut_within(rate: u64, bits: u32) -> bool {
    let cut = rate % (1 << bits);
    cut != rate && (1..256).contains(&cut)
}

/// Entries whose own rate is out of range.
fn refused_rates(lane: &Lane, newcomer: Carrier, no: u32) -> Edges {
    let rate = newcomer.rate;
    let known = lane.look_up(newcomer.number).place.is_some();
    let mended = Carrier {
        rate: 255,
        ..newcomer
    };
    let otherwise = number(&FastLane(*lane).call(&Call::Enter(mended)));
    vec![
        ("35: rate 0", no == 35 && rate == 0),
        ("35: rate 256", no == 35 && rate == 256),
        ("35: but for 8 bits", no == 35 && cut_within(rate, 8)),
        ("35: but for 16 bits", no == 35 && cut_within(rate, 16)),
        ("35: rate 2^32 - 1", no == 35 && rate == u32::MAX.into()),
        ("35: on a full lane", no == 35 && otherwise == 22),
        ("35: a number present", no == 35 && known),
        ("35: unsafe as well", no == 35 && otherwise > 24),
        ("33: the rate as well", no == 33),
        ("6: the rate as well", no == 6),
        ("5: the rate as well", no == 5),
    ]
}

/// Entries by where the follower rests behind the tail ahead: the newcomer, or the
/// one behind it.
fn resting_edges(row: &Row, newcomer: Carrier, around: [Option<Carrier>; 2], no: u32) -> Edges {
    let [ahead, behind] = around;
    let mut edges = Vec::new();
    if let Some(leader) = ahead {
        let [less, more] = beside_b(row, newcomer);
        let at_rest = gaps(row, newcomer, leader)[1];
        let (safe, level) = (no == 0 && at_rest == 1, no == 25 && at_rest == 0);
        edges.extend([
            ("enter: rests one below, rate below b", safe && less),
            ("enter: rests one below, rate above b", safe && more),
            ("25: rests level, rate below b", level && less),
            ("25: rests level, rate above b", level && more),
        ]);
    }
    if let Some(follower) = behind {
        let [less, more] = beside_b(row, follower);
        let at_rest = gaps(row, follower, newcomer)[1];
        let (safe, level) = (no == 0 && at_rest == 1, no == 26 && at_rest == 0);
        edges.extend([
            ("enter: rests one above, rate below b", safe && less),
            ("enter: rests one above, rate above b", safe && more),
            ("26: rests level, rate below b", level && less),
            ("26: rests level, rate above b", level && more),
        ]);
    }
    edges
}

fn entry_edges(lane: &Lane, row: &Row, newcomer: Carrier, no: u32) -> Edges {
    if !(1..=255).contains(&newcomer.rate) {
        return refused_rates(lane, newcomer, no);
    }
    let mut edges = resting_edges(row, newcomer, neighbours(lane, newcomer), no);
    if no == 0 {
        edges.extend(accepted_rates(row, newcomer.rate));
    }
    edges
}

/// The wish of a carrier behind another, by where that one would rest.
fn wish_edges(row: &Row, follower: Follower) -> Edges {
    let Follower {
        carrier, replaced, ..
    } = follower;
    let [less, more] = beside_b(row, carrier);
    let moved = carrier.after(follower.wished);
    let at_rest = gaps(row, moved, follower.leader)[1];
    let (stands, level) = (!replaced && at_rest == 1, replaced && at_rest == 0);
    vec![
        ("wish: rests one below, rate below b", stands && less),
        ("wish: rests one below, rate above b", stands && more),
        ("wish: rests level, rate below b", level && less),
        ("wish: rests level, rate above b", level && more),
    ]
}

/// The same by how hard it brakes, of a carrier that can be relied on for less than
/// the row's b.
fn braking_edges(row: &Row, follower: Follower) -> Edges {
    let Follower {
        carrier,
        leader,
        wished,
        replaced,
    } = follower;
    let guaranteed = carrier.braking(carrier.guaranteed_braking(row));
    let by_row = carrier.braking(row.guaranteed_braking);
    let hardest = carrier.braking(row.hardest_braking);
    if guaranteed == by_row {
        return Vec::new();
    }
    let (near, rate) = (gaps(row, carrier, leader)[1] == 1, carrier.rate);
    let above = replaced && wished == guaranteed + 1;
    vec![
        ("wish: as guaranteed", near && wished == guaranteed),
        ("wish: one above that", above),
        ("wish: from -b on", (by_row..guaranteed).contains(&wished)),
        ("wish: below -b", wished < by_row),
        ("wish: -B with rate 1", rate == 1 && wished == hardest),
        ("replaced: by less than b", replaced),
    ]
}

/// Who is slower than its own rate, and that below b, brakes to rest.
fn stopping_edges(row: &Row, follower: Follower) -> Edges {
    let (speed, rate) = (follower.carrier.speed, follower.carrier.rate);
    let slower = 0 < speed && speed < rate && rate < row.guaranteed_braking;
    vec![(
        "replaced: slower than the rate",
        follower.replaced && slower,
    )]
}

fn follower_edges(row: &Row, follower: Follower) -> Edges {
    let sorts = [wish_edges, braking_edges, stopping_edges];
    sorts
        .into_iter()
        .flat_map(|edges| edges(row, follower))
        .collect()
}

/// Changes of surface by the own rates of the pairs that decide: those that would
/// rest one apart, or level.
fn change_edges(lane: &Lane, new: &Row, no: u32) -> Edges {
    let decisive = |apart: i64, side: usize| {
        let mut pairs = lane.present().windows(2);
        pairs.any(|pair| {
            let at_rest = gaps(new, pair[1], pair[0])[1];
            at_rest == apart && beside_b(new, pair[1])[side]
        })
    };
    let (accepted, refused) = (no == 0, no == 34);
    vec![
        ("accepted: by one, rate below b", accepted && decisive(1, 0)),
        ("accepted: by one, rate above b", accepted && decisive(1, 1)),
        ("34: level, rate below b", refused && decisive(0, 0)),
        ("34: level, rate above b", refused && decisive(0, 1)),
    ]
}

/// Places that others take who have another rate, by a leave or by someone gone.
fn moved_up(lane: &Lane, call: &Call, after: &Lane) -> Edges {
    let taken = lane.present().iter().zip(after.present());
    let mut others = taken.filter(|(was, is)| was.number != is.number && was.rate != is.rate);
    let name = match call {
        Call::Leave { .. } => "leave: the next has another rate",
        Call::Cycle { .. } => "gone: the next has another rate",
        _ => return Vec::new(),
    };
    vec![(name, others.next().is_some())]
}

fn edges(lane: &Lane, call: &Call, outcome: &Outcome) -> Edges {
    let Ok(row) = lane.sound_row::<Fast>() else {
        return Vec::new();
    };
    let no = number(outcome);
    match (call, outcome) {
        (Call::Enter(newcomer), _) => entry_edges(lane, &row, *newcomer, no),
        (Call::Cycle { wishes, .. }, Ok(Answer::Cycled(cycled))) => {
            let followers = followers(lane, &row, wishes, cycled.word);
            followers
                .flat_map(|follower| follower_edges(&row, follower))
                .collect()
        }
        (&Call::Surface { surface }, _) if surface != lane.road.surface => {
            let new = lane.tables.in_force.row(surface);
            new.map_or(Vec::new(), |new| change_edges(lane, &new, no))
        }
        _ => Vec::new(),
    }
}

#[test]
fn histories_crowd_the_edges_of_own_rates() {
    let mut met = Met::new();
    each_call(|before, call, outcome, after| {
        add(&mut met, edges(before, call, outcome));
        add(&mut met, moved_up(before, call, after));
    });
    assert!(met.values().all(|&times| times > 8), "{met:?}");
    for (edge, least) in [
        ("25: rests level, rate below b", 40),
        ("26: rests level, rate below b", 25),
        ("34: level, rate below b", 60),
        ("accepted: by one, rate below b", 600),
        ("wish: rests one below, rate below b", 1_500),
        ("wish: rests level, rate below b", 200),
        ("wish: as guaranteed", 300),
        ("wish: one above that", 800),
        ("wish: -B with rate 1", 2_000),
        ("replaced: by less than b", 10_000),
    ] {
        assert!(met[edge] > least, "{edge}: {met:?}");
    }
}

/// Lanes as a host may hand them in, by own rates alone.
fn lane_edges(lane: &Lane) -> Edges {
    let present = lane.present();
    let any = |found: &dyn Fn(u64) -> bool| present.iter().any(|carrier| found(carrier.rate));
    let row = lane.tables.in_force.row(lane.road.surface);
    let row = row.unwrap_or_default();
    let (b, hardest) = (row.guaranteed_braking, row.hardest_braking);
    let kinds = [1, b.wrapping_sub(1), b, b.wrapping_add(1), hardest, 255];
    let mixed = b > 2 && kinds.iter().all(|&kind| any(&|rate| rate == kind));
    vec![
        ("all sorts of rates", mixed),
        ("rate 0", any(&|rate| rate == 0)),
        ("rate 256", any(&|rate| rate == 256)),
        ("rate 2^32 - 1", any(&|rate| rate == u32::MAX.into())),
        ("rate 2^64 - 1", any(&|rate| rate == u64::MAX)),
        (
            "out of range but for 8 bits",
            any(&|rate| cut_within(rate, 8)),
        ),
        (
            "out of range but for 16 bits",
            any(&|rate| cut_within(rate, 16)),
        ),
        (
            "out of range but for 32 bits",
            any(&|rate| cut_within(rate, 32)),
        ),
    ]
}

fn met_on_lanes(lane: fn(&mut Random) -> Lane) -> Met {
    let (mut random, mut met) = (Random::new(18), Met::new());
    for _ in 0..20_000 {
        add(&mut met, lane_edges(&lane(&mut random)));
    }
    met
}

#[test]
fn lanes_handed_in_crowd_the_edges_of_own_rates() {
    let (sound, unsound) = (met_on_lanes(sound_lane), met_on_lanes(unsound_lane));
    assert!(sound["all sorts of rates"] > 1_000, "{sound:?}");
    assert!(unsound.values().all(|&times| times > 20), "{unsound:?}");
}
