//! How often random histories meet the edges that lengths bring.

mod common;

use common::edges::{add, each_call, gaps, neighbours, number, Edges, Met, Outcome};
use lane_reference::random::{sound_lane, unsound_lane, Random};
use lane_reference::stopping::Fast;
use lane_reference::{Answer, Call, Carrier, Lane, Row, Wish, PLACES};

/// Entries that are accepted, by the length alone.
fn accepted_lengths(lane: &Lane, newcomer: Carrier) -> Edges {
    let Carrier {
        position, length, ..
    } = newcomer;
    let last = position + 1 == lane.road.end;
    let (long, tail) = (length > 0, newcomer.tail());
    vec![
        ("enter: length 0", length == 0),
        ("enter: length 1", length == 1),
        ("enter: length 65,534", length == 65_534),
        ("enter: length 65,535", length == 65_535),
        ("enter: at end - 1 with a length", last && long),
        ("enter: tail one past the start", long && tail == 1),
        ("enter: tail at the start", long && tail == 0),
        ("enter: tail one before the start", tail == -1),
        ("enter: tail far before the start", tail < -1_000),
    ]
}

/// Entries that are refused for their figures or before 25, by the length alone.
fn refused_lengths(lane: &Lane, newcomer: Carrier, no: u32) -> Edges {
    let Carrier {
        position, length, ..
    } = newcomer;
    let tail_within = position < lane.road.end.saturating_add(length);
    let most = length == u32::MAX.into();
    let full = lane.count == 64;
    let present = lane.look_up(newcomer.number).place.is_some();
    vec![
        ("33: length 65,536", no == 33 && length == 65_536),
        ("33: length 2^32 - 1", no == 33 && most),
        ("33: on a full lane", no == 33 && full),
        ("33: a number present", no == 33 && present),
        ("22: length 65,535", no == 22 && length == 65_535),
        ("6: and too long", no == 6 && length > 65_535),
        ("5: the tail before the end", no == 5 && tail_within),
    ]
}

/// Entries by the carrier ahead, which has a length.
fn ahead_edges(row: &Row, newcomer: Carrier, leader: Carrier, no: u32) -> Edges {
    let [now, at_rest] = gaps(row, newcomer, leader);
    let level = leader.position == newcomer.position;
    vec![
        ("enter: one below the tail ahead", no == 0 && now == 1),
        ("enter: rests one below it", no == 0 && at_rest == 1),
        ("25: level with the tail", no == 25 && now == 0),
        ("25: one past the tail", no == 25 && now == -1),
        ("25: along the carrier", no == 25 && now < -1),
        ("25: level with the front", no == 25 && level),
        ("25: rests level with the tail", no == 25 && at_rest == 0),
        ("25: behind no room", no == 25 && leader.tail() <= 0),
    ]
}

/// Entries with a length by the carrier behind.
fn behind_edges(row: &Row, newcomer: Carrier, follower: Carrier, no: u32) -> Edges {
    let [now, at_rest] = gaps(row, follower, newcomer);
    vec![
        ("enter: tail one above the one behind", no == 0 && now == 1),
        ("enter: tail rests one above it", no == 0 && at_rest == 1),
        ("26: tail level with the one behind", no == 26 && now == 0),
        ("26: tail rests level with it", no == 26 && at_rest == 0),
        ("26: tail past the one behind", no == 26 && now < 0),
    ]
}

fn entry_edges(lane: &Lane, row: &Row, newcomer: Carrier, no: u32) -> Edges {
    let mut edges = refused_lengths(lane, newcomer, no);
    if no == 0 {
        edges.extend(accepted_lengths(lane, newcomer));
    }
    if ![0, 25, 26].contains(&no) {
        return edges;
    }
    let [ahead, behind] = neighbours(lane, newcomer);
    if let Some(leader) = ahead.filter(|leader| leader.length > 0) {
        edges.extend(ahead_edges(row, newcomer, leader, no));
    }
    if let Some(follower) = behind.filter(|_| newcomer.length > 0) {
        edges.extend(behind_edges(row, newcomer, follower, no));
    }
    edges
}

/// The wishes of a cycle that ran, and who is gone after it.
fn cycle_edges(lane: &Lane, row: &Row, wishes: &[Wish; PLACES], word: u64) -> Edges {
    let (present, road) = (lane.present(), lane.road);
    let mut edges = Vec::new();
    for (place, &carrier) in present.iter().enumerate() {
        let wished = wishes[place].trimmed(row, road.limit, carrier);
        let wished = wished.expect("the cycle ran");
        let replaced = word >> place & 1 == 1;
        let leader = place.checked_sub(1).map(|ahead| present[ahead]);
        if let Some(leader) = leader.filter(|leader| leader.length > 0) {
            let gap = gaps(row, carrier.after(wished), leader)[1];
            let past = leader.position >= road.end;
            edges.extend([
                ("wish: stands, one below the tail", !replaced && gap == 1),
                ("wish: replaced, level with it", replaced && gap == 0),
                ("wish: replaced, one past it", replaced && gap == -1),
                ("wish: behind a front past the end", past),
            ]);
        }
        let braking = carrier.braking(carrier.guaranteed_braking(row));
        let moved = carrier.after(if replaced { braking } else { wished });
        let to_end = moved.tail() - road.end as i64;
        let (long, past) = (carrier.length > 0, moved.position >= road.end);
        edges.extend([
            ("gone: the tail at the end", long && to_end == 0),
            ("gone: the tail one past the end", long && to_end == 1),
            ("stays: the tail one before the end", long && to_end == -1),
            ("stays: the front past the end", past && to_end < 0),
        ]);
    }
    edges
}

/// Each call on a lane whose foremost carrier has its front past the end.
fn past_end_call(call: &Call, outcome: &Outcome) -> &'static str {
    match (call, outcome) {
        (Call::Start { .. }, _) => "front past the end: start",
        (Call::Enter { .. }, Ok(_)) => "front past the end: enter accepted",
        (Call::Enter { .. }, Err(_)) => "front past the end: enter refused",
        (Call::Leave { .. }, Ok(_)) => "front past the end: leave accepted",
        (Call::Leave { .. }, Err(_)) => "front past the end: leave refused",
        (Call::Cycle { .. }, Ok(_)) => "front past the end: cycle accepted",
        (Call::Cycle { .. }, Err(_)) => "front past the end: cycle refused",
        (Call::Read { .. }, Ok(_)) => "front past the end: read accepted",
        (Call::Read { .. }, Err(_)) => "front past the end: read refused",
        (Call::FindOpening { .. }, Ok(_)) => "front past the end: question accepted",
        (Call::FindOpening { .. }, Err(_)) => "front past the end: question refused",
        (Call::LaneText { .. }, Ok(_)) => "front past the end: lane text accepted",
        (Call::LaneText { .. }, Err(_)) => "front past the end: lane text refused",
        (Call::Handover { .. }, Ok(_)) => "front past the end: handover accepted",
        (Call::Handover { .. }, Err(_)) => "front past the end: handover refused",
        (Call::Surface { .. }, Ok(_)) => "front past the end: surface accepted",
        (Call::Surface { .. }, Err(_)) => "front past the end: surface refused",
        (Call::Load { .. }, _) => "front past the end: load",
    }
}

fn edges(before: &Lane, call: &Call, outcome: &Outcome) -> Edges {
    let Ok(row) = before.sound_row::<Fast>() else {
        return Vec::new();
    };
    let no = number(outcome);
    let mut edges = match (call, outcome) {
        (Call::Enter(newcomer), _) => entry_edges(before, &row, *newcomer, no),
        (Call::Cycle { wishes, .. }, Ok(Answer::Cycled(cycled))) => {
            cycle_edges(before, &row, wishes, cycled.word)
        }
        _ => Vec::new(),
    };
    let foremost = before.present().first();
    if foremost.is_some_and(|foremost| foremost.position >= before.road.end) {
        edges.push((past_end_call(call, outcome), true));
    }
    edges
}

#[test]
fn histories_crowd_the_edges_of_lengths() {
    let mut met = Met::new();
    each_call(|before, call, outcome, _| add(&mut met, edges(before, call, outcome)));
    assert!(met.values().all(|&times| times > 5), "{met:?}");
}

/// Lanes as a host may hand them in, judged by lengths alone.
fn lane_edges(lane: &Lane) -> Edges {
    let present = lane.present();
    let foremost = present[0];
    let front_past = foremost.position >= lane.road.end;
    let tail = i128::from(foremost.position) - i128::from(foremost.length);
    let (long, to_end) = (foremost.length > 0, tail - i128::from(lane.road.end));
    let any = |found: fn(&Carrier) -> bool| present.iter().any(found);
    let of = |length: u64| present.iter().any(|carrier| carrier.length == length);
    let level = present.windows(2).any(|pair| {
        let ahead = pair[0].position.checked_sub(pair[0].length);
        pair[0].length > 0 && ahead == Some(pair[1].position)
    });
    let before_start = any(|carrier| carrier.position < carrier.length);
    let wraps = any(|carrier| carrier.position.checked_add(carrier.length).is_none());
    vec![
        ("front past the end", front_past && to_end < 0),
        ("tail one before the end", front_past && to_end == -1),
        ("tail at the end", long && to_end == 0),
        ("tail one past the end", long && to_end == 1),
        ("level with the tail ahead", level),
        ("tail before the start", before_start),
        ("length 65,535", of(65_535)),
        ("length 65,536", of(65_536)),
        ("length 2^32 - 1", of(u32::MAX.into())),
        (
            "length above 32 bits",
            any(|carrier| carrier.length >> 32 > 0),
        ),
        ("length 2^64 - 1", of(u64::MAX)),
        ("a sum that wraps", wraps),
    ]
}

fn met_on_lanes(lane: fn(&mut Random) -> Lane) -> Met {
    let (mut random, mut met) = (Random::new(13), Met::new());
    for _ in 0..20_000 {
        let lane = lane(&mut random);
        if !lane.present().is_empty() {
            add(&mut met, lane_edges(&lane));
        }
    }
    met
}

#[test]
fn lanes_handed_in_crowd_the_edges_of_lengths() {
    let (sound, unsound) = (met_on_lanes(sound_lane), met_on_lanes(unsound_lane));
    for edge in [
        "front past the end",
        "tail one before the end",
        "tail before the start",
        "length 65,535",
    ] {
        assert!(sound[edge] > 50, "{sound:?}");
    }
    assert!(unsound.values().all(|&times| times > 20), "{unsound:?}");
}
