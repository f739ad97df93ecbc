//! Looking up a number, the calls that do so, and random calls at its edges.

mod common;

use common::edges::each_call;
use common::{carrier, full_lane, refused};
use lane_reference::{Call, FastLane, Gap, Lane, Lookup, Refusal, Supervisor};
use std::collections::BTreeMap;

/// The first so many carriers of the full lane, numbered from 1; the others'
/// numbers stay behind in idle records.
fn lane_of(count: u64) -> Lane {
    Lane {
        count,
        ..full_lane()
    }
}

fn found(place: usize, looked_at: usize) -> Lookup {
    let place = Some(place);
    Lookup { place, looked_at }
}

fn absent(looked_at: usize) -> Lookup {
    let place = None;
    Lookup { place, looked_at }
}

#[test]
fn a_lookup_ends_at_the_find() {
    for count in [1, 2, 8, 63, 64] {
        let lane = lane_of(count);
        for (place, number) in (1..=count).enumerate() {
            assert_eq!(lane.look_up(number), found(place, place + 1), "of {count}");
        }
    }
}

#[test]
fn a_lookup_ends_at_the_last_carrier_present() {
    for count in [0, 1, 8, 63, 64] {
        let lane = lane_of(count);
        // The first of these is in the record right behind the last carrier, if there is one.
        for number in [count + 1, 65, 0, 65_536, 1 + (1 << 32), u64::MAX] {
            assert_eq!(lane.look_up(number), absent(count as usize), "{number}");
        }
    }
}

#[test]
fn of_a_number_that_stands_twice_the_first_is_found() {
    let mut lane = lane_of(8);
    lane.carriers[5].number = 3;
    lane.carriers[7].number = 3;
    assert_eq!(lane.look_up(3), found(2, 3));
    assert_eq!(lane.look_up(6), absent(8));
    lane.carriers[8].number = 8;
    assert_eq!(lane.look_up(8), absent(8), "it is idle");
    lane.count = 9;
    assert_eq!(lane.look_up(8), found(8, 9));
}

#[test]
fn a_broken_lane_can_be_looked_at_too() {
    for count in [65, 128, 1 << 32, u64::MAX] {
        let mut lane = lane_of(count);
        lane.started = false;
        assert_eq!(lane.look_up(64), found(63, 64), "count {count}");
        assert_eq!(lane.look_up(65), absent(64), "count {count}");
        lane.carriers[40].number = u64::MAX;
        assert_eq!(lane.look_up(u64::MAX), found(40, 41), "count {count}");
    }
    let empty = Lane {
        count: 2,
        ..Lane::default()
    };
    assert_eq!(empty.look_up(0), found(0, 1));
    assert_eq!(empty.look_up(1), absent(2));
}

#[test]
fn leave_and_read_go_as_far_as_the_last_carrier_and_no_further() {
    for count in [1, 8, 63, 64] {
        let lane = lane_of(count);
        for number in [1, count.div_ceil(2), count] {
            let expected = lane.carriers[number as usize - 1];
            let reading = lane.read(number).expect("present");
            assert_eq!(reading.position * 2048.0, expected.position as f64);
            let mut after = FastLane(lane);
            assert_eq!(after.leave(number), Ok(()));
            let others = (1..=count).filter(|&other| other != number);
            let left = after.0.present().iter().map(|carrier| carrier.number);
            assert!(left.eq(others), "{number} left {count}");
        }
    }
    for count in [0, 1, 8, 63, 64] {
        let number = count + 1;
        refused(&lane_of(count), 24, Call::Leave { number });
        refused(&lane_of(count), 24, Call::Read { number });
    }
}

#[test]
fn enter_goes_as_far_as_the_last_carrier_and_no_further() {
    for count in [0, 1, 8, 63] {
        let lane = lane_of(count);
        for number in 1..=count {
            refused(&lane, 23, Call::Enter(carrier(number, 9_000, 0)));
        }
        let newcomer = carrier(count + 1, 9_000, 0);
        assert_eq!(FastLane(lane).enter(newcomer), Ok(0), "of {count}");
    }
}

/// The call's name, the most carriers with which it looks a number up, and the
/// number.
fn asked(call: &Call) -> Option<(&'static str, usize, u64)> {
    match *call {
        Call::Enter(newcomer) => Some(("enter", 63, newcomer.number)),
        Call::Leave { number } => Some(("leave", 64, number)),
        Call::Read { number } => Some(("read", 64, number)),
        Call::FindOpening {
            gap: Gap::Behind(number),
            ..
        } => Some(("question", 64, number)),
        _ => None,
    }
}

/// Whether a call that looks a number up came as far as that.
fn looked_up<Answer>(answer: &Result<Answer, Refusal>) -> bool {
    answer
        .as_ref()
        .map_or_else(|refusal| (23..=26).contains(&refusal.number()), |_| true)
}

/// Where a lookup that goes too far, or not far enough, shows.
fn edges(lane: &Lane, most: usize, number: u64) -> [(&'static str, bool); 6] {
    let (count, place) = (lane.present().len(), lane.look_up(number).place);
    let (absent, last) = (place.is_none(), place.is_some_and(|at| at + 1 == count));
    let idle = lane.carriers.get(count).map(|idle| idle.number);
    [
        ("first", place == Some(0)),
        ("last", last && count > 1),
        ("last of the most", last && count == most),
        ("absent on none", absent && count == 0),
        ("absent on the most", absent && count == most),
        ("left behind", absent && idle == Some(number)),
    ]
}

#[test]
fn histories_crowd_the_edges_of_a_lookup() {
    let mut met = BTreeMap::new();
    each_call(|before, call, outcome, _| {
        let Some((name, most, number)) = asked(call).filter(|_| looked_up(outcome)) else {
            return;
        };
        for (edge, there) in edges(before, most, number) {
            *met.entry((name, edge)).or_insert(0) += u32::from(there);
        }
    });
    assert!(
        met.len() == 4 * 6 && met.values().all(|&times| times > 5),
        "{met:?}"
    );
}
