//! Short ways to lanes, wishes and texts.
#![allow(dead_code)]

pub mod edges;
pub mod handover;

use lane_reference::random::table_text;
use lane_reference::road_book::Checker;
use lane_reference::stopping::Summed;
use lane_reference::{
    Answer, Call, Carrier, Gap, Lane, Newcomer, Refusal, Road, Supervisor, Table, Wish, PLACES,
};

/// A carrier of no length, which brakes as every row asks, from number, position
/// and speed.
pub fn carrier(number: u64, position: u64, speed: u64) -> Carrier {
    long_carrier(number, position, speed, 0)
}

/// As [`carrier`], with a length.
pub fn long_carrier(number: u64, position: u64, speed: u64, length: u64) -> Carrier {
    Carrier {
        number,
        position,
        speed,
        length,
        rate: 255,
    }
}

/// As [`carrier`], with an own rate.
pub fn rated_carrier(number: u64, position: u64, speed: u64, rate: u64) -> Carrier {
    Carrier {
        rate,
        ..carrier(number, position, speed)
    }
}

/// A newcomer from speed, length and own rate.
pub fn newcomer(speed: u64, length: u64, rate: u64) -> Newcomer {
    Newcomer {
        speed,
        length,
        rate,
    }
}

/// The question where one could enter.
pub fn ask(gap: Gap, newcomer: Newcomer) -> Call {
    Call::FindOpening { gap, newcomer }
}

/// The place that one gets who enters in the gap, behind a carrier that is there.
pub fn place_in(lane: &Lane, gap: Gap) -> usize {
    let place_of = |number| {
        let mut numbers = lane.present().iter().map(|carrier| carrier.number);
        numbers.position(|there| there == number)
    };
    match gap {
        Gap::AheadOfAll => 0,
        Gap::Behind(number) => 1 + place_of(number).expect("a carrier that is there"),
    }
}

/// A road from surface, end and limit.
pub fn road(surface: u64, end: u64, limit: u64) -> Road {
    Road {
        surface,
        end,
        limit,
    }
}

/// A started lane from cycle 0 on, with carriers as [`carrier`] makes them of
/// number, position and speed, front to back, unchecked.
pub fn lane(surface: u64, end: u64, limit: u64, carriers: &[(u64, u64, u64)]) -> Lane {
    let points = carriers
        .iter()
        .map(|&(number, position, speed)| carrier(number, position, speed));
    lane_of(surface, end, limit, &points.collect::<Vec<_>>())
}

/// As [`lane`], with the carriers themselves.
pub fn lane_of(surface: u64, end: u64, limit: u64, carriers: &[Carrier]) -> Lane {
    let mut lane = Lane::default();
    lane.start(road(surface, end, limit), 0)
        .expect("a good start");
    lane.carriers[..carriers.len()].copy_from_slice(carriers);
    lane.count = carriers.len() as u64;
    lane
}

/// The paper's example lane, with carrier 7 standing at `position`.
pub fn example_lane(position: u64) -> Lane {
    lane(0, 10_000, 1_000, &[(7, position, 0), (8, 700, 64)])
}

/// The first wishes, and hold for the others.
pub fn wishes(first: &[Wish]) -> [Wish; PLACES] {
    let mut wishes = [Wish::Hold; PLACES];
    wishes[..first.len()].copy_from_slice(first);
    wishes
}

/// The calls that look at the whole lane: a start does not.
pub fn calls_that_look() -> [Call; 10] {
    [
        Call::Enter(carrier(0, 0, 0)),
        Call::Leave { number: 0 },
        Call::Read { number: 0 },
        ask(Gap::Behind(0), newcomer(u64::MAX, u64::MAX, 0)),
        ask(Gap::AheadOfAll, newcomer(u64::MAX, u64::MAX, 0)),
        Call::LaneText { room: 0 },
        Call::Handover { room: 0 },
        Call::Surface { surface: 8 },
        Call::Load { text: Vec::new() },
        Call::Cycle {
            count: 9,
            wishes: Box::new(wishes(&[])),
        },
    ]
}

/// A sound lane of 64 carriers at rest, numbered from 1 at the front.
pub fn full_lane() -> Lane {
    let carriers: Vec<(u64, u64, u64)> = (1..=64).map(|n| (n, 1_000 - n, 0)).collect();
    lane(0, 10_000, 1_000, &carriers)
}

/// The text of a table that any lane without carriers may load.
pub fn house_table_text() -> Vec<u8> {
    table_text(&Table::HOUSE)
}

/// Asserts that the call is refused with `number` and leaves the lane as it was.
pub fn refused(lane: &Lane, number: u32, call: Call) {
    let mut after = *lane;
    let answer = after.call(&call);
    assert_eq!(answer.map_err(Refusal::number), Err(number), "{call:?}");
    assert_eq!(after, *lane, "{call:?} changed the lane");
}

/// Asserts that the newcomer gets in at `place`.
pub fn entered(lane: &Lane, newcomer: Carrier, place: usize) {
    let answer = lane.clone().enter(newcomer);
    assert_eq!(answer, Ok(place), "{newcomer:?} on {:?}", lane.present());
}

/// Asserts that every call that looks at the lane gets 21, and that a start doesn't.
pub fn judged_unsound(lane: &Lane) {
    for call in calls_that_look() {
        refused(lane, 21, call);
    }
    let start = Call::Start {
        road: road(0, 1, 1),
        first: 0,
    };
    assert_eq!(lane.clone().call(&start), Ok(Answer::Started));
}

/// Lets carriers in on surface 0 one after the other, as an implementation might,
/// safe or not; gives the checker that saw it, and what it says of the last.
pub fn let_in(end: u64, carriers: &[Carrier]) -> (Checker, Result<(), String>) {
    let mut checker = Checker::new(&lane_of(0, end, 1_000, &[]));
    let mut seen = Ok(());
    for count in 1..=carriers.len() {
        let after = lane_of(0, end, 1_000, &carriers[..count]);
        let entry = Call::Enter(carriers[count - 1]);
        seen = checker.observe::<Summed>(&entry, false, 0, &after);
    }
    (checker, seen)
}
