//! Every numbered refusal of the calls, and the order of their checks.

mod common;

use common::{carrier, example_lane, full_lane, lane, refused, road, wishes};
use lane_reference::{Answer, Call, Lane, Refusal, Supervisor, Wish};

const NAN: Wish = Wish::Acceleration(0x7FC00000);

fn start(surface: u64, end: u64, limit: u64) -> Call {
    Call::Start {
        road: road(surface, end, limit),
        first: 5,
    }
}

fn enter(number: u64, position: u64, speed: u64) -> Call {
    Call::Enter(carrier(number, position, speed))
}

fn cycle(count: u64, first: &[Wish]) -> Call {
    Call::Cycle {
        count,
        wishes: Box::new(wishes(first)),
    }
}

#[test]
fn start_refuses_1_2_3_in_order() {
    for lane in [Lane::default(), example_lane(1_000)] {
        refused(&lane, 1, start(8, 0, 0));
        refused(&lane, 1, start(u64::MAX, 1, 1));
        refused(&lane, 1, start(1 << 32, 1, 1));
        refused(&lane, 2, start(7, 0, 0));
        refused(&lane, 2, start(0, (1 << 31) + 1, 8_193));
        refused(&lane, 2, start(0, (1 << 32) + 1, 8_193));
        refused(&lane, 3, start(0, 1 << 31, 0));
        refused(&lane, 3, start(7, 1, 8_193));
        refused(&lane, 3, start(7, 1, (1 << 32) + 1));
    }
}

#[test]
fn start_accepts_the_ends_of_its_ranges() {
    for (surface, end, limit) in [(0, 1, 1), (7, 1 << 31, 8_192)] {
        let mut lane = example_lane(1_000);
        assert_eq!(lane.call(&start(surface, end, limit)), Ok(Answer::Started));
        assert!(lane.started && lane.present().is_empty());
        assert_eq!((lane.road, lane.cycle), (road(surface, end, limit), 5));
    }
}

#[test]
fn a_lane_never_started_refuses_all_else_with_21() {
    let lane = Lane::default();
    refused(&lane, 21, enter(0, 0, 0));
    refused(&lane, 21, Call::Leave { number: 0 });
    refused(&lane, 21, cycle(9, &[]));
    refused(&lane, 21, Call::Read { number: 0 });
    refused(&lane, 21, Call::LaneText { room: 0 });
    refused(&lane, 21, Call::Surface { surface: 8 });
}

fn changed(change: impl Fn(&mut Lane)) -> Lane {
    let mut lane = example_lane(1_000);
    change(&mut lane);
    lane
}

#[test]
fn a_lane_that_breaks_a_rule_is_21() {
    let broken = [
        changed(|lane| lane.started = false),
        changed(|lane| lane.road.surface = 8),
        changed(|lane| lane.road.end = 0),
        changed(|lane| lane.road.end = (1 << 31) + 1),
        changed(|lane| lane.road.end = 1_000),
        changed(|lane| lane.road.limit = 0),
        changed(|lane| lane.road.limit = 8_193),
        changed(|lane| lane.road.limit = 63),
        changed(|lane| lane.count = 65),
        changed(|lane| lane.count = u64::MAX),
        changed(|lane| lane.count = 2 + (1 << 32)),
        changed(|lane| lane.road.surface = 1 << 32),
        changed(|lane| lane.road.end = 10_000 + (1 << 32)),
        changed(|lane| lane.road.limit = 1_000 + (1 << 32)),
        changed(|lane| lane.carriers[0].number = 0),
        changed(|lane| lane.carriers[0].number = 65_536),
        changed(|lane| lane.carriers[1].number = 8 + (1 << 32)),
        changed(|lane| lane.carriers[1].number = 7),
        changed(|lane| lane.carriers[0].speed = 1_001),
        changed(|lane| lane.carriers[0].speed = 1 << 32),
        changed(|lane| lane.carriers[0].position = 10_000),
        changed(|lane| lane.carriers[1].position = 1_000),
        changed(|lane| lane.carriers[1].position = 700 + (1 << 32)),
        changed(|lane| lane.carriers[1].position = 1_000 - 64),
        changed(|lane| lane.carriers.swap(0, 1)),
    ];
    for lane in broken {
        refused(&lane, 21, enter(0, 0, 0));
        refused(&lane, 21, Call::Leave { number: 0 });
        refused(&lane, 21, cycle(9, &[]));
        refused(&lane, 21, Call::Read { number: 0 });
        refused(&lane, 21, Call::LaneText { room: 0 });
        refused(&lane, 21, Call::Surface { surface: 8 });
        let mut started = lane;
        assert_eq!(started.call(&start(0, 1, 1)), Ok(Answer::Started));
    }
}

#[test]
fn a_lane_just_within_the_rules_is_sound() {
    let sound = [
        changed(|lane| lane.road.end = 1_001),
        changed(|lane| lane.road.limit = 64),
        changed(|lane| lane.carriers[1].position = 1_000 - 65),
        // Idle places may hold anything.
        changed(|lane| lane.carriers[2] = carrier(7, u64::MAX, u64::MAX)),
        full_lane(),
    ];
    for lane in sound {
        assert!(lane.read(7).is_ok());
    }
}

#[test]
fn a_number_twice_is_found_wherever_it_stands() {
    // The last stride gives numbers that agree in all their low bits.
    for stride in [1, 1_023, 1_024] {
        let mut lane = full_lane();
        for (place, carrier) in (0..).zip(&mut lane.carriers) {
            carrier.number = 1 + stride * place;
        }
        assert!(lane.read(1).is_ok());
        for place in 1..64 {
            for ahead in 0..place {
                let mut twice = lane;
                twice.carriers[place].number = twice.carriers[ahead].number;
                refused(&twice, 21, Call::Read { number: 1 });
            }
        }
    }
}

#[test]
fn enter_checks_in_order() {
    let lane = example_lane(1_000);
    refused(&lane, 4, enter(0, 10_000, 1_001));
    refused(&lane, 4, enter(65_536, 10_000, 1_001));
    refused(&lane, 4, enter(9 + (1 << 32), 10_000, 1_001));
    refused(&lane, 5, enter(7, 10_000, 1_001));
    refused(&lane, 5, enter(9, u64::MAX, 0));
    refused(&lane, 5, enter(9, 1 << 32, 0));
    refused(&lane, 6, enter(7, 1_000, 1_001));
    refused(&lane, 6, enter(7, 1_000, 1 << 32));
    refused(&lane, 23, enter(7, 1_000, 0));
    refused(&lane, 25, enter(9, 1_000, 0));
    let full = full_lane();
    refused(&full, 4, enter(0, 10_000, 1_001));
    refused(&full, 5, enter(5, 10_000, 1_001));
    refused(&full, 6, enter(5, 9_999, 1_001));
    refused(&full, 22, enter(5, 999, 0));
    refused(&full, 22, enter(500, 9_999, 0));
}

#[test]
fn enter_is_safe_or_not_by_one() {
    // S(64, 96) = 160: behind the standing leader from 839 down.
    let lane = lane(0, 10_000, 1_000, &[(7, 1_000, 0)]);
    refused(&lane, 25, enter(8, 840, 96));
    assert_eq!(lane.clone().enter(carrier(8, 839, 96)), Ok(1));
    // Carrier 8 would rest at 999, so one standing at 1000 may go ahead of it.
    let behind = common::lane(0, 10_000, 1_000, &[(8, 839, 96)]);
    refused(&behind, 26, enter(7, 999, 0));
    refused(&behind, 26, enter(7, 840, 0));
    assert_eq!(behind.clone().enter(carrier(7, 1_000, 0)), Ok(0));
}

#[test]
fn enter_gives_the_place_and_shifts_the_rest() {
    let mut lane = lane(
        0,
        10_000,
        1_000,
        &[(1, 3_000, 0), (2, 2_000, 0), (3, 1_000, 0)],
    );
    assert_eq!(lane.enter(carrier(4, 1_500, 0)), Ok(2));
    assert_eq!(lane.enter(carrier(5, 9_999, 1_000)), Ok(0));
    assert_eq!(lane.enter(carrier(6, 0, 0)), Ok(5));
    let numbers: Vec<u64> = lane
        .present()
        .iter()
        .map(|carrier| carrier.number)
        .collect();
    assert_eq!(numbers, [5, 1, 2, 4, 3, 6]);
}

#[test]
fn leave_checks_in_order() {
    let mut lane = example_lane(1_000);
    for number in [0, 65_536, 7 + (1 << 32), u64::MAX] {
        refused(&lane, 4, Call::Leave { number });
    }
    refused(&lane, 24, Call::Leave { number: 9 });
    assert_eq!(lane.leave(7), Ok(()));
    assert_eq!(lane.present(), [carrier(8, 700, 64)]);
    refused(&lane, 24, Call::Leave { number: 7 });
}

#[test]
fn cycle_checks_in_order() {
    let mut lane = example_lane(1_000);
    lane.cycle = u64::MAX;
    refused(&lane, 27, cycle(3, &[NAN]));
    refused(&lane, 27, cycle(1, &[NAN]));
    refused(&lane, 28, cycle(2, &[NAN]));
    lane.cycle = u64::MAX - 1;
    refused(&lane, 7, cycle(2, &[NAN]));
    refused(
        &lane,
        7,
        cycle(2, &[Wish::Hold, Wish::Acceleration(0x41800001)]),
    );
    refused(
        &lane,
        7,
        cycle(2, &[Wish::Hold, Wish::TargetSpeed(0x80000001)]),
    );
    assert!(lane
        .call(&cycle(
            2,
            &[Wish::Hold, Wish::Acceleration(0x41800000), NAN]
        ))
        .is_ok());
    assert_eq!(lane.cycle, u64::MAX);
    refused(&lane, 28, cycle(2, &[]));
}

/// Asserts that the cycle is refused with `number` and leaves the lane as it was.
fn refused_given(lane: &Lane, number: u32, count: u64, sorts: &[u8], values: &[u32]) {
    let mut after = *lane;
    let answer = after.cycle_given(count, sorts, values);
    assert_eq!(answer.map_err(Refusal::number), Err(number));
    assert_eq!(after, *lane, "a refusal changed the lane");
}

#[test]
fn a_cycle_of_numbers_checks_in_order() {
    const NAN: u32 = 0x7FC00000;
    let mut lane = example_lane(1_000);
    refused_given(&Lane::default(), 21, 3, &[], &[]);
    lane.cycle = u64::MAX;
    refused_given(&lane, 27, 3, &[4], &[]);
    refused_given(&lane, 28, 2, &[4], &[]);
    lane.cycle = 0;
    refused_given(&lane, 12, 2, &[4], &[NAN, NAN]);
    refused_given(&lane, 12, 2, &[1, 4], &[NAN]);
    refused_given(&lane, 11, 2, &[1, 4], &[NAN, 0]);
    refused_given(&lane, 11, 2, &[0, 1], &[0x8000, NAN]);
    refused_given(&lane, 11, 2, &[3, 0], &[0, 0xFFFF_7FFF]);
    refused_given(&lane, 7, 2, &[1, 0], &[NAN, 0]);
    refused_given(&lane, 7, 2, &[0, 2], &[0, NAN]);
    // What follows the first two is not looked at.
    let cycled = lane.cycle_given(2, &[3, 0, 4], &[9, 32, NAN]);
    assert_eq!(cycled.map(|cycled| cycled.word), Ok(2));
}

#[test]
fn read_is_exact() {
    let lane = lane(
        7,
        1 << 31,
        8_192,
        &[(65_535, (1 << 31) - 1, 8_191), (1, 1, 1)],
    );
    for number in [0, 65_536, 1 + (1 << 32), u64::MAX] {
        refused(&lane, 4, Call::Read { number });
    }
    refused(&lane, 24, Call::Read { number: 2 });
    let front = lane.read(65_535).expect("present");
    assert_eq!(front.position, 1_048_576.0 - 1.0 / 2048.0);
    assert_eq!(front.speed, 64.0 - 1.0 / 128.0);
    let rear = lane.read(1).expect("present");
    assert_eq!((rear.position * 2048.0, rear.speed * 128.0), (1.0, 1.0));
}

#[test]
fn lane_text_needs_its_length_and_leaves_the_rest() {
    let lane = example_lane(1_000);
    let text = b"cars=2\ncar=7\nat=1000\nspeed=0\nlength=0\nbrake=255\n\
        car=8\nat=700\nspeed=64\nlength=0\nbrake=255\n";
    let mut buffer = vec![0xA5; text.len() + 3];
    assert_eq!(lane.lane_text(&mut buffer), Ok(text.len()));
    assert_eq!(&buffer[..text.len()], text);
    assert_eq!(&buffer[text.len()..], [0xA5; 3]);

    let mut exact = vec![0xA5; text.len()];
    assert_eq!(lane.lane_text(&mut exact), Ok(text.len()));
    let mut short = vec![0xA5; text.len() - 1];
    assert_eq!(lane.lane_text(&mut short), Err(Refusal::BufferTooShort));
    assert!(short.iter().all(|&byte| byte == 0xA5));
}
