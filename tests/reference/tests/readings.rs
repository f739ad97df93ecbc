//! The paper's ambiguities as they are settled, as far as the calls go; the
//! texts' own are with the texts.

mod common;

use common::{carrier, example_lane, full_lane, lane, road, wishes};
use lane_reference::{Cycled, Lane, Refusal, Supervisor, Wish};

#[test]
fn any_lane_may_be_started() {
    let mut broken = full_lane();
    broken.count = u64::MAX;
    broken.road.surface = 99;
    broken.tables.in_force.0[0].guaranteed_braking = 0;
    assert_eq!(broken.start(road(0, 1, 1), u64::MAX), Ok(()));
    assert_eq!((broken.count, broken.cycle), (0, u64::MAX));
    // The last cycle number is accepted, but no cycle after it.
    assert_eq!(broken.cycle(0, &wishes(&[])), Err(Refusal::CyclesExhausted));
}

#[test]
fn a_refused_start_changes_nothing() {
    let mut never = Lane::default();
    assert!(never.start(road(8, 1, 1), 0).is_err());
    assert_eq!(never, Lane::default());
    let mut running = example_lane(1_000);
    assert!(running.start(road(0, 0, 1), 0).is_err());
    assert!(running.read(7).is_ok());
}

#[test]
fn an_entry_level_with_a_carrier_is_25() {
    let mut lane = lane(0, 10_000, 1_000, &[(7, 1_000, 0)]);
    for speed in [0, 1, 1_000] {
        assert_eq!(
            lane.enter(carrier(8, 1_000, speed)),
            Err(Refusal::UnsafeBehindLeader)
        );
    }
}

#[test]
fn the_order_of_checks_decides() {
    let mut full = full_lane();
    assert_eq!(full.enter(carrier(1, 9_000, 0)), Err(Refusal::LaneFull));
    // Between these two there is no room at either side.
    let mut pair = lane(0, 10_000, 1_000, &[(7, 1_000, 0), (8, 839, 96)]);
    assert_eq!(
        pair.enter(carrier(9, 999, 96)),
        Err(Refusal::UnsafeBehindLeader)
    );
}

#[test]
fn counts_above_64_differ_and_idle_wishes_are_not_looked_at() {
    let mut lane = example_lane(1_000);
    let wild = [Wish::Acceleration(0x7FC00000); 64];
    for count in [65, 1 << 32, (1 << 32) + 2, u64::MAX] {
        assert_eq!(lane.cycle(count, &wild), Err(Refusal::CountDiffers));
    }
    let mut empty = common::lane(0, 10_000, 1_000, &[]);
    assert_eq!(empty.cycle(0, &wild), Ok(Cycled::default()));
    assert_eq!(empty.cycle, 1);
}

#[test]
fn negative_zero_is_a_target_speed_and_the_least_subnormal_below_is_not() {
    let mut lane = lane(0, 10_000, 1_000, &[(7, 1_000, 50)]);
    let least_below = wishes(&[Wish::TargetSpeed(0x80000001)]);
    assert_eq!(lane.cycle(1, &least_below), Err(Refusal::FloatOutOfRange));
    let zero = wishes(&[Wish::TargetSpeed(0x80000000)]);
    assert_eq!(lane.cycle(1, &zero), Ok(Cycled::default()));
    assert_eq!(lane.present(), [carrier(7, 1_050, 0)]);
}

#[test]
fn a_full_lane_drives_and_its_places_serve_again() {
    let mut lane = full_lane();
    let mut wishes = wishes(&[Wish::Units(32)]);
    wishes[63] = Wish::Units(1);
    assert_eq!(
        lane.cycle(64, &wishes).map(|cycled| cycled.word),
        Ok(1 << 63)
    );
    assert_eq!(lane.leave(1), Ok(()));
    assert_eq!(lane.enter(carrier(100, 9_999, 0)), Ok(0));
    assert_eq!(lane.count, 64);
}

#[test]
fn leaving_from_the_middle_keeps_the_lane_sound() {
    let mut lane = full_lane();
    for number in (2..64).step_by(3) {
        assert_eq!(lane.leave(number), Ok(()));
    }
    assert!(lane.read(64).is_ok());
}
