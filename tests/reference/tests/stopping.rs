//! Stopping distances and the two-carrier rule.

mod common;

use common::carrier;
use lane_reference::headway::safe_behind;
use lane_reference::stopping::{distance, fast, Fast, Summed};
use lane_reference::Row;

#[test]
fn edges_of_the_paper() {
    let edges = [
        (3, 7, 17),
        (5, 7, 11),
        (255, 100, 100),
        (1, 8_192, 67_108_864),
        (64, 96, 160),
        (6, 0, 0),
    ];
    for (rate, speed, expected) in edges {
        assert_eq!(distance(rate, speed), expected, "S({rate}, {speed})");
        assert_eq!(fast(rate, speed), expected, "S({rate}, {speed}), closed");
    }
}

#[test]
fn closed_form_equals_the_sum() {
    for rate in 1..=300 {
        for speed in (0..=8_192).step_by(if rate < 8 { 7 } else { 1 }) {
            let sum = distance(rate, speed);
            assert_eq!(fast(rate, speed), sum, "S({rate}, {speed})");
            let (c, v) = (u64::from(rate), u64::from(speed));
            let r = v % c;
            assert_eq!(c * sum, v * v + r * (c - r), "c × S({rate}, {speed})");
        }
    }
}

#[test]
#[should_panic(expected = "does not stop")]
fn a_rate_of_zero_never_stops() {
    distance(0, 1);
}

#[test]
fn gap_of_six_is_unsafe_and_of_seven_safe() {
    let row = Row::new(3, 5, 1);
    let leader = carrier(1, 100, 7);
    for (gap, safe) in [(6, false), (7, true)] {
        let follower = carrier(2, 100 - gap, 7);
        assert_eq!(safe_behind::<Summed>(&row, follower, leader), safe);
        assert_eq!(safe_behind::<Fast>(&row, follower, leader), safe);
    }
}

#[test]
fn level_is_never_safe() {
    // The leader would rest far ahead, but both are at one position.
    let (follower, leader) = (carrier(2, 100, 0), carrier(1, 100, 500));
    let row = Row::new(64, 128, 32);
    assert!(!safe_behind::<Summed>(&row, follower, leader));
}
