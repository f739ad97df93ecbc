//! Wishes: ranges, conversion to units, trimming, and which of them stand.

mod common;

use common::{carrier, example_lane, lane, wishes};
use lane_reference::random::{Random, FLOAT_EDGES};
use lane_reference::{Cycled, Row, Supervisor, Wish};

const SIGN: u32 = 0x8000_0000;

/// Present speeds, even and odd, at both ends of their range and between.
const SPEEDS: [u64; 6] = [0, 1, 76, 77, 8_191, 8_192];

#[test]
fn accelerations_of_the_documents() {
    let edges = [
        (0xBD000000, Some(0)),
        (0x3D000000, Some(0)),
        (0x80000001, Some(0)),
        (0x3DC00000, Some(2)),
        (0xBDC00000, Some(-2)),
        (0x41800000, Some(256)),
        (0xC1800000, Some(-256)),
        (0x41800001, None),
        (0xC1800001, None),
        (0x7FC00000, None),
        (0x7F800000, None),
        (0xFF800000, None),
        (0x80000000, Some(0)),
    ];
    for (bits, units) in edges {
        assert_eq!(Wish::Acceleration(bits).units(0), units, "{bits:08X}");
    }
}

#[test]
fn target_speeds_at_their_ends() {
    let edges = [
        (0x427FFBFF, Some(8_191 - 5)),
        (0x427FFC00, Some(8_192 - 5)),
        (0x42800000, Some(8_192 - 5)),
        (0x42800001, None),
        (0x00000000, Some(-5)),
        (0x80000000, Some(-5)),
        (0x80000001, None),
        (0x00000001, Some(-5)),
        (0x3B800000, Some(-5)),
        (0x3B800001, Some(1 - 5)),
        (0x3C000000, Some(1 - 5)),
        (0xBF800000, None),
        (0xFFC00000, None),
        (0x7F800000, None),
    ];
    for (bits, units) in edges {
        assert_eq!(Wish::TargetSpeed(bits).units(5), units, "{bits:08X}");
    }
}

/// Doubles hold 128 times any single exactly, so they may serve as a check.
#[test]
fn conversion_agrees_with_doubles() {
    let nearest = |value: f64| value.round_ties_even() as i64;
    let mut random = Random::new(1);
    let any = (0..2_000_000).map(|_| random.bits() as u32);
    for bits in FLOAT_EDGES.into_iter().chain(any) {
        let value = f64::from(f32::from_bits(bits));
        let acceleration = (-16.0..=16.0)
            .contains(&value)
            .then(|| nearest(16.0 * value));
        let target = (0.0..=64.0)
            .contains(&value)
            .then(|| nearest(128.0 * value));
        for speed in [76, 77] {
            let units = Wish::Acceleration(bits).units(speed);
            assert_eq!(units, acceleration, "{bits:08X} at {speed}");
            let gained = target.map(|target| target - speed as i64);
            let units = Wish::TargetSpeed(bits).units(speed);
            assert_eq!(units, gained, "{bits:08X} at {speed}");
        }
    }
}

/// The half between `below` units and the next, and one pattern to either side of
/// it, each with what it is rounded to; `scale` units make 1 m/s² or 1 m/s.
fn about_half(below: i64, scale: f32) -> [(u32, i64); 3] {
    // Exact: a number of at most 14 bits over a power of two.
    let half = ((below as f32 + 0.5) / scale).to_bits();
    let even = if below % 2 == 0 { below } else { below + 1 };
    [(half - 1, below), (half, even), (half + 1, below + 1)]
}

#[test]
fn every_half_of_an_acceleration() {
    for (bits, rounded) in (0..256).flat_map(|below| about_half(below, 16.0)) {
        for speed in SPEEDS {
            let units = Wish::Acceleration(bits).units(speed);
            assert_eq!(units, Some(rounded), "{bits:08X} at {speed}");
            let units = Wish::Acceleration(bits | SIGN).units(speed);
            assert_eq!(units, Some(-rounded), "minus {bits:08X} at {speed}");
        }
    }
}

#[test]
fn every_half_of_a_target_speed() {
    for (bits, rounded) in (0..8_192).flat_map(|below| about_half(below, 128.0)) {
        for speed in SPEEDS {
            let units = Wish::TargetSpeed(bits).units(speed);
            let gained = rounded - speed as i64;
            assert_eq!(units, Some(gained), "{bits:08X} at {speed}");
        }
    }
}

/// Were an odd speed taken off first, the other unit would be the even one.
#[test]
fn the_speed_is_taken_off_after_rounding() {
    let cases = [
        (0x3B800000, 1, -1),
        (0x3B800000, 2, -2),
        (0x3C400000, 1, 1),
        (0x3C400000, 2, 0),
        (0x3C400000, 3, -1),
        (0x3CA00000, 1, 1),
        (0x3CA00000, 5, -3),
        (0x427FFC00, 8_191, 1),
        (0x427FFC00, 8_192, 0),
    ];
    for (bits, speed, units) in cases {
        let wished = Wish::TargetSpeed(bits).units(speed);
        assert_eq!(wished, Some(units), "{bits:08X} at {speed}");
    }
}

#[test]
fn a_half_leads_to_the_same_speed_from_any_other() {
    for (bits, reached) in [(0x3B800000, 0), (0x3C400000, 2), (0x3CA00000, 2)] {
        for speed in 0..=128 {
            let mut lane = lane(0, 10_000, 1_000, &[(7, 1_000, speed)]);
            lane.cycle(1, &wishes(&[Wish::TargetSpeed(bits)]))
                .expect("sound");
            assert_eq!(lane.present()[0].speed, reached, "{bits:08X} at {speed}");
        }
    }
}

/// Those below zero are no target speeds, but negative zero is.
#[test]
fn zeros_and_the_least_numbers_are_no_units() {
    for bits in [0x00000000, 0x00000001, 0x00400000, 0x007FFFFF, 0x00800000] {
        let negative = bits | SIGN;
        assert_eq!(Wish::Acceleration(bits).units(5), Some(0), "{bits:08X}");
        assert_eq!(Wish::Acceleration(negative).units(5), Some(0), "{bits:08X}");
        assert_eq!(Wish::TargetSpeed(bits).units(5), Some(-5), "{bits:08X}");
        let target = Wish::TargetSpeed(negative).units(5);
        assert_eq!(target, (bits == 0).then_some(-5), "{bits:08X}");
    }
}

#[test]
fn trimmed_to_surface_speed_and_limit() {
    let row = &Row::new(64, 128, 32);
    let trimmed = |units, speed| Wish::Units(units).trimmed(row, 1_000, carrier(1, 0, speed));
    assert_eq!(trimmed(-129, 500), Some(-128));
    assert_eq!(trimmed(-128, 500), Some(-128));
    assert_eq!(trimmed(-101, 100), Some(-100));
    assert_eq!(trimmed(33, 500), Some(32));
    assert_eq!(trimmed(33, 990), Some(10));
    assert_eq!(trimmed(i16::MIN, 0), Some(0));
    assert_eq!(trimmed(i16::MAX, 1_000), Some(0));
    assert_eq!(Wish::Hold.trimmed(row, 1_000, carrier(1, 0, 7)), Some(0));
}

#[test]
fn level_at_rest_is_replaced_and_one_more_stands() {
    let wishes = wishes(&[Wish::Hold, Wish::Units(32)]);
    let mut near = example_lane(1_020);
    let cycled = near.cycle(2, &wishes).expect("a sound lane");
    assert_eq!((cycled.word, cycled.replaced, cycled.gone), (2, 1, 0));
    assert_eq!(near.present()[1], carrier(8, 764, 0));

    let mut far = example_lane(1_021);
    let cycled = far.cycle(2, &wishes).expect("a sound lane");
    assert_eq!(cycled, Cycled::default());
    assert_eq!(far.present()[1], carrier(8, 860, 96));
}

#[test]
fn any_wish_of_the_foremost_stands() {
    let mut lane = lane(0, 10_000, 1_000, &[(7, 9_000, 500)]);
    let cycled = lane.cycle(1, &wishes(&[Wish::Units(32)])).expect("sound");
    assert_eq!(
        cycled,
        Cycled {
            word: 0,
            replaced: 0,
            gone: 1
        }
    );
    assert!(lane.present().is_empty());
}

#[test]
fn guaranteed_braking_or_harder_always_stands() {
    for units in [-64, -65, -128] {
        // Rests 1 short of where the leader stands: as tight as can be.
        let mut lane = lane(0, 10_000, 1_000, &[(7, 1_000, 0), (8, 1_000 - 161, 96)]);
        let cycled = lane
            .cycle(2, &wishes(&[Wish::Hold, Wish::Units(units)]))
            .expect("sound");
        assert_eq!(cycled.word, 0, "units {units}");
    }
    let mut lane = lane(0, 10_000, 1_000, &[(7, 1_000, 0), (8, 1_000 - 161, 96)]);
    let cycled = lane
        .cycle(2, &wishes(&[Wish::Hold, Wish::Units(-63)]))
        .expect("sound");
    assert_eq!(cycled.word, 2);
}

/// The carrier ahead counts with its old state, and as braking its hardest.
#[test]
fn the_leader_counts_as_at_the_start() {
    let mut lane = lane(0, 10_000, 1_000, &[(7, 1_000, 128), (8, 871, 96)]);
    // S(128, 128) = 128, so the follower must rest below 1128; from 871 with
    // 96 held it rests at 871 + 192 + 160 = 1223, by then below the leader.
    let cycled = lane
        .cycle(2, &wishes(&[Wish::Units(32), Wish::Hold]))
        .expect("sound");
    assert_eq!(cycled.word, 2);
}

#[test]
fn gone_is_looked_at_when_all_have_moved() {
    // The leader leaves in this cycle, yet the follower still heeds it.
    let mut lane = lane(0, 1_000, 1_000, &[(7, 999, 1), (8, 838, 96)]);
    let cycled = lane
        .cycle(2, &wishes(&[Wish::Hold, Wish::Hold]))
        .expect("sound");
    assert_eq!(
        cycled,
        Cycled {
            word: 2,
            replaced: 1,
            gone: 1
        }
    );
    assert_eq!(lane.present(), [carrier(8, 838 + 128, 32)]);
    assert_eq!(lane.cycle, 1);
}
