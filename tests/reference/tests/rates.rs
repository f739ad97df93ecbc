//! Own rates: whose braking is reckoned with which rate.

mod common;

use common::{
    carrier, entered, judged_unsound, lane_of, let_in, long_carrier, rated_carrier, refused, wishes,
};
use lane_reference::headway::safe_behind;
use lane_reference::random::{call, sound_lane, Random, CYCLES};
use lane_reference::stopping::{distance, Fast, Summed};
use lane_reference::{Call, Carrier, Cycled, FastLane, Lane, Row, Supervisor, Wish};

/// Own rates about the figures of surface 0, where b is 64 and B is 128, each with
/// what a carrier is guaranteed there, and how far it goes till rest from 96 and
/// from 500.
const RATES: [(u64, u64, u64, u64); 6] = [
    (1, 1, 9_216, 250_000),
    (63, 63, 162, 3_972),
    (64, 64, 160, 3_916),
    (65, 64, 160, 3_916),
    (128, 64, 160, 3_916),
    (255, 64, 160, 3_916),
];

const OUT_OF_RANGE: [u64; 10] = [
    0,
    256,
    257,
    320,
    65_537,
    (1 << 32) - 1,
    1 << 32,
    (1 << 32) + 1,
    1 << 63,
    u64::MAX,
];

/// A lane of surface 0, end 400,000 and limit 1,000.
fn lane(carriers: &[Carrier]) -> Lane {
    lane_of(0, 400_000, 1_000, carriers)
}

fn enter(number: u64, position: u64, speed: u64, rate: u64) -> Call {
    Call::Enter(rated_carrier(number, position, speed, rate))
}

/// All rates with all rates of another carrier, which must not count.
fn rates_beside_others() -> impl Iterator<Item = ((u64, u64, u64, u64), u64)> {
    let beside = |rates| RATES.map(|(other, ..)| (rates, other));
    RATES.into_iter().flat_map(beside)
}

#[test]
fn own_rates_go_from_1_to_255() {
    for rate in [1, 2, 64, 128, 254, 255] {
        entered(&lane(&[]), rated_carrier(7, 5_000, 1_000, rate), 0);
    }
    for rate in OUT_OF_RANGE {
        refused(&lane(&[]), 35, enter(7, 5_000, 1_000, rate));
    }
}

#[test]
fn the_own_rate_is_looked_at_after_the_length_and_before_the_lane_is_full() {
    let two = lane(&[carrier(7, 1_000, 0), carrier(8, 700, 64)]);
    let most = u64::MAX;
    for rate in OUT_OF_RANGE {
        let long = |number, position, speed| {
            let length = 65_536;
            let newcomer = long_carrier(number, position, speed, length);
            Call::Enter(Carrier { rate, ..newcomer })
        };
        refused(&Lane::default(), 21, long(0, most, most));
        refused(&two, 4, long(0, 400_000, 1_001));
        refused(&two, 5, long(7, 400_000, 1_001));
        refused(&two, 6, long(7, 399_999, 1_001));
        refused(&two, 33, long(7, 399_999, 1_000));
        // After it come 22, 23, 25 and 26.
        refused(&common::full_lane(), 35, enter(7, 9_999, 1_000, rate));
        for (number, position) in [(7, 9_999), (9, 1_000), (9, 701)] {
            refused(&two, 35, enter(number, position, 0, rate));
        }
    }
    refused(&common::full_lane(), 22, enter(7, 9_999, 1_000, 1));
}

#[test]
fn an_entry_brakes_at_the_smaller_of_its_own_rate_and_b() {
    for ((rate, _, from_96, from_500), leaders) in rates_beside_others() {
        let standing = lane(&[rated_carrier(7, 10_000, 0, leaders)]);
        let nearest = 9_999 - from_96;
        entered(&standing, rated_carrier(8, nearest, 96, rate), 1);
        refused(&standing, 25, enter(8, nearest + 1, 96, rate));
        // This one would rest at 300,000 + S(128, 500) = 301,964.
        let moving = lane(&[rated_carrier(7, 300_000, 500, leaders)]);
        let nearest = 301_963 - from_500;
        entered(&moving, rated_carrier(8, nearest, 500, rate), 1);
        refused(&moving, 25, enter(8, nearest + 1, 500, rate));
    }
}

#[test]
fn the_one_behind_brakes_at_the_smaller_of_its_own_rate_and_b() {
    for ((rate, _, from_96, from_500), newcomers) in rates_beside_others() {
        let behind = lane(&[rated_carrier(8, 700, 96, rate)]);
        let nearest = 701 + from_96;
        entered(&behind, rated_carrier(7, nearest, 0, newcomers), 0);
        refused(&behind, 26, enter(7, nearest - 1, 0, newcomers));
        // A newcomer at 500 would rest 1,964 further.
        let behind = lane(&[rated_carrier(8, 700, 500, rate)]);
        let nearest = 701 + from_500 - 1_964;
        entered(&behind, rated_carrier(7, nearest, 500, newcomers), 0);
        refused(&behind, 26, enter(7, nearest - 1, 500, newcomers));
    }
}

/// The newcomer is safe behind 7 with its own rate, or isn't, and 8 behind it.
#[test]
fn both_neighbours_are_judged_by_the_follower_of_each_pair() {
    let pair = |rate| {
        let rear = rated_carrier(8, 5_000, 96, rate);
        lane(&[rated_carrier(7, 300_000, 0, 1), rear])
    };
    // From 96 the newcomer goes 924 further at 10, and 96 at its hardest.
    let newcomer = |position| rated_carrier(9, position, 96, 10);
    entered(&pair(255), newcomer(5_065), 1);
    refused(&pair(255), 26, Call::Enter(newcomer(5_064)));
    entered(&pair(63), newcomer(5_067), 1);
    refused(&pair(63), 26, Call::Enter(newcomer(5_066)));
    entered(&pair(1), newcomer(14_121), 1);
    refused(&pair(1), 26, Call::Enter(newcomer(14_120)));
    entered(&pair(1), newcomer(299_075), 1);
    refused(&pair(1), 25, Call::Enter(newcomer(299_076)));
}

#[test]
fn a_lane_is_sound_by_own_rates() {
    for ((rate, _, from_96, _), leaders) in rates_beside_others() {
        let pair = |position| {
            let leader = rated_carrier(7, 10_000, 0, leaders);
            lane(&[leader, rated_carrier(8, position, 96, rate)])
        };
        assert!(pair(9_999 - from_96).read(8).is_ok(), "rate {rate}");
        judged_unsound(&pair(10_000 - from_96));
    }
}

#[test]
fn an_own_rate_out_of_range_is_21_whatever_the_speed() {
    for (rate, speed) in OUT_OF_RANGE
        .into_iter()
        .flat_map(|rate| [(rate, 0), (rate, 96)])
    {
        let wrong = rated_carrier(7, 5_000, speed, rate);
        judged_unsound(&lane(&[wrong]));
        judged_unsound(&lane(&[carrier(8, 9_000, 0), wrong]));
        judged_unsound(&lane(&[wrong, carrier(8, 1_000, 0)]));
        // Idle records may have any.
        let mut idle = lane(&[carrier(8, 9_000, 0)]);
        idle.carriers[1] = wrong;
        assert!(idle.read(8).is_ok());
    }
}

/// Carrier 7 stands at 20,000 and carrier 8 drives at 96: holding that, it goes 192
/// further before it brakes.
#[test]
fn a_wish_is_judged_and_replaced_by_the_smaller_rate() {
    for ((rate, guaranteed, from_96, _), leaders) in rates_beside_others() {
        let nearest = 19_999 - from_96 - 192;
        for (past, word) in [(0, 0), (1, 2)] {
            let before = rated_carrier(8, nearest + past, 96, rate);
            let mut lane = lane(&[rated_carrier(7, 20_000, 0, leaders), before]);
            let cycled = lane.cycle(2, &wishes(&[])).expect("sound");
            assert_eq!(cycled.word, word, "{before:?}");
            let speed = if word == 0 { 96 } else { 96 - guaranteed };
            let position = before.position + 96 + speed;
            assert_eq!(lane.present()[1], rated_carrier(8, position, speed, rate));
        }
    }
}

/// Carrier 8, with its own rate of 10, is as near as can be to carrier 7, which
/// stands at 10,000: from 95 it goes 905 further, from 7 it goes 7.
#[test]
fn guaranteed_braking_by_the_own_rate_stands_and_one_less_does_not() {
    let cases = [
        (9_094, 95, -128, 0, 9_189, 0),
        (9_094, 95, -64, 0, 9_220, 31),
        (9_094, 95, -11, 0, 9_273, 84),
        (9_094, 95, -10, 0, 9_274, 85),
        (9_094, 95, -9, 2, 9_274, 85),
        (9_094, 95, 0, 2, 9_274, 85),
        (9_094, 95, 32, 2, 9_274, 85),
        (9_992, 7, -8, 0, 9_999, 0),
        (9_992, 7, -7, 0, 9_999, 0),
        (9_992, 7, -6, 2, 9_999, 0),
        (9_999, 0, 0, 0, 9_999, 0),
        (9_999, 0, 1, 2, 9_999, 0),
    ];
    for (from, speed, units, word, position, after) in cases {
        let follower = rated_carrier(8, from, speed, 10);
        let mut lane = lane(&[carrier(7, 10_000, 0), follower]);
        let wishes = wishes(&[Wish::Hold, Wish::Units(units)]);
        let cycled = lane.cycle(2, &wishes).expect("sound");
        assert_eq!((cycled.word, cycled.gone), (word, 0), "{units} at {speed}");
        let expected = rated_carrier(8, position, after, 10);
        assert_eq!(lane.present()[1], expected, "{units} at {speed}");
    }
}

/// With its own rate of 1 a carrier goes 250,000 further from 500. It may wish to
/// brake at B all the same, foremost or as near as can be behind another.
#[test]
fn the_own_rate_does_not_narrow_trimming() {
    let (ahead, behind) = (carrier(7, 300_000, 0), rated_carrier(8, 49_999, 500, 1));
    for (units, speed) in [(-127, 373), (-128, 372), (-129, 372), (i16::MIN, 372)] {
        for carriers in [&[behind][..], &[ahead, behind]] {
            let mut lane = lane(carriers);
            let mut wishes = wishes(&[]);
            wishes[carriers.len() - 1] = Wish::Units(units);
            let cycled = lane.cycle(carriers.len() as u64, &wishes);
            assert_eq!(cycled, Ok(Cycled::default()), "{units}");
            let expected = rated_carrier(8, 49_999 + 500 + speed, speed, 1);
            assert_eq!(lane.present().last(), Some(&expected), "{units}");
        }
    }
}

#[test]
fn own_rates_from_b_on_are_all_alike() {
    let mut random = Random::new(16);
    for _ in 0..2_000 {
        let before = sound_lane(&mut random);
        let row = before.sound_row::<Fast>().expect("sound");
        let b = row.guaranteed_braking;
        let mut best = before;
        for carrier in &mut best.carriers {
            carrier.rate = if carrier.rate < b { carrier.rate } else { 255 };
        }
        assert!(best.sound_row::<Fast>().is_ok());
        let cycle = call(&mut random, &before, &CYCLES);
        let (mut one, mut two) = (FastLane(before), FastLane(best));
        assert_eq!(one.call(&cycle), two.call(&cycle));
        let motion = |lane: FastLane| lane.0.carriers.map(|after| (after.position, after.speed));
        assert_eq!(motion(one), motion(two));
    }
}

/// Carrier 2 rests at 9,935 braking its hardest, and carrier 3, which brakes least,
/// one below that.
#[test]
fn leaving_from_the_middle_keeps_a_mixed_lane_safe() {
    let ahead = [carrier(1, 10_000, 0), carrier(2, 9_839, 96)];
    refused(&lane(&ahead), 25, enter(3, 719, 96, 1));
    let mut three = lane(&ahead);
    assert_eq!(three.enter(rated_carrier(3, 718, 96, 1)), Ok(2));
    assert_eq!(three.leave(2), Ok(()));
    let left = [carrier(1, 10_000, 0), rated_carrier(3, 718, 96, 1)];
    assert_eq!(three.present(), left);
    assert!(three.read(3).is_ok());
}

/// All carriers with small figures, and own rates up to one above b.
fn small_carriers() -> impl Iterator<Item = Carrier> + Clone {
    let places = (0..9).flat_map(|position| (0..6).map(move |speed| (position, speed)));
    places.flat_map(|(position, speed)| {
        (1..=3).map(move |rate| rated_carrier(1, position, speed, rate))
    })
}

#[test]
fn safe_behind_carries_over_whatever_the_own_rates() {
    let safe = |follower, leader| safe_behind::<Summed>(&Row::new(2, 3, 1), follower, leader);
    for leader in small_carriers() {
        let between: Vec<Carrier> = small_carriers()
            .filter(|&between| safe(between, leader))
            .collect();
        for last in small_carriers().filter(|&last| !safe(last, leader)) {
            assert!(between.iter().all(|&between| !safe(last, between)));
        }
    }
}

#[test]
fn no_greater_rate_takes_longer_to_stop() {
    for speed in (0..=8_192).step_by(37) {
        let stops = (1..=256).map(|rate| distance(rate, speed));
        assert!(
            stops.is_sorted_by(|less, more| less >= more),
            "from {speed}"
        );
    }
}

/// A lane of two on a surface: one that stands at 10,000, and a follower at 96.
fn behind_a_standing_one(surface: u64, position: u64, rate: u64) -> Lane {
    let pair = [carrier(7, 10_000, 0), rated_carrier(8, position, 96, rate)];
    lane_of(surface, 400_000, 1_000, &pair)
}

/// On surface 5 b is 16. From 96 it takes 924 to stop at 10, 576 at 16, 464 at 20.
#[test]
fn rain_is_judged_by_the_smaller_rate_under_the_new_row() {
    let cases = [
        (10, 9_075),
        (16, 9_423),
        (17, 9_423),
        (20, 9_423),
        (255, 9_423),
    ];
    for (rate, nearest) in cases {
        let mut dry = behind_a_standing_one(0, nearest, rate);
        assert_eq!(dry.surface(5), Ok(()), "rate {rate}");
        assert_eq!(dry, behind_a_standing_one(5, nearest, rate));
        let near = behind_a_standing_one(0, nearest + 1, rate);
        // Up to 16 it brakes in rain as before, and isn't safe there either.
        let no = if rate > 16 { 34 } else { 21 };
        refused(&near, no, Call::Surface { surface: 5 });
    }
}

#[test]
fn after_rain_wishes_are_replaced_by_the_smaller_rate_under_the_new_row() {
    // At 20 and at 16, and at 20 again where it has dried.
    let cases = [(0, 9_535, 9_707, 76), (5, 9_423, 9_599, 80)];
    for (surface, from, position, speed) in cases {
        let mut lane = behind_a_standing_one(0, from, 20);
        assert_eq!(lane.surface(surface), Ok(()));
        let cycled = lane.cycle(2, &wishes(&[])).expect("sound");
        assert_eq!(cycled.word, 2);
        assert_eq!(lane.present()[1], rated_carrier(8, position, speed, 20));
        assert_eq!(lane.surface(0), Ok(()));
        let cycled = lane.cycle(2, &wishes(&[])).expect("sound");
        let after = lane.present()[1];
        assert_eq!((cycled.word, after.speed), (2, speed - 20));
    }
}

/// Where it dries, the carrier ahead may stop sooner, 1,964 further in place of
/// 3,916, but one with a small rate does no better than before: 25,000 at 10.
#[test]
fn a_lane_may_not_be_safe_where_it_dries() {
    let pair = |position, rate| {
        let follower = rated_carrier(8, position, 500, rate);
        lane_of(5, 400_000, 1_000, &[carrier(7, 300_000, 500), follower])
    };
    assert_eq!(pair(276_963, 10).surface(0), Ok(()));
    refused(&pair(276_964, 10), 34, Call::Surface { surface: 0 });
    assert!(pair(278_915, 10).read(8).is_ok());
    refused(&pair(278_916, 10), 21, Call::Surface { surface: 0 });
    assert_eq!(pair(276_964, 11).surface(0), Ok(()));
}

/// What the book says of a cycle that leaves carrier 8 so. It was at 9,094 with 95,
/// as near as its own rate of 10 lets it be to carrier 7, and wished for −9.
fn observed(word: u64, after: [Carrier; 2]) -> Result<(), String> {
    let before = [carrier(7, 10_000, 0), rated_carrier(8, 9_094, 95, 10)];
    let (mut checker, seen) = let_in(20_000, &before);
    seen?;
    let cycle = Call::Cycle {
        count: 2,
        wishes: Box::new(wishes(&[Wish::Hold, Wish::Units(-9)])),
    };
    let after = lane_of(0, 20_000, 1_000, &after);
    checker.observe::<Summed>(&cycle, false, word, &after)
}

#[test]
fn the_checker_sees_a_wrong_rate() {
    let leader = carrier(7, 10_000, 0);
    let follower = rated_carrier(8, 9_274, 85, 10);
    assert_eq!(observed(2, [leader, follower]), Ok(()));
    let by_the_row = rated_carrier(8, 9_220, 31, 10);
    let as_wished = rated_carrier(8, 9_275, 86, 10);
    let rate_lost = carrier(8, 9_274, 85);
    for (word, follower) in [(2, by_the_row), (0, as_wished), (2, rate_lost)] {
        let seen = observed(word, [leader, follower]);
        assert!(seen.is_err(), "{follower:?}");
    }
    let given_away = rated_carrier(7, 10_000, 0, 10);
    assert!(observed(2, [given_away, follower]).is_err());
}

/// When carrier 2 leaves, carrier 3 keeps its own rate and doesn't get that of 2.
#[test]
fn the_checker_sees_whose_rate_has_left() {
    let rates = [1, 10, 100];
    let three = [1, 2, 3].map(|n| rated_carrier(n, 1_000 - n, 0, rates[n as usize - 1]));
    for (rate, right) in [(100, true), (10, false), (1, false)] {
        let (mut checker, seen) = let_in(20_000, &three);
        assert_eq!(seen, Ok(()));
        let left = [three[0], Carrier { rate, ..three[2] }];
        let after = lane_of(0, 20_000, 1_000, &left);
        let leave = Call::Leave { number: 2 };
        let seen = checker.observe::<Summed>(&leave, false, 0, &after);
        assert_eq!(seen.is_ok(), right, "rate {rate}");
    }
}
