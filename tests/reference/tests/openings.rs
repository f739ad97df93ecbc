//! Where one could enter, worked out by hand.

mod common;

use common::{ask, carrier, full_lane, lane, lane_of, long_carrier, newcomer, refused};
use lane_reference::Gap::{AheadOfAll, Behind};
use lane_reference::{
    Carrier, FastLane, Gap, Lane, Newcomer, Opening, Row, Supervisor, Table, PLACES,
};

/// Asserts the lowest and the highest position, by both ways to reckon stops.
fn open(lane: &Lane, gap: Gap, newcomer: Newcomer, lowest: u64, highest: u64) {
    answered(lane, gap, newcomer, Some(Opening { lowest, highest }));
}

/// Asserts that no position is admitted.
fn closed(lane: &Lane, gap: Gap, newcomer: Newcomer) {
    answered(lane, gap, newcomer, None);
}

fn answered(lane: &Lane, gap: Gap, newcomer: Newcomer, opening: Option<Opening>) {
    let what = || format!("{gap:?} {newcomer:?} on {:?}", lane.present());
    assert_eq!(lane.find_opening(gap, newcomer), Ok(opening), "{}", what());
    let (fast, mut asked) = (FastLane(*lane), FastLane(*lane));
    assert_eq!(fast.find_opening(gap, newcomer), Ok(opening), "{}", what());
    assert!(asked.call(&ask(gap, newcomer)).is_ok(), "{}", what());
    assert_eq!(asked, fast, "{} changed the lane", what());
}

/// A newcomer that stands, of no length.
fn standing() -> Newcomer {
    newcomer(0, 0, 255)
}

/// Surface 0, where b is 64 and B 128, up to 10,000.
fn of(carriers: &[Carrier]) -> Lane {
    lane_of(0, 10_000, 1_000, carriers)
}

#[test]
fn an_empty_lane_is_open_from_its_start_to_its_end() {
    for end in [1, 2, 10_000, 1 << 31] {
        let empty = lane(0, end, 1_000, &[]);
        for asked in [standing(), newcomer(1_000, 65_535, 1)] {
            open(&empty, AheadOfAll, asked, 0, end - 1);
        }
    }
}

#[test]
fn behind_the_last_one_it_begins_at_the_start() {
    let stands = of(&[carrier(7, 1_000, 0)]);
    open(&stands, Behind(7), standing(), 0, 999);
    open(&stands, Behind(7), newcomer(64, 0, 255), 0, 935);
    // Its own rate of 32 takes it two cycles: 96 + 32.
    open(&stands, Behind(7), newcomer(64, 0, 32), 0, 871);
    closed(&stands, Behind(7), newcomer(64, 0, 1));
    // A length reaches back, where nobody is.
    open(&stands, Behind(7), newcomer(64, 65_535, 255), 0, 935);
    // S(128, 128) is 128: with as much ahead, the front is kept off the tail alone.
    let moves = of(&[carrier(7, 1_000, 128)]);
    open(&moves, Behind(7), newcomer(64, 0, 255), 0, 999);
    // S(64, 127) is 253, and S(64, 128) is 256.
    open(&moves, Behind(7), newcomer(127, 0, 64), 0, 874);
    open(&moves, Behind(7), newcomer(128, 0, 64), 0, 871);
    open(&moves, Behind(7), newcomer(128, 0, 255), 0, 871);
}

#[test]
fn the_one_named_is_reckoned_by_its_tail_and_with_the_hardest_braking() {
    for rate in [1, 64, 128, 255] {
        let ahead = Carrier {
            rate,
            ..long_carrier(7, 1_000, 128, 100)
        };
        open(&of(&[ahead]), Behind(7), standing(), 0, 899);
        open(&of(&[ahead]), Behind(7), newcomer(128, 0, 255), 0, 771);
        open(&of(&[ahead]), Behind(7), newcomer(128, 900, 255), 0, 771);
    }
}

#[test]
fn ahead_of_all_it_goes_up_to_the_end() {
    let moves = of(&[carrier(8, 700, 64)]);
    open(&moves, AheadOfAll, standing(), 765, 9_999);
    open(&moves, AheadOfAll, newcomer(0, 100, 255), 865, 9_999);
    // S(128, 64) is 64, and whoever is faster is never run into later.
    open(&moves, AheadOfAll, newcomer(63, 0, 255), 702, 9_999);
    open(&moves, AheadOfAll, newcomer(64, 0, 255), 701, 9_999);
    open(&moves, AheadOfAll, newcomer(128, 0, 255), 701, 9_999);
    open(&moves, AheadOfAll, newcomer(128, 5_000, 255), 5_701, 9_999);
    // The newcomer is now the one ahead: its own rate says nothing of how hard it brakes.
    open(&moves, AheadOfAll, newcomer(64, 0, 1), 701, 9_999);
    // The follower's own length lies behind it.
    let long = of(&[long_carrier(8, 700, 64, 600)]);
    open(&long, AheadOfAll, standing(), 765, 9_999);
}

#[test]
fn the_one_behind_brakes_by_its_own_rate_on_the_surface() {
    // 64, 2 × 64 and 64² before it stands.
    for (rate, lowest) in [(255, 765), (64, 765), (32, 829), (1, 4_797)] {
        let behind = Carrier {
            rate,
            ..carrier(8, 700, 64)
        };
        open(&of(&[behind]), AheadOfAll, standing(), lowest, 9_999);
        let between = of(&[carrier(7, 9_000, 0), behind]);
        open(&between, Behind(7), standing(), lowest, 8_999);
    }
}

#[test]
fn a_gap_may_be_of_one_position_or_none() {
    let pair = of(&[carrier(7, 1_000, 0), carrier(8, 700, 64)]);
    open(&pair, Behind(7), standing(), 765, 999);
    open(&pair, Behind(7), newcomer(0, 232, 255), 997, 999);
    open(&pair, Behind(7), newcomer(0, 233, 255), 998, 999);
    open(&pair, Behind(7), newcomer(0, 234, 255), 999, 999);
    closed(&pair, Behind(7), newcomer(0, 235, 255));
    closed(&pair, Behind(7), newcomer(0, 65_535, 255));
    // The same by speed: S(64, v) is v up to 64, and S(128, v) as well.
    open(&pair, Behind(7), newcomer(64, 0, 255), 701, 935);
    open(&pair, Behind(7), newcomer(64, 234, 255), 935, 935);
    closed(&pair, Behind(7), newcomer(64, 235, 255));
    open(&pair, Behind(8), standing(), 0, 699);
}

#[test]
fn fronts_next_to_each_other_leave_room_for_nobody() {
    for (position, opening) in [(999, None), (998, Some(999)), (997, Some(998))] {
        let pair = of(&[carrier(7, 1_000, 0), carrier(8, position, 0)]);
        match opening {
            Some(lowest) => open(&pair, Behind(7), standing(), lowest, 999),
            None => closed(&pair, Behind(7), standing()),
        }
        closed(&pair, Behind(7), newcomer(0, 1_000 - position, 255));
    }
}

#[test]
fn ahead_of_all_the_end_leaves_one_position_or_none() {
    let moves = of(&[carrier(8, 700, 64)]);
    open(&moves, AheadOfAll, newcomer(0, 9_233, 255), 9_998, 9_999);
    open(&moves, AheadOfAll, newcomer(0, 9_234, 255), 9_999, 9_999);
    closed(&moves, AheadOfAll, newcomer(0, 9_235, 255));
    for (position, lowest) in [(9_997, 9_998), (9_998, 9_999)] {
        let near = of(&[carrier(8, position, 0)]);
        open(&near, AheadOfAll, standing(), lowest, 9_999);
    }
    closed(&of(&[carrier(8, 9_999, 0)]), AheadOfAll, standing());
}

#[test]
fn a_tail_at_the_start_or_before_it_leaves_nothing_behind_it() {
    for length in [100, 101, 65_535] {
        let reaches_back = of(&[long_carrier(7, 100, 0, length)]);
        closed(&reaches_back, Behind(7), standing());
        // However fast it drives; S(64, 1000) is 15,640 and S(128, 1000) is 7,832.
        let moves = of(&[long_carrier(7, 100, 1_000, length)]);
        closed(&moves, Behind(7), standing());
        open(&moves, AheadOfAll, newcomer(1_000, 0, 255), 7_909, 9_999);
    }
    let one_past = of(&[long_carrier(7, 100, 0, 99)]);
    open(&one_past, Behind(7), standing(), 0, 0);
    closed(&one_past, Behind(7), newcomer(1, 0, 255));
    let two_past = of(&[long_carrier(7, 100, 0, 98)]);
    open(&two_past, Behind(7), standing(), 0, 1);
    open(&two_past, Behind(7), newcomer(1, 0, 255), 0, 0);
}

#[test]
fn the_front_of_the_one_named_may_be_past_the_end() {
    let end = 10_000;
    for (position, length, highest) in [
        (9_999, 0, 9_998),
        (10_000, 1, 9_998),
        (10_050, 51, 9_998),
        (10_050, 100, 9_949),
        (75_534, 65_535, 9_998),
    ] {
        let past = lane_of(0, end, 1_000, &[long_carrier(7, position, 1_000, length)]);
        open(&past, Behind(7), standing(), 0, highest);
        closed(&past, AheadOfAll, standing());
        let another = [past.carriers[0], carrier(8, 5, 0)];
        open(&of(&another), Behind(7), standing(), 6, highest);
    }
    // S(128, 1000) is 7,832 and S(64, 1000) is 15,640.
    let past = of(&[long_carrier(7, 10_050, 1_000, 51)]);
    open(&past, Behind(7), newcomer(1_000, 0, 255), 0, 2_190);
}

#[test]
fn a_full_lane_has_its_openings_too() {
    let tight = full_lane();
    assert_eq!(tight.present().len(), PLACES);
    open(&tight, AheadOfAll, standing(), 1_000, 9_999);
    for number in 1..64 {
        closed(&tight, Behind(number), standing());
    }
    open(&tight, Behind(64), standing(), 0, 935);
    let every_second: Vec<_> = (1..=64).map(|n| (n, 1_000 - 2 * n, 0)).collect();
    let loose = lane(0, 10_000, 1_000, &every_second);
    for number in 1..64 {
        let only = 999 - 2 * number;
        open(&loose, Behind(number), standing(), only, only);
        closed(&loose, Behind(number), newcomer(0, 1, 255));
    }
}

#[test]
fn each_gap_is_that_behind_the_one_named() {
    let platoon = of(&[
        long_carrier(3, 9_000, 0, 1_000),
        long_carrier(65_535, 7_000, 0, 2_000),
        long_carrier(1, 4_000, 0, 3_000),
    ]);
    open(&platoon, AheadOfAll, standing(), 9_001, 9_999);
    open(&platoon, Behind(3), standing(), 7_001, 7_999);
    open(&platoon, Behind(65_535), standing(), 4_001, 4_999);
    open(&platoon, Behind(1), standing(), 0, 999);
}

#[test]
fn the_greatest_figures_do_not_wrap() {
    let (end, most) = (1 << 31, newcomer(8_192, 65_535, 255));
    // On surface 7 b is 1 and B 255: S(1, 8192) is 2^26, S(255, 8192) is 263,200.
    let behind = lane(7, end, 8_192, &[(8, 0, 8_192)]);
    open(&behind, AheadOfAll, most, 66_911_200, end - 1);
    open(&behind, AheadOfAll, standing(), (1 << 26) + 1, end - 1);
    let past = long_carrier(7, end + 65_534, 0, 65_535);
    let ahead = lane_of(7, end, 8_192, &[past]);
    open(&ahead, Behind(7), most, 0, end - 2 - (1 << 26));
    open(&ahead, Behind(7), standing(), 0, end - 2);
    let fast = Carrier {
        speed: 8_192,
        ..past
    };
    let ahead = lane_of(7, end, 8_192, &[fast]);
    open(&ahead, Behind(7), most, 0, end - 2 - (1 << 26) + 263_200);
}

#[test]
fn loaded_rows_decide_once_they_are_in_force() {
    let mut loaded = of(&[carrier(7, 1_000, 7), carrier(8, 500, 7)]);
    // S(3, 7) is 17 and S(5, 7) is 11.
    loaded.tables.in_force = Table([Row::new(3, 5, 1); 8]);
    open(&loaded, Behind(7), newcomer(7, 0, 255), 507, 993);
    open(&loaded, Behind(7), newcomer(7, 0, 2), 507, 985);
    loaded.tables.for_next_start = Table([Row::new(1, 1, 1); 8]);
    open(&loaded, Behind(7), newcomer(7, 0, 255), 507, 993);
}

#[test]
fn checks_come_in_their_order() {
    let faulty = newcomer(1_001, 65_536, 0);
    let never_started = Lane::default();
    refused(&never_started, 21, ask(Behind(0), faulty));
    refused(&never_started, 21, ask(AheadOfAll, faulty));
    let there = of(&[carrier(7, 1_000, 0)]);
    for number in [0, 65_536, 65_543, 1 << 32, u64::MAX] {
        refused(&there, 4, ask(Behind(number), faulty));
    }
    for number in [1, 8, 65_535] {
        refused(&there, 24, ask(Behind(number), faulty));
        refused(&of(&[]), 24, ask(Behind(number), faulty));
    }
    for gap in [Behind(7), AheadOfAll] {
        for speed in [1_001, u64::MAX] {
            refused(&there, 6, ask(gap, newcomer(speed, 65_536, 0)));
        }
        for length in [65_536, 1 << 32, u64::MAX] {
            refused(&there, 33, ask(gap, newcomer(1_000, length, 0)));
        }
        for rate in [0, 256, 257, 65_537, u64::MAX] {
            refused(&there, 35, ask(gap, newcomer(1_000, 65_535, rate)));
        }
    }
    open(&there, AheadOfAll, newcomer(1_000, 999, 1), 2_000, 9_999);
    open(&there, Behind(7), newcomer(62, 65_535, 255), 0, 937);
}

#[test]
fn refusals_come_on_a_full_lane_and_in_closed_gaps_as_well() {
    let full = full_lane();
    refused(&full, 4, ask(Behind(0), standing()));
    refused(&full, 24, ask(Behind(65), standing()));
    refused(&full, 6, ask(Behind(1), newcomer(1_001, 0, 255)));
    refused(&full, 33, ask(Behind(1), newcomer(0, 65_536, 255)));
    refused(&full, 35, ask(Behind(1), newcomer(0, 0, 0)));
    closed(&full, Behind(1), standing());
}
