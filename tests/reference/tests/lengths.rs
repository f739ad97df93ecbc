//! Carriers have length: what is measured to a tail, and what to a front.

mod common;

use common::{carrier, entered, judged_unsound, lane_of, long_carrier, refused, road, wishes};
use lane_reference::carrier::LONGEST_CARRIER;
use lane_reference::headway::{rests_behind, safe_behind};
use lane_reference::stopping::{distance, Fast, Summed};
use lane_reference::{Call, Carrier, Cycled, Lane, Row, Supervisor, Wish};

const ROW: Row = Row::new(64, 128, 32);

/// A lane of surface 0, end 10,000 and limit 1,000.
fn lane(carriers: &[Carrier]) -> Lane {
    lane_of(0, 10_000, 1_000, carriers)
}

fn enter(number: u64, position: u64, speed: u64, length: u64) -> Call {
    Call::Enter(long_carrier(number, position, speed, length))
}

#[test]
fn lengths_go_from_0_to_65535() {
    let empty = lane(&[]);
    for length in [0, 1, 65_534, 65_535] {
        entered(&empty, long_carrier(1, 5_000, 0, length), 0);
    }
    let wide = [1 << 32, u64::MAX, u64::MAX - 65_535, 1 << 63];
    for length in [65_536, 65_537, u32::MAX.into()].into_iter().chain(wide) {
        refused(&empty, 33, enter(1, 5_000, 0, length));
    }
}

#[test]
fn the_length_is_looked_at_after_the_speed_and_before_the_lane_is_full() {
    let two = lane(&[carrier(7, 1_000, 0), carrier(8, 700, 64)]);
    let most = u64::MAX;
    for length in [65_536, most] {
        refused(&Lane::default(), 21, enter(0, most, most, length));
        refused(&two, 4, enter(0, 10_000, 1_001, length));
        refused(&two, 5, enter(7, 10_000, 1_001, length));
        refused(&two, 6, enter(7, 9_999, 1_001, length));
        // After it come 23, 25 and 26.
        for (number, position) in [(7, 9_999), (9, 1_000), (9, 701)] {
            refused(&two, 33, enter(number, position, 0, length));
        }
        let full = common::full_lane();
        refused(&full, 6, enter(7, 9_999, 1_001, length));
        refused(&full, 33, enter(7, 9_999, 1_000, length));
        refused(&full, 33, enter(100, 9_999, 1_000, length));
    }
    refused(&common::full_lane(), 22, enter(7, 9_999, 1_000, 65_535));
}

#[test]
fn an_entry_is_past_the_end_by_its_front() {
    let empty = lane(&[]);
    for length in [0, 1, 5_000, 65_535] {
        entered(&empty, long_carrier(1, 9_999, 0, length), 0);
        // The tails of all but the first would be before the end.
        refused(&empty, 5, enter(1, 10_000, 0, length));
    }
    refused(&empty, 5, enter(1, 10_000 + 65_534, 0, 65_535));
}

#[test]
fn safe_behind_is_measured_to_the_tail_in_both_halves() {
    // The leader stands with its tail at 700; S(64, 96) = 160.
    let standing = long_carrier(1, 1_000, 0, 300);
    // The leader would rest with its tail at 700 + S(128, 128) = 828.
    let moving = long_carrier(1, 1_000, 128, 300);
    let edges = [
        (standing, 0, 699),
        (standing, 96, 539),
        (moving, 0, 699),
        (moving, 64, 699),
        (moving, 96, 667),
    ];
    for (leader, speed, nearest) in edges {
        for position in 0..=1_001 {
            let follower = carrier(2, position, speed);
            let safe = safe_behind::<Summed>(&ROW, follower, leader);
            assert_eq!(safe, position <= nearest, "{follower:?} {leader:?}");
            assert_eq!(safe_behind::<Fast>(&ROW, follower, leader), safe);
        }
    }
}

#[test]
fn the_followers_own_length_does_not_count() {
    let leader = long_carrier(1, 1_000, 0, 300);
    for length in [0, 1, 699, 700, 65_535] {
        let behind =
            |position| safe_behind::<Fast>(&ROW, long_carrier(2, position, 0, length), leader);
        assert!(behind(699) && !behind(700));
    }
}

#[test]
fn an_entry_keeps_clear_of_the_tail_ahead() {
    let ahead = lane(&[long_carrier(7, 1_000, 0, 300)]);
    entered(&ahead, carrier(8, 699, 0), 1);
    entered(&ahead, carrier(8, 539, 96), 1);
    refused(&ahead, 25, enter(8, 540, 96, 0));
    // Level with the tail, along the carrier and level with its front: the walk
    // goes by fronts, so all of these are behind it.
    for position in [700, 701, 999, 1_000] {
        refused(&ahead, 25, enter(8, position, 0, 0));
    }
    entered(&ahead, carrier(8, 1_001, 0), 0);
}

#[test]
fn an_entry_keeps_its_tail_clear_of_the_one_behind() {
    // It would rest at 700 + 160 = 860.
    let behind = lane(&[carrier(7, 700, 96)]);
    for length in [0, 1, 100, 9_000] {
        entered(&behind, long_carrier(8, 861 + length, 0, length), 0);
        refused(&behind, 26, enter(8, 860 + length, 0, length));
        // The walk goes by fronts: this one is ahead, with its tail far behind.
        refused(&behind, 26, enter(8, 701, 0, length));
    }
    let standing = lane(&[carrier(7, 700, 0)]);
    entered(&standing, long_carrier(8, 1_001, 0, 300), 0);
    refused(&standing, 26, enter(8, 1_000, 0, 300));
    refused(&standing, 26, enter(8, 1_000, 1_000, 300));
}

#[test]
fn nobody_is_behind_a_tail_at_the_start_or_before_it() {
    entered(&lane(&[long_carrier(7, 100, 0, 99)]), carrier(8, 0, 0), 1);
    for length in [100, 101, 65_535] {
        let alone = lane(&[long_carrier(7, 100, 0, length)]);
        for (position, speed) in [(0, 0), (0, 1_000), (50, 0), (99, 0), (100, 0)] {
            refused(&alone, 25, enter(8, position, speed, 0));
        }
        entered(&alone, long_carrier(8, 102, 0, 1), 0);
        let pair = lane(&[long_carrier(7, 100, 0, length), carrier(8, 0, 0)]);
        judged_unsound(&pair);
    }
}

/// A lane on which car 8, at 700 with 64, wishes for 32 units: it comes to 860
/// with 96 and would rest at 1,020.
fn wishing(leader: Carrier) -> (Cycled, Carrier) {
    let mut lane = lane(&[leader, carrier(8, 700, 64)]);
    let cycled = lane.cycle(2, &wishes(&[Wish::Hold, Wish::Units(32)]));
    (cycled.expect("sound"), lane.present()[1])
}

#[test]
fn a_wish_is_replaced_that_rests_level_with_the_tail_ahead() {
    for length in [0, 1, 300, 8_000] {
        let (cycled, follower) = wishing(long_carrier(7, 1_020 + length, 0, length));
        assert_eq!((cycled.word, cycled.replaced), (2, 1), "length {length}");
        assert_eq!(follower, carrier(8, 764, 0));
        let (cycled, follower) = wishing(long_carrier(7, 1_021 + length, 0, length));
        assert_eq!((cycled.word, cycled.replaced), (0, 0), "length {length}");
        assert_eq!(follower, carrier(8, 860, 96));
        // A leader at 64 rests 64 further, and the length comes off that too.
        let (cycled, _) = wishing(long_carrier(7, 956 + length, 64, length));
        assert_eq!(cycled.word, 2, "length {length}");
        let (cycled, _) = wishing(long_carrier(7, 957 + length, 64, length));
        assert_eq!(cycled.word, 0, "length {length}");
    }
}

#[test]
fn a_carrier_is_gone_once_its_tail_is_at_the_end() {
    // It comes to 10,999.
    for (length, gone) in [(0, 1), (998, 1), (999, 1), (1_000, 0), (65_535, 0)] {
        let mut lane = lane(&[long_carrier(7, 9_999, 500, length)]);
        let cycled = lane.cycle(1, &wishes(&[])).expect("sound");
        assert_eq!(cycled.gone, gone, "length {length}");
        let remaining = [long_carrier(7, 10_999, 500, length)];
        assert_eq!(lane.present(), &remaining[gone as usize..]);
    }
}

/// A lane whose foremost carrier has its front past the end, and another behind.
fn past_the_end() -> Lane {
    lane(&[long_carrier(7, 10_500, 100, 1_000), carrier(8, 9_000, 0)])
}

#[test]
fn a_front_past_the_end_is_read_and_printed() {
    let mut lane = past_the_end();
    let reading = lane.read(7).expect("present");
    assert_eq!(
        (reading.position * 2048.0, reading.speed * 128.0),
        (10_500.0, 100.0)
    );
    let text = b"cars=2\ncar=7\nat=10500\nspeed=100\nlength=1000\nbrake=255\n\
        car=8\nat=9000\nspeed=0\nlength=0\nbrake=255\n";
    let mut buffer = [0; 128];
    assert_eq!(lane.lane_text(&mut buffer), Ok(text.len()));
    assert_eq!(&buffer[..text.len()], text);
    // The wish of 8 is judged by the tail of 7, which rests at 9,600.
    let cycled = lane.cycle(2, &wishes(&[Wish::Hold, Wish::Units(32)]));
    assert_eq!(cycled.map(|cycled| (cycled.word, cycled.gone)), Ok((0, 0)));
    assert_eq!(lane.leave(7), Ok(()));
}

#[test]
fn a_front_past_the_end_keeps_others_behind_its_tail() {
    let lane = past_the_end();
    entered(&lane, carrier(9, 9_499, 0), 1);
    refused(&lane, 25, enter(9, 9_500, 0, 0));
    // Ahead of all there is no position left.
    refused(&lane, 25, enter(9, 9_999, 0, 0));
    refused(&lane, 5, enter(9, 10_501, 0, 0));
    refused(&lane, 23, enter(7, 9_499, 0, 0));
    refused(
        &lane,
        32,
        Call::Load {
            text: common::house_table_text(),
        },
    );
}

#[test]
fn positions_past_the_longest_lane_keep_their_figures() {
    let end = 1 << 31;
    let last = end + LONGEST_CARRIER - 1;
    let foremost = long_carrier(65_535, last, 8_192, LONGEST_CARRIER);
    let mut lane = lane_of(0, end, 8_192, &[foremost]);
    let reading = lane.read(65_535).expect("present");
    assert_eq!(reading.position * 2048.0, 2_147_549_182.0);
    let mut buffer = [0; 80];
    let text = b"cars=1\ncar=65535\nat=2147549182\nspeed=8192\nlength=65535\nbrake=255\n";
    assert_eq!(lane.lane_text(&mut buffer), Ok(text.len()));
    assert_eq!(&buffer[..text.len()], text);
    let cycled = lane.cycle(1, &wishes(&[])).expect("sound");
    assert_eq!((cycled.gone, lane.count), (1, 0));
}

#[test]
fn a_lane_is_sound_by_its_tails() {
    for length in [0, 1, 1_000, 65_535] {
        let last = lane(&[long_carrier(7, 10_000 + length - 1, 0, length)]);
        assert!(last.read(7).is_ok(), "length {length}");
        for position in [10_000 + length, 10_001 + length, 1 << 32, u64::MAX] {
            judged_unsound(&lane(&[long_carrier(7, position, 0, length)]));
        }
    }
    let follower = carrier(8, 700, 64);
    for (position, sound) in [(764, false), (765, true)] {
        for length in [0, 1, 300] {
            let leader = long_carrier(7, position + length, 0, length);
            let pair = lane(&[leader, follower]);
            assert_eq!(pair.read(8).is_ok(), sound, "{leader:?}");
        }
    }
}

#[test]
fn a_length_out_of_range_is_21_whatever_its_sums_would_be() {
    let most = u64::MAX;
    let bit = 1 << 63;
    for length in [65_536, u32::MAX.into(), 1 << 32, bit, most - 9_999, most] {
        for position in [0, 5_000, 9_999, length, bit + 1, most] {
            judged_unsound(&lane(&[long_carrier(7, position, 0, length)]));
            let behind = long_carrier(8, position, 0, length);
            judged_unsound(&lane(&[long_carrier(7, 9_999, 0, 1), behind]));
            let leader = long_carrier(7, position, 0, length);
            judged_unsound(&lane(&[leader, carrier(8, 0, 0)]));
        }
    }
    // Idle records may have any.
    let mut idle = lane(&[carrier(7, 1_000, 0)]);
    idle.carriers[1] = long_carrier(7, most, most, most);
    assert!(idle.read(7).is_ok());
}

/// Where the tail lies before the start, it may as well count as at the start:
/// nobody is below position 0, so nobody is behind such a carrier; the wish rule
/// asks for the tail of a carrier ahead alone, which on a sound lane lies past
/// the start; and a tail at the start is as far from the end's wrong side as one
/// before it, since no lane ends at 0. So no test can tell such a program from
/// one that reckons with negative tails.
#[test]
fn a_tail_before_the_start_may_count_as_at_the_start() {
    let row = Row::new(2, 3, 2);
    let tail = |leader: Carrier| leader.position.saturating_sub(leader.length);
    let rest = |carrier: Carrier, rate| distance(rate, carrier.speed as u32);
    let short = |follower: Carrier, leader: Carrier| {
        follower.position + rest(follower, 2) < tail(leader) + rest(leader, 3)
    };
    for leader in small_carriers(5) {
        for end in 1..=6 {
            let holds = road(0, end, 8).holds(&leader);
            assert_eq!(tail(leader) < end, holds, "{leader:?}");
        }
        for follower in small_carriers(0) {
            let safe = safe_behind::<Summed>(&row, follower, leader);
            let saturated = follower.position < tail(leader) && short(follower, leader);
            assert_eq!(saturated, safe, "{follower:?} behind {leader:?}");
            let lowest = -(follower.speed.min(3) as i32);
            for wished in (lowest..=2).filter(|_| safe) {
                let stands = rests_behind::<Summed>(&row, follower, wished, leader);
                assert_eq!(short(follower.after(wished), leader), stands);
            }
        }
    }
}

/// All carriers with small figures and lengths up to `longest`.
fn small_carriers(longest: u64) -> impl Iterator<Item = Carrier> {
    (0..=longest).flat_map(|length| {
        (0..6).flat_map(move |position| {
            (0..8).map(move |speed| long_carrier(1, position, speed, length))
        })
    })
}
