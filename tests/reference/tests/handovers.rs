//! Writing a lane for a new host, and what is read back.

mod common;

use common::handover::{own_table, small_lane, taken, written, HANDOVERS_ALONE, SMALL};
use common::{carrier, example_lane, full_lane, lane, lane_of, refused, road};
use lane_reference::lane::{LONGEST_HANDOVER, LONGEST_LANE_TEXT};
use lane_reference::random::{
    call, gapped_lane, handover_text, never_started_lane, sound_lane, text_to_read, unsound_lane,
    Random,
};
use lane_reference::{Answer, Call, Carrier, FastLane, Lane, Refusal, Row, Supervisor, Table};

#[test]
fn the_text_of_a_small_lane() {
    assert_eq!(
        written(&small_lane()).escape_ascii().to_string(),
        escaped(SMALL)
    );
    assert_eq!(taken(SMALL.as_bytes()), Ok(small_lane()));
}

fn escaped(text: &str) -> String {
    text.escape_default().to_string()
}

#[test]
fn the_tables_are_not_taken_for_each_other() {
    let mut other = small_lane();
    let tables = &mut other.tables;
    std::mem::swap(&mut tables.in_force, &mut tables.for_next_start);
    let text = written(&other);
    assert!(text.starts_with(b"b=64\nB=128\nA=32\n"));
    let head = SMALL.find("surface").expect("the road");
    assert_eq!(&text[head..], &SMALL.as_bytes()[head..]);
    let taken = taken(&text).expect("a sound lane");
    assert_eq!(taken.tables.in_force, Table::HOUSE);
    assert_eq!(taken.tables.for_next_start, own_table());
}

/// The house rows serve in both sets until a table is loaded.
#[test]
fn a_lane_without_carriers() {
    let mut lane = Lane::default();
    assert_eq!(lane.start(road(7, 1, 1), u64::MAX), Ok(()));
    let house = "b=64\nB=128\nA=32\nb=56\nB=120\nA=32\nb=48\nB=112\nA=24\nb=40\nB=96\nA=24\n\
                 b=32\nB=96\nA=16\nb=16\nB=64\nA=12\nb=6\nB=48\nA=8\nb=1\nB=255\nA=1\n";
    let rest = "surface=7\nend=1\nlimit=1\ncycle=18446744073709551615\ncars=0\n";
    let text = [house, house, rest].concat();
    assert_eq!(written(&lane), text.as_bytes());
    assert_eq!(taken(text.as_bytes()), Ok(lane));
}

/// A load shows in the rows for the next start alone, a start in both.
#[test]
fn a_load_and_a_start_show() {
    let mut lane = lane(2, 10_000, 1_000, &[]);
    let own = &SMALL[..SMALL.find("b=64").expect("the house rows")];
    let house = written(&lane)[..SMALL.find("surface").unwrap() - own.len()].to_vec();
    assert_eq!(lane.load(own.as_bytes()), Ok(()));
    let text = written(&lane);
    assert!(text.starts_with(&[&house, own.as_bytes(), b"surface=2\n"].concat()));
    assert_eq!(lane.start(road(2, 10_000, 1_000), 0), Ok(()));
    let text = written(&lane);
    assert!(text.starts_with(&[own, own, "surface=2\n"].concat().into_bytes()));
}

#[test]
fn a_buffer_of_the_texts_length_is_enough() {
    for lane in [small_lane(), full_lane(), example_lane(1_000)] {
        let text = written(&lane);
        let length = text.len();
        for room in [length, length + 1, LONGEST_HANDOVER, 2 * LONGEST_HANDOVER] {
            let mut buffer = vec![0xA5; room];
            assert_eq!(lane.handover(&mut buffer), Ok(length));
            assert_eq!(buffer[..length], text);
            assert!(buffer[length..].iter().all(|&byte| byte == 0xA5));
        }
        for room in [0, 1, length - 1] {
            let mut buffer = vec![0xA5; room];
            assert_eq!(lane.handover(&mut buffer), Err(Refusal::BufferTooShort));
            assert!(buffer.iter().all(|&byte| byte == 0xA5));
            refused(&lane, 9, Call::Handover { room });
        }
    }
}

/// 21 comes before 9, and nothing is written.
#[test]
fn a_lane_never_started_is_not_handed_over() {
    for room in [0, LONGEST_HANDOVER] {
        refused(&Lane::default(), 21, Call::Handover { room });
        let mut stopped = small_lane();
        stopped.started = false;
        refused(&stopped, 21, Call::Handover { room });
    }
    let mut buffer = [0xA5; LONGEST_HANDOVER];
    let refusal = Lane::default().handover(&mut buffer);
    assert_eq!(refusal, Err(Refusal::LaneUnsound));
    assert_eq!(buffer, [0xA5; LONGEST_HANDOVER]);
}

/// Every figure as wide as a sound lane can have it.
fn widest_lane() -> Lane {
    let carriers = (0..64).map(|place| Carrier {
        number: 65_535 - place,
        position: 2_147_483_647 - 10_000_000 * place,
        speed: 8_192,
        length: 65_535 - place,
        rate: 255 - place,
    });
    let mut lane = lane_of(7, 1 << 31, 8_192, &carriers.collect::<Vec<_>>());
    lane.cycle = u64::MAX;
    lane.tables.in_force = Table([Row::new(100, 255, 100); 8]);
    lane.tables.for_next_start = Table([Row::new(254, 254, 255); 8]);
    lane
}

#[test]
fn the_longest_text_has_4071_bytes() {
    let (lane, mut buffer) = (widest_lane(), [0xA5; 4_072]);
    assert_eq!(LONGEST_HANDOVER, 4_071);
    assert_eq!(lane.lane_text(&mut buffer), Ok(LONGEST_LANE_TEXT));
    assert_eq!(lane.handover(&mut buffer), Ok(4_071));
    assert_eq!(buffer[4_071], 0xA5);
    assert_eq!(taken(&buffer[..4_071]), Ok(lane));
    refused(&lane, 9, Call::Handover { room: 4_070 });
    let mut random = Random::new(40);
    for _ in 0..3_000 {
        assert!(written(&sound_lane(&mut random)).len() <= LONGEST_HANDOVER);
    }
}

/// The lane without what its idle records hold.
fn settled(lane: &Lane) -> Lane {
    let mut settled = *lane;
    settled.carriers[lane.present().len()..].fill(Carrier::default());
    settled
}

#[test]
fn what_is_written_is_read_back() {
    let mut random = Random::new(41);
    for _ in 0..3_000 {
        for lane in [sound_lane, gapped_lane] {
            let lane = lane(&mut random);
            let text = written(&lane);
            assert_eq!(text, handover_text(&lane));
            assert_eq!(taken(&text), Ok(settled(&lane)));
        }
    }
}

#[test]
fn what_is_accepted_is_written_again() {
    let (mut random, mut accepted) = (Random::new(42), 0);
    for _ in 0..20_000 {
        let text = text_to_read(&mut random);
        if let Ok(lane) = taken(&text) {
            accepted += 1;
            assert_eq!(written(&lane), text);
        }
    }
    assert!((5_000..15_000).contains(&accepted), "{accepted}");
}

/// A front past the end, its tail before it, goes over as every other.
#[test]
fn a_front_past_the_end_is_handed_over() {
    let long = Carrier {
        length: 65_535,
        ..carrier(1, 9_999 + 65_535, 0)
    };
    let lane = lane_of(0, 10_000, 1_000, &[long, carrier(2, 9_998, 0)]);
    let text = written(&lane);
    assert_eq!(taken(&text), Ok(lane));
}

#[test]
fn a_handover_changes_nothing() {
    let mut random = Random::new(43);
    for _ in 0..3_000 {
        for lane in [sound_lane, unsound_lane, never_started_lane] {
            let lane = lane(&mut random);
            let next = call(&mut random, &lane, &HANDOVERS_ALONE);
            let mut after = FastLane(lane);
            let answer = after.call(&next);
            assert_eq!(after.0, lane);
            let sound = lane.sound_row::<lane_reference::stopping::Fast>().is_ok();
            match answer {
                Ok(Answer::HandoverText(text)) => assert_eq!(text, handover_text(&lane)),
                Err(Refusal::BufferTooShort) => assert!(sound),
                _ => assert!(!sound && answer == Err(Refusal::LaneUnsound)),
            }
        }
    }
}
