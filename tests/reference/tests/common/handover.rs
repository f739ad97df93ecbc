//! A small lane with other rows in force than for the next start, its handover text
//! by hand, and readings.

use super::{lane_of, Carrier};
use lane_reference::random::Weights;
use lane_reference::{Lane, Refusal, Row, Supervisor, Table, Tables};

/// Of random calls, handovers alone.
pub const HANDOVERS_ALONE: Weights = [0, 0, 0, 0, 0, 0, 0, 0, 0, 0, 0, 0, 1];

/// The text of [`small_lane`].
pub const SMALL: &str = "\
b=3\nB=20\nA=101\nb=4\nB=21\nA=102\nb=5\nB=22\nA=103\nb=6\nB=23\nA=104\n\
b=7\nB=24\nA=105\nb=8\nB=25\nA=106\nb=9\nB=26\nA=107\nb=10\nB=27\nA=108\n\
b=64\nB=128\nA=32\nb=56\nB=120\nA=32\nb=48\nB=112\nA=24\nb=40\nB=96\nA=24\n\
b=32\nB=96\nA=16\nb=16\nB=64\nA=12\nb=6\nB=48\nA=8\nb=1\nB=255\nA=1\n\
surface=2\nend=10000\nlimit=1000\ncycle=41\n\
cars=2\n\
car=7\nat=1000\nspeed=0\nlength=12\nbrake=255\n\
car=300\nat=700\nspeed=20\nlength=9\nbrake=4\n";

/// Rows with figures of their own each, which are no house rows.
pub fn own_table() -> Table {
    let row = |code: u64| Row::new(3 + code, 20 + code, 101 + code);
    Table([0, 1, 2, 3, 4, 5, 6, 7].map(row))
}

pub fn small_lane() -> Lane {
    let carrier = |number, position, speed, length, rate| Carrier {
        number,
        position,
        speed,
        length,
        rate,
    };
    let carriers = [carrier(7, 1_000, 0, 12, 255), carrier(300, 700, 20, 9, 4)];
    Lane {
        cycle: 41,
        tables: Tables {
            in_force: own_table(),
            for_next_start: Table::HOUSE,
        },
        ..lane_of(2, 10_000, 1_000, &carriers)
    }
}

/// What a lane writes of itself.
pub fn written(lane: &Lane) -> Vec<u8> {
    let mut buffer = vec![0; 5_000];
    let length = lane.handover(&mut buffer).expect("a sound lane");
    buffer.truncate(length);
    buffer
}

/// What a reading gives, whatever was there before; a refusal leaves the empty lane.
pub fn taken(text: &[u8]) -> Result<Lane, u32> {
    let mut unsound = small_lane();
    (unsound.count, unsound.road.surface) = (u64::MAX, u64::MAX);
    let outcomes = [Lane::default(), small_lane(), unsound].map(|before| {
        let mut lane = before;
        let outcome = lane.take_over(text).map_err(Refusal::number);
        if outcome.is_err() {
            assert_eq!(lane, Lane::default(), "{}", text.escape_ascii());
        }
        outcome.map(|()| lane)
    });
    assert!(outcomes.iter().all(|outcome| *outcome == outcomes[0]));
    outcomes[0]
}

/// The small lane's text with one line, which it has once, become another text.
pub fn small_with(line: &str, becomes: &str) -> String {
    let (line, becomes) = (format!("\n{line}\n"), format!("\n{becomes}"));
    assert_eq!(SMALL.matches(&line).count(), 1, "{line}");
    SMALL.replace(&line, &becomes)
}

/// As [`small_with`], with another line in its place.
pub fn small_but(line: &str, becomes: &str) -> String {
    small_with(line, &format!("{becomes}\n"))
}

#[track_caller]
pub fn refused_as(text: &str, number: u32) {
    assert_eq!(taken(text.as_bytes()), Err(number), "{text:?}");
}

#[track_caller]
pub fn accepted(text: &str) {
    let lane = taken(text.as_bytes());
    let lane = lane.unwrap_or_else(|number| panic!("{number}: {text:?}"));
    assert_eq!(written(&lane), text.as_bytes(), "written again");
}
