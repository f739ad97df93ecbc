//! Tables: which rows are sound, their text, loading them, and what a start
//! makes of them.

mod common;

use common::{calls_that_look, carrier, example_lane, lane, refused, road, wishes};
use lane_reference::random::{
    break_line, malformed_table_text, never_started_lane, sound_table, table_text, unsound_table,
    Random, LINE_BREAKS, TABLE_BREAKS, TEXT_BREAKS,
};
use lane_reference::text::table;
use lane_reference::{Answer, Call, Lane, Refusal, Row, Supervisor, Table, Wish};

/// A table of one row for every surface.
fn even(row: Row) -> Table {
    Table([row; 8])
}

fn load(table: &Table) -> Call {
    Call::Load {
        text: table_text(table),
    }
}

fn start(surface: u64) -> Call {
    Call::Start {
        road: road(surface, 10_000, 1_000),
        first: 0,
    }
}

/// A started lane without carriers on rows that were loaded.
fn measured(row: Row) -> Lane {
    let mut lane = Lane::default();
    assert_eq!(lane.load(&table_text(&even(row))), Ok(()));
    assert_eq!(lane.call(&start(0)), Ok(Answer::Started));
    lane
}

#[test]
fn rows_are_sound_within_their_ranges() {
    let sound = [(1, 1, 1), (255, 255, 255), (1, 255, 1), (254, 255, 255)];
    for (b, hardest, most) in sound {
        assert!(Row::new(b, hardest, most).is_sound());
    }
    let most = u64::MAX;
    let unsound = [
        (0, 1, 1),
        (0, 0, 1),
        (2, 1, 1),
        (255, 254, 1),
        (1, 256, 1),
        (256, 256, 1),
        (1, 1, 0),
        (1, 1, 256),
        (1 << 32 | 1, 1, 1),
        (1, 1 << 32 | 1, 1),
        (1, 1, 1 << 32 | 1),
        (most, most, 1),
        (1, 1, most),
    ];
    for (b, hardest, most) in unsound {
        assert!(!Row::new(b, hardest, most).is_sound());
    }
}

#[test]
fn an_empty_lane_has_the_house_rows_in_both_sets() {
    let tables = Lane::default().tables;
    let rows = tables.in_force.0.map(|row| row.guaranteed_braking);
    assert_eq!(rows, [64, 56, 48, 40, 32, 16, 6, 1]);
    let rows = tables.in_force.0.map(|row| row.hardest_braking);
    assert_eq!(rows, [128, 120, 112, 96, 96, 64, 48, 255]);
    let rows = tables.in_force.0.map(|row| row.most_acceleration);
    assert_eq!(rows, [32, 32, 24, 24, 16, 12, 8, 1]);
    assert_eq!(tables.for_next_start, tables.in_force);
    assert!(tables.are_sound());
    assert_eq!(tables.in_force.row(7), Some(Row::new(1, 255, 1)));
    assert_eq!(tables.in_force.row(8), None);
    assert_eq!(tables.in_force.row(1 << 32), None);
}

#[test]
fn random_tables_are_sound_or_not() {
    let mut random = Random::new(10);
    for _ in 0..5_000 {
        let sound = sound_table(&mut random);
        assert!(sound.is_sound(), "{sound:?}");
        assert_eq!(table(&table_text(&sound)), Ok(sound));
        let unsound = unsound_table(&mut random);
        assert!(!unsound.is_sound(), "{unsound:?}");
        assert_eq!(table(&table_text(&unsound)), Ok(unsound));
    }
}

#[test]
fn a_load_replaces_the_rows_for_the_next_start_alone() {
    let (first, second) = (even(Row::new(3, 5, 7)), even(Row::new(2, 4, 6)));
    for before in [Lane::default(), lane(3, 10_000, 1_000, &[])] {
        let mut after = before;
        for table in [first, second] {
            assert_eq!(after.call(&load(&table)), Ok(Answer::Loaded));
            let mut expected = before;
            expected.tables.for_next_start = table;
            assert_eq!(after, expected);
        }
    }
}

#[test]
fn a_start_puts_the_loaded_rows_in_force_and_keeps_them() {
    let table = even(Row::new(3, 5, 7));
    let mut lane = measured(table.0[0]);
    for _ in 0..2 {
        assert_eq!(lane.tables.in_force, table);
        assert_eq!(lane.tables.for_next_start, table);
        assert_eq!(lane.call(&start(7)), Ok(Answer::Started));
    }
    // A start that is refused leaves the rows in force.
    assert_eq!(lane.load(&table_text(&even(Row::new(1, 2, 3)))), Ok(()));
    refused(&lane, 1, start(8));
}

#[test]
fn load_checks_in_order() {
    let good = load(&even(Row::new(3, 5, 7)));
    let unsound = load(&even(Row::new(5, 3, 7)));
    let malformed = Call::Load { text: Vec::new() };
    let present = example_lane(1_000);
    for call in [&unsound, &malformed] {
        refused(&Lane::default(), 31, call.clone());
        refused(&lane(0, 10_000, 1_000, &[]), 31, call.clone());
        refused(&present, 31, call.clone());
    }
    refused(&present, 32, good.clone());
    let mut broken = present;
    broken.carriers[1].position = 1_000;
    for call in [good, unsound, malformed] {
        refused(&broken, 21, call);
    }
}

#[test]
fn a_lane_never_started_counts_as_empty_and_sound() {
    let mut random = Random::new(11);
    let table = even(Row::new(3, 5, 7));
    for _ in 0..1_000 {
        let lane = never_started_lane(&mut random);
        refused(&lane, 31, load(&unsound_table(&mut random)));
        let mut after = lane;
        assert_eq!(after.call(&load(&table)), Ok(Answer::Loaded), "{lane:?}");
        assert_eq!(after.tables.for_next_start, table);
        assert_eq!(after.tables.in_force, lane.tables.in_force);
        assert_eq!(after.call(&start(0)), Ok(Answer::Started));
        assert_eq!(
            after.cycle(0, &wishes(&[])).map(|cycled| cycled.gone),
            Ok(0)
        );
    }
}

#[test]
fn an_unsound_row_of_either_set_is_21() {
    for code in 0..8 {
        for unsound in [Row::new(0, 1, 1), Row::new(1, 256, 1), Row::new(1, 1, 256)] {
            let mut now = example_lane(1_000);
            now.tables.in_force.0[code] = unsound;
            let mut next = example_lane(1_000);
            next.tables.for_next_start.0[code] = unsound;
            for call in calls_that_look() {
                refused(&now, 21, call.clone());
                refused(&next, 21, call);
            }
            // A start looks at the rows that it would put in force, and first.
            refused(&now, 1, start(8));
            refused(&next, 21, start(8));
            assert_eq!(now.call(&start(0)), Ok(Answer::Started));
            assert!(now.tables.are_sound());
            next.started = false;
            refused(&next, 21, start(0));
        }
    }
}

#[test]
fn stops_are_reckoned_with_the_rows_in_force() {
    let mut lane = measured(Row::new(3, 5, 1));
    assert_eq!(lane.enter(carrier(1, 100, 7)), Ok(0));
    let near = lane.enter(carrier(2, 94, 7));
    assert_eq!(near, Err(Refusal::UnsafeBehindLeader));
    assert_eq!(lane.enter(carrier(2, 93, 7)), Ok(1));
    // Rests at 93 + S(3, 7) = 110 and must stay below 100 + S(5, 7) = 111.
    let cycled = lane.cycle(2, &wishes(&[Wish::Units(-9), Wish::Units(-2)]));
    assert_eq!(cycled.map(|cycled| cycled.word), Ok(2));
    assert_eq!(lane.present(), [carrier(1, 109, 2), carrier(2, 104, 4)]);
}

#[test]
fn wishes_are_trimmed_with_the_rows_in_force() {
    let mut lane = measured(Row::new(200, 250, 255));
    assert_eq!(lane.enter(carrier(1, 100, 300)), Ok(0));
    for (units, speed) in [(-251, 50), (256, 305), (-4, 301)] {
        let cycled = lane.cycle(1, &wishes(&[Wish::Units(units)]));
        assert!(cycled.is_ok());
        assert_eq!(lane.present()[0].speed, speed);
    }
}

#[test]
fn a_table_text_is_24_lines_and_nothing_else() {
    let text = table_text(&Lane::default().tables.in_force);
    assert!(text.starts_with(b"b=64\nB=128\nA=32\nb=56\n"));
    assert_eq!(text.iter().filter(|&&byte| byte == b'\n').count(), 24);
    for length in 0..text.len() {
        assert!(table(&text[..length]).is_err(), "the first {length} bytes");
    }
    for byte in 0..=255 {
        assert!(table(&[text.as_slice(), &[byte]].concat()).is_err());
    }
}

fn assert_malformed(text: &[u8], what: &str) {
    let told = text.escape_ascii();
    assert!(table(text).is_err(), "{what}: {told}");
    let text = text.to_vec();
    refused(&Lane::default(), 31, Call::Load { text });
}

#[test]
fn every_break_of_a_table_text_is_31() {
    let mut random = Random::new(12);
    for _ in 0..200 {
        let text = table_text(&sound_table(&mut random));
        for line_break in LINE_BREAKS {
            if let Some(text) = break_line(&mut random, &text, line_break) {
                assert_malformed(&text, &format!("{line_break:?}"));
            }
        }
        let breaks = TEXT_BREAKS.iter().chain(&TABLE_BREAKS);
        for (index, text_break) in breaks.enumerate() {
            if let Some(text) = text_break(&mut random, &text) {
                assert_malformed(&text, &format!("break {index}"));
            }
        }
        assert_malformed(&malformed_table_text(&mut random), "any break");
    }
}
