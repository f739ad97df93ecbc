//! Texts that a reading refuses: 36 for their form and for every rule but safety,
//! 37 for safety alone.

mod common;

use common::handover::{accepted, refused_as, small_but, small_lane, small_with, taken, SMALL};
use common::{carrier, full_lane, lane_of, long_carrier, rated_carrier};
use lane_reference::random::{
    break_line, handover_text, malformed_handover_text, sound_lane, unsafe_lane, Random,
    HANDOVER_BREAKS, LINE_BREAKS, TEXT_BREAKS,
};
use lane_reference::text;
use lane_reference::{Carrier, Lane, Row};

/// The lines of the small lane's text that come once, one for each key.
const LINES: [&str; 13] = [
    "b=5",
    "B=22",
    "A=103",
    "surface=2",
    "end=10000",
    "limit=1000",
    "cycle=41",
    "cars=2",
    "car=7",
    "at=700",
    "speed=20",
    "length=9",
    "brake=4",
];

#[test]
fn a_number_is_decimal_without_sign_or_leading_zeros() {
    for line in LINES {
        let (key, value) = line.split_once('=').expect("a line");
        let numbers = [
            "", "0#", "00#", "+#", "-#", "-0", " #", "# ", "#.0", "#\t", "#\r",
        ];
        for number in numbers
            .iter()
            .chain(&["0x1", "1e1", "A", "#\0", "#=", "=#"])
        {
            let number = number.replace('#', value);
            refused_as(&small_but(line, &format!("{key}={number}")), 36);
        }
    }
    for line in ["speed=0", "length=12"] {
        let key = line.split_once('=').expect("a line").0;
        refused_as(&small_but(line, &format!("{key}=00")), 36);
        accepted(&small_but(line, &format!("{key}=0")));
    }
    refused_as(&small_but("cycle=41", "cycle=00"), 36);
    accepted(&small_but("cycle=41", "cycle=0"));
}

/// A number is refused for its width before any rule looks at it.
#[test]
fn a_number_keeps_to_the_width_of_its_field() {
    let (wide, wider) = ("4294967295", "4294967296");
    let (long, longer) = ("18446744073709551615", "18446744073709551616");
    for line in LINES {
        let key = line.split_once('=').expect("a line").0;
        let (most, past) = match key {
            "b" | "B" | "A" | "cycle" => (long, longer),
            "car" => ("65535", "65536"),
            "cars" => continue,
            _ => (wide, wider),
        };
        let read = |number| text::handover(small_but(line, &format!("{key}={number}")).as_bytes());
        assert!(read(most).is_ok(), "{key}={most}");
        assert!(read(past).is_err(), "{key}={past}");
        assert!(read("99999999999999999999999999999999999999").is_err());
        refused_as(&small_but(line, &format!("{key}={past}")), 36);
    }
    accepted(&small_but("cycle=41", &format!("cycle={long}")));
    accepted(&small_but("car=7", "car=65535"));
}

#[test]
fn cars_says_how_many_carriers_follow() {
    for cars in [
        "0",
        "1",
        "3",
        "64",
        "65",
        "66",
        "258",
        "65538",
        "4294967298",
    ] {
        refused_as(&small_but("cars=2", &format!("cars={cars}")), 36);
    }
    refused_as(&small_but("cars=2", "cars=18446744073709551618"), 36);
    let third = "car=9\nat=1\nspeed=0\nlength=0\nbrake=1\n";
    refused_as(&format!("{SMALL}{third}"), 36);
    accepted(&format!("{}{third}", small_but("cars=2", "cars=3")));
    let (one, _) = SMALL.split_at(SMALL.find("car=300").expect("the second"));
    refused_as(one, 36);
    accepted(&one.replace("cars=2", "cars=1"));
    let (none, _) = SMALL.split_at(SMALL.find("car=7").expect("the first"));
    refused_as(none, 36);
    accepted(&none.replace("cars=2", "cars=0"));
}

#[test]
fn at_most_64_carriers() {
    let full = handover_text(&full_lane());
    let full = String::from_utf8(full).expect("ASCII");
    accepted(&full);
    let last = "car=65\nat=1\nspeed=0\nlength=0\nbrake=1\n";
    let more = format!("{full}{last}");
    refused_as(&more, 36);
    refused_as(&more.replace("cars=64", "cars=65"), 36);
    refused_as(&full.replace("cars=64", "cars=65"), 36);
}

#[test]
fn every_line_has_its_place_its_key_and_its_newline() {
    let lines: Vec<&str> = SMALL.split_inclusive('\n').collect();
    assert_eq!(lines.len(), 24 + 24 + 4 + 1 + 2 * 5);
    for place in 0..lines.len() {
        let (before, after) = (lines[..place].concat(), lines[place + 1..].concat());
        let line = lines[place];
        refused_as(&format!("{before}{after}"), 36);
        refused_as(&format!("{before}{line}{line}{after}"), 36);
        refused_as(&format!("{before}\n{line}{after}"), 36);
        refused_as(&format!("{before} {line}{after}"), 36);
        refused_as(&format!("{before}{}\r\n{after}", line.trim_end()), 36);
        refused_as(&format!("{before}{}{after}", line.trim_end()), 36);
        refused_as(&format!("{before}{}{after}", line.replace('=', ":")), 36);
        refused_as(&format!("{before}{}{after}", line.replace('=', "")), 36);
        if let Some((next, rest)) = lines[place + 1..].split_first() {
            refused_as(&format!("{before}{next}{line}{}", rest.concat()), 36);
        }
        let (key, value) = line.split_once('=').expect("a line");
        for other in LINES.map(|line| line.split_once('=').expect("a line").0) {
            let there = format!("{before}{other}={value}{after}");
            if other != key {
                refused_as(&there, 36);
            }
        }
        for other in [
            "",
            "x",
            "call",
            "until",
            &key.to_uppercase(),
            &format!("{key} "),
        ] {
            if other != key {
                refused_as(&format!("{before}{other}={value}{after}"), 36);
            }
        }
    }
}

#[test]
fn the_text_ends_with_its_last_line() {
    for length in 0..SMALL.len() {
        refused_as(&SMALL[..length], 36);
    }
    for byte in 0..=255 {
        assert_eq!(taken(&[SMALL.as_bytes(), &[byte]].concat()), Err(36));
    }
    for more in [
        "car=9\n",
        "cars=0\n",
        "cars=2\n",
        "surface=2\n",
        "b=3\n",
        SMALL,
    ] {
        refused_as(&format!("{SMALL}{more}"), 36);
    }
    refused_as(&SMALL.replace('\n', "\r\n"), 36);
}

#[test]
fn two_tables_of_eight_rows() {
    let (own, rest) = SMALL.split_at(SMALL.find("b=64").expect("the second table"));
    let (house, road) = rest.split_at(rest.find("surface").expect("the road"));
    accepted(&format!("{own}{house}{road}"));
    accepted(&format!("{own}{own}{road}"));
    accepted(&format!("{house}{own}{road}"));
    accepted(&format!("{house}{house}{road}"));
    let short = &own[..own.find("b=10").expect("the last row")];
    let long = format!("{own}b=1\nB=1\nA=1\n");
    let texts = [
        format!("{own}{road}"),
        road.to_string(),
        format!("{own}{house}{own}{road}"),
        format!("{short}{house}{road}"),
        format!("{own}{short}{road}"),
        format!("{long}{house}{road}"),
        format!("{own}{long}{road}"),
        format!("{own}\n{house}{road}"),
        format!("{own}{road}{house}"),
        format!("{road}{own}{house}"),
    ];
    for text in texts {
        refused_as(&text, 36);
    }
}

/// Every figure of the road at the ends of its range and one past them.
#[test]
fn the_road_keeps_its_ranges() {
    for (line, fine, faulty) in [
        (
            "surface=2",
            &["0", "1", "7"][..],
            &["8", "9", "4294967295"][..],
        ),
        (
            "end=10000",
            &["989", "2147483648"],
            &["0", "2147483649", "4294967295"],
        ),
        ("limit=1000", &["20", "8192"], &["0", "8193", "4294967295"]),
    ] {
        let key = line.split_once('=').expect("a line").0;
        for value in fine {
            accepted(&small_but(line, &format!("{key}={value}")));
        }
        for value in faulty {
            refused_as(&small_but(line, &format!("{key}={value}")), 36);
        }
    }
    // On the end alone it depends whether the foremost tail, at 988, is past it.
    refused_as(&small_but("end=10000", "end=988"), 36);
    refused_as(&small_but("end=10000", "end=1"), 36);
    refused_as(&small_but("limit=1000", "limit=19"), 36);
}

#[test]
fn a_row_that_is_not_sound_in_either_table_is_36() {
    for code in 0..8 {
        for row in [
            Row::new(0, 20, 1),
            Row::new(21, 20, 1),
            Row::new(20, 256, 1),
            Row::new(256, 256, 1),
            Row::new(20, 20, 0),
            Row::new(20, 20, 256),
            Row::new(u64::MAX, u64::MAX, 1),
            Row::new(20, 20, (1 << 32) + 1),
        ] {
            let (mut now, mut next) = (small_lane(), small_lane());
            now.tables.in_force.0[code] = row;
            next.tables.for_next_start.0[code] = row;
            for lane in [now, next] {
                assert_eq!(taken(&handover_text(&lane)), Err(36), "{lane:?}");
            }
        }
    }
}

/// Each rule of a carrier for itself, and one past it.
#[test]
fn a_carrier_keeps_its_ranges() {
    for (line, fine, faulty) in [
        ("car=7", &["1", "65535"][..], &["0", "300"][..]),
        ("car=300", &["1", "65535"], &["0", "7"]),
        ("speed=20", &["0", "21"], &["1001", "4294967295"]),
        ("speed=0", &["1", "1000"], &["1001", "4294967295"]),
        ("length=12", &["0", "199"], &["65536", "4294967295"]),
        ("length=9", &["0", "65535"], &["65536", "4294967295"]),
        (
            "brake=4",
            &["2", "255"],
            &["0", "256", "260", "65540", "4294967295"],
        ),
        (
            "brake=255",
            &["1", "254"],
            &["0", "256", "257", "4294967295"],
        ),
        (
            "at=1000",
            &["10011", "10000"],
            &["10012", "10013", "4294967295"],
        ),
    ] {
        let key = line.split_once('=').expect("a line").0;
        for value in fine {
            accepted(&small_but(line, &format!("{key}={value}")));
        }
        for value in faulty {
            refused_as(&small_but(line, &format!("{key}={value}")), 36);
        }
    }
}

/// Safety is looked at last, so that a lane which breaks another rule as well, or is
/// no text at all, gets 36.
#[test]
fn a_fault_of_both_sorts_is_36() {
    refused_as(&small_but("at=700", "at=988"), 37);
    for (line, becomes) in [
        ("surface=2", "surface=8"),
        ("end=10000", "end=0"),
        ("limit=1000", "limit=8193"),
        ("cycle=41", "cycle=041"),
        ("b=10", "b=28"),
        ("A=12", "A=0"),
        ("car=7", "car=0"),
        ("car=7", "car=300"),
        ("speed=20", "speed=1001"),
        ("length=9", "length=65536"),
        ("brake=4", "brake=256"),
        ("cars=2", "cars=1"),
        ("cars=2", "cars=3"),
    ] {
        let text = small_but(line, becomes).replace("at=700", "at=988");
        refused_as(&text, 36);
    }
    let text = small_but("at=700", "at=988");
    refused_as(&text[..text.len() - 1], 36);
    refused_as(&format!("{text}\n"), 36);
    // Past the end and out of order at once.
    refused_as(&small_but("at=700", "at=10009"), 36);
    refused_as(&small_but("at=700", "at=10008"), 37);
}

/// A lane on surface 3 whose row has b 3 and B 5; no other row of both tables has.
fn measured(carriers: &[Carrier]) -> Lane {
    let mut lane = Lane {
        tables: small_lane().tables,
        ..lane_of(3, 10_000, 1_000, carriers)
    };
    lane.tables.in_force.0[3] = Row::new(3, 5, 1);
    lane
}

fn outcome(lane: &Lane) -> u32 {
    taken(&handover_text(lane)).map_or_else(|number| number, |_| 0)
}

/// S(3, 7) = 17, S(5, 7) = 11 and S(2, 7) = 25: behind a tail at 100 that drives 7,
/// one that drives 7 is safe up to 93, or up to 85 with an own rate of 2.
#[test]
fn too_near_by_one_is_37() {
    for length in [0, 12, 300] {
        let leader = long_carrier(1, 100 + length, 7, length);
        for (position, rate, number) in [
            (93, 255, 0),
            (94, 255, 37),
            (93, 3, 0),
            (94, 3, 37),
            (85, 2, 0),
            (86, 2, 37),
        ] {
            let follower = rated_carrier(2, position, 7, rate);
            assert_eq!(outcome(&measured(&[leader, follower])), number);
        }
        // At rest, right behind the tail, level with it, and past it by one.
        let standing = long_carrier(1, 100 + length, 0, length);
        for (position, number) in [(99, 0), (100, 37), (101, 37)] {
            let follower = carrier(2, position, 0);
            assert_eq!(outcome(&measured(&[standing, follower])), number);
        }
    }
}

/// The row for the next start has B 3, with which 94 were safe too, and 93 were not
/// with b 2.
#[test]
fn the_row_in_force_decides() {
    let carriers = |position| [carrier(1, 100, 7), carrier(2, position, 7)];
    let (mut near, mut far) = (measured(&carriers(94)), measured(&carriers(93)));
    near.tables.for_next_start.0[3] = Row::new(3, 3, 1);
    far.tables.for_next_start.0[3] = Row::new(2, 5, 1);
    assert_eq!([outcome(&near), outcome(&far)], [37, 0]);
    for lane in [&mut near, &mut far] {
        let tables = &mut lane.tables;
        std::mem::swap(&mut tables.in_force, &mut tables.for_next_start);
    }
    assert_eq!([outcome(&near), outcome(&far)], [0, 37]);
}

#[test]
fn carriers_out_of_order_or_level_are_37() {
    let full = full_lane();
    assert_eq!(outcome(&full), 0);
    for place in 1..64 {
        let mut swapped = full;
        swapped.carriers.swap(place - 1, place);
        let mut level = full;
        level.carriers[place].position = level.carriers[place - 1].position;
        let mut first = full;
        first.carriers.swap(0, place);
        assert_eq!([swapped, level, first].map(|lane| outcome(&lane)), [37; 3]);
    }
}

/// Nobody can be behind a tail at the start or before it.
#[test]
fn a_tail_before_the_start_with_one_behind_is_37() {
    for (length, number) in [(99, 0), (100, 37), (101, 37), (65_535, 37)] {
        let lane = measured(&[long_carrier(1, 100, 0, length), carrier(2, 0, 0)]);
        assert_eq!(outcome(&lane), number, "length {length}");
        let alone = measured(&[long_carrier(1, 100, 0, length)]);
        assert_eq!(outcome(&alone), 0);
    }
}

#[test]
fn a_number_twice_is_36_wherever_it_is() {
    for (one, other) in [(0, 1), (0, 63), (62, 63), (31, 32), (5, 60)] {
        let mut lane = full_lane();
        lane.carriers[other].number = lane.carriers[one].number;
        assert_eq!(outcome(&lane), 36);
    }
}

#[test]
fn a_tail_at_the_end_is_36() {
    for (position, number) in [(10_011, 0), (10_012, 36), (10_013, 36)] {
        let lane = measured(&[long_carrier(1, position, 0, 12), carrier(2, 50, 0)]);
        assert_eq!(outcome(&lane), number);
    }
}

#[test]
fn every_break_of_a_handover_text_is_36() {
    let mut random = Random::new(44);
    for turn in 0..300 {
        let lane = if turn % 2 == 0 {
            sound_lane
        } else {
            unsafe_lane
        };
        let text = handover_text(&lane(&mut random));
        for line_break in LINE_BREAKS {
            if let Some(text) = break_line(&mut random, &text, line_break) {
                assert_eq!(taken(&text), Err(36), "{line_break:?}");
            }
        }
        let breaks = TEXT_BREAKS.iter().chain(&HANDOVER_BREAKS);
        for (index, text_break) in breaks.enumerate() {
            if let Some(text) = text_break(&mut random, &text) {
                assert_eq!(taken(&text), Err(36), "break {index}");
            }
        }
        assert_eq!(taken(&malformed_handover_text(&mut random)), Err(36));
    }
}

/// A line of more bytes than a line may have is malformed, whatever it holds.
#[test]
fn a_line_has_at_most_64_bytes() {
    for zeros in [1, 40, 57, 58, 59, 100, 5_000] {
        let cycle = format!("cycle={}41", "0".repeat(zeros));
        refused_as(&small_with("cycle=41", &format!("{cycle}\n")), 36);
    }
}
