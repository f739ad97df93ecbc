//! Histories that begin with a reading, and a road book that begins with its text.

mod common;

use common::edges::{add, Edges, Met};
use common::handover::{small_lane, SMALL};
use common::{carrier, wishes};
use lane_reference::random::{never_started_lane, taken_over, unsound_lane, Random, TakenOver};
use lane_reference::road_book::{check_taken_over, Checker, RoadBook};
use lane_reference::stopping::Summed;
use lane_reference::{Answer, Call, FastLane, Lane, Supervisor, Table, Wish};

/// Whatever the lane was before.
#[test]
fn histories_after_a_reading_keep_to_the_road_book() {
    for seed in 0..2_000 {
        let mut random = Random::new(seed);
        let TakenOver { text, calls } = taken_over(&mut random, 130);
        for before in [
            Lane::default(),
            unsound_lane(&mut random),
            never_started_lane(&mut random),
        ] {
            if let Err(breach) = check_taken_over(FastLane(before), &text, &calls) {
                panic!("seed {seed}: {breach}");
            }
        }
    }
}

#[test]
fn summed_stopping_gives_the_same_answers() {
    for seed in 20_000..20_100 {
        let TakenOver { text, calls } = taken_over(&mut Random::new(seed), 130);
        assert_eq!(
            check_taken_over(Lane::default(), &text, &calls),
            Ok(()),
            "seed {seed}"
        );
        let (mut summed, mut fast) = (Lane::default(), FastLane::default());
        assert_eq!(summed.take_over(&text), fast.take_over(&text));
        for call in &calls {
            assert_eq!(summed.call(call), fast.call(call), "seed {seed}");
            assert_eq!(summed, fast.0, "seed {seed}");
        }
    }
}

/// A lane taken over goes on as the one that was written.
#[test]
fn a_lane_taken_over_answers_as_the_one_written() {
    for seed in 0..300 {
        let TakenOver { text, calls } = taken_over(&mut Random::new(seed), 130);
        let mut written = FastLane::default();
        if written.take_over(&text).is_err() {
            continue;
        }
        for (turn, call) in calls.iter().enumerate() {
            let mut buffer = [0; 4_071];
            let length = written.handover(&mut buffer).expect("a sound lane");
            let mut taken = FastLane(small_lane());
            assert_eq!(taken.take_over(&buffer[..length]), Ok(()));
            assert_eq!(
                taken.call(call),
                written.call(call),
                "call {turn} of seed {seed}"
            );
            let (taken, written) = (RoadBook::of(&taken.0), RoadBook::of(&written.0));
            assert_eq!(taken, written, "call {turn} of seed {seed}");
        }
    }
}

/// What a reading left.
fn first_edges(lane: &Lane) -> Edges {
    let (tables, count) = (lane.tables, lane.count);
    vec![
        ("refused", !lane.started),
        ("no carriers", lane.started && count == 0),
        ("carriers", count > 1),
        ("64 carriers", count == 64),
        ("own rows", tables.in_force != Table::HOUSE),
        ("other rows next", tables.in_force != tables.for_next_start),
    ]
}

/// What a call, before any start, did with what `first` has.
fn going_on_edges(first: &Lane, before: &Lane, answer: &Answer, after: &Lane) -> Edges {
    let several = first.count > 1 && before.count > 1;
    let own_rows = first.tables.in_force != Table::HOUSE;
    let other_rows = after.tables.in_force != first.tables.in_force;
    match answer {
        Answer::Cycled(cycled) if several => vec![
            ("a wish replaced", cycled.word != 0),
            ("a wish replaced, own rows", cycled.word != 0 && own_rows),
        ],
        Answer::Left => vec![("a carrier left", several)],
        Answer::Entered(_) => vec![("an entry", several)],
        Answer::SurfaceChanged => vec![("a surface changed", several)],
        Answer::HandoverText(_) => vec![("written again", several)],
        Answer::Started => vec![
            ("started after a refusal", !first.started),
            ("other rows by a start", first.started && other_rows),
        ],
        _ => Vec::new(),
    }
}

#[test]
fn histories_go_on_with_what_the_text_holds() {
    let mut met = Met::new();
    for seed in 0..1_500 {
        let TakenOver { text, calls } = taken_over(&mut Random::new(seed), 130);
        let mut lane = FastLane::default();
        let _ = lane.take_over(&text);
        let first = lane.0;
        add(&mut met, first_edges(&first));
        for call in &calls {
            let before = lane.0;
            let Ok(answer) = lane.call(call) else {
                continue;
            };
            add(&mut met, going_on_edges(&first, &before, &answer, &lane.0));
            if answer == Answer::Started {
                break;
            }
        }
    }
    assert!(met.values().all(|&times| times > 60), "{met:?}");
    for (edge, least) in [("carriers", 600), ("a wish replaced", 3_000)] {
        assert!(met[edge] > least, "{edge}: {met:?}");
    }
}

/// The small lane's text as an implementation might have read it.
fn begun(refused: bool, first: &Lane) -> Result<Checker, String> {
    Checker::after_reading(SMALL.as_bytes(), refused, first)
}

#[test]
fn the_book_begins_with_what_the_text_holds() {
    assert!(begun(false, &small_lane()).is_ok());
    assert!(begun(true, &small_lane()).is_err());
    assert!(begun(false, &Lane::default()).is_err());
    assert!(begun(true, &Lane::default()).is_ok());
    let wrong: [fn(&mut Lane); 12] = [
        |lane| lane.count = 1,
        |lane| lane.carriers[1].number = 8,
        |lane| lane.carriers[1].position -= 1,
        |lane| lane.carriers[1].speed -= 1,
        |lane| lane.carriers[0].length -= 1,
        |lane| lane.carriers[1].rate += 1,
        |lane| lane.carriers.swap(0, 1),
        |lane| lane.road.surface = 3,
        |lane| lane.road.end += 1,
        |lane| lane.road.limit += 1,
        |lane| lane.tables.in_force.0[7].most_acceleration += 1,
        |lane| lane.tables.for_next_start = lane.tables.in_force,
    ];
    for change in wrong {
        let mut lane = small_lane();
        change(&mut lane);
        assert!(begun(false, &lane).is_err(), "{lane:?}");
    }
    let mut never_empty = Lane::default();
    never_empty.tables.for_next_start = small_lane().tables.in_force;
    assert!(begun(true, &never_empty).is_err());
}

/// Whoever accepts what is no text, or a lane whose carriers touch, is found out.
#[test]
fn the_book_does_not_begin_with_a_text_that_must_be_refused() {
    let cut = &SMALL.as_bytes()[..SMALL.len() - 1];
    assert!(Checker::after_reading(cut, false, &small_lane()).is_err());
    assert!(Checker::after_reading(cut, true, &Lane::default()).is_ok());
    let mut level = small_lane();
    level.carriers[1].position = 988;
    let text = SMALL.replace("at=700", "at=988");
    assert!(Checker::after_reading(text.as_bytes(), false, &level).is_err());
}

/// Carrier 300, at 700 with 20, wishes for all it can: 20 + 103. On surface 2 with b 5
/// its own rate of 4 decides: 700 + 143 + S(4, 123) is past 988, so it brakes at 4.
#[test]
fn a_lane_taken_over_drives_by_its_rows() {
    let mut lane = Lane::default();
    assert_eq!(lane.take_over(SMALL.as_bytes()), Ok(()));
    let mut checker = begun(false, &lane).expect("a sound lane");
    let wishes = Box::new(wishes(&[Wish::Hold, Wish::Units(200)]));
    let cycle = Call::Cycle { count: 2, wishes };
    let Ok(Answer::Cycled(cycled)) = lane.call(&cycle) else {
        panic!("a cycle that is refused");
    };
    assert_eq!((cycled.word, cycled.gone, lane.cycle), (2, 0, 42));
    let braked = lane.present()[1];
    assert_eq!((braked.position, braked.speed), (736, 16));
    assert_eq!(checker.observe::<Summed>(&cycle, false, 2, &lane), Ok(()));
    // The next start puts the text's second table in force, the house rows.
    let start = Call::Start {
        road: common::road(0, 100, 100),
        first: 0,
    };
    assert_eq!(lane.call(&start), Ok(Answer::Started));
    assert_eq!(lane.tables.in_force, Table::HOUSE);
    assert_eq!(checker.observe::<Summed>(&start, false, 0, &lane), Ok(()));
    assert_eq!(lane.enter(carrier(1, 50, 0)), Ok(0));
}
