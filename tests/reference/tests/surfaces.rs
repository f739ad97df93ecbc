//! Changes of surface on a running lane: what is judged, what changes, and which
//! row decides afterwards.

mod common;

use common::{carrier, lane, lane_of, let_in, long_carrier, refused, road, wishes};
use lane_reference::random::{sound_lane, unsound_lane, Random};
use lane_reference::road_book::Checker;
use lane_reference::stopping::Summed;
use lane_reference::{
    Answer, Call, Carrier, Cycled, FastLane, Lane, Row, Supervisor, Table, Tables, Wish,
};

/// S(b, 96) with the b of each code's house row.
const STOPS_FROM_96: [u64; 8] = [160, 176, 192, 240, 288, 576, 1_536, 9_216];

fn change(surface: u64) -> Call {
    Call::Surface { surface }
}

/// Asserts that the change is accepted and moves nothing but the code.
fn changed(before: &Lane, surface: u64) -> Lane {
    let mut expected = *before;
    expected.road.surface = surface;
    let (mut after, mut fast) = (*before, FastLane(*before));
    assert_eq!(after.call(&change(surface)), Ok(Answer::SurfaceChanged));
    assert_eq!(fast.call(&change(surface)), Ok(Answer::SurfaceChanged));
    assert_eq!((after, fast.0), (expected, expected), "to {surface}");
    after
}

/// Carrier 7 stands with its tail at 10,000; carrier 8 drives at 96 so far behind
/// that it would rest `gap` below that tail on the surface `code`.
fn resting_below(code: usize, gap: u64, length: u64) -> Lane {
    let position = 10_000 - STOPS_FROM_96[code] - gap;
    let pair = [
        long_carrier(7, 10_000 + length, 0, length),
        carrier(8, position, 96),
    ];
    lane_of(0, 100_000, 1_000, &pair)
}

#[test]
fn checks_in_order() {
    for surface in [0, 7, 8, u64::MAX] {
        refused(&Lane::default(), 21, change(surface));
    }
    let sound = resting_below(7, 1, 0);
    let unknown = [8, 9, 15, 16, 255, 256, 1 << 16, 1 << 32, (1 << 32) + 1];
    for surface in unknown.into_iter().chain([1 << 63, u64::MAX]) {
        refused(&sound, 1, change(surface));
        refused(&lane(0, 10_000, 1_000, &[]), 1, change(surface));
    }
    // The lane is judged by its own row first, however safe it is on the new one.
    let mut unsafe_now = resting_below(4, 0, 0);
    unsafe_now.road.surface = 4;
    for surface in [0, 3, 4, 5, 8, u64::MAX] {
        refused(&unsafe_now, 21, change(surface));
    }
    // Nor does a good code mend a bad one.
    let mut unknown_now = resting_below(7, 1, 0);
    unknown_now.road.surface = 8;
    for surface in [0, 7, 8] {
        refused(&unknown_now, 21, change(surface));
    }
}

#[test]
fn the_code_in_force_is_accepted_on_every_sound_lane() {
    let mut random = Random::new(15);
    for _ in 0..2_000 {
        let sound = sound_lane(&mut random);
        assert_eq!(changed(&sound, sound.road.surface), sound);
        let unsound = unsound_lane(&mut random);
        refused(&unsound, 21, change(unsound.road.surface));
    }
}

#[test]
fn a_lane_of_one_carrier_or_none_is_safe_on_every_surface() {
    for carriers in [&[][..], &[(7, 9_999, 1_000)]] {
        for (from, to) in (0..8).flat_map(|from| (0..8).map(move |to| (from, to))) {
            changed(&lane(from, 10_000, 1_000, carriers), to);
        }
    }
}

#[test]
fn nothing_but_the_code_moves() {
    let mut sound = resting_below(7, 1, 300);
    sound.tables.for_next_start = Table([Row::new(1, 1, 1); 8]);
    sound.carriers[2] = long_carrier(7, u64::MAX, u64::MAX, u64::MAX);
    for cycle in [0, 5, u64::MAX] {
        sound.cycle = cycle;
        let back = (1..8).fold(sound, |lane, surface| changed(&lane, surface));
        assert_eq!(changed(&back, 0), sound);
    }
}

#[test]
fn level_at_rest_is_34_and_one_below_is_accepted() {
    for (code, length) in (1..8).flat_map(|code| [0, 1, 65_535].map(|length| (code, length))) {
        refused(&resting_below(code, 0, length), 34, change(code as u64));
        changed(&resting_below(code, 1, length), code as u64);
    }
}

#[test]
fn the_carrier_ahead_is_reckoned_with_the_new_hardest_braking() {
    // It rests 1,964 further on surface 0, but S(255, 500) = 990 on surface 7; the
    // one behind rests S(1, 32) = 1,024 or S(1, 48) = 2,304 further there.
    for (speed, nearest) in [(32, 1_965), (48, 685)] {
        let pair = |position| lane(0, 10_000, 1_000, &[(7, 2_000, 500), (8, position, speed)]);
        changed(&pair(nearest), 7);
        refused(&pair(nearest + 1), 34, change(7));
    }
}

/// With the house rows this takes remainders: carrier 7 rests 144 further on
/// surface 3, but 112 on surface 2, and carrier 8 rests 130 further, or 114.
#[test]
fn a_surface_that_brakes_better_can_be_unsafe() {
    let pair = |position| lane(3, 10_000, 1_000, &[(7, 1_000, 112), (8, position, 70)]);
    for position in [998, 999] {
        refused(&pair(position), 34, change(2));
    }
    let dried = changed(&pair(997), 2);
    changed(&dried, 3);
}

/// Every carrier stands but one, which is unsafe on any other surface.
#[test]
fn the_whole_lane_is_judged() {
    for count in [2, 3, 8, 64] {
        for place in 1..count {
            let mut carriers: Vec<Carrier> = (0..count as u64)
                .map(|number| carrier(number + 1, 100_000 - 1_000 * number, 0))
                .collect();
            carriers[place].position = carriers[place - 1].position - 161;
            carriers[place].speed = 96;
            let dry = lane_of(0, 200_000, 1_000, &carriers);
            for surface in 1..8 {
                refused(&dry, 34, change(surface));
            }
            let mut alone = dry;
            assert_eq!(alone.leave(place as u64 + 1), Ok(()));
            changed(&alone, 7);
        }
    }
}

#[test]
fn the_rows_are_those_in_force() {
    let (strict, mild) = (
        Table([Row::new(1, 255, 1); 8]),
        Table([Row::new(64, 128, 32); 8]),
    );
    let mut pair = resting_below(0, 1, 0);
    pair.tables = Tables {
        in_force: mild,
        for_next_start: strict,
    };
    changed(&pair, 5);
    pair.tables.in_force.0[5] = Row::new(63, 128, 32);
    pair.tables.for_next_start = mild;
    refused(&pair, 34, change(5));
    // A start puts the others in force.
    let mut anew = pair;
    assert_eq!(anew.start(road(0, 100_000, 1_000), 0), Ok(()));
    for newcomer in pair.present() {
        assert!(anew.enter(*newcomer).is_ok());
    }
    changed(&anew, 5);
}

#[test]
fn tails_count_and_fronts_past_the_end_do_not_matter() {
    let pair = |length| {
        let pair = [long_carrier(7, 10_500, 100, length), carrier(8, 9_000, 96)];
        lane_of(0, 10_000, 1_000, &pair)
    };
    // The tail rests at 10,672 less the length on surface 5, carrier 8 at 9,576.
    changed(&pair(1_095), 5);
    refused(&pair(1_096), 34, change(5));
}

/// On a lane of its own a carrier gets A faster, then B slower.
#[test]
fn wishes_are_trimmed_with_the_new_row() {
    for (surface, row) in (0..).zip(Table::HOUSE.0) {
        let mut lane = changed(&lane(0, 1 << 31, 8_192, &[(7, 0, 1_000)]), surface);
        for (units, speed) in [
            (i16::MAX, 1_000 + row.most_acceleration),
            (
                i16::MIN,
                1_000 + row.most_acceleration - row.hardest_braking,
            ),
        ] {
            let cycled = lane.cycle(1, &wishes(&[Wish::Units(units)]));
            assert_eq!(cycled, Ok(Cycled::default()));
            assert_eq!(lane.present()[0].speed, speed, "on {surface}");
        }
    }
}

/// Carrier 8, as near as the new surface lets it be, holds its speed and is braked.
#[test]
fn wishes_are_replaced_and_braked_with_the_new_row() {
    for (code, row) in (1..8).zip(Table::HOUSE.0.into_iter().skip(1)) {
        let mut lane = changed(&resting_below(code, 1, 0), code as u64);
        let before = lane.present()[1];
        let cycled = lane.cycle(2, &wishes(&[])).expect("sound");
        assert_eq!((cycled.word, cycled.replaced), (2, 1), "on {code}");
        let speed = 96 - row.guaranteed_braking;
        let expected = carrier(8, before.position + 96 + speed, speed);
        assert_eq!(lane.present()[1], expected, "on {code}");
        assert_eq!(lane.cycle, 1);
    }
}

#[test]
fn after_a_refused_change_the_old_row_decides() {
    let mut dry = resting_below(5, 0, 0);
    refused(&dry, 34, change(5));
    // It would rest at 9,776 on surface 0, at 9,904 on 4 and at 10,192 on 5.
    assert_eq!(dry.cycle(2, &wishes(&[])), Ok(Cycled::default()));
    assert_eq!(dry.present()[1], carrier(8, 9_616, 96));
    refused(&dry, 34, change(5));
    changed(&dry, 4);
}

#[test]
fn entries_are_judged_by_the_new_row() {
    let alone = changed(&lane(0, 100_000, 1_000, &[(7, 10_000, 0)]), 5);
    refused(&alone, 25, Call::Enter(carrier(8, 9_424, 96)));
    assert_eq!(alone.clone().enter(carrier(8, 9_423, 96)), Ok(1));
    let behind = changed(&lane(0, 100_000, 1_000, &[(8, 9_423, 96)]), 5);
    refused(&behind, 26, Call::Enter(carrier(7, 9_999, 0)));
    assert_eq!(behind.clone().enter(carrier(7, 10_000, 0)), Ok(0));
}

#[test]
fn a_lane_is_sound_by_the_new_row() {
    let mut wet = changed(&resting_below(5, 1, 0), 5);
    assert!(wet.read(8).is_ok());
    wet.carriers[1].position += 1;
    refused(&wet, 21, Call::Read { number: 8 });
    wet.road.surface = 0;
    assert!(wet.read(8).is_ok());
}

/// What the book says of a change that an implementation answers so and leaves
/// `after`; the lane before is that of [`resting_below`] on surface 0.
fn observed(surface: u64, was_refused: bool, after: &Lane) -> (Checker, Result<(), String>) {
    let before = resting_below(5, 1, 0);
    let (mut checker, seen) = let_in(100_000, before.present());
    assert_eq!(seen, Ok(()));
    let seen = checker.observe::<Summed>(&change(surface), was_refused, 0, after);
    (checker, seen)
}

#[test]
fn the_checker_sees_a_change_that_is_not_the_one_answered() {
    let before = resting_below(5, 1, 0);
    let after = changed(&before, 5);
    assert_eq!(observed(5, false, &after).1, Ok(()));
    assert_eq!(observed(6, true, &before).1, Ok(()));
    assert!(observed(5, false, &before).1.is_err(), "not made");
    assert!(observed(6, true, &changed(&before, 4)).1.is_err(), "made");
    assert!(observed(4, false, &after).1.is_err(), "another");
    let mut moved = after;
    moved.carriers[1].position -= 1;
    assert!(observed(5, false, &moved).1.is_err(), "a carrier moved");
    let mut loaded = after;
    loaded.tables.in_force.0[5].guaranteed_braking = 15;
    assert!(observed(5, false, &loaded).1.is_err(), "a row changed");
}

#[test]
fn the_checker_judges_a_cycle_by_the_new_row() {
    let cycle = Call::Cycle {
        count: 2,
        wishes: Box::new(wishes(&[])),
    };
    let after = changed(&resting_below(5, 1, 0), 5);
    // On surface 0 the wish would stand, or be replaced by −64.
    for (speed, word, right) in [(80, 2, true), (96, 0, false), (32, 2, false)] {
        let (mut checker, seen) = observed(5, false, &after);
        assert_eq!(seen, Ok(()));
        let mut driven = after;
        driven.carriers[1] = carrier(8, 9_423 + 96 + speed, speed);
        let seen = checker.observe::<Summed>(&cycle, false, word, &driven);
        assert_eq!(seen.is_ok(), right, "{seen:?}");
    }
}
