//! Random histories through the road book, and a road book that is awake.

mod common;

use common::{carrier, example_lane, lane_of, let_in, long_carrier, wishes};
use lane_reference::random::{
    call, history, sound_lane, unsound_lane, widened, History, Random, CYCLES, EVEN, HANDOVERS,
    LOADS, OPENINGS, RAIN,
};
use lane_reference::road_book::{check_history, Checker, Drive};
use lane_reference::stopping::{Fast, Summed};
use lane_reference::{Answer, Call, FastLane, Lane, Refusal, Supervisor, Wish};
use std::collections::BTreeSet;

#[test]
fn histories_keep_to_the_road_book() {
    for seed in 0..3_000 {
        let History { first, calls } = history(&mut Random::new(seed), 130);
        if let Err(breach) = check_history(FastLane(first), &calls) {
            panic!("seed {seed}: {breach}");
        }
    }
}

#[test]
fn summed_stopping_gives_the_same_answers() {
    for seed in 10_000..10_150 {
        let History { first, calls } = history(&mut Random::new(seed), 130);
        assert_eq!(check_history(first, &calls), Ok(()), "seed {seed}");
        let (mut summed, mut fast) = (first, FastLane(first));
        for call in &calls {
            assert_eq!(summed.call(call), fast.call(call), "seed {seed}");
            assert_eq!(summed, fast.0, "seed {seed}");
        }
    }
}

/// Refusals 8 and 10 belong to call texts alone, 36 and 37 to readings.
#[test]
fn histories_reach_every_refusal_and_every_answer() {
    let (mut refusals, mut sorts) = (BTreeSet::new(), BTreeSet::new());
    let (mut full, mut gone, mut replaced, mut last_bit) = (0, 0, 0, 0);
    for seed in 0..1_000 {
        let History { first, calls } = history(&mut Random::new(seed), 130);
        let mut lane = FastLane(first);
        for call in &calls {
            match lane.call(call) {
                Err(refusal) => drop(refusals.insert(refusal.number())),
                Ok(Answer::Cycled(cycled)) => {
                    assert_eq!(cycled.replaced, cycled.word.count_ones());
                    gone += cycled.gone;
                    replaced += cycled.replaced;
                    last_bit += cycled.word >> 63;
                }
                Ok(answer) => drop(sorts.insert(format!("{answer:?}")[..4].to_string())),
            }
            full += u32::from(lane.0.count == 64);
        }
    }
    let every = (1..=7).chain([9]).chain(21..=28).chain(31..=35).collect();
    assert_eq!(refusals, every);
    assert_eq!(sorts.len(), 9, "{sorts:?}");
    assert!(full > 1_000 && gone > 1_000 && replaced > 10_000 && last_bit > 100);
}

/// A refusal leaves the lane as it was, also one handed in unsound.
#[test]
fn lanes_handed_in_are_judged() {
    let mut random = Random::new(7);
    for _ in 0..5_000 {
        let sound = sound_lane(&mut random);
        assert!(sound.sound_row::<Fast>().is_ok(), "{sound:?}");
        let unsound = unsound_lane(&mut random);
        assert!(unsound.sound_row::<Fast>().is_err(), "{unsound:?}");
        for lane in [sound, unsound] {
            let weights = random.pick(&[EVEN, LOADS, RAIN, OPENINGS, HANDOVERS]);
            let call = call(&mut random, &lane, &weights);
            let mut after = FastLane(lane);
            let answer = after.call(&call);
            if answer.is_err() {
                assert_eq!(after.0, lane, "{call:?}");
            } else if lane.started || call_starts(&call) {
                assert!(after.0.sound_row::<Fast>().is_ok(), "{call:?} on {lane:?}");
            }
            if lane == unsound && !exempt(&lane, &call) {
                assert_eq!(answer, Err(Refusal::LaneUnsound), "{call:?}");
            }
        }
    }
}

fn call_starts(call: &Call) -> bool {
    matches!(call, Call::Start { .. })
}

/// Whether a lane may be unsound and the call yet be accepted: a start looks
/// at the rows that it puts in force, and a load on a lane never started at none.
fn exempt(lane: &Lane, call: &Call) -> bool {
    match call {
        Call::Start { .. } => lane.tables.for_next_start.is_sound(),
        Call::Load { .. } => !lane.started,
        _ => false,
    }
}

/// Cycles that run with carriers on rows that a terminal loaded, and wishes
/// that are replaced there.
#[test]
fn histories_go_on_with_loaded_rows() {
    let (mut cycles, mut replaced, mut full) = (0, 0, 0);
    for seed in 0..600 {
        let History { first, calls } = history(&mut Random::new(seed), 130);
        let (mut lane, mut loaded, mut in_force) = (FastLane(first), false, false);
        for call in &calls {
            match lane.call(call) {
                Ok(Answer::Loaded) => loaded = true,
                Ok(Answer::Started) => in_force = loaded,
                Ok(Answer::Cycled(cycled)) if in_force && lane.0.count > 1 => {
                    cycles += 1;
                    replaced += cycled.replaced;
                    full += u32::from(lane.0.count == 64);
                }
                _ => (),
            }
        }
    }
    assert!(cycles > 1_000 && replaced > 5_000 && full > 100);
}

/// No text can hold such arguments, and no call accepts them.
#[test]
fn arguments_above_their_width_are_refused() {
    let mut random = Random::new(8);
    for _ in 0..5_000 {
        let lane = sound_lane(&mut random);
        let next = call(&mut random, &lane, &EVEN);
        let wide = widened(&mut random, &next);
        let mut after = FastLane(lane);
        let answer = after.call(&wide);
        let numbers: &[u32] = match wide {
            Call::Start { .. } => &[1, 2, 3],
            Call::Enter { .. } => &[4, 5, 6, 33, 35],
            Call::Leave { .. } | Call::Read { .. } => &[4],
            Call::FindOpening { .. } => &[4, 24, 6, 33, 35],
            Call::Surface { .. } => &[1],
            Call::Cycle { .. } | Call::Load { .. } => continue,
            Call::LaneText { .. } | Call::Handover { .. } => continue,
        };
        let number = answer.expect_err("a refusal").number();
        assert!(numbers.contains(&number), "{wide:?} gives {number}");
        assert_eq!(after.0, lane, "{wide:?}");
    }
}

#[test]
fn wishes_as_numbers_are_the_same_wishes() {
    let mut random = Random::new(9);
    for _ in 0..3_000 {
        let lane = sound_lane(&mut random);
        let next = call(&mut random, &lane, &CYCLES);
        let Call::Cycle { count, wishes } = &next else {
            unreachable!("cycles alone are asked for")
        };
        let (sorts, values): (Vec<u8>, Vec<u32>) = wishes
            .iter()
            .map(|wish| wish.in_numbers(random.bits() as u32))
            .unzip();
        let (mut plain, mut given) = (FastLane(lane), FastLane(lane));
        let answer = given.cycle_given(*count, &sorts, &values);
        assert_eq!(plain.cycle(*count, wishes), answer, "{next:?}");
        assert_eq!(plain, given, "{next:?}");
    }
}

/// The example's cycle as an implementation might answer it.
fn observed(word: u64, after: &Lane) -> Result<(), String> {
    let first = common::lane(0, 10_000, 1_000, &[]);
    let mut checker = Checker::new(&first);
    let mut lane = first;
    for newcomer in [carrier(7, 1_000, 0), carrier(8, 700, 64)] {
        lane.enter(newcomer).expect("room");
        let entry = Call::Enter(newcomer);
        checker.observe::<Summed>(&entry, false, 0, &lane)?;
    }
    assert_eq!(lane, example_lane(1_000));
    let cycle = Call::Cycle {
        count: 2,
        wishes: Box::new(wishes(&[Wish::Hold, Wish::Units(32)])),
    };
    checker.observe::<Summed>(&cycle, false, word, after)
}

#[test]
fn the_checker_sees_a_wrong_bit_needless_braking_or_a_wrong_carrier() {
    let mut right = example_lane(1_000);
    right.carriers[1].position = 764;
    right.carriers[1].speed = 0;
    assert_eq!(observed(2, &right), Ok(()));
    // Carrier 7 is at rest, so bit 0 would change nothing but the word.
    for bit in 0..64 {
        assert!(observed(2 ^ 1 << bit, &right).is_err(), "bit {bit}");
    }
    let wrong: [fn(&mut Lane); 15] = [
        |lane| lane.carriers[1].position += 1,
        |lane| lane.carriers[1].speed += 1,
        |lane| lane.carriers[0].length += 1,
        |lane| lane.carriers[1].length += 1,
        |lane| lane.carriers[0].rate -= 1,
        |lane| lane.carriers[1].rate -= 1,
        |lane| lane.carriers[0].number = 9,
        |lane| lane.carriers.swap(0, 1),
        |lane| lane.count = 1,
        |lane| lane.count = 3,
        |lane| lane.road.surface = 1,
        |lane| lane.road.end = 10_001,
        |lane| lane.road.limit = 1_001,
        |lane| lane.tables.in_force.0[7].most_acceleration = 2,
        |lane| lane.tables.for_next_start.0[0].guaranteed_braking = 63,
    ];
    for change in wrong {
        let mut lane = right;
        change(&mut lane);
        assert!(observed(2, &lane).is_err(), "{lane:?}");
    }
    assert!(observed(2, &example_lane(1_000)).is_err(), "nobody moved");
}

/// The follower passes the leader's tail half way and is behind it again at the
/// end, so a look at cycle ends alone finds nothing. On the last lane the leader
/// is gone after the cycle.
#[test]
fn the_checker_sees_a_touch_between_cycle_ends() {
    for (length, end) in [(0, 10_000), (300, 10_000), (300, 311), (300, 42)] {
        let leader = long_carrier(1, 10 + length, 0, length);
        let (mut checker, seen) = let_in(end, &[leader, carrier(2, 5, 32)]);
        assert_eq!(seen, Ok(()));
        let moved = [leader.after(32), carrier(2, 37, 0)];
        let gone = usize::from(moved[0].tail() >= end as i64);
        let cycle = Call::Cycle {
            count: 2,
            wishes: Box::new(wishes(&[Wish::Units(32), Wish::Units(-32)])),
        };
        let after = lane_of(0, end, 1_000, &moved[gone..]);
        let seen = checker.observe::<Summed>(&cycle, false, 2, &after);
        assert!(seen.is_err_and(|breach| breach.contains("touches")));
    }
}

/// A follower that is below the front ahead, but not below the tail, or below
/// the tail next ahead, but not below one further ahead.
#[test]
fn the_checker_sees_a_front_level_with_a_tail() {
    let one = long_carrier(1, 1_000, 0, 300);
    let lanes = [
        (vec![one, carrier(2, 699, 0)], true),
        (vec![one, carrier(2, 700, 0)], false),
        (vec![one, carrier(2, 999, 0)], false),
        (vec![one, carrier(2, 800, 0), carrier(3, 750, 0)], false),
    ];
    for (carriers, apart) in lanes {
        let (_, seen) = let_in(10_000, &carriers);
        assert_eq!(seen.is_ok(), apart, "{carriers:?}");
    }
}

#[test]
fn the_closest_approach_is_exact() {
    let drive = |position, speed, acceleration| Drive {
        carrier: carrier(1, position, speed),
        acceleration,
    };
    let (leader, follower) = (drive(5, 0, 10), drive(0, 10, -10));
    let (k, n) = follower.closest_approach(&leader).expect("within it");
    assert_eq!((k, n), (10, 20));
    let level = follower.scaled_position(k, n);
    assert_eq!(leader.scaled_position(k, n), level, "they touch half way");
    assert!(leader.end().position > follower.end().position);
    let standing = drive(11, 0, 0);
    assert_eq!(
        follower.closest_approach(&standing),
        None,
        "the end is nearest"
    );
    assert_eq!(leader.closest_approach(&leader), None, "always as near");
}
