//! Random cases: histories, and calls on lanes that a host may hand in.

use super::binding::Words;
use super::case::Case;
use super::host;
use super::host_call::HostCall;
use super::words;
use lane_reference::random::{
    calls_on, calls_on_empty, gapped_lane, history, never_started_lane, short_lane, sound_lane,
    taken_over, text_to_read, unsafe_lane, unsound_lane, widened, History, Random, TakenOver,
    Weights, EVEN, FLOAT_EDGES, HANDOVERS, LOADS, OPENINGS, RAIN,
};
use lane_reference::{Call, Gap, Lane, Newcomer, Wish, PLACES};

/// Units that 16 bits do not hold, by their 32 bits.
const WIDE_UNITS: [u32; 8] = [
    0x0000_8000,
    0x0000_FFFF,
    0x0001_0000,
    0x7FFF_FFFF,
    0x8000_0000,
    0xFFFF_0000,
    0xFFFF_7FFF,
    0x0001_0020,
];

/// Plans of calls on a lane: all sorts of them, or loads and starts above all,
/// changes of surface, questions where one could enter, or handovers.
const ANY_PLAN: [Weights; 6] = [EVEN, EVEN, LOADS, RAIN, OPENINGS, HANDOVERS];

/// Sorts that do not exist.
const NO_SORTS: [u8; 6] = [4, 5, 8, 127, 128, 255];

pub fn case(random: &mut Random) -> Case {
    match random.below(16) {
        0..=1 => handed_on(random),
        2..=3 => readings(random),
        _ => history_or_calls(random),
    }
}

/// A lane taken over, whatever was lent, and what follows; some cases go on with
/// other readings.
fn handed_on(random: &mut Random) -> Case {
    let first = words::any(random);
    let mut calls = Vec::new();
    for _ in 0..random.pick(&[1, 1, 2]) {
        let length = random.pick(&[1, 20, 130]);
        let TakenOver {
            text,
            calls: following,
        } = taken_over(random, length);
        calls.push(HostCall::TakeOver { text });
        calls.extend(following.into_iter().map(|call| hosted(random, call)));
    }
    Case { first, calls }
}

/// Readings alone, of texts of all sorts, one after the other on one lane.
fn readings(random: &mut Random) -> Case {
    let calls = (0..40).map(|_| HostCall::TakeOver {
        text: text_to_read(random),
    });
    let calls = calls.collect();
    let first = words::any(random);
    Case { first, calls }
}

fn history_or_calls(random: &mut Random) -> Case {
    let (first, calls) = match random.below(12) {
        0..=2 => {
            let History { first, calls } = history(random, 130);
            (words::of_lane(random, &first), calls)
        }
        3 => (host::empty(), calls_on_empty(random, 130)),
        4..=5 => on_lane(random, sound_lane, &ANY_PLAN, 20),
        6 => on_lane(random, gapped_lane, &[OPENINGS], 20),
        7 => on_lane(random, short_lane, &[OPENINGS], 20),
        8 => on_lane(random, never_started_lane, &ANY_PLAN, 8),
        9 => on_lane(random, unsafe_lane, &ANY_PLAN, 4),
        _ => on_lane(random, unsound_lane, &ANY_PLAN, 4),
    };
    let calls = calls.into_iter().map(|call| hosted(random, call)).collect();
    Case { first, calls }
}

/// A lane and calls on it, as one of the plans has them.
fn on_lane(
    random: &mut Random,
    lane: fn(&mut Random) -> Lane,
    plans: &[Weights],
    length: usize,
) -> (Words, Vec<Call>) {
    let first = lane(random);
    let plan = vec![random.pick(plans); length];
    let calls = calls_on(random, first, &plan);
    (words::of_lane(random, &first), calls)
}

/// The call as a host makes it, now and then with an argument that is too wide.
fn hosted(random: &mut Random, call: Call) -> HostCall {
    let Call::Cycle { count, wishes } = call else {
        let wide = random.chance(3);
        return match if wide { widened(random, &call) } else { call } {
            Call::FindOpening { gap, newcomer } => asked(random, gap, newcomer),
            call => HostCall::Plain(call),
        };
    };
    match random.below(30) {
        0 => without_enough(random, count, &wishes),
        1 => with_no_wish(random, count, &wishes),
        _ => {
            let length = random.pick(&[PLACES, count.min(PLACES as u64) as usize]);
            listed(random, count, &wishes[..length])
        }
    }
}

/// The question as a host asks it; the number that goes with a head is anything.
fn asked(random: &mut Random, gap: Gap, newcomer: Newcomer) -> HostCall {
    let any = random.bits();
    let small = random.below(200);
    let (head, number) = match gap {
        Gap::Behind(number) => (0, number),
        Gap::AheadOfAll => (
            random.pick(&[1, 1, 2, 256, 1 << 32, any | 1, u64::MAX]),
            random.pick(&[0, small, small, 65_536, any]),
        ),
    };
    HostCall::FindOpening {
        head,
        number,
        newcomer,
    }
}

/// Both lists; the value of a hold is anything.
fn listed(random: &mut Random, count: u64, wishes: &[Wish]) -> HostCall {
    let pairs = wishes.iter().map(|wish| {
        let any = random.pick(&FLOAT_EDGES);
        wish.in_numbers(any)
    });
    let (sorts, values) = pairs.unzip();
    HostCall::Cycle {
        count,
        sorts,
        values,
    }
}

/// One list or both too short.
fn without_enough(random: &mut Random, count: u64, wishes: &[Wish; PLACES]) -> HostCall {
    let mut call = if random.chance(50) {
        listed(random, count, wishes)
    } else {
        with_no_wish(random, count, wishes)
    };
    if let HostCall::Cycle { sorts, values, .. } = &mut call {
        let some = random.below(count.clamp(1, PLACES as u64)) as usize;
        let short = random.pick(&[some, 0, some.saturating_sub(1)]);
        let (of_sorts, of_values) =
            random.pick(&[(short, PLACES), (PLACES, short), (short, short)]);
        sorts.truncate(of_sorts);
        values.truncate(of_values);
    }
    call
}

/// A pair that is no wish, among the first `count` or just after them.
fn with_no_wish(random: &mut Random, count: u64, wishes: &[Wish; PLACES]) -> HostCall {
    let mut call = listed(random, count, wishes);
    if let HostCall::Cycle { sorts, values, .. } = &mut call {
        let place = random.below(count.saturating_add(1).min(PLACES as u64)) as usize;
        (sorts[place], values[place]) = if random.chance(50) {
            (0, random.pick(&WIDE_UNITS))
        } else {
            (random.pick(&NO_SORTS), random.bits() as u32)
        };
        debug_assert_eq!(Wish::of_numbers(sorts[place], values[place]), None);
    }
    call
}
