//! Words above the width that a figure of the paper has: a host may hand in
//! any 64 bits.

use super::Random;
use crate::call::Call;
use crate::lane::Gap;

/// The word with a bit above so many set, or with all.
fn above(random: &mut Random, width: u64, word: u64) -> u64 {
    let bit = 1 << (width + random.below(64 - width));
    random.pick(&[word | bit, word | bit, bit, u64::MAX])
}

/// The word with a bit above 32 set, or with all.
pub fn wide(random: &mut Random, word: u64) -> u64 {
    above(random, 32, word)
}

/// The number with a bit above 16 set, or with all.
pub fn wide_number(random: &mut Random, number: u64) -> u64 {
    above(random, 16, number)
}

/// The length with a bit above 16 set, or one that is less than nothing where a
/// sum wraps.
pub fn wide_length(random: &mut Random, length: u64) -> u64 {
    let wrapping = 0_u64.wrapping_sub(1 + random.below(1 << 17));
    let above = wide_number(random, length);
    random.pick(&[above, above, wrapping])
}

/// The figure of a row, or an own rate, with a bit above 8 set, or with all.
pub fn wide_figure(random: &mut Random, figure: u64) -> u64 {
    above(random, 8, figure)
}

/// The surface code with a bit above 3 set, or with all.
fn wide_code(random: &mut Random, code: u64) -> u64 {
    above(random, 3, code)
}

/// The call with one argument above the width that it has; a cycle, a load and what
/// only writes text stay as they are.
pub fn widened(random: &mut Random, call: &Call) -> Call {
    let mut call = call.clone();
    let argument = random.below(60);
    match &mut call {
        Call::Start { road, .. } => match argument % 3 {
            0 => road.surface = wide(random, road.surface),
            1 => road.end = wide(random, road.end),
            _ => road.limit = wide(random, road.limit),
        },
        Call::Enter(carrier) => match argument % 5 {
            0 => carrier.number = wide_number(random, carrier.number),
            1 => carrier.position = wide(random, carrier.position),
            2 => carrier.speed = wide(random, carrier.speed),
            3 => carrier.length = wide_length(random, carrier.length),
            _ => carrier.rate = wide_figure(random, carrier.rate),
        },
        Call::FindOpening { gap, newcomer } => match (argument % 4, gap) {
            (0, Gap::Behind(number)) => *number = wide_number(random, *number),
            (1, _) => newcomer.speed = wide(random, newcomer.speed),
            (2, _) => newcomer.length = wide_length(random, newcomer.length),
            _ => newcomer.rate = wide_figure(random, newcomer.rate),
        },
        Call::Leave { number } | Call::Read { number } => *number = wide_number(random, *number),
        Call::Surface { surface } => *surface = wide_code(random, *surface),
        Call::Cycle { .. } | Call::Load { .. } => (),
        Call::LaneText { .. } | Call::Handover { .. } => (),
    }
    call
}
