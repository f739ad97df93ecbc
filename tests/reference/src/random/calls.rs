//! The next call of a history, fitted to the lane it meets.

use super::entries::{closing_up, closing_up_for_change, entry, known_number};
use super::handovers::{handover_text, lane_lines};
use super::openings::{entry_in, question};
use super::surfaces::surface;
use super::table_texts::load_text;
use super::wishes::wishes;
use super::Random;
use crate::call::Call;
use crate::lane::{Lane, LONGEST_HANDOVER, LONGEST_LANE_TEXT};
use crate::road::Road;

/// How likely each sort of call is: closing up at the back, the same for another
/// row too, any other entry, cycle, leave, read, lane text, good start, any start,
/// change of surface, load, question where one could enter, handover.
pub type Weights = [u64; 13];

/// All sorts of calls.
pub const EVEN: Weights = [10, 5, 25, 30, 12, 8, 8, 1, 2, 6, 4, 12, 4];

/// Cycles alone.
pub const CYCLES: Weights = [0, 0, 0, 1, 0, 0, 0, 0, 0, 0, 0, 0, 0];

/// Loads before and after a start, and what shows that they do no more.
pub const LOADS: Weights = [1, 0, 0, 3, 1, 1, 1, 3, 1, 2, 12, 1, 2];

/// Changes of surface, and what shows which row is in force after them.
pub const RAIN: Weights = [0, 8, 8, 24, 6, 2, 2, 0, 0, 24, 1, 2, 2];

/// Questions where one could enter, and what makes and closes gaps.
pub const OPENINGS: Weights = [4, 0, 4, 4, 12, 1, 1, 0, 0, 2, 0, 40, 1];

/// Handovers, and what changes the lane that is handed over.
pub const HANDOVERS: Weights = [3, 1, 3, 8, 3, 0, 1, 1, 0, 4, 2, 0, 16];

/// A call on `lane`, which may be any lane.
pub fn call(random: &mut Random, lane: &Lane, weights: &Weights) -> Call {
    match random.weighted(weights) {
        0 => Call::Enter(closing_up(random, lane)),
        1 => Call::Enter(closing_up_for_change(random, lane)),
        2 => Call::Enter(entry(random, lane)),
        3 => cycle(random, lane),
        4 => Call::Leave {
            number: known_number(random, lane),
        },
        5 => Call::Read {
            number: known_number(random, lane),
        },
        6 => lane_text(random, lane),
        7 => good_start(random),
        8 => any_start(random),
        9 => Call::Surface {
            surface: surface(random, lane),
        },
        10 => Call::Load {
            text: load_text(random),
        },
        11 => {
            let (gap, newcomer) = question(random, lane);
            Call::FindOpening { gap, newcomer }
        }
        _ => handover(random, lane),
    }
}

/// The call after `last`: mostly, after a question, an entry at an end of what it
/// found or one past that; else one as likely as `weights` say.
pub fn call_after(
    random: &mut Random,
    last: Option<&Call>,
    lane: &Lane,
    weights: &Weights,
) -> Call {
    match last {
        Some(&Call::FindOpening { gap, newcomer }) if random.chance(70) => {
            Call::Enter(entry_in(random, lane, gap, newcomer))
        }
        _ => call(random, lane, weights),
    }
}

fn cycle(random: &mut Random, lane: &Lane) -> Call {
    let present = lane.count;
    let count = match random.below(20) {
        0 => random.pick(&[present.wrapping_add(1), present.wrapping_sub(1)]),
        1 => random.pick(&[0, 63, 64, 65, u64::MAX]),
        _ => present,
    };
    let wishes = wishes(random, lane);
    Call::Cycle { count, wishes }
}

fn lane_text(random: &mut Random, lane: &Lane) -> Call {
    Call::LaneText {
        room: room(random, lane_lines(lane).len(), LONGEST_LANE_TEXT),
    }
}

fn handover(random: &mut Random, lane: &Lane) -> Call {
    Call::Handover {
        room: room(random, handover_text(lane).len(), LONGEST_HANDOVER),
    }
}

/// A buffer about the length of its text.
fn room(random: &mut Random, length: usize, longest: usize) -> usize {
    random.pick(&[length, length, length - 1, length + 1, 0, longest])
}

/// A start, with arguments outside their ranges now and then.
fn any_start(random: &mut Random) -> Call {
    let edge = |random: &mut Random, usual: u64, edges: &[u64]| {
        if random.chance(10) {
            random.pick(edges)
        } else {
            usual
        }
    };
    let Road {
        surface,
        end,
        limit,
    } = any_road(random);
    let most = u32::MAX.into();
    Call::Start {
        road: Road {
            surface: edge(random, surface, &[8, 9, most]),
            end: edge(random, end, &[0, (1 << 31) + 1, most]),
            limit: edge(random, limit, &[0, 8_193, most]),
        },
        first: any_cycle(random),
    }
}

/// A start that is not refused for its arguments.
fn good_start(random: &mut Random) -> Call {
    Call::Start {
        road: any_road(random),
        first: any_cycle(random),
    }
}

/// A road whose figures keep their ranges.
pub fn any_road(random: &mut Random) -> Road {
    let surface = random.below(8);
    let any = random.any_width(1 << 31);
    let end = random.pick(&[1 << 31, 1 << 31, (1 << 31) - 1, 1 << 24, 100_000, any, any]);
    let any = random.any_width(8_192);
    let limit = random.pick(&[8_192, 8_192, 8_191, 1_000, any, any]);
    Road {
        surface,
        end,
        limit,
    }
}

pub fn any_cycle(random: &mut Random) -> u64 {
    let near_last = u64::MAX - random.below(12);
    let any = random.bits();
    random.pick(&[0, 0, 1, any, any, any, near_last])
}
