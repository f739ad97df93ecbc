//! Changes of surface: codes under whose rows a lane is just safe or just not,
//! and the rows that an entry is fitted to, so that there are such codes.

use super::edges::{narrow, row_at, slacks};
use super::Random;
use crate::lane::Lane;
use crate::surface::{Row, SURFACES};

const CODES: u64 = SURFACES as u64;

/// A code for a change, such as a line of text can hold, whatever the lane is.
pub fn surface(random: &mut Random, lane: &Lane) -> u64 {
    let asked: fn(i128) -> bool = match random.below(12) {
        0 => return narrow(lane.road.surface),
        1 => return random.pick(&[8, 9, 255, 256, u32::MAX.into()]),
        2..=3 => |_| true,
        4..=5 => |slack| slack >= 0,
        6..=7 => |slack| slack == 0,
        _ => |slack| slack == -1,
    };
    let code = other_code(random, lane, asked);
    code.unwrap_or_else(|| random.below(CODES))
}

/// A code under whose row the lane is not safe, if there is one.
pub fn unsafe_surface(random: &mut Random, lane: &Lane) -> Option<u64> {
    other_code(random, lane, |slack| slack < 0)
}

/// Rows that an entry is fitted to: that in force, another that the lane may be
/// put under, and those under which it is unsafe by one and is to stay so.
///
/// As long as the foremost carrier stays, two codes have each other beside them, so
/// that one entry after the other is fitted to both, also after a change.
pub fn rows_for_change(lane: &Lane) -> Vec<Row> {
    let number = lane.present().first().map_or(0, |foremost| foremost.number);
    let other = (lane.road.surface % CODES) ^ (1 + number % (CODES - 1));
    let kept = other_codes(lane, |slack| slack == -1);
    let codes = [lane.road.surface, other].into_iter().chain(kept);
    codes.map(|code| row_at(lane, code)).collect()
}

/// One of the codes that [`other_codes`] gives, if there is one.
fn other_code(random: &mut Random, lane: &Lane, asked: fn(i128) -> bool) -> Option<u64> {
    let codes: Vec<u64> = other_codes(lane, asked).collect();
    (!codes.is_empty()).then(|| random.pick(&codes))
}

/// The codes other than that in force whose rows leave the lane's tightest pair as
/// much slack as asked.
fn other_codes(lane: &Lane, asked: fn(i128) -> bool) -> impl Iterator<Item = u64> + '_ {
    let others = (0..CODES).filter(|&code| code != lane.road.surface);
    others.filter(move |&code| {
        let tightest = slacks(&row_at(lane, code), lane).min();
        asked(tightest.unwrap_or(0))
    })
}
