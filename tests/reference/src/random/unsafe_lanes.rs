//! Lanes that are not safe and break no other rule.

use super::handovers::handover_text;
use super::lanes::{lane_for_change, sound_lane, too_long, too_near, too_weak, too_wet};
use super::surfaces::unsafe_surface;
use super::tables::sound_tables;
use super::Random;
use crate::carrier::LONGEST_CARRIER;
use crate::lane::{FastLane, Lane, Supervisor};
use crate::refusal::Refusal;

/// A lane that is not safe, mostly by as little as can be, and breaks no other rule.
pub fn unsafe_lane(random: &mut Random) -> Lane {
    loop {
        let lane = if random.chance(20) {
            lane_of_two_rows(random)
        } else {
            let mut lane = sound_lane(random);
            if lane.count > 1 {
                make_unsafe(random, &mut lane);
            }
            lane
        };
        let text = handover_text(&lane);
        if FastLane::default().take_over(&text) == Err(Refusal::HandoverUnsafe) {
            return lane;
        }
    }
}

/// Makes a sound lane of several carriers unsafe, at any place.
fn make_unsafe(random: &mut Random, lane: &mut Lane) {
    let last = lane.present().len() - 1;
    let any = 1 + random.index(last);
    let follower = random.pick(&[1, last, any, any]);
    match random.below(10) {
        0..=2 => mix_up(random, lane),
        3..=4 => about_tail(random, lane, follower),
        5 => too_long(lane, follower),
        6 => too_wet(random, lane, follower),
        7 => too_weak(random, lane, follower),
        8 => tail_before_start(random, lane, follower),
        _ => too_near(random, lane, follower),
    }
}

/// Exchanges two carriers, or puts one level with another; it may be any lane.
pub fn mix_up(random: &mut Random, lane: &mut Lane) {
    let present = lane.present().len();
    if present < 2 {
        return;
    }
    let behind = 1 + random.index(present - 1);
    let any = random.index(behind);
    let ahead = random.pick(&[0, behind - 1, any]);
    match random.below(3) {
        0 => lane.carriers.swap(behind, behind - 1),
        1 => lane.carriers.swap(behind, ahead),
        _ => lane.carriers[behind].position = lane.carriers[ahead].position,
    }
}

/// Puts the follower level with the tail ahead, or one past it.
fn about_tail(random: &mut Random, lane: &mut Lane, follower: usize) {
    let leader = lane.carriers[follower - 1];
    lane.carriers[follower].position = leader.position - leader.length + random.below(2);
}

/// Moves the leader back and makes it so long that its tail is at the start or a
/// little before it: nobody can be behind it, and the follower stands there.
fn tail_before_start(random: &mut Random, lane: &mut Lane, follower: usize) {
    let (leader, behind) = (follower - 1, follower);
    let past = random.below(3);
    let position = lane.carriers[leader].position.min(LONGEST_CARRIER - past);
    lane.carriers[leader].position = position;
    lane.carriers[leader].length = position + past;
    lane.carriers[behind].position = random.pick(&[0, 0, 1, position / 2]);
    if random.chance(70) {
        lane.carriers[behind].speed = 0;
    }
}

/// A lane that is safe by the row in force and not by the one for the next start, or
/// the other way round, mostly by one; the same rows where there are no such.
pub fn lane_of_two_rows(random: &mut Random) -> Lane {
    let tables = sound_tables(random);
    let mut lane = lane_for_change(random, tables);
    let code = unsafe_surface(random, &lane);
    if let Some(other) = code.and_then(|code| tables.in_force.row(code)) {
        lane.tables.for_next_start.0[lane.road.surface as usize] = other;
        if random.chance(50) {
            let tables = &mut lane.tables;
            std::mem::swap(&mut tables.in_force, &mut tables.for_next_start);
        }
    }
    lane
}
