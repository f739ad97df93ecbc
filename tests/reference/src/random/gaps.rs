//! Sound lanes with gaps that one could enter, or just could not.

use super::edges::{nearest_behind, row_of};
use super::entries::{closing_up, to_position};
use super::lanes::{platoon, sound_lane};
use super::tables::sound_tables;
use super::Random;
use crate::carrier::Carrier;
use crate::lane::Lane;
use crate::road::Road;

/// The longest end of a [`short_lane`].
pub const SHORT_END: u64 = 1_200;

/// A sound lane with room between carriers, or with its last one near the start.
pub fn gapped_lane(random: &mut Random) -> Lane {
    let lane = sound_lane(random);
    with_gaps(random, lane)
}

/// As [`gapped_lane`], so short that each of its positions can be tried.
pub fn short_lane(random: &mut Random) -> Lane {
    let any = 1 + random.below(SHORT_END);
    let slow = 1 + random.below(150);
    let road = Road {
        surface: random.below(8),
        end: random.pick(&[1, 2, 3, any, any, any, any, SHORT_END]),
        limit: random.pick(&[1, 2, 8, 40, slow, slow, 8_192]),
    };
    let tables = sound_tables(random);
    let next = random.pick(&[closing_up, following_close]);
    let lane = platoon(random, road, tables, next);
    with_gaps(random, lane)
}

/// As [`closing_up`], with little room before it and little length, so that as many
/// carriers as a lane holds go on a short one too.
fn following_close(random: &mut Random, lane: &Lane) -> Carrier {
    let mut next = closing_up(random, lane);
    if let Some(&rear) = lane.present().last() {
        let nearest = nearest_behind(&row_of(lane), rear, next);
        let close = nearest - i128::from(random.below(4));
        next.position = next.position.max(to_position(close));
        next.length = next.length.min(random.below(4));
    }
    next
}

fn with_gaps(random: &mut Random, mut lane: Lane) -> Lane {
    if lane.present().len() > 2 && random.chance(60) {
        thin_out(random, &mut lane);
    }
    if random.chance(50) {
        move_back(random, &mut lane);
    }
    lane
}

/// Takes carriers out here and there, which leaves the others safe.
fn thin_out(random: &mut Random, lane: &mut Lane) {
    let percent = random.pick(&[30, 60, 90]);
    let present = lane.present().iter().copied();
    let kept: Vec<Carrier> = present.filter(|_| random.chance(percent)).collect();
    lane.carriers[..kept.len()].copy_from_slice(&kept);
    lane.count = kept.len() as u64;
}

/// Moves all carriers back by the same, so that the last one's front or tail is at
/// the start or within a few positions of it.
fn move_back(random: &mut Random, lane: &mut Lane) {
    let Some(&rear) = lane.present().last() else {
        return;
    };
    let near = random.below(4);
    let tail = (rear.length + near).saturating_sub(1);
    let target = random.pick(&[near, tail, tail, tail]);
    let back = rear.position.saturating_sub(target);
    let count = lane.present().len();
    for carrier in &mut lane.carriers[..count] {
        carrier.position -= back;
    }
}
