//! Lanes as a host may hand them in.

use super::calls::{any_cycle, any_road};
use super::edges::{nearest_behind, row_of, slacks, tail};
use super::entries::{closing_up, closing_up_for_change, speed};
use super::lengths::sound_length;
use super::surfaces::unsafe_surface;
use super::tables::{any_tables, sound_tables, unsound_table};
use super::wide::{wide, wide_figure, wide_length, wide_number};
use super::Random;
use crate::carrier::{Carrier, LONGEST_CARRIER, OWN_RATES};
use crate::lane::{Lane, PLACES};
use crate::road::Road;
use crate::surface::Tables;

/// A lane without carriers that a history may begin with; its other fields
/// are anything.
pub fn empty_lane(random: &mut Random) -> Lane {
    if random.chance(30) {
        return Lane::default();
    }
    Lane {
        started: random.chance(70),
        road: wild_road(random),
        cycle: any_cycle(random),
        count: 0,
        tables: if random.chance(10) {
            any_tables(random)
        } else {
            sound_tables(random)
        },
        carriers: leftovers(random),
    }
}

/// A lane never started in which every other field is anything.
pub fn never_started_lane(random: &mut Random) -> Lane {
    let any = random.bits();
    Lane {
        started: false,
        count: random.pick(&[0, 1, 2, 64, 65, 1 << 32, any, u64::MAX]),
        tables: any_tables(random),
        road: wild_road(random),
        ..sound_lane(random)
    }
}

fn wild_road(random: &mut Random) -> Road {
    let any = random.bits();
    let narrow = any >> 32;
    Road {
        surface: random.pick(&[0, 3, 6, 7, 7, 8, narrow, any]),
        end: random.pick(&[0, 1, 20_000, 1 << 31, (1 << 31) + 1, narrow, any]),
        limit: random.pick(&[0, 1, 2_000, 8_192, 8_193, narrow, any]),
    }
}

/// What idle places may hold.
fn leftovers(random: &mut Random) -> [Carrier; PLACES] {
    let left = Carrier {
        number: random.below(65_536),
        position: random.bits() >> 32,
        speed: random.bits() >> 32,
        length: sound_length(random),
        rate: random.below(256),
    };
    let any = Carrier {
        number: random.bits(),
        position: random.bits(),
        speed: random.bits(),
        length: random.bits(),
        rate: random.bits(),
    };
    [random.pick(&[Carrier::default(), left, any]); PLACES]
}

/// A started, sound lane: a tight platoon of up to 64, the foremost now and then
/// with its front past the end; half of them are tight under another row too.
pub fn sound_lane(random: &mut Random) -> Lane {
    let tables = sound_tables(random);
    if random.chance(50) {
        lane_with(random, tables)
    } else {
        lane_for_change(random, tables)
    }
}

/// As [`sound_lane`], with the caller's tables, which are sound; tight under the
/// row in force alone.
pub fn lane_with(random: &mut Random, tables: Tables) -> Lane {
    let road = any_road(random);
    platoon(random, road, tables, closing_up)
}

/// As [`lane_with`], but often just safe or unsafe by one under another row.
pub fn lane_for_change(random: &mut Random, tables: Tables) -> Lane {
    let road = any_road(random);
    let mut lane = platoon(random, road, tables, closing_up_for_change);
    if random.chance(50) {
        move_up(random, &mut lane);
    }
    lane
}

/// Moves one of the carriers that can be moved up by one, often the first or the
/// last of them; the lane stays sound.
fn move_up(random: &mut Random, lane: &mut Lane) {
    let row = row_of(lane);
    let places = (1..).zip(slacks(&row, lane));
    let free: Vec<usize> = places
        .filter_map(|(place, slack)| (slack > 0).then_some(place))
        .collect();
    if !free.is_empty() {
        let any = random.index(free.len());
        let chosen = random.pick(&[0, free.len() - 1, any]);
        lane.carriers[free[chosen]].position += 1;
    }
}

/// A platoon of any number of carriers, one after the other as `next` has them.
pub(super) fn platoon(
    random: &mut Random,
    road: Road,
    tables: Tables,
    next: fn(&mut Random, &Lane) -> Carrier,
) -> Lane {
    let mut lane = Lane {
        started: true,
        road,
        cycle: any_cycle(random),
        count: 0,
        tables,
        carriers: leftovers(random),
    };
    let any = random.index(PLACES + 1);
    let wanted = random.pick(&[0, 1, 2, PLACES, any]);
    while lane.present().len() < wanted && has_room_behind(&lane) {
        let mut newcomer = next(random, &lane);
        if lane.count == 0 && random.chance(30) {
            move_past_end(random, &lane.road, &mut newcomer);
        }
        lane.carriers[lane.present().len()] = newcomer;
        lane.count += 1;
    }
    lane
}

/// Whether anyone can be behind the last carrier: its tail is not before the
/// start, nor at it.
fn has_room_behind(lane: &Lane) -> bool {
    lane.present().last().is_none_or(|&rear| tail(rear) > 0)
}

/// Moves the carrier on until its tail is just before the end.
fn move_past_end(random: &mut Random, road: &Road, carrier: &mut Carrier) {
    let last = road.end + carrier.length - 1;
    let moved = last.saturating_sub(random.below(3));
    carrier.position = carrier.position.max(moved);
}

/// A lane made unsound in one way, mostly by as little as can be.
pub fn unsound_lane(random: &mut Random) -> Lane {
    let mut lane = sound_lane(random);
    while lane.present().len() < 2 {
        lane = sound_lane(random);
    }
    match random.below(10) {
        0..=2 => widen(random, &mut lane),
        3..=4 => lane.tables.in_force = unsound_table(random),
        5..=6 => lane.tables.for_next_start = unsound_table(random),
        _ => overstep(random, &mut lane),
    }
    lane
}

/// Breaks one rule by as little as can be.
fn overstep(random: &mut Random, lane: &mut Lane) {
    let place = random.index(lane.present().len());
    let follower = 1 + random.index(lane.present().len() - 1);
    let ahead = random.index(follower);
    let most = u32::MAX.into();
    match random.below(21) {
        0 => lane.started = false,
        1 => lane.road.surface = random.pick(&[8, 9, most]),
        2 => lane.road.end = random.pick(&[0, (1 << 31) + 1, most]),
        3 => lane.road.limit = random.pick(&[0, 8_193, most]),
        4 => lane.count = random.pick(&[65, 128, 1 << 32, u64::MAX]),
        5 => lane.carriers[place].number = random.pick(&[0, 65_536]),
        6 => lane.carriers[follower].number = lane.carriers[ahead].number,
        7 => lane.carriers[place].speed = random.pick(&[lane.road.limit + 1, most]),
        8 => lane.road.end = front_tail(lane).saturating_sub(random.below(2)),
        9 => lane.carriers[0].position = past_end(lane) + random.below(2),
        10 => lane.carriers[place].length = random.pick(&[LONGEST_CARRIER + 1, most]),
        11 => lane.carriers[follower].position = lane.carriers[ahead].position,
        12 => level_with_tail(lane, follower, ahead),
        13 => too_long(lane, follower),
        14..=15 => too_wet(random, lane, follower),
        16..=17 => lane.carriers[place].rate = random.pick(&[0, 0, 256, 256, most]),
        18..=19 => too_weak(random, lane, follower),
        _ => too_near(random, lane, follower),
    }
}

/// The tail of the foremost carrier, or the start where the tail is before it.
fn front_tail(lane: &Lane) -> u64 {
    let foremost = lane.carriers[0];
    foremost.position.saturating_sub(foremost.length)
}

/// The position at which the foremost carrier's tail is at the end.
fn past_end(lane: &Lane) -> u64 {
    lane.road.end + lane.carriers[0].length
}

/// Puts a carrier level with the tail of one ahead: with room behind it, a tail
/// is past the start.
fn level_with_tail(lane: &mut Lane, follower: usize, ahead: usize) {
    let leader = lane.carriers[ahead];
    lane.carriers[follower].position = leader.position - leader.length;
}

/// Makes the one next ahead too long by one for the follower to be safe, be it
/// that no carrier may be so long.
pub(super) fn too_long(lane: &mut Lane, follower: usize) {
    let row = row_of(lane);
    let follower_there = lane.carriers[follower];
    let leader = &mut lane.carriers[follower - 1];
    let nearest = nearest_behind(&row, *leader, follower_there);
    let slack = nearest - i128::from(follower_there.position);
    leader.length += slack as u64 + 1;
}

/// Puts the lane on a surface on which it is not safe; where there is none, moves
/// the follower too near.
pub(super) fn too_wet(random: &mut Random, lane: &mut Lane, follower: usize) {
    match unsafe_surface(random, lane) {
        Some(code) => lane.road.surface = code,
        None => too_near(random, lane, follower),
    }
}

/// Puts bits above its width into one field that counts.
fn widen(random: &mut Random, lane: &mut Lane) {
    let place = random.index(lane.present().len());
    let carrier = &mut lane.carriers[place];
    match random.below(11) {
        0 => lane.road.surface = wide(random, lane.road.surface),
        1 => lane.road.end = wide(random, lane.road.end),
        2 => lane.road.limit = wide(random, lane.road.limit),
        3 => lane.count = wide(random, lane.count),
        4 => carrier.number = wide_number(random, carrier.number),
        5 => carrier.position = wide(random, carrier.position),
        6 => carrier.speed = wide(random, carrier.speed),
        7 => carrier.length = wide_length(random, carrier.length),
        8..=9 => carrier.rate = wide_figure(random, carrier.rate),
        _ => {
            // The tail is where it was.
            let bit = 1 << (17 + random.below(47));
            (carrier.position, carrier.length) = (carrier.position + bit, carrier.length + bit);
        }
    }
}

/// Moves the follower one past the nearest position that is safe.
pub(super) fn too_near(random: &mut Random, lane: &mut Lane, follower: usize) {
    let (leader, mut moved) = (lane.carriers[follower - 1], lane.carriers[follower]);
    let row = row_of(lane);
    moved.speed = speed(random, lane, &row, moved.rate).min(lane.road.limit);
    let nearest = nearest_behind(&row, leader, moved);
    // Where this speed finds no room at all, level with the leader will do.
    moved.position = u64::try_from(nearest + 1).unwrap_or(leader.position);
    lane.carriers[follower] = moved;
}

/// Gives the follower the greatest own rate with which it is not safe; where there
/// is none, moves it too near.
pub(super) fn too_weak(random: &mut Random, lane: &mut Lane, follower: usize) {
    let (leader, there) = (lane.carriers[follower - 1], lane.carriers[follower]);
    let row = row_of(lane);
    let weak = |&rate: &u64| {
        let weakened = Carrier { rate, ..there };
        nearest_behind(&row, leader, weakened) < there.position.into()
    };
    match OWN_RATES.rev().find(weak) {
        Some(rate) => lane.carriers[follower].rate = rate,
        None => too_near(random, lane, follower),
    }
}
