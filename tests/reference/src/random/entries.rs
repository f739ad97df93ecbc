//! Entries that are just safe or just not. Their figures are such as a line of
//! text can hold, whatever the lane is.

use super::edges::{guaranteed, narrow, nearest_behind, nearest_tail_ahead, row_of, tail};
use super::lengths::{edge_length, length, sound_length, to_length};
use super::rates::{rate, sound_rate};
use super::surfaces::rows_for_change;
use super::Random;
use crate::carrier::{Carrier, LONGEST_CARRIER};
use crate::lane::{Lane, NUMBERS, PLACES};
use crate::surface::Row;

/// How far an entry is from the nearest safe position: mostly not at all.
const OFFSETS: [i128; 8] = [0, 0, 0, 0, 1, 1, -1, 2];

/// An entry of any sort, refused ones among them. Some are fitted to other rows
/// as well, under which the lane may be put next.
pub fn entry(random: &mut Random, lane: &Lane) -> Carrier {
    let rows = if random.chance(30) {
        rows_for_change(lane)
    } else {
        vec![row_of(lane)]
    };
    let rate = rate(random, &rows);
    let mut newcomer = Carrier {
        number: number(random, lane),
        position: narrow(random.below(narrow(lane.road.end) + 2)),
        speed: speed(random, lane, &rows[0], rate),
        length: length(random),
        rate,
    };
    match random.below(12) {
        0..=3 => newcomer.position = behind(random, lane, &rows, newcomer),
        4..=6 => ahead(random, lane, &rows, &mut newcomer),
        7..=8 => fill_gap(random, lane, &rows, &mut newcomer),
        9 => newcomer.position = near_end(random, lane),
        10 => newcomer.position = level(random, lane),
        _ => (),
    }
    if random.chance(15) {
        newcomer.length = edge_length(random, lane, newcomer);
    }
    newcomer
}

/// An entry at the back that succeeds, as tight as can be, unless the lane is
/// full or has no room left.
pub fn closing_up(random: &mut Random, lane: &Lane) -> Carrier {
    let row = row_of(lane);
    let newcomer = newcomer(random, lane, &[row]);
    let nearest = |rear, newcomer| nearest_behind(&row, rear, newcomer);
    at_the_back(random, lane, newcomer, nearest)
}

/// As [`closing_up`], but under other rows too the newcomer is just safe, or now
/// and then unsafe by one.
pub fn closing_up_for_change(random: &mut Random, lane: &Lane) -> Carrier {
    let rows = rows_for_change(lane);
    // Rarer, the more carriers there are, so that whole long lanes are safe too.
    let present = lane.present().len().max(1);
    let past = i128::from(random.index(2 * present) == 0);
    let nearest = |rear, newcomer| {
        let others = nearest_behind_under(&rows[1..], rear, newcomer);
        nearest_behind(&rows[0], rear, newcomer).min(others + past)
    };
    let newcomer = telling_newcomer(random, lane, &rows);
    at_the_back(random, lane, newcomer, nearest)
}

/// A carrier that no call refuses for its figures, for any place.
fn newcomer(random: &mut Random, lane: &Lane, rows: &[Row]) -> Carrier {
    let rate = sound_rate(random, rows);
    Carrier {
        number: unused_number(random, lane),
        position: 0,
        speed: speed(random, lane, &rows[0], rate).min(lane.road.limit),
        length: sound_length(random),
        rate,
    }
}

/// A newcomer with, of a few speeds, one at which the other rows ask for more room
/// behind the last carrier than the first, if it is among them. Where they brake
/// better, remainders alone may bring that about, at speeds of a few times the rates.
fn telling_newcomer(random: &mut Random, lane: &Lane, rows: &[Row]) -> Carrier {
    let mut tried = newcomer(random, lane, rows);
    for _ in 0..8 {
        let row = random.pick(rows);
        let low = random.below(4 * row.hardest_braking + 1);
        let any = speed(random, lane, &row, tried.rate);
        tried.speed = random.pick(&[any, low]).min(lane.road.limit);
        let tells = |&rear: &Carrier| {
            let others = nearest_behind_under(&rows[1..], rear, tried);
            others < nearest_behind(&rows[0], rear, tried)
        };
        if lane.present().last().is_some_and(tells) {
            break;
        }
    }
    tried
}

/// The newcomer at the position that is `nearest` behind the last carrier, or a
/// little back; it stands where that would be before the start.
fn at_the_back(
    random: &mut Random,
    lane: &Lane,
    mut newcomer: Carrier,
    nearest: impl Fn(Carrier, Carrier) -> i128,
) -> Carrier {
    newcomer.position = match lane.present().last() {
        Some(&rear) => {
            if nearest(rear, newcomer) < 0 {
                newcomer.speed = 0;
            }
            let slack = random.pick(&[0, 0, 0, 1, 500]);
            to_position(nearest(rear, newcomer) - slack)
        }
        None => near_end(random, lane).min(lane.road.end.saturating_sub(1)),
    };
    newcomer.length = closing_length(random, lane, newcomer);
    newcomer
}

/// Mostly a length that leaves as much room to each carrier that may still
/// follow; nobody can follow if the tail is before the start.
fn closing_length(random: &mut Random, lane: &Lane, newcomer: Carrier) -> u64 {
    let others = (PLACES - lane.present().len()).max(1) as u64;
    match random.below(24) {
        0 => newcomer.length,
        1..=4 if lane.count == 0 => edge_length(random, lane, newcomer).min(LONGEST_CARRIER),
        _ => newcomer.length.min(newcomer.position / others),
    }
}

/// The position, or the nearest one that a line of text can hold.
pub fn to_position(position: i128) -> u64 {
    position.clamp(0, u32::MAX.into()) as u64
}

fn neighbour(random: &mut Random, lane: &Lane, usual: usize) -> Option<Carrier> {
    let present = lane.present();
    let any = random.index(present.len().max(1));
    let place = if random.chance(50) { usual } else { any };
    present.get(place).copied()
}

/// The foremost position behind `leader` that is safe under all rows.
fn nearest_behind_under(rows: &[Row], leader: Carrier, follower: Carrier) -> i128 {
    let positions = rows.iter().map(|row| nearest_behind(row, leader, follower));
    positions.fold(i128::MAX, i128::min)
}

/// The rearmost position of a tail ahead of `follower` that is safe under all.
fn nearest_tail_ahead_under(rows: &[Row], follower: Carrier, speed: u64) -> i128 {
    let tails = rows
        .iter()
        .map(|row| nearest_tail_ahead(row, follower, speed));
    tails.fold(i128::MIN, i128::max)
}

fn behind(random: &mut Random, lane: &Lane, rows: &[Row], newcomer: Carrier) -> u64 {
    let rear = lane.present().len().saturating_sub(1);
    match neighbour(random, lane, rear) {
        Some(leader) => {
            let nearest = nearest_behind_under(rows, leader, newcomer);
            to_position(nearest + random.pick(&OFFSETS))
        }
        None => near_end(random, lane),
    }
}

/// Puts the newcomer's tail ahead of a carrier; where its front would be past
/// the end, it is mostly made shorter.
fn ahead(random: &mut Random, lane: &Lane, rows: &[Row], newcomer: &mut Carrier) {
    let Some(follower) = neighbour(random, lane, 0) else {
        newcomer.position = near_end(random, lane);
        return;
    };
    let nearest = nearest_tail_ahead_under(rows, follower, newcomer.speed);
    let tail = nearest - random.pick(&OFFSETS);
    let room = i128::from(lane.road.end) - 1 - tail;
    if room >= 0 && random.chance(80) {
        newcomer.length = newcomer.length.min(to_length(room));
    }
    newcomer.position = to_position(tail + i128::from(newcomer.length));
}

/// Makes the newcomer reach from the nearest position behind one carrier to the
/// nearest ahead of the next, or a little further.
fn fill_gap(random: &mut Random, lane: &Lane, rows: &[Row], newcomer: &mut Carrier) {
    let place = random.index(lane.present().len().max(1));
    let (front, tail) = gap_ends(lane, rows, place, *newcomer);
    newcomer.position = to_position(front);
    newcomer.length = to_length(front - tail.unwrap_or(0) + random.pick(&OFFSETS));
}

/// Of a newcomer at a place: the foremost position and, with someone behind it, the
/// rearmost position of its tail.
pub fn gap_ends(
    lane: &Lane,
    rows: &[Row],
    place: usize,
    newcomer: Carrier,
) -> (i128, Option<i128>) {
    let present = lane.present();
    let foremost = || i128::from(lane.road.end) - 1;
    let leader = place.checked_sub(1).map(|ahead| present[ahead]);
    let front = leader.map_or_else(foremost, |leader| {
        nearest_behind_under(rows, leader, newcomer)
    });
    let follower = present.get(place);
    let tail = follower.map(|&follower| nearest_tail_ahead_under(rows, follower, newcomer.speed));
    (front, tail)
}

/// Level with a carrier's front or tail, or between them.
fn level(random: &mut Random, lane: &Lane) -> u64 {
    let Some(carrier) = neighbour(random, lane, 0) else {
        return 0;
    };
    let within = random.below(narrow(carrier.length) + 1);
    let from_tail = random.pick(&[carrier.length, 0, within]);
    to_position(tail(carrier) + i128::from(from_tail))
}

fn near_end(random: &mut Random, lane: &Lane) -> u64 {
    let end = narrow(lane.road.end);
    let within = random.below(end.max(1));
    let close = end.saturating_sub(random.below(20_000));
    let last = end.saturating_sub(1);
    // The front past the end, where a tail might still be before it.
    let past = narrow(end + random.below(LONGEST_CARRIER + 1));
    random.pick(&[last, last, last.saturating_sub(1), end, past, within, close])
}

/// Speeds about the multiples of a row's braking rates and of a carrier's own, and
/// about the limit.
pub fn speed(random: &mut Random, lane: &Lane, row: &Row, own_rate: u64) -> u64 {
    let (b, hardest) = (row.guaranteed_braking, row.hardest_braking);
    let limit = narrow(lane.road.limit);
    let own = guaranteed(row, own_rate);
    let rate = random.pick(&[own, own, b, hardest]);
    let multiple = (1 + random.below(9)) * rate;
    let within = random.below(limit + 1);
    let edges = [
        0,
        1,
        multiple - 1,
        multiple,
        multiple,
        multiple + 1,
        limit,
        limit.saturating_sub(1),
        within,
        within,
    ];
    if random.chance(2) {
        random.pick(&[narrow(limit + 1), u32::MAX.into()])
    } else {
        random.pick(&edges).min(limit)
    }
}

/// The number of a carrier present, the foremost and the rearmost above all, or
/// now and then of none.
pub fn known_number(random: &mut Random, lane: &Lane) -> u64 {
    let rear = lane.present().len().saturating_sub(1);
    let usual = random.pick(&[0, rear]);
    match (neighbour(random, lane, usual), random.below(20)) {
        (_, 0) => 0,
        (_, 1..=2) => unused_number(random, lane),
        (_, 3..=4) | (None, _) => number_left_behind(random, lane),
        (Some(carrier), _) => carrier.number,
    }
}

/// The number in the record right behind the last carrier present, where no
/// lookup may go; any unused one where there is none or it is outside 1 to 65,535.
pub fn number_left_behind(random: &mut Random, lane: &Lane) -> u64 {
    match lane.carriers.get(lane.present().len()) {
        Some(idle) if NUMBERS.contains(&idle.number) => idle.number,
        _ => unused_number(random, lane),
    }
}

/// Mostly an unused number. On a lane with one place left, half are known: only
/// there does an entry's lookup go through all 63.
pub fn number(random: &mut Random, lane: &Lane) -> u64 {
    let one_left = lane.present().len() == PLACES - 1;
    match random.below(30) {
        0 => 0,
        1..=3 => known_number(random, lane),
        4..=14 if one_left => known_number(random, lane),
        _ => unused_number(random, lane),
    }
}

fn unused_number(random: &mut Random, lane: &Lane) -> u64 {
    loop {
        let number = match random.below(4) {
            0 => 65_535 - random.below(100),
            1 => random.below(65_536),
            _ => 1 + random.below(200),
        };
        if number != 0 && lane.look_up(number).place.is_none() {
            return number;
        }
    }
}
