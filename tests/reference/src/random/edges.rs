//! The figures at which a rule just holds. They must not panic on any lane,
//! so they are reckoned in 128 bits.

use crate::carrier::{Carrier, OWN_RATES};
use crate::lane::Lane;
use crate::stopping::fast;
use crate::surface::{Row, RATES};

/// The row of a lane's surface, or a sound one near it; any where the code
/// has none.
pub fn row_of(lane: &Lane) -> Row {
    row_at(lane, lane.road.surface)
}

/// As [`row_of`], of any code: the row is one of those in force.
pub fn row_at(lane: &Lane, surface: u64) -> Row {
    let row = lane.tables.in_force.row(surface).unwrap_or_default();
    let (least, most) = (*RATES.start(), *RATES.end());
    let hardest = row.hardest_braking.clamp(least, most);
    Row {
        guaranteed_braking: row.guaranteed_braking.clamp(least, hardest),
        hardest_braking: hardest,
        most_acceleration: row.most_acceleration.clamp(least, most),
    }
}

/// The word, or the greatest number that a line of text may hold.
pub fn narrow(word: u64) -> u64 {
    word.min(u32::MAX.into())
}

fn stop(rate: u64, speed: u64) -> i128 {
    fast(rate as u32, narrow(speed) as u32).into()
}

/// The guaranteed braking with an own rate, or one near it with which a stop can
/// be reckoned.
pub fn guaranteed(row: &Row, own_rate: u64) -> u64 {
    own_rate.clamp(*OWN_RATES.start(), row.guaranteed_braking)
}

/// Where a carrier's tail is, whatever its words are.
pub fn tail(carrier: Carrier) -> i128 {
    i128::from(carrier.position) - i128::from(carrier.length)
}

/// The foremost position at which `follower`, wherever it is, would be safe behind
/// `leader`.
pub fn nearest_behind(row: &Row, leader: Carrier, follower: Carrier) -> i128 {
    let leader_stop = stop(row.hardest_braking, leader.speed);
    let lead = leader_stop - stop(guaranteed(row, follower.rate), follower.speed);
    tail(leader) - 1 + lead.min(0)
}

/// The rearmost position of the tail at which `follower` is safe behind a
/// carrier with `speed`.
pub fn nearest_tail_ahead(row: &Row, follower: Carrier, speed: u64) -> i128 {
    let follower_stop = stop(guaranteed(row, follower.rate), follower.speed);
    let lag = follower_stop - stop(row.hardest_braking, speed);
    i128::from(follower.position) + 1 + lag.max(0)
}

/// How far each carrier, front to back from the second on, could move up and be
/// safe behind the next one ahead: 0 is just safe, −1 is unsafe by one.
pub fn slacks<'a>(row: &'a Row, lane: &'a Lane) -> impl Iterator<Item = i128> + 'a {
    lane.present().windows(2).map(|pair| {
        let (leader, follower) = (pair[0], pair[1]);
        nearest_behind(row, leader, follower) - i128::from(follower.position)
    })
}

/// The wish with which a carrier's tail is just at the lane's end after a cycle,
/// trimmed or not.
pub fn just_gone(end: u64, carrier: Carrier) -> i128 {
    i128::from(end) - tail(carrier) - 2 * i128::from(carrier.speed)
}

/// The ends that wishes are trimmed to.
pub fn trimming_ends(row: &Row, limit: u64, speed: u64) -> (i64, i64) {
    let (limit, speed) = (narrow(limit) as i64, narrow(speed) as i64);
    (
        -speed.min(row.hardest_braking as i64),
        (limit - speed).min(row.most_acceleration as i64),
    )
}

/// The greatest trimmed wish after which the follower would still rest behind
/// the leader; where there is none, hardest braking.
pub fn greatest_standing(row: &Row, limit: u64, follower: Carrier, leader: Carrier) -> i64 {
    let (lowest, highest) = trimming_ends(row, limit, follower.speed);
    let bound = tail(leader) + stop(row.hardest_braking, leader.speed);
    (lowest..=highest)
        .rev()
        .find(|&wished| {
            let speed = follower.speed.saturating_add_signed(wished);
            let gained = i128::from(speed) + i128::from(follower.speed);
            let driven = i128::from(follower.position) + gained;
            driven + stop(guaranteed(row, follower.rate), speed) < bound
        })
        .unwrap_or(lowest)
}
