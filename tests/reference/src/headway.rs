//! The two-carrier rule: the front of a follower and the tail of the leader
//! next ahead of it.

use crate::carrier::Carrier;
use crate::stopping::Stopping;
use crate::surface::Row;

/// Where the front of a carrier that brakes only as guaranteed from now on comes
/// to rest.
pub fn front_at_rest<S: Stopping>(row: &Row, carrier: Carrier) -> i64 {
    carrier.front() + stop::<S>(carrier, carrier.guaranteed_braking(row))
}

/// Where the tail of one that brakes its hardest does, whatever its own rate is.
pub fn tail_at_rest<S: Stopping>(row: &Row, carrier: Carrier) -> i64 {
    carrier.tail() + stop::<S>(carrier, row.hardest_braking)
}

/// The rate is of a sound row or a carrier's own and the speed within a limit, so
/// 32 bits hold them.
fn stop<S: Stopping>(carrier: Carrier, rate: u64) -> i64 {
    debug_assert!(carrier.speed.max(rate) <= u32::MAX.into());
    S::distance(rate as u32, carrier.speed as u32) as i64
}

/// Whether the follower is behind the leader's tail, and would also rest behind
/// it if the leader braked its hardest and the follower only as guaranteed.
pub fn safe_behind<S: Stopping>(row: &Row, follower: Carrier, leader: Carrier) -> bool {
    follower.front() < leader.tail() && rests_short::<S>(row, follower, leader)
}

/// The foremost position at which the follower, wherever it is, would be safe
/// behind the leader; it may lie before the lane's start.
pub fn foremost_behind<S: Stopping>(row: &Row, follower: Carrier, leader: Carrier) -> i64 {
    let stop = stop::<S>(follower, follower.guaranteed_braking(row));
    let now = leader.tail() - 1;
    let at_rest = tail_at_rest::<S>(row, leader) - 1 - stop;
    now.min(at_rest)
}

/// The rearmost position at which the leader, wherever it is, would have the
/// follower safe behind it.
pub fn rearmost_ahead<S: Stopping>(row: &Row, leader: Carrier, follower: Carrier) -> i64 {
    let stop = stop::<S>(leader, row.hardest_braking);
    let now = follower.front() + 1;
    let at_rest = front_at_rest::<S>(row, follower) + 1 - stop;
    now.max(at_rest) + leader.length as i64
}

/// Whether the follower, once it has driven a cycle with `acceleration`, would
/// still rest behind the tail of a leader that brakes its hardest from the
/// cycle's start.
pub fn rests_behind<S: Stopping>(
    row: &Row,
    follower: Carrier,
    acceleration: i32,
    leader: Carrier,
) -> bool {
    rests_short::<S>(row, follower.after(acceleration), leader)
}

fn rests_short<S: Stopping>(row: &Row, follower: Carrier, leader: Carrier) -> bool {
    front_at_rest::<S>(row, follower) < tail_at_rest::<S>(row, leader)
}
