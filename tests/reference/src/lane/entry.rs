//! What an entry is judged by, once the lane is sound. A call that is measured beside
//! the library's has it inline, as if it were written there.

use crate::carrier::{Carrier, Newcomer, LONGEST_CARRIER, OWN_RATES};
use crate::headway::safe_behind;
use crate::refusal::Refusal;
use crate::road::Road;
use crate::stopping::Stopping;
use crate::surface::Row;

/// The checks of a newcomer's own values, in their order.
#[inline(always)]
pub(super) fn check_values(road: &Road, newcomer: Newcomer) -> Result<(), Refusal> {
    Refusal::SpeedAboveLimit.when(newcomer.speed > road.limit)?;
    Refusal::LengthTooLarge.when(newcomer.length > LONGEST_CARRIER)?;
    Refusal::OwnRateOutOfRange.when(!OWN_RATES.contains(&newcomer.rate))
}

/// The place of a newcomer among the carriers present, if it is safe there and
/// leaves the one behind it safe.
#[inline(always)]
pub(super) fn fit<S: Stopping>(
    row: &Row,
    present: &[Carrier],
    newcomer: Carrier,
) -> Result<usize, Refusal> {
    let place = entry_place(present, newcomer.position);
    let safe = safe_behind::<S>;
    let leader_near = place > 0 && !safe(row, newcomer, present[place - 1]);
    Refusal::UnsafeBehindLeader.when(leader_near)?;
    let follower_near = place < present.len() && !safe(row, present[place], newcomer);
    Refusal::FollowerUnsafe.when(follower_near)?;
    Ok(place)
}

/// The walk goes front to back, by fronts alone, and ends at the first carrier
/// whose position is lower, so a carrier at the same position counts as ahead.
fn entry_place(present: &[Carrier], position: u64) -> usize {
    present
        .iter()
        .position(|carrier| carrier.position < position)
        .unwrap_or(present.len())
}
