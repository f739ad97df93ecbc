//! One cycle of a sound lane: which wishes stand, and where they lead.

use super::{Cycled, Lane, PLACES};
use crate::headway::{front_at_rest, tail_at_rest};
use crate::stopping::Stopping;
use crate::surface::Row;

/// Drives every carrier by its trimmed wish or by guaranteed braking. All are
/// judged as at the cycle's start; whoever remains moves up to the front.
pub(super) fn drive<S: Stopping>(lane: &mut Lane, row: &Row, wished: &[i32; PLACES]) -> Cycled {
    let count = lane.present().len();
    let mut cycled = Cycled::default();
    let mut remaining = 0;
    // Where the tail ahead would rest if that carrier braked its hardest; nobody
    // is ahead of the foremost.
    let mut bound = i64::MAX;
    for (place, &wished) in wished.iter().enumerate().take(count) {
        let carrier = lane.carriers[place];
        let braking = carrier.braking(carrier.guaranteed_braking(row));
        let mut moved = carrier.after(wished);
        let stands = wished <= braking || front_at_rest::<S>(row, moved) < bound;
        if !stands {
            cycled.word |= 1 << place;
            cycled.replaced += 1;
            moved = carrier.after(braking);
        }
        bound = tail_at_rest::<S>(row, carrier);
        if lane.road.holds(&moved) {
            lane.carriers[remaining] = moved;
            remaining += 1;
        } else {
            cycled.gone += 1;
        }
    }
    lane.count = remaining as u64;
    lane.cycle += 1;
    cycled
}
