//! Lengths at the ends of their range, and such as put a tail at an edge.

use super::edges::just_gone;
use super::Random;
use crate::carrier::{Carrier, LONGEST_CARRIER};
use crate::lane::Lane;

/// A length within its range, small ones as common as great ones.
pub fn sound_length(random: &mut Random) -> u64 {
    let any = random.bits() >> (48 + random.below(16));
    let most = LONGEST_CARRIER;
    random.pick(&[0, 0, 1, most - 1, most, any, any, any, any])
}

/// A length such as a line of text can hold, now and then one that is too large.
pub fn length(random: &mut Random) -> u64 {
    if random.chance(4) {
        random.pick(&[LONGEST_CARRIER + 1, u32::MAX.into()])
    } else {
        sound_length(random)
    }
}

/// A length that puts the carrier's tail about the lane's end after a cycle
/// without acceleration, or about its start, as far as lengths go.
pub fn edge_length(random: &mut Random, lane: &Lane, carrier: Carrier) -> u64 {
    let point = Carrier {
        length: 0,
        ..carrier
    };
    let past_end = -just_gone(lane.road.end, point);
    let edge = if past_end >= 0 && random.chance(80) {
        past_end
    } else {
        carrier.position.into()
    };
    to_length(edge + i128::from(random.between(-1, 1)))
}

/// The length, or the nearest one that is at most one too large.
pub fn to_length(length: i128) -> u64 {
    length.clamp(0, i128::from(LONGEST_CARRIER) + 1) as u64
}
