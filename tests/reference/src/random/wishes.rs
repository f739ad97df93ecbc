//! Wishes at the ends of trimming, of standing and of the float ranges, and floats
//! at the halves between units.

use super::edges::{greatest_standing, guaranteed, just_gone, row_of, trimming_ends};
use super::Random;
use crate::carrier::Carrier;
use crate::lane::{Lane, PLACES};
use crate::wish::Wish;
use std::convert::identity;

/// Floats at zero, among the subnormals, about whole units and the halves between
/// them, about the ends of both ranges and the last halves before these, and those
/// that are no finite number.
pub const FLOAT_EDGES: [u32; 73] = [
    0x00000000, 0x80000000, 0x00000001, 0x80000001, 0x007FFFFF, 0x807FFFFF, 0x00800000, 0x80800000,
    0x3B7FFFFF, 0x3B800000, 0x3B800001, 0x3BFFFFFF, 0x3C000000, 0x3C000001, 0x3C3FFFFF, 0x3C400000,
    0x3C400001, 0x3C9FFFFF, 0x3CA00000, 0x3CA00001, 0x3CFFFFFF, 0x3D000000, 0x3D000001, 0x3D7FFFFF,
    0x3D800000, 0x3D800001, 0x3DBFFFFF, 0x3DC00000, 0x3DC00001, 0x3E1FFFFF, 0x3E200000, 0x3E200001,
    0xBCFFFFFF, 0xBD000000, 0xBD000001, 0xBD7FFFFF, 0xBD800000, 0xBD800001, 0xBDBFFFFF, 0xBDC00000,
    0xBDC00001, 0xBE1FFFFF, 0xBE200000, 0xBE200001, 0x417F7FFF, 0x417F8000, 0x417F8001, 0x417FFFFF,
    0x41800000, 0x41800001, 0xC17F7FFF, 0xC17F8000, 0xC17F8001, 0xC17FFFFF, 0xC1800000, 0xC1800001,
    0x427FFBFF, 0x427FFC00, 0x427FFC01, 0x427FFFFF, 0x42800000, 0x42800001, 0xC2800000, 0x7F7FFFFF,
    0xFF7FFFFF, 0x7F800000, 0xFF800000, 0x7F800001, 0xFF800001, 0x7FC00000, 0xFFC00000, 0x7FFFFFFF,
    0xFFFFFFFF,
];

/// Wishes that a whole cycle may be made of, besides mixed ones.
#[derive(Clone, Copy)]
enum Mood {
    Mixed,
    /// As hard as it goes.
    Accelerate,
    Brake,
    /// The front stops; everyone else closes up.
    CloseUp,
    /// The greatest wishes that stand.
    JustStanding,
    /// The least wishes that are replaced.
    JustReplaced,
    /// The tail at the end or one before it, of whoever can reach it.
    JustGone,
}

const MOODS: [Mood; 10] = [
    Mood::Mixed,
    Mood::Mixed,
    Mood::Accelerate,
    Mood::Brake,
    Mood::CloseUp,
    Mood::JustStanding,
    Mood::JustStanding,
    Mood::JustReplaced,
    Mood::JustGone,
    Mood::JustGone,
];

/// Wishes for a cycle of `lane`. Those past the carriers are anything at all,
/// for they must not be looked at; the others are rarely outside their range.
pub fn wishes(random: &mut Random, lane: &Lane) -> Box<[Wish; PLACES]> {
    let mood = random.pick(&MOODS);
    let mut wishes = Box::new([Wish::Hold; PLACES]);
    for place in 0..PLACES {
        wishes[place] = if place < lane.present().len() {
            in_range(wish(random, lane, place, mood))
        } else {
            float(random)
        };
    }
    if random.chance(6) {
        let place = random.index(lane.present().len().max(1));
        wishes[place] = float(random);
    }
    wishes
}

fn in_range(wish: Wish) -> Wish {
    if wish.in_range() {
        wish
    } else {
        Wish::Hold
    }
}

fn float(random: &mut Random) -> Wish {
    let bits = if random.chance(80) {
        random.pick(&FLOAT_EDGES)
    } else {
        random.bits() as u32
    };
    random.pick(&[Wish::Acceleration(bits), Wish::TargetSpeed(bits)])
}

fn wish(random: &mut Random, lane: &Lane, place: usize, mood: Mood) -> Wish {
    let present = lane.present();
    let carrier = present[place];
    let leader = place.checked_sub(1).map(|ahead| present[ahead]);
    let (row, limit) = (row_of(lane), lane.road.limit);
    let (lowest, highest) = trimming_ends(&row, limit, carrier.speed);
    let standing = leader.map_or(highest, |leader| {
        greatest_standing(&row, limit, carrier, leader)
    });
    let units = match mood {
        Mood::Mixed => return mixed(random, lane, carrier, standing),
        Mood::Brake => lowest,
        Mood::CloseUp if place == 0 => lowest,
        Mood::Accelerate | Mood::CloseUp => highest,
        Mood::JustStanding => standing,
        Mood::JustReplaced => standing + 1,
        Mood::JustGone => leaving(lane, carrier).unwrap_or(highest) - random.between(0, 1),
    };
    expressed(random, units, carrier.speed)
}

/// The trimmed wish that brings the carrier's tail just to the end, if there is one.
fn leaving(lane: &Lane, carrier: Carrier) -> Option<i64> {
    let (lowest, highest) = trimming_ends(&row_of(lane), lane.road.limit, carrier.speed);
    let wished = i64::try_from(just_gone(lane.road.end, carrier)).ok()?;
    (lowest..=highest).contains(&wished).then_some(wished)
}

fn mixed(random: &mut Random, lane: &Lane, carrier: Carrier, standing: i64) -> Wish {
    let row = row_of(lane);
    let (lowest, highest) = trimming_ends(&row, lane.road.limit, carrier.speed);
    let braking = |rate| i64::from(carrier.braking(rate));
    let by_row = braking(row.guaranteed_braking);
    let guaranteed = braking(guaranteed(&row, carrier.rate));
    match random.below(10) {
        0 => Wish::Hold,
        1 => Wish::Units(random.bits() as i16),
        2 => Wish::Units(random.pick(&[i16::MIN, i16::MAX, -1, 0, 1])),
        3 => float(random),
        _ => {
            let usual = random.pick(&[lowest, highest, guaranteed, by_row, standing]);
            let leaving = leaving(lane, carrier).unwrap_or(usual);
            let edge = random.pick(&[usual, leaving]);
            let units = edge + random.between(-1, 1);
            expressed(random, units, carrier.speed)
        }
    }
}

/// `units` as a wish of any sort; a float may be half a unit off, where the even
/// unit is taken, and then one float up or down, where the nearer unit is.
fn expressed(random: &mut Random, units: i64, speed: u64) -> Wish {
    let half = random.pick(&[-1, 0, 1]);
    let nudge = random.pick(&[identity, identity, f32::next_up, f32::next_down]);
    // Both quotients are exact: small whole numbers over powers of two.
    match random.below(3) {
        0 => Wish::Units(units.clamp(i16::MIN.into(), i16::MAX.into()) as i16),
        1 => {
            let halves = (2 * units + half).clamp(-512, 512);
            Wish::Acceleration(nudge(halves as f32 / 32.0).to_bits())
        }
        _ => {
            let target = speed.saturating_add_signed(units).min(8_192) as i64;
            let halves = (2 * target + half).clamp(0, 16_384);
            Wish::TargetSpeed(nudge(halves as f32 / 256.0).to_bits())
        }
    }
}
