//! Wishes, and how they become whole units of acceleration.
//!
//! Floats are handled by their bits alone: no float arithmetic takes place,
//! so nothing is rounded but the exact product, and that once.

use crate::carrier::Carrier;
use crate::surface::Row;
use std::cmp::Ordering;

/// What a carrier would like to do in the next cycle.
#[derive(Clone, Copy, Debug, Default, PartialEq, Eq)]
pub enum Wish {
    /// An acceleration in 1/16 m/s².
    Units(i16),
    /// An acceleration in m/s²: the bits of a 32-bit float.
    Acceleration(u32),
    /// A target speed in m/s: the bits of a 32-bit float.
    TargetSpeed(u32),
    /// No acceleration.
    #[default]
    Hold,
}

const SIGN: u32 = 0x8000_0000;
const SIXTEEN: u32 = 0x4180_0000;
const SIXTY_FOUR: u32 = 0x4280_0000;

impl Wish {
    /// What a host's sort and value mean; nothing where they are no wish.
    pub fn of_numbers(sort: u8, value: u32) -> Option<Wish> {
        match sort {
            0 => i16::try_from(value as i32).ok().map(Wish::Units),
            1 => Some(Wish::Acceleration(value)),
            2 => Some(Wish::TargetSpeed(value)),
            3 => Some(Wish::Hold),
            _ => None,
        }
    }

    /// The sort and the value of a wish; of a hold the value is `any`.
    pub fn in_numbers(self, any: u32) -> (u8, u32) {
        match self {
            Wish::Units(units) => (0, i32::from(units) as u32),
            Wish::Acceleration(bits) => (1, bits),
            Wish::TargetSpeed(bits) => (2, bits),
            Wish::Hold => (3, any),
        }
    }

    /// Whether a float lies in its range. Bits without the sign grow with the
    /// float's magnitude, infinities and not-a-number above all finite ones.
    pub fn in_range(self) -> bool {
        match self {
            Wish::Units(_) | Wish::Hold => true,
            Wish::Acceleration(bits) => bits & !SIGN <= SIXTEEN,
            Wish::TargetSpeed(bits) => bits <= SIXTY_FOUR || bits == SIGN,
        }
    }

    /// The wish in units, not yet trimmed, for a carrier at `speed`; nothing
    /// for a float outside its range.
    pub fn units(self, speed: u64) -> Option<i64> {
        self.in_range().then(|| match self {
            Wish::Units(units) => units.into(),
            Wish::Acceleration(bits) => nearest_scaled(bits, 4),
            // Rounding comes first, so an odd speed doesn't change which of two
            // units is the even one.
            Wish::TargetSpeed(bits) => nearest_scaled(bits, 7) - speed as i64,
            Wish::Hold => 0,
        })
    }

    /// The wish in units, trimmed to what surface and limit allow `carrier`.
    pub fn trimmed(self, row: &Row, limit: u64, carrier: Carrier) -> Option<i32> {
        let lowest = i64::from(carrier.braking(row.hardest_braking));
        let to_limit = limit as i64 - carrier.speed as i64;
        let highest = to_limit.min(row.most_acceleration as i64);
        Some(self.units(carrier.speed)?.max(lowest).min(highest) as i32)
    }
}

/// 2^`power` times a float in range, to the nearest whole number and from
/// halfway to the even one.
fn nearest_scaled(bits: u32, power: u32) -> i64 {
    let fraction = bits & 0x007F_FFFF;
    let exponent = bits >> 23 & 0xFF;
    // Subnormals have no hidden bit and the exponent of the least normals.
    let significand = if exponent == 0 {
        fraction
    } else {
        fraction | 0x0080_0000
    };
    // The float's magnitude is the significand over 2^(150 - exponent), and in
    // either range that exponent is below 134. The significand is below 2^24, so
    // every divisor from 2^25 on gives 0.
    let digits = (150 - power - exponent.max(1)).min(25);
    let magnitude = nearest_quotient(significand, digits).into();
    if bits & SIGN == 0 {
        magnitude
    } else {
        -magnitude
    }
}

/// `dividend` over 2^`digits` to the nearer of the two whole numbers about it, and
/// from halfway to the even one.
fn nearest_quotient(dividend: u32, digits: u32) -> u32 {
    let below = dividend >> digits;
    let above = below + 1;
    let to_below = dividend - (below << digits);
    let to_above = (above << digits) - dividend;
    match to_below.cmp(&to_above) {
        Ordering::Less => below,
        Ordering::Greater => above,
        Ordering::Equal if below % 2 == 0 => below,
        Ordering::Equal => above,
    }
}
