//! A carrier and its motion over one cycle.

use crate::surface::Row;
use std::ops::RangeInclusive;

/// The greatest length that a carrier may have.
pub const LONGEST_CARRIER: u64 = 65_535;

/// The own rates that carriers may have.
pub const OWN_RATES: RangeInclusive<u64> = 1..=255;

/// A carrier reaches from its front, which its position is, back to its tail.
#[derive(Clone, Copy, Debug, Default, PartialEq, Eq)]
pub struct Carrier {
    pub number: u64,
    /// In 1/2048 m from the lane's start.
    pub position: u64,
    /// In 1/128 m/s.
    pub speed: u64,
    /// In 1/2048 m.
    pub length: u64,
    /// The carrier's own rate of braking, in 1/16 m/s².
    pub rate: u64,
}

/// What is known of a carrier before it has a number and a position on a lane.
#[derive(Clone, Copy, Debug, Default, PartialEq, Eq)]
pub struct Newcomer {
    pub speed: u64,
    pub length: u64,
    pub rate: u64,
}

impl Newcomer {
    /// The carrier that it would be at a position; a number is not given to it.
    pub fn at(self, position: u64) -> Carrier {
        Carrier {
            number: 0,
            position,
            speed: self.speed,
            length: self.length,
            rate: self.rate,
        }
    }
}

impl Carrier {
    /// What of the carrier is known before it has a number and a position.
    pub fn as_newcomer(self) -> Newcomer {
        Newcomer {
            speed: self.speed,
            length: self.length,
            rate: self.rate,
        }
    }

    /// The position, as a number that tails can be compared with.
    pub fn front(self) -> i64 {
        debug_assert!(self.position <= u32::MAX.into());
        self.position as i64
    }

    /// The position less the length, which may lie before the lane's start.
    /// The length is within its range, so that nothing wraps.
    pub fn tail(self) -> i64 {
        debug_assert!(self.length <= LONGEST_CARRIER);
        self.front() - self.length as i64
    }

    /// The carrier after a whole cycle with `acceleration`, in 1/16 m/s²: the
    /// position gains 2v + a, the old speed and the new one.
    ///
    /// A trimmed wish never takes the speed below 0.
    pub fn after(self, acceleration: i32) -> Carrier {
        let speed = self.speed.wrapping_add_signed(acceleration.into());
        debug_assert!(u64::from(acceleration.unsigned_abs()) <= self.speed || acceleration > 0);
        Carrier {
            position: self.position + self.speed + speed,
            speed,
            ..self
        }
    }

    /// The braking that this carrier can be relied on to reach on a surface: one
    /// that is loaded may do worse than the row's b, and none counts as better.
    pub fn guaranteed_braking(self, row: &Row) -> u64 {
        self.rate.min(row.guaranteed_braking)
    }

    /// The acceleration of one cycle of braking at `rate`: −(smaller of rate and speed).
    pub fn braking(self, rate: u64) -> i32 {
        -(self.speed.min(rate) as i32)
    }
}
