//! What a start gives of the road, and the ranges it must keep to.

use crate::carrier::Carrier;
use crate::refusal::Refusal;
use crate::surface::{Row, Table};
use std::ops::RangeInclusive;

/// Where a lane may end.
pub const ENDS: RangeInclusive<u64> = 1..=1 << 31;

/// The speed limits a lane may have.
pub const LIMITS: RangeInclusive<u64> = 1..=8_192;

/// A surface code, the lane's end and its speed limit; any words at first.
#[derive(Clone, Copy, Debug, Default, PartialEq, Eq)]
pub struct Road {
    pub surface: u64,
    pub end: u64,
    pub limit: u64,
}

impl Road {
    /// The surface's row of `table`, if every figure keeps its range.
    pub fn row(&self, table: &Table) -> Result<Row, Refusal> {
        let row = table.row(self.surface).ok_or(Refusal::SurfaceUnknown)?;
        Refusal::EndOutOfRange.when(!ENDS.contains(&self.end))?;
        Refusal::LimitOutOfRange.when(!LIMITS.contains(&self.limit))?;
        Ok(row)
    }

    /// Whether a carrier is still on the lane: it is gone once its tail is at
    /// or past the end. End and length keep their ranges; the position is any.
    pub fn holds(&self, carrier: &Carrier) -> bool {
        carrier.position < self.end + carrier.length
    }
}
