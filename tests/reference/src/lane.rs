//! The lane as a host hands it in.

mod calls;
mod entry;
mod handover;
mod listing;
mod lookup;
mod motion;
mod opening;
mod rules;

pub use crate::carrier::Carrier;
pub use calls::Supervisor;
pub use listing::{LONGEST_HANDOVER, LONGEST_LANE_TEXT};
pub use lookup::Lookup;
pub use opening::{Gap, Opening};
pub use rules::NUMBERS;

use crate::road::Road;
use crate::stopping::{Fast, Summed};
use crate::surface::{Table, Tables};

/// The most carriers a lane holds.
pub const PLACES: usize = 64;

/// A lane; any words may be handed in, and [`Lane::sound_row`] judges them.
#[derive(Clone, Copy, Debug, PartialEq, Eq)]
pub struct Lane {
    pub started: bool,
    pub road: Road,
    /// The cycle number.
    pub cycle: u64,
    /// How many of `carriers` are present, front to back; the rest is idle.
    pub count: u64,
    pub tables: Tables,
    pub carriers: [Carrier; PLACES],
}

impl Default for Lane {
    /// A lane never started, with the house rows.
    fn default() -> Lane {
        Lane {
            started: false,
            road: Road::default(),
            cycle: 0,
            count: 0,
            tables: Tables {
                in_force: Table::HOUSE,
                for_next_start: Table::HOUSE,
            },
            carriers: [Carrier::default(); PLACES],
        }
    }
}

/// The lane with stopping distances in closed form, for long random runs and
/// for measuring.
#[derive(Clone, Copy, Debug, Default, PartialEq, Eq)]
pub struct FastLane(pub Lane);

/// Where a carrier's front is and how fast, in metres and m/s, both exact.
#[derive(Clone, Copy, Debug, Default, PartialEq)]
pub struct Reading {
    pub position: f64,
    pub speed: f64,
}

/// The answer of a cycle.
#[derive(Clone, Copy, Debug, Default, PartialEq, Eq)]
pub struct Cycled {
    /// Bit i is set if the wish of place i was replaced.
    pub word: u64,
    pub replaced: u32,
    pub gone: u32,
}

impl Supervisor for Lane {
    type Stopping = Summed;

    fn lane(&self) -> &Lane {
        self
    }

    fn lane_mut(&mut self) -> &mut Lane {
        self
    }
}

impl Supervisor for FastLane {
    type Stopping = Fast;

    fn lane(&self) -> &Lane {
        &self.0
    }

    fn lane_mut(&mut self) -> &mut Lane {
        &mut self.0
    }
}

impl Lane {
    /// The carriers present, front to back; all 64 records where the count is above 64.
    pub fn present(&self) -> &[Carrier] {
        &self.carriers[..self.count.min(PLACES as u64) as usize]
    }
}
