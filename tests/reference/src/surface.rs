//! What surfaces allow: rows of three figures, eight rows to a table.

use std::ops::RangeInclusive;

/// How many surface codes there are.
pub const SURFACES: usize = 8;

/// The rates that a sound row may have.
pub const RATES: RangeInclusive<u64> = 1..=255;

/// What a surface allows, in units of 1/16 m/s² per cycle; any words at first.
#[derive(Clone, Copy, Debug, Default, PartialEq, Eq)]
pub struct Row {
    /// b: the braking every carrier can be relied on to reach whose own rate is no
    /// smaller.
    pub guaranteed_braking: u64,
    /// B: the hardest braking any carrier may show.
    pub hardest_braking: u64,
    /// A: the most acceleration.
    pub most_acceleration: u64,
}

impl Row {
    /// The row of b, B and A.
    pub const fn new(b: u64, hardest: u64, most: u64) -> Row {
        Row {
            guaranteed_braking: b,
            hardest_braking: hardest,
            most_acceleration: most,
        }
    }

    /// b, B and A.
    pub fn figures(&self) -> [u64; 3] {
        [
            self.guaranteed_braking,
            self.hardest_braking,
            self.most_acceleration,
        ]
    }

    /// Whether stops can be reckoned with the row.
    pub fn is_sound(&self) -> bool {
        (*RATES.start()..=self.hardest_braking).contains(&self.guaranteed_braking)
            && self.hardest_braking <= *RATES.end()
            && RATES.contains(&self.most_acceleration)
    }
}

/// The rows in the order of their codes.
#[derive(Clone, Copy, Debug, PartialEq, Eq)]
pub struct Table(pub [Row; SURFACES]);

impl Table {
    /// The house values, with which an empty lane is made.
    pub const HOUSE: Table = Table([
        Row::new(64, 128, 32),
        Row::new(56, 120, 32),
        Row::new(48, 112, 24),
        Row::new(40, 96, 24),
        Row::new(32, 96, 16),
        Row::new(16, 64, 12),
        Row::new(6, 48, 8),
        Row::new(1, 255, 1),
    ]);

    /// The row of a surface code, if there is one.
    pub fn row(&self, surface: u64) -> Option<Row> {
        self.0.get(usize::try_from(surface).ok()?).copied()
    }

    pub fn is_sound(&self) -> bool {
        self.0.iter().all(Row::is_sound)
    }
}

/// The rows that codes mean now, and those that they mean from the next start on.
#[derive(Clone, Copy, Debug, PartialEq, Eq)]
pub struct Tables {
    pub in_force: Table,
    pub for_next_start: Table,
}

impl Tables {
    pub fn are_sound(&self) -> bool {
        self.in_force.is_sound() && self.for_next_start.is_sound()
    }
}
