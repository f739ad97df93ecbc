//! Check 21: the rules that a lane handed in must keep. Calls that are measured beside
//! the library's have them inline.

use super::{Carrier, Lane, PLACES};
use crate::carrier::{LONGEST_CARRIER, OWN_RATES};
use crate::headway::safe_behind;
use crate::refusal::Refusal;
use crate::road::Road;
use crate::stopping::Stopping;
use crate::surface::Row;
use std::ops::RangeInclusive;

/// The numbers that carriers may have.
pub const NUMBERS: RangeInclusive<u64> = 1..=65_535;

/// The numbers that a walk has met, by their low bits: the last place of each
/// sort, and for each place the one before of its sort, all counted from 1.
struct Met {
    last: [u8; Met::SORTS],
    before: [u8; PLACES],
}

impl Met {
    const SORTS: usize = 64;

    const NONE: Met = Met {
        last: [0; Met::SORTS],
        before: [0; PLACES],
    };

    /// Takes in the number at `place`; whether it stands at an earlier one.
    fn again(&mut self, carriers: &[Carrier], place: usize) -> bool {
        let number = carriers[place].number;
        let last = &mut self.last[number as usize % Met::SORTS];
        let mut earlier = *last;
        self.before[place] = earlier;
        *last = place as u8 + 1;
        while earlier > 0 {
            let place = usize::from(earlier) - 1;
            if carriers[place].number == number {
                return true;
            }
            earlier = self.before[place];
        }
        false
    }
}

impl Carrier {
    /// Whether the carrier by itself breaks no rule. Its words are any: the
    /// length is looked at before the tail is reckoned with it, and all of this
    /// before a stop is reckoned with the own rate.
    fn is_lawful(&self, road: &Road) -> bool {
        NUMBERS.contains(&self.number)
            && self.speed <= road.limit
            && self.length <= LONGEST_CARRIER
            && OWN_RATES.contains(&self.rate)
            && road.holds(self)
    }
}

impl Lane {
    /// The row in force of a started lane that breaks no rule; else refusal 21.
    /// Rows are looked at before a stop is reckoned with one of them.
    pub fn sound_row<S: Stopping>(&self) -> Result<Row, Refusal> {
        self.lawful_row()
            .filter(|row| self.is_safe::<S>(row))
            .ok_or(Refusal::LaneUnsound)
    }

    /// The row in force of a started lane that breaks no rule, but that it may not be
    /// safe.
    #[inline(always)]
    pub(super) fn lawful_row(&self) -> Option<Row> {
        let bounded = self.started && self.count <= PLACES as u64 && self.tables.are_sound();
        let row = self.road.row(&self.tables.in_force).ok();
        row.filter(|_| bounded && self.has_lawful_carriers())
    }

    /// Each carrier is lawful and has a number of its own.
    #[inline(always)]
    fn has_lawful_carriers(&self) -> bool {
        let (carriers, mut met) = (self.present(), Met::NONE);
        (0..carriers.len())
            .all(|place| carriers[place].is_lawful(&self.road) && !met.again(carriers, place))
    }

    /// Whether each carrier is safe behind the next one ahead, all of them lawful.
    pub(super) fn is_safe<S: Stopping>(&self, row: &Row) -> bool {
        let mut pairs = self.present().windows(2);
        pairs.all(|pair| safe_behind::<S>(row, pair[1], pair[0]))
    }
}
