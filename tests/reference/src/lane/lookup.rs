//! Looking up a carrier by its number.

use super::{Lane, NUMBERS};
use crate::refusal::Refusal;

/// What a lookup found, and how far it had to go.
#[derive(Clone, Copy, Debug, PartialEq, Eq)]
pub struct Lookup {
    /// The foremost place with the number; none if no carrier present has it.
    pub place: Option<usize>,
    /// How many records were looked at.
    pub looked_at: usize,
}

impl Lane {
    /// Looks for a number from the front on, up to the find or the last carrier
    /// present. It may be any lane and any number.
    pub fn look_up(&self, number: u64) -> Lookup {
        let mut looked_at = 0;
        let place = self.present().iter().position(|carrier| {
            looked_at += 1;
            carrier.number == number
        });
        Lookup { place, looked_at }
    }

    /// The place of a carrier named by a call, whose number may be any.
    pub(super) fn place_present(&self, number: u64) -> Result<usize, Refusal> {
        Refusal::NumberOutOfRange.when(!NUMBERS.contains(&number))?;
        self.look_up(number).place.ok_or(Refusal::NumberAbsent)
    }
}
