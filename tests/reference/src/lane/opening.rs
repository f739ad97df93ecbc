//! Where one could enter: the positions of a gap at which an entry would be safe
//! and leave the one behind it safe.

use super::entry::{check_values, fit};
use super::Lane;
use crate::carrier::Newcomer;
use crate::headway::{foremost_behind, rearmost_ahead};
use crate::refusal::Refusal;
use crate::stopping::Stopping;
use crate::surface::Row;

/// The gap in which a newcomer would have its place.
#[derive(Clone, Copy, Debug, PartialEq, Eq)]
pub enum Gap {
    /// Ahead of all carriers, or the whole of a lane that has none.
    AheadOfAll,
    /// Directly behind the carrier with this number.
    Behind(u64),
}

/// The lowest and the highest position at which one could enter; it could at each
/// between them.
#[derive(Clone, Copy, Debug, PartialEq, Eq)]
pub struct Opening {
    pub lowest: u64,
    pub highest: u64,
}

impl Lane {
    /// The place that one who enters in the gap gets, on a lane that is sound.
    pub(super) fn place_in(&self, gap: Gap) -> Result<usize, Refusal> {
        match gap {
            Gap::AheadOfAll => Ok(0),
            Gap::Behind(number) => self.place_present(number).map(|ahead| ahead + 1),
        }
    }

    /// As `find_opening`, but every position is tried, from 0 up to and past the end
    /// and all fronts: those at which an entry's walk ends in the gap and it is given
    /// none of 5, 25 and 26. For short lanes, and to hold the reckoning against.
    pub fn tried_positions<S: Stopping>(
        &self,
        gap: Gap,
        newcomer: Newcomer,
    ) -> Result<Vec<u64>, Refusal> {
        let row = self.sound_row::<S>()?;
        let place = self.place_in(gap)?;
        check_values(&self.road, newcomer)?;
        let admitted = |&position: &u64| {
            let past_end = position >= self.road.end;
            !past_end && fit::<S>(&row, self.present(), newcomer.at(position)) == Ok(place)
        };
        let fronts = self.present().iter().map(|carrier| carrier.position);
        let farthest = fronts.fold(self.road.end, u64::max) + 2;
        Ok((0..=farthest).filter(admitted).collect())
    }
}

/// The opening for a newcomer at a place of a sound lane. Whoever is safe behind a
/// tail has its front behind the front too, so that the walk ends at the place.
pub(super) fn opening<S: Stopping>(
    lane: &Lane,
    row: &Row,
    place: usize,
    newcomer: Newcomer,
) -> Option<Opening> {
    let (present, newcomer) = (lane.present(), newcomer.at(0));
    let mut lowest = 0;
    let mut highest = lane.road.end as i64 - 1;
    if place > 0 {
        highest = highest.min(foremost_behind::<S>(row, newcomer, present[place - 1]));
    }
    if place < present.len() {
        lowest = lowest.max(rearmost_ahead::<S>(row, newcomer, present[place]));
    }
    (lowest <= highest).then_some(Opening {
        lowest: lowest as u64,
        highest: highest as u64,
    })
}
