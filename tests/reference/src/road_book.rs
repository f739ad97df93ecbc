//! The road book: where carriers that drive as told are.
//!
//! It is fed with each call and its arguments and, of the answers, only with
//! whether the call was refused and a cycle's word.

mod checker;
mod drive;

pub use checker::{check_history, check_taken_over, Checker};
pub use drive::Drive;

use crate::call::Call;
use crate::carrier::Carrier;
use crate::lane::{Lane, PLACES};
use crate::road::Road;
use crate::surface::{Row, Tables};
use crate::text;
use crate::wish::Wish;

/// What keeps an implementation from passing, in words.
pub type Breach = String;

/// Surface, end, limit, both tables and the carriers front to back.
#[derive(Clone, Debug, PartialEq, Eq)]
pub struct RoadBook {
    pub road: Road,
    pub tables: Tables,
    pub carriers: Vec<Carrier>,
}

impl RoadBook {
    /// What a book holds that agrees with `lane`; a history's begins with that
    /// of its first lane, which has no carriers, unless that comes from a reading.
    pub fn of(lane: &Lane) -> RoadBook {
        RoadBook {
            road: lane.road,
            tables: lane.tables,
            carriers: lane.present().to_vec(),
        }
    }

    /// What a history's book begins with after a reading: all that the text holds,
    /// carriers included, or what the empty lane does. A reading of no handover text
    /// that was not refused is a breach.
    pub fn after_reading(text: &[u8], refused: bool) -> Result<RoadBook, Breach> {
        if refused {
            return Ok(RoadBook::of(&Lane::default()));
        }
        let lane = text::handover(text).map_err(|_| "no lane was taken over")?;
        Ok(RoadBook::of(&lane))
    }

    /// Takes a call into the book. A cycle that ran although the book knows
    /// no row or no units for it is a breach, and so is a load of no table.
    pub fn record(&mut self, call: &Call, refused: bool, word: u64) -> Result<(), Breach> {
        if refused {
            return Ok(());
        }
        match *call {
            Call::Start { road, .. } => {
                self.road = road;
                self.tables.in_force = self.tables.for_next_start;
                self.carriers.clear();
            }
            Call::Enter(newcomer) => self.enter(newcomer),
            Call::Leave { number } => self.carriers.retain(|carrier| carrier.number != number),
            Call::Cycle { ref wishes, .. } => {
                let drives = self.drives(wishes, word)?;
                self.carriers = drives.iter().map(Drive::end).collect();
                let road = self.road;
                self.carriers.retain(|carrier| road.holds(carrier));
            }
            Call::Load { ref text } => {
                let table = text::table(text);
                self.tables.for_next_start = table.map_err(|_| "no table was loaded")?;
            }
            Call::Surface { surface } => self.road.surface = surface,
            Call::Read { .. } | Call::FindOpening { .. } => (),
            Call::LaneText { .. } | Call::Handover { .. } => (),
        }
        Ok(())
    }

    /// What each carrier drives in a cycle: its trimmed wish, or guaranteed
    /// braking where its bit is set.
    pub fn drives(&self, wishes: &[Wish; PLACES], word: u64) -> Result<Vec<Drive>, Breach> {
        let row = self.row()?;
        let wished = self.trimmed(wishes)?;
        let told = self.carriers.iter().zip(wished).enumerate();
        let drives = told.map(|(place, (&carrier, wished))| Drive {
            carrier,
            acceleration: if word >> place & 1 == 1 {
                carrier.braking(carrier.guaranteed_braking(&row))
            } else {
                wished
            },
        });
        Ok(drives.collect())
    }

    /// The wishes of the carriers, trimmed with the book's figures.
    fn trimmed(&self, wishes: &[Wish; PLACES]) -> Result<Vec<i32>, Breach> {
        let row = self.row()?;
        let pairs = self.carriers.iter().zip(wishes);
        pairs
            .map(|(&carrier, wish)| {
                wish.trimmed(&row, self.road.limit, carrier)
                    .ok_or_else(|| format!("a cycle ran on {wish:08X?}"))
            })
            .collect()
    }

    /// The row in force; with none, or an unsound one, no cycle can have run.
    fn row(&self) -> Result<Row, Breach> {
        let surface = self.road.surface;
        let row = self.tables.in_force.row(surface).filter(Row::is_sound);
        row.ok_or_else(|| format!("a cycle ran on surface {surface}"))
    }

    /// The walk goes front to back to the first carrier with a lower position.
    fn enter(&mut self, newcomer: Carrier) {
        let mut place = 0;
        while place < self.carriers.len() && self.carriers[place].position >= newcomer.position {
            place += 1;
        }
        self.carriers.insert(place, newcomer);
    }
}
