//! The calls on a lane, each with its checks in the paper's order.

use super::entry::{check_values, fit};
use super::listing::{handover_text, lane_text, put, LONGEST_HANDOVER, LONGEST_LANE_TEXT};
use super::motion::drive;
use super::opening::{opening, Gap, Opening};
use super::{Cycled, Lane, Reading, NUMBERS, PLACES};
use crate::call::{Answer, Call};
use crate::carrier::{Carrier, Newcomer};
use crate::refusal::Refusal;
use crate::road::Road;
use crate::stopping::Stopping;
use crate::surface::{Row, Table};
use crate::text;
use crate::wish::Wish;

/// The calls, over either way to reckon stopping distances. They change the
/// lane in place; a refused one leaves it and any lent bytes as they were.
pub trait Supervisor {
    type Stopping: Stopping;

    fn lane(&self) -> &Lane;
    fn lane_mut(&mut self) -> &mut Lane;

    /// Empties the lane, whatever state it is in but for the rows that it puts
    /// in force, and begins anew.
    fn start(&mut self, road: Road, first: u64) -> Result<(), Refusal> {
        let lane = self.lane_mut();
        let next = &lane.tables.for_next_start;
        Refusal::LaneUnsound.when(!next.is_sound())?;
        road.row(next)?;
        lane.tables.in_force = *next;
        lane.started = true;
        lane.road = road;
        lane.cycle = first;
        lane.count = 0;
        Ok(())
    }

    /// Lets a carrier in and gives its place.
    fn enter(&mut self, newcomer: Carrier) -> Result<usize, Refusal> {
        let lane = self.lane_mut();
        let row = lane.sound_row::<Self::Stopping>()?;
        Refusal::NumberOutOfRange.when(!NUMBERS.contains(&newcomer.number))?;
        Refusal::PositionPastEnd.when(newcomer.position >= lane.road.end)?;
        check_values(&lane.road, newcomer.as_newcomer())?;
        let present = lane.present();
        let count = present.len();
        Refusal::LaneFull.when(count == PLACES)?;
        Refusal::NumberPresent.when(lane.look_up(newcomer.number).place.is_some())?;
        let place = fit::<Self::Stopping>(&row, present, newcomer)?;
        lane.carriers.copy_within(place..count, place + 1);
        lane.carriers[place] = newcomer;
        lane.count += 1;
        Ok(place)
    }

    /// Takes a carrier out.
    fn leave(&mut self, number: u64) -> Result<(), Refusal> {
        let place = self.place_of(number)?;
        let lane = self.lane_mut();
        let count = lane.present().len();
        lane.carriers.copy_within(place + 1..count, place);
        lane.count -= 1;
        Ok(())
    }

    /// Drives all carriers for one cycle; wishes past `count` are not looked at.
    fn cycle(&mut self, count: u64, wishes: &[Wish; PLACES]) -> Result<Cycled, Refusal> {
        let row = self.ready(count)?;
        let lane = self.lane_mut();
        let mut wished = [0; PLACES];
        for (place, &carrier) in lane.present().iter().enumerate() {
            wished[place] = wishes[place]
                .trimmed(&row, lane.road.limit, carrier)
                .ok_or(Refusal::FloatOutOfRange)?;
        }
        Ok(drive::<Self::Stopping>(lane, &row, &wished))
    }

    /// A cycle whose wishes are given by their sorts and values, as a host has
    /// them: 12 and 11 come before 7.
    fn cycle_given(&mut self, count: u64, sorts: &[u8], values: &[u32]) -> Result<Cycled, Refusal> {
        let row = self.ready(count)?;
        let lane = self.lane_mut();
        let present = lane.present();
        Refusal::WishesTooFew.when(sorts.len().min(values.len()) < present.len())?;
        let mut wished = [0; PLACES];
        let mut outside = false;
        for (place, &carrier) in present.iter().enumerate() {
            let wish = Wish::of_numbers(sorts[place], values[place]);
            let wish = wish.ok_or(Refusal::WishUnknown)?;
            match wish.trimmed(&row, lane.road.limit, carrier) {
                Some(acceleration) => wished[place] = acceleration,
                None => outside = true,
            }
        }
        Refusal::FloatOutOfRange.when(outside)?;
        Ok(drive::<Self::Stopping>(lane, &row, &wished))
    }

    /// Where a carrier's front is and how fast.
    fn read(&self, number: u64) -> Result<Reading, Refusal> {
        let carrier = self.lane().carriers[self.place_of(number)?];
        // A front past the end is below 2^32 too, and both figures are divided
        // by a power of two: nothing is lost.
        Ok(Reading {
            position: f64::from(carrier.position as u32) / 2048.0,
            speed: f64::from(carrier.speed as u32) / 128.0,
        })
    }

    /// Where in a gap one with the newcomer's values could enter; an answer is
    /// nothing where it could not. A place and a number need not be free.
    fn find_opening(&self, gap: Gap, newcomer: Newcomer) -> Result<Option<Opening>, Refusal> {
        let lane = self.lane();
        let row = lane.sound_row::<Self::Stopping>()?;
        let place = lane.place_in(gap)?;
        check_values(&lane.road, newcomer)?;
        Ok(opening::<Self::Stopping>(lane, &row, place, newcomer))
    }

    /// Writes the lane text into `buffer` and gives its length; the bytes
    /// after the text keep what they held.
    fn lane_text(&self, buffer: &mut [u8]) -> Result<usize, Refusal> {
        let lane = self.lane();
        lane.sound_row::<Self::Stopping>()?;
        put::<LONGEST_LANE_TEXT>(buffer, |buffer| lane_text(lane.present(), buffer))
    }

    /// Writes the whole lane into `buffer`, for a new host, and gives the text's
    /// length; the bytes after the text keep what they held.
    fn handover(&self, buffer: &mut [u8]) -> Result<usize, Refusal> {
        let lane = self.lane();
        lane.sound_row::<Self::Stopping>()?;
        put::<LONGEST_HANDOVER>(buffer, |buffer| handover_text(lane, buffer))
    }

    /// Begins with the lane of a handover text, whatever was there before. A text that
    /// is refused leaves the empty lane, never started, with the house rows.
    fn take_over(&mut self, text: &[u8]) -> Result<(), Refusal> {
        let lane = self.lane_mut();
        let taken = lane.read_handover::<Self::Stopping>(text);
        if taken.is_err() {
            *lane = Lane::default();
        }
        taken
    }

    /// Puts the lane on another surface, of the rows in force, if the whole of it
    /// is safe there; nothing else changes.
    fn surface(&mut self, surface: u64) -> Result<(), Refusal> {
        let lane = self.lane_mut();
        lane.sound_row::<Self::Stopping>()?;
        let row = lane.tables.in_force.row(surface);
        let row = row.ok_or(Refusal::SurfaceUnknown)?;
        Refusal::SurfaceUnsafe.when(!lane.is_safe::<Self::Stopping>(&row))?;
        lane.road.surface = surface;
        Ok(())
    }

    /// Takes the rows for the next start from a table text. A lane never started
    /// counts as empty and sound, whatever it holds.
    fn load(&mut self, text: &[u8]) -> Result<(), Refusal> {
        let lane = self.lane_mut();
        if lane.started {
            lane.sound_row::<Self::Stopping>()?;
        }
        let table = text::table(text).ok().filter(Table::is_sound);
        let table = table.ok_or(Refusal::TableFaulty)?;
        Refusal::CarriersPresent.when(lane.started && lane.count > 0)?;
        lane.tables.for_next_start = table;
        Ok(())
    }

    /// The checks of a cycle before its wishes are looked at.
    fn ready(&self, count: u64) -> Result<Row, Refusal> {
        let row = self.lane().sound_row::<Self::Stopping>()?;
        Refusal::CountDiffers.when(count != self.lane().count)?;
        Refusal::CyclesExhausted.when(self.lane().cycle == u64::MAX)?;
        Ok(row)
    }

    /// The place of a carrier, with the checks that leave and read share.
    fn place_of(&self, number: u64) -> Result<usize, Refusal> {
        self.lane().sound_row::<Self::Stopping>()?;
        self.lane().place_present(number)
    }

    /// Runs a call given as a value.
    fn call(&mut self, call: &Call) -> Result<Answer, Refusal> {
        match *call {
            Call::Start { road, first } => self.start(road, first).map(|()| Answer::Started),
            Call::Enter(newcomer) => self.enter(newcomer).map(Answer::Entered),
            Call::Leave { number } => self.leave(number).map(|()| Answer::Left),
            Call::Cycle { count, ref wishes } => self.cycle(count, wishes).map(Answer::Cycled),
            Call::Read { number } => self.read(number).map(Answer::Read),
            Call::FindOpening { gap, newcomer } => {
                self.find_opening(gap, newcomer).map(Answer::OpeningFound)
            }
            Call::LaneText { room } => {
                let mut buffer = vec![0; room];
                let length = self.lane_text(&mut buffer)?;
                buffer.truncate(length);
                Ok(Answer::LaneText(buffer))
            }
            Call::Handover { room } => {
                let mut buffer = vec![0; room];
                let length = self.handover(&mut buffer)?;
                buffer.truncate(length);
                Ok(Answer::HandoverText(buffer))
            }
            Call::Surface { surface } => self.surface(surface).map(|()| Answer::SurfaceChanged),
            Call::Load { ref text } => self.load(text).map(|()| Answer::Loaded),
        }
    }
}
