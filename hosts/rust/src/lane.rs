//! A lane, and its calls without `unsafe`.

use crate::binding::{self, *};
use crate::refusal::Refusal;
use std::ops::RangeInclusive;

pub use crate::binding::{Carrier, Newcomer, Reading, Road, MOST_CARRIERS};

/// Where one could enter.
#[derive(Clone, Copy, Debug, PartialEq, Eq)]
pub enum Gap {
    AheadOfAll,
    /// Directly behind the carrier of this number.
    Behind(u64),
}

/// What a carrier would like to do in the next cycle.
#[derive(Clone, Copy, Debug, PartialEq)]
pub enum Wish {
    /// An acceleration in 1/16 m/s².
    Units(i16),
    /// An acceleration in m/s², from -16 to 16.
    Acceleration(f32),
    /// A speed in m/s, from 0 to 64.
    TargetSpeed(f32),
    Hold,
}

/// What a cycle did.
#[derive(Clone, Copy, Debug, PartialEq, Eq)]
pub struct Cycled {
    /// Bit i: the wish of place i was replaced by guaranteed braking.
    pub word: u64,
    pub replaced: u32,
    /// Carriers whose tail has reached the lane end.
    pub gone: u32,
}

/// What a step over call texts did.
#[derive(Clone, Debug, PartialEq, Eq)]
pub struct Stepped {
    /// Of the block that was run, or `no=8` for a malformed one.
    pub answer: String,
    /// Where the next block begins.
    pub next: usize,
    /// Nothing is left to run.
    pub stop: bool,
}

/// A function that writes the lane into a buffer.
type Writer = unsafe extern "C" fn(&binding::Lane, *mut u8, usize) -> Listed;

/// A lane that only the supervisor changes, in place: each call gets it as the
/// one before has left it, which is what the supervisor's promises are about.
pub struct Lane(binding::Lane);

impl Wish {
    fn sort(self) -> u8 {
        match self {
            Wish::Units(_) => UNITS,
            Wish::Acceleration(_) => ACCELERATION,
            Wish::TargetSpeed(_) => TARGET_SPEED,
            Wish::Hold => HOLD,
        }
    }

    fn value(self) -> u32 {
        match self {
            Wish::Units(units) => i32::from(units) as u32,
            Wish::Acceleration(float) | Wish::TargetSpeed(float) => float.to_bits(),
            Wish::Hold => 0,
        }
    }
}

impl Lane {
    /// An empty lane on the house rows, to be started. Panics where the linked
    /// library is of another version than the binding.
    pub fn empty() -> Lane {
        assert_eq!(
            unsafe { rondavitse_version() },
            VERSION,
            "the library's version"
        );
        Lane(binding::Lane::empty())
    }

    /// The lane that another host has handed over by its text, to go on with.
    /// Panics as `empty` does.
    pub fn take_over(text: &[u8]) -> Result<Lane, Refusal> {
        let mut lane = Lane::empty();
        Refusal::check(unsafe { rondavitse_take_over(&mut lane.0, text.as_ptr(), text.len()) })?;
        Ok(lane)
    }

    /// Takes a terminal's own surface figures, 24 lines `b=`, `B=` and `A=` row
    /// by row, which the codes mean from the next start on.
    pub fn load(&mut self, text: &[u8]) -> Result<(), Refusal> {
        Refusal::check(unsafe { rondavitse_load(&mut self.0, text.as_ptr(), text.len()) })
    }

    /// Empties the lane and begins anew with the first cycle number.
    pub fn start(&mut self, road: Road, first: u64) -> Result<(), Refusal> {
        Refusal::check(unsafe { rondavitse_start(&mut self.0, road, first) })
    }

    /// Changes the surface between cycles, if the whole lane is safe on it.
    pub fn change_surface(&mut self, surface: u64) -> Result<(), Refusal> {
        Refusal::check(unsafe { rondavitse_surface(&mut self.0, surface) })
    }

    /// Lets a carrier in and gives its place.
    pub fn enter(&mut self, carrier: Carrier) -> Result<usize, Refusal> {
        let answer = unsafe { rondavitse_enter(&mut self.0, carrier) };
        Refusal::check(answer.no)?;
        Ok(answer.place)
    }

    /// The positions of a gap at which a newcomer could enter, if there are
    /// any: from the first to the last, until the lane is changed, an entry
    /// with these values is refused by a full lane or a number present alone.
    pub fn opening(
        &self,
        gap: Gap,
        newcomer: Newcomer,
    ) -> Result<Option<RangeInclusive<u64>>, Refusal> {
        let (head, number) = match gap {
            Gap::AheadOfAll => (1, 0),
            Gap::Behind(number) => (0, number),
        };
        let answer = unsafe { rondavitse_find_opening(&self.0, head, number, newcomer) };
        Refusal::check(answer.no)?;
        Ok(answer.exists.then_some(answer.lowest..=answer.highest))
    }

    /// Takes a carrier out.
    pub fn leave(&mut self, number: u64) -> Result<(), Refusal> {
        Refusal::check(unsafe { rondavitse_leave(&mut self.0, number) })
    }

    /// One cycle, with a wish for each carrier from the front.
    pub fn cycle(&mut self, wishes: &[Wish]) -> Result<Cycled, Refusal> {
        // Wishes past the most carriers are refused by their count alone.
        let (mut sorts, mut values) = ([HOLD; MOST_CARRIERS], [0; MOST_CARRIERS]);
        for (place, wish) in wishes.iter().take(MOST_CARRIERS).enumerate() {
            sorts[place] = wish.sort();
            values[place] = wish.value();
        }
        let (s, v) = (sorts.as_ptr(), values.as_ptr());
        let (count, length) = (wishes.len(), MOST_CARRIERS);
        let answer = unsafe { rondavitse_cycle(&mut self.0, count, s, length, v, length) };
        Refusal::check(answer.no)?;
        Ok(Cycled {
            word: answer.word,
            replaced: answer.replaced,
            gone: answer.gone,
        })
    }

    /// Where a carrier's front is and how fast it drives.
    pub fn read(&self, number: u64) -> Result<Reading, Refusal> {
        let answer = unsafe { rondavitse_read(&self.0, number) };
        Refusal::check(answer.no)?;
        Ok(answer.reading)
    }

    /// The lane as lines of text.
    pub fn text(&self) -> Result<String, Refusal> {
        self.written(rondavitse_lane_text, LONGEST_TEXT)
    }

    /// The whole lane as lines of text, for the host that takes it over.
    pub fn handover(&self) -> Result<String, Refusal> {
        self.written(rondavitse_handover, LONGEST_HANDOVER)
    }

    /// What a function writes into a buffer of so many bytes.
    fn written(&self, write: Writer, longest: usize) -> Result<String, Refusal> {
        let mut text = vec![0; longest];
        let answer = unsafe { write(&self.0, text.as_mut_ptr(), text.len()) };
        Refusal::check(answer.no)?;
        Ok(ascii(text, answer.length))
    }

    /// Runs the block of call texts that begins at a place of the input.
    pub fn step(&mut self, input: &[u8], at: usize) -> Result<Stepped, Refusal> {
        let mut out = vec![0; ANSWER_BUFFER];
        let (i, o) = (input.as_ptr(), out.as_mut_ptr());
        let (given, room) = (input.len(), out.len());
        let answer = unsafe { rondavitse_step(&mut self.0, i, given, at, o, room) };
        Refusal::check(answer.no)?;
        Ok(Stepped {
            answer: ascii(out, answer.written),
            next: answer.next,
            stop: answer.stop,
        })
    }

    /// The surface in force, the lane end and the speed limit.
    pub fn road(&self) -> Road {
        self.0.road
    }

    /// The carriers, front to back.
    pub fn carriers(&self) -> impl ExactSizeIterator<Item = Carrier> + '_ {
        let records = &self.0.records[..self.0.count as usize];
        records.iter().map(|record| record.carrier)
    }
}

/// The text at a buffer's start.
fn ascii(mut bytes: Vec<u8>, length: usize) -> String {
    bytes.truncate(length);
    String::from_utf8(bytes).expect("what the supervisor writes is ASCII")
}
