//! Calls with their arguments, and what they answer.

use crate::carrier::{Carrier, Newcomer};
use crate::lane::{Cycled, Gap, Opening, Reading, PLACES};
use crate::road::Road;
use crate::wish::Wish;

/// A call on the lane. Taking a lane over from a text is none: a history begins with it.
#[derive(Clone, Debug, PartialEq, Eq)]
pub enum Call {
    Start {
        road: Road,
        /// The first cycle number.
        first: u64,
    },
    Enter(Carrier),
    Leave {
        number: u64,
    },
    /// Only the first `count` wishes are looked at.
    Cycle {
        count: u64,
        wishes: Box<[Wish; PLACES]>,
    },
    Read {
        number: u64,
    },
    /// Where in a gap one with these values could enter.
    FindOpening {
        gap: Gap,
        newcomer: Newcomer,
    },
    /// The lane text into a buffer of `room` bytes.
    LaneText {
        room: usize,
    },
    /// The handover text into a buffer of `room` bytes.
    Handover {
        room: usize,
    },
    /// Another surface code for the running lane.
    Surface {
        surface: u64,
    },
    /// The rows for the next start, as table text.
    Load {
        text: Vec<u8>,
    },
}

/// The answer of a call that was not refused.
#[derive(Clone, Debug, PartialEq)]
pub enum Answer {
    Started,
    /// The place the carrier got, counted from 0 at the front.
    Entered(usize),
    Left,
    Cycled(Cycled),
    Read(Reading),
    /// Nothing where no position would be admitted.
    OpeningFound(Option<Opening>),
    LaneText(Vec<u8>),
    HandoverText(Vec<u8>),
    SurfaceChanged,
    Loaded,
}
