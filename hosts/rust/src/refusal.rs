//! The numbered refusals.

use std::error::Error;
use std::fmt::{self, Display, Formatter};

/// Why a call is refused: the header's numbers and names.
#[derive(Clone, Copy, Debug, PartialEq, Eq, PartialOrd, Ord)]
#[repr(u32)]
pub enum Refusal {
    SurfaceUnknown = 1,
    EndOutOfRange = 2,
    LimitOutOfRange = 3,
    NumberOutOfRange = 4,
    PositionPastEnd = 5,
    SpeedAboveLimit = 6,
    FloatOutOfRange = 7,
    TextMalformed = 8,
    TextBufferTooShort = 9,
    InputTooLong = 10,
    WishUnknown = 11,
    WishesTooFew = 12,
    AnswerBufferTooShort = 13,
    LaneUnsound = 21,
    LaneFull = 22,
    NumberPresent = 23,
    NumberAbsent = 24,
    UnsafeBehindLeader = 25,
    FollowerUnsafe = 26,
    CountDiffers = 27,
    CyclesExhausted = 28,
    TableUnsound = 31,
    LaneOccupied = 32,
    LengthTooLarge = 33,
    SurfaceUnsafe = 34,
    RateOutOfRange = 35,
    HandoverMalformed = 36,
    HandoverUnsafe = 37,
}

use Refusal::*;

/// Every refusal and what it says.
const WORDS: [(Refusal, &str); 28] = [
    (SurfaceUnknown, "surface above 7"),
    (EndOutOfRange, "lane end outside 1 to 2^31"),
    (LimitOutOfRange, "limit outside 1 to 8,192"),
    (NumberOutOfRange, "carrier number 0, or above 65,535"),
    (PositionPastEnd, "position at or past the end"),
    (SpeedAboveLimit, "speed above the limit"),
    (FloatOutOfRange, "a float outside its range"),
    (TextMalformed, "malformed text"),
    (TextBufferTooShort, "lane or handover text longer than the buffer"),
    (InputTooLong, "program input above 65,536 bytes"),
    (
        WishUnknown,
        "a wish of no sort that exists, or units past 16 bits",
    ),
    (WishesTooFew, "an array of wishes shorter than the count"),
    (
        AnswerBufferTooShort,
        "a buffer for answers shorter than 4,096 bytes",
    ),
    (
        LaneUnsound,
        "never started, or the lane handed in breaks a rule",
    ),
    (LaneFull, "64 carriers present"),
    (NumberPresent, "number present"),
    (NumberAbsent, "number absent"),
    (UnsafeBehindLeader, "not safe behind the carrier ahead"),
    (FollowerUnsafe, "the carrier behind not safe"),
    (CountDiffers, "count differs from the carriers present"),
    (CyclesExhausted, "cycle number is 2^64 - 1"),
    (TableUnsound, "malformed table text, or an unsound row"),
    (LaneOccupied, "carriers are on the lane"),
    (LengthTooLarge, "length above 65,535"),
    (SurfaceUnsafe, "the lane would not be safe on that surface"),
    (RateOutOfRange, "own rate outside 1 to 255"),
    (
        HandoverMalformed,
        "no handover text, or of a lane that breaks a rule other than safety",
    ),
    (HandoverUnsafe, "the lane handed over is not safe"),
];

impl Refusal {
    pub fn number(self) -> u32 {
        self as u32
    }

    /// What an answer's `no` says: nothing where it is 0.
    pub(crate) fn check(no: u32) -> Result<(), Refusal> {
        if no == 0 {
            return Ok(());
        }
        let found = WORDS.iter().find(|(refusal, _)| refusal.number() == no);
        Err(found.expect("a number that the header lists").0)
    }

    pub fn words(self) -> &'static str {
        let found = WORDS.iter().find(|(refusal, _)| *refusal == self);
        found.expect("every refusal has words").1
    }
}

impl Display for Refusal {
    fn fmt(&self, formatter: &mut Formatter) -> fmt::Result {
        write!(formatter, "{} ({})", self.number(), self.words())
    }
}

impl Error for Refusal {}
