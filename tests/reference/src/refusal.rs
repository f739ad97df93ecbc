//! The numbered refusals.

/// Why a call, a text or a program input is refused.
#[derive(Clone, Copy, Debug, PartialEq, Eq, PartialOrd, Ord, Hash)]
pub enum Refusal {
    SurfaceUnknown = 1,
    EndOutOfRange = 2,
    LimitOutOfRange = 3,
    NumberOutOfRange = 4,
    PositionPastEnd = 5,
    SpeedAboveLimit = 6,
    FloatOutOfRange = 7,
    TextMalformed = 8,
    BufferTooShort = 9,
    InputTooLong = 10,
    /// Of wishes given as numbers alone: a sort that does not exist, or units
    /// that 16 bits do not hold.
    WishUnknown = 11,
    /// Of wishes given as numbers alone: fewer of them than the count.
    WishesTooFew = 12,
    /// Of a step alone, whose buffer has to hold every answer.
    AnswerBufferTooShort = 13,
    LaneUnsound = 21,
    LaneFull = 22,
    NumberPresent = 23,
    NumberAbsent = 24,
    UnsafeBehindLeader = 25,
    FollowerUnsafe = 26,
    CountDiffers = 27,
    CyclesExhausted = 28,
    /// Of a table text: malformed, or a row that is not sound.
    TableFaulty = 31,
    CarriersPresent = 32,
    LengthTooLarge = 33,
    /// Of a change of surface: the lane would not be safe on the new one.
    SurfaceUnsafe = 34,
    OwnRateOutOfRange = 35,
    /// Of a handover text: malformed, or of a lane that breaks a rule other than
    /// that of safety.
    HandoverFaulty = 36,
    /// Of a handover text: its lane is not safe.
    HandoverUnsafe = 37,
}

impl Refusal {
    /// The paper's number.
    pub fn number(self) -> u32 {
        self as u32
    }

    /// Refuses when `condition` holds.
    pub fn when(self, condition: bool) -> Result<(), Refusal> {
        if condition {
            Err(self)
        } else {
            Ok(())
        }
    }
}
