//! Calls as a host makes them.

use lane_reference::{Call, Gap, Newcomer};

/// A call of the library.
#[derive(Clone, Debug, PartialEq, Eq)]
pub enum HostCall {
    /// Any call but a cycle or a question where one could enter.
    Plain(Call),
    /// A host gives wishes as two lists, which may be too short or hold what
    /// is no wish.
    Cycle {
        count: u64,
        sorts: Vec<u8>,
        values: Vec<u32>,
    },
    /// Any head but 0 is ahead of all, and the number is then not looked at.
    FindOpening {
        head: u64,
        number: u64,
        newcomer: Newcomer,
    },
    /// A reading, with which a history begins: it may come anywhere, and what the lane
    /// was before is not looked at.
    TakeOver { text: Vec<u8> },
}

impl HostCall {
    /// The number that the call looks up, if any.
    pub fn number(&self) -> Option<u64> {
        match *self {
            HostCall::Plain(Call::Enter(newcomer)) => Some(newcomer.number),
            HostCall::Plain(Call::Leave { number } | Call::Read { number }) => Some(number),
            HostCall::FindOpening { number, .. } => Some(number),
            _ => None,
        }
    }

    /// Whether the call is lent the lane only to be read.
    pub fn only_reads(&self) -> bool {
        matches!(
            self,
            HostCall::Plain(Call::Read { .. } | Call::LaneText { .. } | Call::Handover { .. })
                | HostCall::FindOpening { .. }
        )
    }
}

/// The gap that a host means.
pub fn gap(head: u64, number: u64) -> Gap {
    match head {
        0 => Gap::Behind(number),
        _ => Gap::AheadOfAll,
    }
}
