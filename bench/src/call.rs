//! The calls that are measured.

use crate::sample::CARRIERS;
use std::hint::black_box;

#[derive(Clone, Copy, PartialEq, Eq)]
pub enum Call {
    Start,
    Enter,
    Leave,
    Cycle,
    Read,
    Opening,
    LaneText,
    Handover,
    TakeOver,
    Surface,
    Load,
}

impl Call {
    pub const ALL: [Call; 11] = [
        Call::Start,
        Call::Enter,
        Call::Leave,
        Call::Cycle,
        Call::Read,
        Call::Opening,
        Call::LaneText,
        Call::Handover,
        Call::TakeOver,
        Call::Surface,
        Call::Load,
    ];

    pub fn name(self) -> &'static str {
        match self {
            Call::Start => "start",
            Call::Enter => "enter",
            Call::Leave => "leave",
            Call::Cycle => "cycle",
            Call::Read => "read",
            Call::Opening => "opening",
            Call::LaneText => "lane text",
            Call::Handover => "handover",
            Call::TakeOver => "take over",
            Call::Surface => "surface",
            Call::Load => "load",
        }
    }

    /// The numbers of carriers that the call is measured with. A load is
    /// accepted on a lane without any alone.
    pub fn carriers(self) -> &'static [usize] {
        match self {
            Call::Load => &[0],
            _ => &CARRIERS,
        }
    }
}

/// Takes an answer in, so that no call can be left out.
pub fn consume<T>(answer: T) {
    black_box(&answer);
}
