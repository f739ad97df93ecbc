//! Random histories, lanes and texts that crowd the edges of the rules, the
//! same for the same seed.

mod breaks;
mod calls;
mod edges;
mod entries;
mod gaps;
mod handover_breaks;
mod handovers;
mod histories;
mod lanes;
mod lengths;
mod openings;
mod programs;
mod rates;
mod surfaces;
mod table_texts;
mod tables;
mod unsafe_lanes;
mod wide;
mod wishes;

pub use breaks::{break_line, LineBreak, Part, TextBreak, LINE_BREAKS, TEXT_BREAKS};
pub use calls::{call, Weights, CYCLES, EVEN, HANDOVERS, LOADS, OPENINGS, RAIN};
pub use gaps::{gapped_lane, short_lane, SHORT_END};
pub use handover_breaks::HANDOVER_BREAKS;
pub use handovers::{handover_text, malformed_handover_text, text_to_read};
pub use histories::{calls_on, calls_on_empty, history, taken_over, History, TakenOver};
pub use lanes::{
    empty_lane, lane_for_change, lane_with, never_started_lane, sound_lane, unsound_lane,
};
pub use openings::{entry_in, question};
pub use programs::{
    call_text, garbled_program, longest_program, malformed_program, oversize_program, program,
};
pub use table_texts::{malformed_table_text, table_text, TABLE_BREAKS};
pub use tables::{sound_table, unsound_table};
pub use unsafe_lanes::{lane_of_two_rows, unsafe_lane};
pub use wide::widened;
pub use wishes::FLOAT_EDGES;

/// A SplitMix64 sequence.
pub struct Random {
    state: u64,
}

impl Random {
    pub fn new(seed: u64) -> Random {
        Random { state: seed }
    }

    /// The next 64 bits.
    pub fn bits(&mut self) -> u64 {
        self.state = self.state.wrapping_add(0x9E37_79B9_7F4A_7C15);
        let mut mixed = self.state;
        mixed = (mixed ^ mixed >> 30).wrapping_mul(0xBF58_476D_1CE4_E5B9);
        mixed = (mixed ^ mixed >> 27).wrapping_mul(0x94D0_49BB_1331_11EB);
        mixed ^ mixed >> 31
    }

    /// A number below `bound`; the slight bias of the remainder is harmless.
    pub fn below(&mut self, bound: u64) -> u64 {
        self.bits() % bound
    }

    /// A number from `low` to `high`, ends included.
    pub fn between(&mut self, low: i64, high: i64) -> i64 {
        low + self.below(high.abs_diff(low) + 1) as i64
    }

    /// True in `percent` of a hundred cases.
    pub fn chance(&mut self, percent: u64) -> bool {
        self.below(100) < percent
    }

    /// One of `choices`.
    pub fn pick<T: Copy>(&mut self, choices: &[T]) -> T {
        choices[self.index(choices.len())]
    }

    /// An index into something of `length`.
    pub fn index(&mut self, length: usize) -> usize {
        self.below(length as u64) as usize
    }

    /// An index, each as likely as its weight.
    pub fn weighted(&mut self, weights: &[u64]) -> usize {
        let mut left = self.below(weights.iter().sum());
        for (index, &weight) in weights.iter().enumerate() {
            if left < weight {
                return index;
            }
            left -= weight;
        }
        unreachable!("what is left is below the sum of the weights")
    }

    /// A number from 1 to `most` of random width, so that small ones are common.
    pub fn any_width(&mut self, most: u64) -> u64 {
        let width = self.below(32);
        let number = self.bits() & ((2 << width) - 1);
        number.clamp(1, most)
    }
}
