//! The reference's calls on a sample's lane, each in a function of its own,
//! as the library's are.

use crate::call::{consume, Call};
use crate::sample::Sample;
use lane_reference::{
    Carrier, Cycled, FastLane, Gap, Newcomer, Opening, Reading, Refusal, Road, Supervisor,
};

/// The functions of a call by their symbols.
pub const SYMBOLS: [&str; 11] = [
    "reference_start",
    "reference_enter",
    "reference_leave",
    "reference_cycle",
    "reference_read",
    "reference_find_opening",
    "reference_lane_text",
    "reference_handover",
    "reference_take_over",
    "reference_surface",
    "reference_load",
];

pub fn run(call: Call) -> fn(&mut Sample) {
    match call {
        Call::Start => |sample| consume(start(sample)),
        Call::Enter => |sample| consume(enter(sample)),
        Call::Leave => |sample| consume(leave(sample)),
        Call::Cycle => |sample| consume(cycle(sample)),
        Call::Read => |sample| consume(read(sample)),
        Call::Opening => |sample| consume(opening(sample)),
        Call::LaneText => |sample| consume(lane_text(sample)),
        Call::Handover => |sample| consume(handover(sample)),
        Call::TakeOver => |sample| consume(take_over(sample)),
        Call::Surface => |sample| consume(surface(sample)),
        Call::Load => |sample| consume(load(sample)),
    }
}

pub fn start(sample: &mut Sample) -> Result<(), Refusal> {
    let lane = &mut sample.lanes.reference;
    let (road, first) = (lane.0.road, lane.0.cycle);
    reference_start(lane, road, first)
}

pub fn enter(sample: &mut Sample) -> Result<usize, Refusal> {
    reference_enter(&mut sample.lanes.reference, sample.visitor)
}

pub fn leave(sample: &mut Sample) -> Result<(), Refusal> {
    reference_leave(&mut sample.lanes.reference, sample.visitor.number)
}

pub fn cycle(sample: &mut Sample) -> Result<Cycled, Refusal> {
    let lane = &mut sample.lanes.reference;
    let count = lane.0.count;
    reference_cycle(lane, count, &sample.sorts, &sample.values)
}

pub fn read(sample: &mut Sample) -> Result<Reading, Refusal> {
    reference_read(&sample.lanes.reference, sample.asked)
}

pub fn opening(sample: &mut Sample) -> Result<Option<Opening>, Refusal> {
    let gap = Gap::Behind(sample.leader);
    reference_find_opening(&sample.lanes.reference, gap, sample.newcomer)
}

pub fn lane_text(sample: &mut Sample) -> Result<usize, Refusal> {
    reference_lane_text(&sample.lanes.reference, &mut sample.text)
}

pub fn handover(sample: &mut Sample) -> Result<usize, Refusal> {
    reference_handover(&sample.lanes.reference, &mut sample.text)
}

pub fn take_over(sample: &mut Sample) -> Result<(), Refusal> {
    reference_take_over(&mut sample.lanes.reference, &sample.handover)
}

pub fn surface(sample: &mut Sample) -> Result<(), Refusal> {
    reference_surface(&mut sample.lanes.reference, sample.surface)
}

pub fn load(sample: &mut Sample) -> Result<(), Refusal> {
    reference_load(&mut sample.lanes.reference, &sample.table)
}

#[no_mangle]
#[inline(never)]
fn reference_start(lane: &mut FastLane, road: Road, first: u64) -> Result<(), Refusal> {
    lane.start(road, first)
}

#[no_mangle]
#[inline(never)]
fn reference_enter(lane: &mut FastLane, carrier: Carrier) -> Result<usize, Refusal> {
    lane.enter(carrier)
}

#[no_mangle]
#[inline(never)]
fn reference_leave(lane: &mut FastLane, number: u64) -> Result<(), Refusal> {
    lane.leave(number)
}

#[no_mangle]
#[inline(never)]
fn reference_cycle(
    lane: &mut FastLane,
    count: u64,
    sorts: &[u8],
    values: &[u32],
) -> Result<Cycled, Refusal> {
    lane.cycle_given(count, sorts, values)
}

#[no_mangle]
#[inline(never)]
fn reference_read(lane: &FastLane, number: u64) -> Result<Reading, Refusal> {
    lane.read(number)
}

#[no_mangle]
#[inline(never)]
fn reference_find_opening(
    lane: &FastLane,
    gap: Gap,
    newcomer: Newcomer,
) -> Result<Option<Opening>, Refusal> {
    lane.find_opening(gap, newcomer)
}

#[no_mangle]
#[inline(never)]
fn reference_lane_text(lane: &FastLane, text: &mut [u8]) -> Result<usize, Refusal> {
    lane.lane_text(text)
}

#[no_mangle]
#[inline(never)]
fn reference_handover(lane: &FastLane, text: &mut [u8]) -> Result<usize, Refusal> {
    lane.handover(text)
}

#[no_mangle]
#[inline(never)]
fn reference_take_over(lane: &mut FastLane, text: &[u8]) -> Result<(), Refusal> {
    lane.take_over(text)
}

#[no_mangle]
#[inline(never)]
fn reference_surface(lane: &mut FastLane, surface: u64) -> Result<(), Refusal> {
    lane.surface(surface)
}

#[no_mangle]
#[inline(never)]
fn reference_load(lane: &mut FastLane, text: &[u8]) -> Result<(), Refusal> {
    lane.load(text)
}
