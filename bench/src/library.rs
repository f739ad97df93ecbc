//! The library's calls on a sample's lane.

use crate::call::{consume, Call};
use crate::sample::{carrier, newcomer, Sample};
use rondavitse::binding::*;

/// The functions of a call by their symbols.
pub const SYMBOLS: [&str; 11] = [
    "rondavitse_start",
    "rondavitse_enter",
    "rondavitse_leave",
    "rondavitse_cycle",
    "rondavitse_read",
    "rondavitse_find_opening",
    "rondavitse_lane_text",
    "rondavitse_handover",
    "rondavitse_take_over",
    "rondavitse_surface",
    "rondavitse_load",
];

pub fn run(call: Call) -> fn(&mut Sample) {
    match call {
        Call::Start => |sample| consume(start(sample)),
        Call::Enter => |sample| consume(enter(sample)),
        Call::Leave => |sample| consume(leave(sample)),
        Call::Cycle => |sample| consume(cycle(sample)),
        Call::Read => |sample| consume(read(sample)),
        Call::Opening => |sample| consume(opening(sample)),
        Call::LaneText => |sample| consume(lane_text(sample)),
        Call::Handover => |sample| consume(handover(sample)),
        Call::TakeOver => |sample| consume(take_over(sample)),
        Call::Surface => |sample| consume(surface(sample)),
        Call::Load => |sample| consume(load(sample)),
    }
}

pub fn start(sample: &mut Sample) -> u32 {
    let lane = &mut sample.lanes.library;
    let (road, first) = (lane.road, lane.cycle);
    unsafe { rondavitse_start(lane, road, first) }
}

pub fn enter(sample: &mut Sample) -> Entered {
    unsafe { rondavitse_enter(&mut sample.lanes.library, carrier(sample.visitor)) }
}

pub fn leave(sample: &mut Sample) -> u32 {
    unsafe { rondavitse_leave(&mut sample.lanes.library, sample.visitor.number) }
}

pub fn cycle(sample: &mut Sample) -> Cycled {
    let lane = &mut sample.lanes.library;
    let (count, length) = (lane.count as usize, MOST_CARRIERS);
    let (sorts, values) = (sample.sorts.as_ptr(), sample.values.as_ptr());
    unsafe { rondavitse_cycle(lane, count, sorts, length, values, length) }
}

pub fn read(sample: &mut Sample) -> ReadOut {
    unsafe { rondavitse_read(&sample.lanes.library, sample.asked) }
}

pub fn opening(sample: &mut Sample) -> Opening {
    let (lane, newcomer) = (&sample.lanes.library, newcomer(sample.newcomer));
    unsafe { rondavitse_find_opening(lane, 0, sample.leader, newcomer) }
}

pub fn lane_text(sample: &mut Sample) -> Listed {
    let text = &mut sample.text;
    unsafe { rondavitse_lane_text(&sample.lanes.library, text.as_mut_ptr(), text.len()) }
}

pub fn handover(sample: &mut Sample) -> Listed {
    let text = &mut sample.text;
    unsafe { rondavitse_handover(&sample.lanes.library, text.as_mut_ptr(), text.len()) }
}

pub fn take_over(sample: &mut Sample) -> u32 {
    let text = &sample.handover;
    unsafe { rondavitse_take_over(&mut sample.lanes.library, text.as_ptr(), text.len()) }
}

pub fn surface(sample: &mut Sample) -> u32 {
    unsafe { rondavitse_surface(&mut sample.lanes.library, sample.surface) }
}

pub fn load(sample: &mut Sample) -> u32 {
    let table = &sample.table;
    unsafe { rondavitse_load(&mut sample.lanes.library, table.as_ptr(), table.len()) }
}
