//! The functions and structs of `rondavitse.h`.

/// The interface that this file is for.
pub const VERSION: u32 = 8;
pub const SURFACES: usize = 8;
pub const MOST_CARRIERS: usize = 64;
pub const LONGEST_TEXT: usize = 3_720;
pub const LONGEST_HANDOVER: usize = 4_071;
pub const ANSWER_BUFFER: usize = 4_096;

#[repr(C)]
#[derive(Clone, Copy, Debug, Default, PartialEq, Eq)]
pub struct Road {
    pub surface: u64,
    pub end: u64,
    pub limit: u64,
}

#[repr(C)]
#[derive(Clone, Copy, Debug, Default, PartialEq, Eq)]
pub struct Carrier {
    pub number: u64,
    /// Of its front.
    pub position: u64,
    pub speed: u64,
    /// From front to tail, in position units.
    pub length: u64,
    /// Its own braking rate in 1/16 m/s², 1 to 255: its guaranteed braking is
    /// the smaller of it and the row's.
    pub rate: u64,
}

/// What is known of a newcomer before it has a number and a place.
#[repr(C)]
#[derive(Clone, Copy, Debug, Default, PartialEq, Eq)]
pub struct Newcomer {
    pub speed: u64,
    pub length: u64,
    /// Its own, as a carrier's.
    pub rate: u64,
}

/// What a surface code stands for, in 1/16 m/s²: guaranteed braking, hardest
/// braking and most acceleration.
#[repr(C)]
#[derive(Clone, Copy, Debug, Default, PartialEq, Eq)]
pub struct Row {
    pub guaranteed: u64,
    pub hardest: u64,
    pub most: u64,
    pub free: [u64; 5],
}

/// A carrier as it stands in the lane: its front may be past the lane end, its
/// tail is before it.
#[repr(C)]
#[derive(Clone, Copy, Debug, Default, PartialEq, Eq)]
pub struct Record {
    pub carrier: Carrier,
    pub free: [u64; 3],
}

/// The first `count` records are the carriers, front to back.
#[repr(C)]
#[derive(Clone, Copy, Debug, PartialEq, Eq)]
pub struct Lane {
    /// 1; any other word counts as never started.
    pub started: u64,
    pub road: Road,
    pub cycle: u64,
    pub count: u64,
    pub free_figures: [u64; 2],
    /// In force, by surface code.
    pub rows: [Row; SURFACES],
    /// What the next start puts in force.
    pub next_rows: [Row; SURFACES],
    pub free_slots: [u64; MOST_CARRIERS],
    pub records: [Record; MOST_CARRIERS],
}

#[repr(C)]
#[derive(Clone, Copy, Debug, PartialEq, Eq)]
pub struct Entered {
    pub no: u32,
    pub place: usize,
}

#[repr(C)]
#[derive(Clone, Copy, Debug, PartialEq, Eq)]
pub struct Opening {
    pub no: u32,
    /// Where it does not, both are 0.
    pub exists: bool,
    pub lowest: u64,
    pub highest: u64,
}

#[repr(C)]
#[derive(Clone, Copy, Debug, PartialEq, Eq)]
pub struct Cycled {
    pub no: u32,
    pub word: u64,
    pub replaced: u32,
    pub gone: u32,
}

/// Metres and m/s, both exact.
#[repr(C)]
#[derive(Clone, Copy, Debug, PartialEq)]
pub struct Reading {
    pub position: f64,
    pub speed: f64,
}

#[repr(C)]
#[derive(Clone, Copy, Debug, PartialEq)]
pub struct ReadOut {
    pub no: u32,
    pub reading: Reading,
}

#[repr(C)]
#[derive(Clone, Copy, Debug, PartialEq, Eq)]
pub struct Listed {
    pub no: u32,
    pub length: usize,
}

#[repr(C)]
#[derive(Clone, Copy, Debug, PartialEq, Eq)]
pub struct Stepped {
    pub next: usize,
    pub written: usize,
    pub no: u32,
    pub stop: bool,
}

pub const UNITS: u8 = 0;
pub const ACCELERATION: u8 = 1;
pub const TARGET_SPEED: u8 = 2;
pub const HOLD: u8 = 3;

impl Lane {
    /// Never started, with the house rows in both sets and every other word 0.
    pub fn empty() -> Lane {
        // Plain words: zeros do until the library writes them.
        let mut lane = unsafe { std::mem::zeroed() };
        unsafe { rondavitse_empty(&mut lane) };
        lane
    }
}

// The functions take any numbers and any lane: what must hold is only that a
// pointer beside a length lends so many elements, and that what is written to
// overlaps nothing else that is lent. For the lane its reference sees to that.
extern "C" {
    pub fn rondavitse_version() -> u32;
    pub fn rondavitse_empty(lane: &mut Lane);
    pub fn rondavitse_load(lane: &mut Lane, text: *const u8, text_length: usize) -> u32;
    pub fn rondavitse_start(lane: &mut Lane, road: Road, first: u64) -> u32;
    pub fn rondavitse_surface(lane: &mut Lane, surface: u64) -> u32;
    pub fn rondavitse_enter(lane: &mut Lane, carrier: Carrier) -> Entered;
    pub fn rondavitse_find_opening(
        lane: &Lane,
        head: u64,
        number: u64,
        newcomer: Newcomer,
    ) -> Opening;
    pub fn rondavitse_leave(lane: &mut Lane, number: u64) -> u32;
    pub fn rondavitse_cycle(
        lane: &mut Lane,
        count: usize,
        sorts: *const u8,
        sorts_length: usize,
        values: *const u32,
        values_length: usize,
    ) -> Cycled;
    pub fn rondavitse_read(lane: &Lane, number: u64) -> ReadOut;
    pub fn rondavitse_lane_text(lane: &Lane, out: *mut u8, out_length: usize) -> Listed;
    pub fn rondavitse_handover(lane: &Lane, out: *mut u8, out_length: usize) -> Listed;
    pub fn rondavitse_take_over(lane: &mut Lane, text: *const u8, text_length: usize) -> u32;
    pub fn rondavitse_step(
        lane: &mut Lane,
        input: *const u8,
        input_length: usize,
        at: usize,
        out: *mut u8,
        out_length: usize,
    ) -> Stepped;
}
