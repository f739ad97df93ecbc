//! The product's C functions and the structs that they pass by value. The
//! lane is looked at as plain words, row by row.

/// The interface that this file is for.
pub const VERSION: u32 = 8;

/// A lane as it is lent.
pub type Words = [[u64; 8]; 89];

#[repr(C)]
pub struct Road {
    pub surface: u64,
    pub end: u64,
    pub limit: u64,
}

#[repr(C)]
pub struct Carrier {
    pub number: u64,
    pub position: u64,
    pub speed: u64,
    pub length: u64,
    pub rate: u64,
}

/// What is known of a carrier before it has a number and a position.
#[repr(C)]
pub struct Newcomer {
    pub speed: u64,
    pub length: u64,
    pub rate: u64,
}

/// A C `bool` as it lies in memory, so that one that is neither can be told.
#[repr(transparent)]
#[derive(Clone, Copy)]
pub struct Flag(u8);

#[repr(C)]
pub struct Entered {
    pub no: u32,
    pub place: usize,
}

#[repr(C)]
pub struct Cycled {
    pub no: u32,
    pub word: u64,
    pub replaced: u32,
    pub gone: u32,
}

#[repr(C)]
pub struct Reading {
    pub position: f64,
    pub speed: f64,
}

#[repr(C)]
pub struct ReadOut {
    pub no: u32,
    pub reading: Reading,
}

#[repr(C)]
pub struct Opening {
    pub no: u32,
    pub exists: Flag,
    pub lowest: u64,
    pub highest: u64,
}

#[repr(C)]
pub struct Listed {
    pub no: u32,
    pub length: usize,
}

#[repr(C)]
pub struct Stepped {
    pub next: usize,
    pub written: usize,
    pub no: u32,
    pub stop: Flag,
}

extern "C" {
    pub fn rondavitse_version() -> u32;
    pub fn rondavitse_empty(lane: *mut Words);
    pub fn rondavitse_start(lane: *mut Words, road: Road, first: u64) -> u32;
    pub fn rondavitse_enter(lane: *mut Words, carrier: Carrier) -> Entered;
    pub fn rondavitse_leave(lane: *mut Words, number: u64) -> u32;
    pub fn rondavitse_cycle(
        lane: *mut Words,
        count: usize,
        sorts: *const u8,
        sorts_len: usize,
        values: *const u32,
        values_len: usize,
    ) -> Cycled;
    pub fn rondavitse_read(lane: *const Words, number: u64) -> ReadOut;
    pub fn rondavitse_find_opening(
        lane: *const Words,
        head: u64,
        number: u64,
        newcomer: Newcomer,
    ) -> Opening;
    pub fn rondavitse_lane_text(lane: *const Words, out: *mut u8, out_len: usize) -> Listed;
    pub fn rondavitse_handover(lane: *const Words, out: *mut u8, out_length: usize) -> Listed;
    pub fn rondavitse_take_over(lane: *mut Words, text: *const u8, text_length: usize) -> u32;
    pub fn rondavitse_surface(lane: *mut Words, surface: u64) -> u32;
    pub fn rondavitse_load(lane: *mut Words, text: *const u8, text_length: usize) -> u32;
    pub fn rondavitse_step(
        lane: *mut Words,
        input: *const u8,
        len: usize,
        at: usize,
        out: *mut u8,
        out_len: usize,
    ) -> Stepped;
}

impl From<Flag> for bool {
    fn from(flag: Flag) -> bool {
        assert!(flag.0 <= 1, "a bool that is {}", flag.0);
        flag.0 == 1
    }
}
