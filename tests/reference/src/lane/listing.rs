//! The lane as text: its carriers, and the whole of it for a new host.

use super::Lane;
use crate::carrier::Carrier;
use crate::refusal::Refusal;
use crate::surface::Table;
use std::io::Write;

/// The longest text of a sound lane: 64 carriers with the widest figures.
pub const LONGEST_LANE_TEXT: usize = 3_720;

/// The longest handover text of one: before the lane text, 48 figures of rows with
/// three digits, and the widest road and cycle number.
pub const LONGEST_HANDOVER: usize = 288 + 63 + LONGEST_LANE_TEXT;

/// Puts the text that `write` writes, which is no longer than `LONGEST`, at the
/// buffer's start and gives its length; the bytes after it keep what they held, and
/// all of them do where the buffer is too short.
pub(super) fn put<const LONGEST: usize>(
    buffer: &mut [u8],
    write: impl Fn(&mut [u8]) -> usize,
) -> Result<usize, Refusal> {
    if buffer.len() >= LONGEST {
        return Ok(write(buffer));
    }
    let mut text = [0; LONGEST];
    let length = write(&mut text);
    let buffer = buffer.get_mut(..length).ok_or(Refusal::BufferTooShort)?;
    buffer.copy_from_slice(&text[..length]);
    Ok(length)
}

/// The carriers front to back, a line for each figure, from the buffer's start
/// on; gives the text's length. The carriers are those of a sound lane.
pub(super) fn lane_text(carriers: &[Carrier], buffer: &mut [u8]) -> usize {
    let mut at = line(buffer, 0, b"cars=", carriers.len() as u32);
    for carrier in carriers {
        at = line(buffer, at, b"car=", carrier.number as u32);
        at = line(buffer, at, b"at=", carrier.position as u32);
        at = line(buffer, at, b"speed=", carrier.speed as u32);
        at = line(buffer, at, b"length=", carrier.length as u32);
        at = line(buffer, at, b"brake=", carrier.rate as u32);
    }
    at
}

/// The rows in force, those for the next start, the road, the cycle number and the
/// lane text, from the buffer's start on; gives the text's length. The lane is sound.
pub(super) fn handover_text(lane: &Lane, buffer: &mut [u8]) -> usize {
    let mut at = table_text(&lane.tables.in_force, buffer, 0);
    at = table_text(&lane.tables.for_next_start, buffer, at);
    at = line(buffer, at, b"surface=", lane.road.surface as u32);
    at = line(buffer, at, b"end=", lane.road.end as u32);
    at = line(buffer, at, b"limit=", lane.road.limit as u32);
    at = cycle_line(buffer, at, lane.cycle);
    at + lane_text(lane.present(), &mut buffer[at..])
}

/// Writes a table at a place and gives the place after it.
fn table_text(table: &Table, buffer: &mut [u8], mut at: usize) -> usize {
    for row in &table.0 {
        at = line(buffer, at, b"b=", row.guaranteed_braking as u32);
        at = line(buffer, at, b"B=", row.hardest_braking as u32);
        at = line(buffer, at, b"A=", row.most_acceleration as u32);
    }
    at
}

/// The one line whose number may have more than 32 bits.
fn cycle_line(buffer: &mut [u8], at: usize, cycle: u64) -> usize {
    let mut rest = &mut buffer[at..];
    let room = rest.len();
    writeln!(rest, "cycle={cycle}").expect("room for every text");
    at + room - rest.len()
}

/// Writes a line at a place and gives the place after it.
fn line<const KEY: usize>(buffer: &mut [u8], at: usize, key: &[u8; KEY], number: u32) -> usize {
    let digits = number.checked_ilog10().unwrap_or(0) as usize + 1;
    let line = &mut buffer[at..at + KEY + digits + 1];
    line[..KEY].copy_from_slice(key);
    let mut rest = number;
    for digit in line[KEY..KEY + digits].iter_mut().rev() {
        *digit = b'0' + (rest % 10) as u8;
        rest /= 10;
    }
    line[KEY + digits] = b'\n';
    at + line.len()
}
