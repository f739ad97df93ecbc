//! Handover texts: of sound lanes, of such as break a rule, and broken ones.

use super::breaks::{broken, garbled};
use super::gaps::{gapped_lane, short_lane};
use super::handover_breaks::{number_changed, number_misspelt, rearranged, HANDOVER_BREAKS};
use super::lanes::{sound_lane, unsound_lane};
use super::programs::carrier_lines;
use super::table_texts::table_text;
use super::unsafe_lanes::{lane_of_two_rows, mix_up, unsafe_lane};
use super::Random;
use crate::lane::Lane;
use crate::road::Road;
use crate::surface::Tables;

/// The handover text of a lane, which may be any.
pub fn handover_text(lane: &Lane) -> Vec<u8> {
    let Tables {
        in_force,
        for_next_start,
    } = &lane.tables;
    let Road {
        surface,
        end,
        limit,
    } = lane.road;
    let road = format!("surface={surface}\nend={end}\nlimit={limit}\n");
    let rest = format!("{road}cycle={}\n{}", lane.cycle, lane_lines(lane));
    let [now, next] = [in_force, for_next_start].map(table_text);
    [now, next, rest.into_bytes()].concat()
}

/// The lane text of a lane, which may be any.
pub fn lane_lines(lane: &Lane) -> String {
    let carriers = lane.present().iter().map(carrier_lines);
    let head = format!("cars={}\n", lane.count);
    carriers.fold(head, |text, lines| text + &lines)
}

/// A text to read, accepted or refused, mostly by as little as can be.
pub fn text_to_read(random: &mut Random) -> Vec<u8> {
    match random.below(26) {
        0..=3 => sound_text(random),
        4..=5 => handover_text(&lane_of_two_rows(random)),
        6..=8 => handover_text(&unsafe_lane(random)),
        9..=12 => handover_text(&unsound_lane(random)),
        13..=14 => doubly_faulty_text(random),
        15..=16 => {
            let text = sound_text(random);
            garbled(random, text)
        }
        17 => changed(random, rearranged),
        18..=21 => changed(random, number_changed),
        _ => malformed_handover_text(random),
    }
}

/// The text of a sound lane, as often of one with few carriers as with many.
fn sound_text(random: &mut Random) -> Vec<u8> {
    let lane = random.pick(&[sound_lane, sound_lane, gapped_lane, short_lane]);
    handover_text(&lane(random))
}

fn changed(random: &mut Random, change: fn(&mut Random, &[u8]) -> Vec<u8>) -> Vec<u8> {
    let text = sound_text(random);
    change(random, &text)
}

/// The text of a lane that is not safe, and has a fault of the other sort too.
fn doubly_faulty_text(random: &mut Random) -> Vec<u8> {
    if random.chance(50) {
        let mut lane = unsound_lane(random);
        mix_up(random, &mut lane);
        handover_text(&lane)
    } else {
        let text = handover_text(&unsafe_lane(random));
        malformed(random, &text)
    }
}

/// A handover text broken in one way for which it must be refused with 36.
pub fn malformed_handover_text(random: &mut Random) -> Vec<u8> {
    let text = sound_text(random);
    malformed(random, &text)
}

fn malformed(random: &mut Random, text: &[u8]) -> Vec<u8> {
    loop {
        let broken = match random.below(3) {
            0 => broken(random, text),
            1 => Some(number_misspelt(random, text)),
            _ => {
                let handover_break = random.pick(&HANDOVER_BREAKS);
                handover_break(random, text)
            }
        };
        if let Some(broken) = broken {
            return broken;
        }
    }
}
