//! Tables as terminals measure them, and such as no lane may have.

use super::wide::wide_figure;
use super::Random;
use crate::lane::Lane;
use crate::surface::{Row, Table, Tables, RATES, SURFACES};
use std::array;

/// A sound table, often the house's.
pub fn sound_table(random: &mut Random) -> Table {
    if random.chance(20) {
        Lane::default().tables.in_force
    } else {
        Table(array::from_fn(|_| sound_row(random)))
    }
}

/// b and B level, one apart or far apart, at both ends of their range.
fn sound_row(random: &mut Random) -> Row {
    let any = 1 + random.below(*RATES.end());
    let hardest = random.pick(&[1, 2, 255, 255, any, any, any]);
    let within = 1 + random.below(hardest);
    let one_below = (hardest - 1).max(1);
    let b = random.pick(&[1, hardest, one_below, within, within]);
    let any = 1 + random.below(*RATES.end());
    let most = random.pick(&[1, 255, any, any]);
    Row::new(b, hardest, most)
}

/// A table with one row that is not sound, mostly by as little as can be.
pub fn unsound_table(random: &mut Random) -> Table {
    let mut table = sound_table(random);
    let row = &mut table.0[random.index(SURFACES)];
    let Row {
        guaranteed_braking: b,
        hardest_braking: hardest,
        most_acceleration: most,
    } = row;
    match random.below(10) {
        0 => *b = 0,
        1 => *b = *hardest + 1,
        2 => *hardest = 256,
        3 => (*b, *hardest) = (256, 256),
        4 => (*b, *hardest) = (0, 0),
        5 => *most = 0,
        6 => *most = 256,
        7 => *b = wide_figure(random, *b),
        8 => *hardest = wide_figure(random, *hardest),
        _ => *most = wide_figure(random, *most),
    }
    table
}

/// The tables of a sound lane, the same or not.
pub fn sound_tables(random: &mut Random) -> Tables {
    let (one, other) = (sound_table(random), sound_table(random));
    Tables {
        in_force: one,
        for_next_start: random.pick(&[one, other, other]),
    }
}

/// Any tables, each of them sound or not.
pub fn any_tables(random: &mut Random) -> Tables {
    let mut table = || {
        if random.chance(50) {
            unsound_table(random)
        } else {
            sound_table(random)
        }
    };
    Tables {
        in_force: table(),
        for_next_start: table(),
    }
}
