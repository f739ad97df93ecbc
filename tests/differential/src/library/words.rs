//! Which word of a lane is where, and what the free ones may hold.

use super::binding::Words;
use lane_reference::random::{sound_lane, unsound_lane, Random};
use lane_reference::{Carrier, Lane, Road, Row, Table, Tables, PLACES};
use std::array;

/// Where the surface rows in force begin, those for the next start, the rows
/// that are free, and the records.
const IN_FORCE: usize = 1;
const FOR_NEXT_START: usize = 9;
const FREE: usize = 17;
const RECORDS: usize = 25;

/// The words of the first row with the surface code and the carriers present.
const SURFACE: usize = 1;
const COUNT: usize = 5;

/// How many words of the first row count, of a surface row and of a record.
const FIGURES: usize = 6;
const FIGURES_OF_ROW: usize = 3;
const FIGURES_OF_RECORD: usize = 5;

/// Words of a lane that counts as never started.
const NEVER_STARTED: [u64; 6] = [0, 0, 2, 256, (1 << 32) + 1, u64::MAX];

/// What counts of a lane. Whatever its first word is, it is started or not.
pub fn lane(words: &Words) -> Lane {
    let [started, surface, end, limit, cycle, count, ..] = words[0];
    let mut lane = Lane {
        started: started == 1,
        road: Road {
            surface,
            end,
            limit,
        },
        cycle,
        count,
        tables: Tables {
            in_force: table(words, IN_FORCE),
            for_next_start: table(words, FOR_NEXT_START),
        },
        carriers: [Carrier::default(); PLACES],
    };
    for (carrier, row) in lane.carriers.iter_mut().zip(&words[RECORDS..]) {
        let [number, position, speed, length, rate, ..] = *row;
        *carrier = Carrier {
            number,
            position,
            speed,
            length,
            rate,
        };
    }
    lane
}

/// The table whose first row is the row `first`.
fn table(words: &Words, first: usize) -> Table {
    Table(array::from_fn(|code| {
        let [b, hardest, most, ..] = words[first + code];
        Row::new(b, hardest, most)
    }))
}

/// A lane as words; those that do not count are 0.
pub fn plain(lane: &Lane) -> Words {
    let mut words = [[0; 8]; 89];
    let Road {
        surface,
        end,
        limit,
    } = lane.road;
    let started = lane.started.into();
    words[0] = [started, surface, end, limit, lane.cycle, lane.count, 0, 0];
    put_table(&mut words, IN_FORCE, &lane.tables.in_force);
    put_table(&mut words, FOR_NEXT_START, &lane.tables.for_next_start);
    for (row, carrier) in words[RECORDS..].iter_mut().zip(lane.carriers) {
        let Carrier {
            number,
            position,
            speed,
            length,
            rate,
        } = carrier;
        row[..FIGURES_OF_RECORD].copy_from_slice(&[number, position, speed, length, rate]);
    }
    words
}

fn put_table(words: &mut Words, first: usize, table: &Table) {
    for (words, row) in words[first..].iter_mut().zip(table.0) {
        words[..FIGURES_OF_ROW].copy_from_slice(&row.figures());
    }
}

/// A lane as words; those that do not count hold anything.
pub fn of_lane(random: &mut Random, lane: &Lane) -> Words {
    let mut words = plain(lane);
    if !lane.started {
        words[0][0] = random.pick(&NEVER_STARTED);
    }
    if random.chance(80) {
        let seed = random.bits();
        scramble(&mut words, seed);
    }
    words
}

/// Any words at all, as memory may hold them that nobody made a lane: often a lane's,
/// or all alike.
pub fn any(random: &mut Random) -> Words {
    let word = random.bits();
    match random.below(4) {
        0..=1 => {
            let lane = random.pick(&[sound_lane, unsound_lane])(random);
            of_lane(random, &lane)
        }
        2 => [[random.pick(&[0, 1, u64::MAX, word]); 8]; 89],
        _ => array::from_fn(|_| array::from_fn(|_| random.bits())),
    }
}

/// Puts anything into the free words; the same for the same seed.
pub fn scramble(words: &mut Words, seed: u64) {
    let mut random = Random::new(seed);
    for (place, row) in words.iter_mut().enumerate() {
        let counting = match place {
            0 => FIGURES,
            FREE..RECORDS => 0,
            IN_FORCE..FREE => FIGURES_OF_ROW,
            _ => FIGURES_OF_RECORD,
        };
        for word in &mut row[counting..] {
            let any = random.bits();
            *word = random.pick(&[0, 1, any, any]);
        }
    }
}

/// The same words with another surface code.
pub fn on_surface(words: &Words, surface: u64) -> Words {
    let mut changed = *words;
    changed[0][SURFACE] = surface;
    changed
}

/// Puts a number into the record right behind the last carrier present, if
/// there is one: no lookup may go there.
pub fn leave_behind(words: &mut Words, number: u64) {
    let present = words[0][COUNT].min(PLACES as u64) as usize;
    if let Some(idle) = words.get_mut(RECORDS + present) {
        idle[0] = number;
    }
}
