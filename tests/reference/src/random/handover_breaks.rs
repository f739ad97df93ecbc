//! Ways to break a handover text, besides those of every text. Each of
//! [`HANDOVER_BREAKS`] leaves it malformed for certain; the other changes may leave
//! it the text of another lane, sound or not.

use super::breaks::{joined, lines_of, TextBreak};
use super::table_texts::{overlong_number, TABLE_BREAKS};
use super::Random;
use crate::lane::PLACES;

/// The lines of a table, of both tables, of the road with the cycle number, of what
/// comes before the first carrier, and of a carrier.
const TABLE: usize = 24;
const TABLES: usize = 2 * TABLE;
const ROAD: usize = 4;
const HEAD: usize = TABLES + ROAD + 1;
const CARRIER: usize = 5;

/// The breaks of the text as a whole.
pub const HANDOVER_BREAKS: [TextBreak; 25] = [
    |_, _| Some(Vec::new()),
    cut,
    cut,
    table_broken,
    table_broken,
    row_left_out,
    row_left_out,
    row_doubled,
    |_, text| Some(joined(&lines_of(text)[TABLE..])),
    |_, text| Some(joined(&lines_of(text)[TABLES..])),
    |_, text| Some([&joined(&lines_of(text)[..TABLE]), text].concat()),
    |_, text| Some(with_lines(text, |lines| lines.rotate_left(TABLE))),
    |_, text| Some(with_lines(text, |lines| lines.insert(TABLE, ""))),
    road_out_of_order,
    |_, text| Some(with_lines(text, |lines| lines.insert(TABLES, "call=start"))),
    |_, text| Some(String::from_utf8_lossy(text).replace('\n', "\r\n").into()),
    |_, text| Some([text, text].concat()),
    cars_changed,
    cars_changed,
    one_more_carrier,
    one_more_carrier,
    one_carrier_less,
    key_changed,
    key_changed,
    overlong_number,
];

fn with_lines<'a>(text: &'a [u8], change: impl FnOnce(&mut Vec<&'a str>)) -> Vec<u8> {
    let mut lines = lines_of(text);
    change(&mut lines);
    joined(&lines)
}

/// Cuts the text off at any byte: how many lines it has stands in it, so that no
/// part of it is a text.
fn cut(random: &mut Random, text: &[u8]) -> Option<Vec<u8>> {
    let any = random.index(text.len());
    let near = text.len() - 1 - random.index(20);
    Some(text[..random.pick(&[any, near])].to_vec())
}

/// One of the tables in a way that a load would refuse.
fn table_broken(random: &mut Random, text: &[u8]) -> Option<Vec<u8>> {
    let lines = lines_of(text);
    let first = random.pick(&[0, TABLE]);
    let (before, rest) = lines.split_at(first);
    let (table, after) = rest.split_at(TABLE);
    let table_break = random.pick(&TABLE_BREAKS);
    let table = table_break(random, &joined(table))?;
    Some([joined(before), table, joined(after)].concat())
}

/// The place of a row's first line, in either table.
fn any_row(random: &mut Random) -> usize {
    3 * random.index(TABLES / 3)
}

fn row_left_out(random: &mut Random, text: &[u8]) -> Option<Vec<u8>> {
    let row = any_row(random);
    Some(with_lines(text, |lines| drop(lines.drain(row..row + 3))))
}

fn row_doubled(random: &mut Random, text: &[u8]) -> Option<Vec<u8>> {
    let row = any_row(random);
    let doubled = |lines: &mut Vec<&str>| {
        let again = lines[row..row + 3].to_vec();
        lines.splice(row..row, again);
    };
    Some(with_lines(text, doubled))
}

/// Surface, end, limit and cycle number in any other order.
fn road_out_of_order(random: &mut Random, text: &[u8]) -> Option<Vec<u8>> {
    let (by, turned) = (1 + random.index(ROAD - 1), random.chance(50));
    Some(with_lines(text, |lines| {
        let road = &mut lines[TABLES..TABLES + ROAD];
        if turned {
            road.reverse();
        } else {
            road.rotate_left(by);
        }
    }))
}

/// Another number of carriers than there are, by one, or the same again where it is
/// cut to fewer bits.
fn cars_changed(random: &mut Random, text: &[u8]) -> Option<Vec<u8>> {
    let cars = carriers_in(text) as u128;
    let width = random.pick(&[8, 16, 32, 64]);
    let less = cars.checked_sub(1).unwrap_or(1);
    let wide = (1 << width) + cars;
    let changed = random.pick(&[cars + 1, less, wide]);
    Some(with_cars(text, &format!("cars={changed}")))
}

fn with_cars<'a>(text: &'a [u8], line: &'a str) -> Vec<u8> {
    with_lines(text, |lines| lines[HEAD - 1] = line)
}

fn carriers_in(text: &[u8]) -> usize {
    (lines_of(text).len() - HEAD) / CARRIER
}

/// A carrier after the last one, as sound as that; where there are 64, their number
/// may say so.
fn one_more_carrier(random: &mut Random, text: &[u8]) -> Option<Vec<u8>> {
    let one_more = [text, b"car=60000\nat=0\nspeed=0\nlength=0\nbrake=1\n"].concat();
    let said = carriers_in(text) == PLACES && random.chance(70);
    Some(if said {
        with_cars(&one_more, "cars=65")
    } else {
        one_more
    })
}

/// All lines of a carrier left out.
fn one_carrier_less(random: &mut Random, text: &[u8]) -> Option<Vec<u8>> {
    let carriers = carriers_in(text);
    let place = HEAD + CARRIER * random.index(carriers.max(1));
    let without = |lines: &mut Vec<&str>| drop(lines.drain(place..place + CARRIER));
    (carriers > 0).then(|| with_lines(text, without))
}

/// The key of a line in other letters, or that of another line: each line has but one.
fn key_changed(random: &mut Random, text: &[u8]) -> Option<Vec<u8>> {
    let mut lines = lines_of(text);
    let (key, places) = lines_of_a_key(random, &lines);
    let (upper, lower) = (key.to_uppercase(), key.to_lowercase());
    let capital = format!("{}{}", &upper[..1], &key[1..]);
    let (more, less) = (format!("{key}s"), &key[..key.len() - 1]);
    let any = random.pick(&KEYS);
    let other = random.pick(&[&upper, &lower, &capital, &more, less, any]);
    let place = random.pick(&places);
    let changed = format!("{other}{}", &lines[place][key.len()..]);
    lines[place] = &changed;
    (other != key).then(|| joined(&lines))
}

/// Lines in another order, the keys in the same: tables, rows, carriers or two
/// figures of a key exchanged.
pub fn rearranged(random: &mut Random, text: &[u8]) -> Vec<u8> {
    let carriers = carriers_in(text);
    let mut lines = lines_of(text);
    match random.below(4) {
        0 => lines[..TABLES].rotate_left(TABLE),
        1 => {
            let rows = [0; 2].map(|_| any_row(random));
            swap_runs(&mut lines, rows, 3);
        }
        2 if carriers > 1 => {
            let places = [0; 2].map(|_| HEAD + CARRIER * random.index(carriers));
            swap_runs(&mut lines, places, CARRIER);
        }
        _ => {
            let (_, places) = lines_of_a_key(random, &lines);
            lines.swap(random.pick(&places), random.pick(&places));
        }
    }
    joined(&lines)
}

/// Exchanges as many lines from one place on with those from another on.
fn swap_runs(lines: &mut [&str], [one, other]: [usize; 2], length: usize) {
    for place in 0..length {
        lines.swap(one + place, other + place);
    }
}

/// One number changed by one, or to an end of some range or width, or to one that is
/// the same again where it is cut to fewer bits.
pub fn number_changed(random: &mut Random, text: &[u8]) -> Vec<u8> {
    with_number(random, text, |random, number| {
        let value = number.parse().unwrap_or(0);
        other_number(random, value).to_string()
    })
}

/// One number written as none may be.
pub fn number_misspelt(random: &mut Random, text: &[u8]) -> Vec<u8> {
    with_number(random, text, |random, number| {
        let spelling = random.pick(&["", "0#", "00#", "+#", "-#", " #", "# ", "#x", "#\r", "#\n"]);
        spelling.replace('#', number)
    })
}

/// One number, of any key, become what `other` makes of it.
fn with_number(
    random: &mut Random,
    text: &[u8],
    other: fn(&mut Random, &str) -> String,
) -> Vec<u8> {
    let mut lines = lines_of(text);
    let (key, places) = lines_of_a_key(random, &lines);
    let place = random.pick(&places);
    let number = &lines[place][key.len() + 1..];
    let changed = format!("{key}={}", other(random, number));
    lines[place] = &changed;
    joined(&lines)
}

/// One of the keys, each as likely as another, and the places of its lines.
fn lines_of_a_key(random: &mut Random, lines: &[&str]) -> (&'static str, Vec<usize>) {
    let keys = if lines.len() > HEAD {
        &KEYS[..]
    } else {
        &KEYS[..KEYS_OF_HEAD]
    };
    let key = random.pick(keys);
    let has_key = |line: &str| line.split_once('=').is_some_and(|(of, _)| of == key);
    let places = (0..lines.len()).filter(|&place| has_key(lines[place]));
    (key, places.collect())
}

/// The keys, first those that every text has.
const KEYS: [&str; 13] = [
    "b", "B", "A", "surface", "end", "limit", "cycle", "cars", "car", "at", "speed", "length",
    "brake",
];
const KEYS_OF_HEAD: usize = 8;

fn other_number(random: &mut Random, value: u128) -> u128 {
    let edge: u128 = random.pick(&[1, 8, 256, 8_193, 1 << 16, 1 << 31, 1 << 32, 1 << 64]);
    let width = random.pick(&[8, 16, 32, 64]);
    match random.below(5) {
        0 => value + 1,
        1 => value.saturating_sub(1),
        2..=3 => edge - u128::from(random.below(2)),
        _ => value + (1 << width),
    }
}
