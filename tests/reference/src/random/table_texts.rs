//! Table texts: good ones, those of unsound tables, and broken ones.

use super::breaks::{broken, garbled, joined, lines_of, TextBreak};
use super::tables::{sound_table, unsound_table};
use super::Random;
use crate::surface::{Row, Table};
use crate::text::LONGEST_LINE;

/// The text of a table.
pub fn table_text(table: &Table) -> Vec<u8> {
    let lines = |row: &Row| {
        let [b, hardest, most] = row.figures();
        format!("b={b}\nB={hardest}\nA={most}\n")
    };
    table.0.iter().map(lines).collect::<String>().into_bytes()
}

/// A text to load, mostly one that is accepted.
pub fn load_text(random: &mut Random) -> Vec<u8> {
    let text = table_text(&sound_table(random));
    match random.below(10) {
        0..=5 => text,
        6 => table_text(&unsound_table(random)),
        7 => garbled(random, text),
        _ => malformed_table_text(random),
    }
}

/// A table text broken in one way for which it must be refused.
pub fn malformed_table_text(random: &mut Random) -> Vec<u8> {
    let text = table_text(&sound_table(random));
    loop {
        let broken = if random.chance(50) {
            broken(random, &text)
        } else {
            let table_break = random.pick(&TABLE_BREAKS);
            table_break(random, &text)
        };
        if let Some(broken) = broken {
            return broken;
        }
    }
}

/// The breaks that a table text has besides those of every text.
pub const TABLE_BREAKS: [TextBreak; 16] = [
    |_, _| Some(Vec::new()),
    by_columns,
    |_, text| Some(in_rows(text, |row| row.swap(0, 1))),
    |_, text| Some(in_rows(text, |row| row.swap(1, 2))),
    |_, text| Some(in_rows(text, |row| row.rotate_left(1))),
    |_, text| Some(in_rows(text, |row| row.reverse())),
    |_, text| Some(text.to_ascii_lowercase()),
    |_, text| Some(text.to_ascii_uppercase()),
    |_, text| Some([text, text].concat()),
    |_, text| Some([text, b"b=1\n"].concat()),
    |_, text| Some([text, b"b=1\nB=1\nA=1\n"].concat()),
    |_, text| Some(joined(&lines_of(text)[1..])),
    |_, text| Some(joined(&lines_of(text)[3..])),
    |_, text| Some(text.escape_ascii().collect()),
    |_, text| Some(String::from_utf8_lossy(text).replace('\n', "\r\n").into()),
    overlong_number,
];

/// All b, then all B, then all A.
fn by_columns(_: &mut Random, text: &[u8]) -> Option<Vec<u8>> {
    let lines = lines_of(text);
    let columns = (0..3).flat_map(|column| lines.iter().skip(column).step_by(3).copied());
    Some(joined(&columns.collect::<Vec<_>>()))
}

/// The lines of each row in another order.
fn in_rows(text: &[u8], order: fn(&mut [&str])) -> Vec<u8> {
    let mut lines = lines_of(text);
    lines.chunks_mut(3).for_each(order);
    joined(&lines)
}

/// A number that is the same again where a sum wraps at 64 bits, or one with
/// zeros before it up to a line of the greatest length or one byte more.
pub(super) fn overlong_number(random: &mut Random, text: &[u8]) -> Option<Vec<u8>> {
    let mut lines = lines_of(text);
    let place = random.index(lines.len());
    let (key, value) = lines[place].split_once('=')?;
    let number: u128 = value.parse().ok()?;
    let zeros = LONGEST_LINE - key.len() - "=\n".len() + random.index(2);
    let wrapping = format!("{key}={}", (1 << 64) + number);
    let filled = format!("{key}={number:0zeros$}");
    lines[place] = random.pick(&[&wrapping, &filled]);
    Some(joined(&lines))
}
