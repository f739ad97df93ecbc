//! Ways to break a well-formed program input, table text or handover text. Each
//! leaves it malformed for certain, so that the program must end with refusal 8, a
//! load must get 31 and a reading 36.

use super::Random;

/// The part of a line that a break replaces.
#[derive(Clone, Copy, Debug, PartialEq, Eq)]
pub enum Part {
    /// All of it but its newline.
    Line,
    Key,
    /// The value of any key that has a number.
    Number,
    /// The value of one key.
    ValueOf(&'static str),
}

use Part::{Key, Line, Number, ValueOf};

/// A part of a line and what takes its place; `#` stands for what was there.
pub type LineBreak = (Part, &'static str);

/// The breaks of one line.
pub const LINE_BREAKS: [LineBreak; 64] = [
    (Line, ""),
    (Line, "\n#"),
    (Line, "#\n"),
    (Line, " #"),
    (Line, "# "),
    (Line, "#\t"),
    (Line, "#\r"),
    (Line, "#\0"),
    (Line, "\0#"),
    (Line, "#\u{e9}"),
    (Line, "#="),
    (Line, "=#"),
    (
        Line,
        "#________________________________________________________________",
    ),
    (Key, ""),
    (Key, " "),
    (Key, "# "),
    (Key, "#="),
    (Key, "x#"),
    (Key, "#x"),
    (Key, "CALL"),
    (Number, ""),
    (Number, "0#"),
    (Number, "00"),
    (Number, "-#"),
    (Number, "-0"),
    (Number, "+#"),
    (Number, " #"),
    (Number, "#_0"),
    (Number, "#.0"),
    (Number, "#e1"),
    (Number, "0x1"),
    (Number, "9999999999999999999999999999999999999999"),
    (ValueOf("surface"), "4294967296"),
    (ValueOf("end"), "4294967296"),
    (ValueOf("limit"), "4294967296"),
    (ValueOf("at"), "4294967296"),
    (ValueOf("speed"), "4294967296"),
    (ValueOf("length"), "4294967296"),
    (ValueOf("brake"), "4294967296"),
    (ValueOf("car"), "65536"),
    (ValueOf("cycle"), "18446744073709551616"),
    (ValueOf("cars"), "65"),
    (ValueOf("call"), ""),
    (ValueOf("call"), "read"),
    (ValueOf("call"), "Show"),
    (ValueOf("call"), "shows"),
    (ValueOf("call"), "Surface"),
    (ValueOf("call"), "surfaces"),
    (ValueOf("want"), ""),
    (ValueOf("want"), "Hold"),
    (ValueOf("want"), "hold:"),
    (ValueOf("want"), "hold\nwant=hold"),
    (ValueOf("want"), "units:"),
    (ValueOf("want"), "units:-0"),
    (ValueOf("want"), "units:-01"),
    (ValueOf("want"), "units:+1"),
    (ValueOf("want"), "units:32768"),
    (ValueOf("want"), "units:-32769"),
    (ValueOf("want"), "accel:3f800000"),
    (ValueOf("want"), "accel:3F80000"),
    (ValueOf("want"), "speed:3F8000000"),
    (ValueOf("want"), "speed:0000000G"),
    (ValueOf("want"), "speed:+3F80000"),
    (ValueOf("want"), "SPEED:3F800000"),
];

/// The line after a break, if the break has a part of it to replace.
fn broken_line(line: &str, (part, becomes): LineBreak) -> Option<String> {
    let (key, value) = line.split_once('=')?;
    let numeric = !["call", "want"].contains(&key);
    match part {
        Line => Some(becomes.replace('#', line)),
        Key => Some(format!("{}={value}", becomes.replace('#', key))),
        Number if numeric => Some(format!("{key}={}", becomes.replace('#', value))),
        ValueOf(named) if named == key => Some(format!("{key}={becomes}")),
        Number | ValueOf(_) => None,
    }
}

/// Applies a break to one of the lines of `text` that have the part.
pub fn break_line(random: &mut Random, text: &[u8], line_break: LineBreak) -> Option<Vec<u8>> {
    let mut lines = lines_of(text);
    let candidates: Vec<(usize, String)> = lines
        .iter()
        .enumerate()
        .filter_map(|(place, line)| Some((place, broken_line(line, line_break)?)))
        .collect();
    let (place, broken) = candidates.get(random.index(candidates.len().max(1)))?;
    lines[*place] = broken;
    Some(joined(&lines))
}

/// The text broken in one way; nothing where that does not apply.
pub fn broken(random: &mut Random, text: &[u8]) -> Option<Vec<u8>> {
    if random.chance(60) {
        let line_break = random.pick(&LINE_BREAKS);
        break_line(random, text, line_break)
    } else {
        let text_break = random.pick(&TEXT_BREAKS);
        text_break(random, text)
    }
}

/// The text with a few bytes changed, added or lost; it may still be well-formed.
pub fn garbled(random: &mut Random, mut text: Vec<u8>) -> Vec<u8> {
    for _ in 0..=random.below(3) {
        let place = random.index(text.len().max(1));
        let any = random.bits() as u8;
        let byte = random.pick(&[b'0', b'1', b'9', b'-', b'=', b'\n', b'A', b':', any]);
        match random.below(3) {
            0 => text.insert(place, byte),
            _ if place >= text.len() => (),
            1 => text[place] = byte,
            _ => drop(text.remove(place)),
        }
    }
    text
}

/// A break of the text as a whole; nothing where it does not apply.
pub type TextBreak = fn(&mut Random, &[u8]) -> Option<Vec<u8>>;

/// The breaks of the text as a whole.
pub const TEXT_BREAKS: [TextBreak; 12] = [
    lines_swapped,
    line_left_out,
    line_doubled,
    cut_off,
    |_, text| text.split_last().map(|(_, rest)| rest.to_vec()),
    |_, text| Some([text, b"\n"].concat()),
    |_, text| Some([text, b"\0"].concat()),
    |_, text| Some([text, b" "].concat()),
    |_, text| Some([b"\xEF\xBB\xBF", text].concat()),
    |_, text| Some([text, b"want=hold\n"].concat()),
    |_, text| Some([text, b"call=cycle\ncars=2\nwant=hold\n"].concat()),
    |_, text| {
        let wants = "want=hold\n".repeat(65);
        Some([text, b"call=cycle\ncars=65\n", wants.as_bytes()].concat())
    },
];

/// Swaps neighbours with different keys. The lines before them fix which key
/// is due, so the second one cannot come first.
fn lines_swapped(random: &mut Random, text: &[u8]) -> Option<Vec<u8>> {
    let mut lines = lines_of(text);
    let key = |line: &str| line.split_once('=').map(|(key, _)| key.to_string());
    let places: Vec<usize> = (1..lines.len())
        .filter(|&place| key(lines[place]) != key(lines[place - 1]))
        .collect();
    let place = *places.get(random.index(places.len().max(1)))?;
    lines.swap(place - 1, place);
    Some(joined(&lines))
}

fn line_left_out(random: &mut Random, text: &[u8]) -> Option<Vec<u8>> {
    let mut lines = lines_of(text);
    let place = bound_line(random, &lines)?;
    lines.remove(place);
    Some(joined(&lines))
}

fn line_doubled(random: &mut Random, text: &[u8]) -> Option<Vec<u8>> {
    let mut lines = lines_of(text);
    let place = bound_line(random, &lines)?;
    lines.insert(place, lines[place]);
    Some(joined(&lines))
}

/// A line that its block needs once; `call=show` is a block by itself.
fn bound_line(random: &mut Random, lines: &[&str]) -> Option<usize> {
    let places: Vec<usize> = (0..lines.len())
        .filter(|&place| lines[place] != "call=show")
        .collect();
    places.get(random.index(places.len().max(1))).copied()
}

/// Cuts the text off within a line.
fn cut_off(random: &mut Random, text: &[u8]) -> Option<Vec<u8>> {
    let cut = &text[..random.index(text.len() + 1)];
    cut.last()
        .is_some_and(|&last| last != b'\n')
        .then(|| cut.to_vec())
}

pub fn lines_of(text: &[u8]) -> Vec<&str> {
    let text = std::str::from_utf8(text).expect("well-formed texts are ASCII");
    text.lines().collect()
}

pub fn joined(lines: &[&str]) -> Vec<u8> {
    lines
        .iter()
        .flat_map(|line| [line, "\n"])
        .collect::<String>()
        .into_bytes()
}
