//! Call texts, table texts and handover texts: `key=value` lines in fixed order. What
//! all of them share is inline, as if each reader had it for itself.

use crate::call::Call;
use crate::carrier::Carrier;
use crate::lane::{Lane, LONGEST_LANE_TEXT, PLACES};
use crate::refusal::Refusal;
use crate::road::Road;
use crate::surface::{Row, Table, Tables, SURFACES};
use crate::wish::Wish;

/// The most bytes of a line, with its newline.
pub const LONGEST_LINE: usize = 64;

/// Reads the first line of `text`, which must begin with `key=`: its value,
/// a part of `text`, and what follows the line.
#[inline(always)]
pub fn line<'a>(text: &'a [u8], key: &str) -> Result<(&'a [u8], &'a [u8]), Refusal> {
    let newline = text
        .iter()
        .take(LONGEST_LINE)
        .position(|&byte| byte == b'\n')
        .ok_or(Refusal::TextMalformed)?;
    let value = text[..newline]
        .strip_prefix(key.as_bytes())
        .and_then(|rest| rest.strip_prefix(b"="))
        .ok_or(Refusal::TextMalformed)?;
    Ok((value, &text[newline + 1..]))
}

/// Reads the first block of `text` whole: its call, and what follows the block.
pub fn block(text: &[u8]) -> Result<(Call, &[u8]), Refusal> {
    let mut lines = Lines { rest: text };
    let call = match lines.value("call")? {
        b"start" => Call::Start {
            road: lines.road()?,
            first: lines.number::<u64>("cycle")?,
        },
        b"enter" => Call::Enter(lines.carrier()?),
        b"leave" => Call::Leave {
            number: lines.number::<u16>("car")?,
        },
        b"cycle" => lines.cycle()?,
        b"show" => Call::LaneText {
            room: LONGEST_LANE_TEXT,
        },
        b"surface" => Call::Surface {
            surface: lines.number::<u32>("surface")?,
        },
        _ => return Err(Refusal::TextMalformed),
    };
    Ok((call, lines.rest))
}

/// Reads a table text: the rows in the order of their codes and nothing else.
pub fn table(text: &[u8]) -> Result<Table, Refusal> {
    let mut lines = Lines { rest: text };
    let table = lines.table()?;
    lines.end()?;
    Ok(table)
}

/// Reads a handover text, that and nothing else: the lane as it stands there, which
/// may break any rule.
pub fn handover(text: &[u8]) -> Result<Lane, Refusal> {
    let mut lines = Lines { rest: text };
    let mut lane = Lane {
        started: true,
        tables: Tables {
            in_force: lines.table()?,
            for_next_start: lines.table()?,
        },
        road: lines.road()?,
        cycle: lines.number::<u64>("cycle")?,
        count: lines.cars()?,
        ..Lane::default()
    };
    for carrier in lane.carriers.iter_mut().take(lane.count as usize) {
        *carrier = lines.carrier()?;
    }
    lines.end()?;
    Ok(lane)
}

/// The lines still to be read.
struct Lines<'a> {
    rest: &'a [u8],
}

impl<'a> Lines<'a> {
    #[inline(always)]
    fn value(&mut self, key: &str) -> Result<&'a [u8], Refusal> {
        let (value, rest) = line(self.rest, key)?;
        self.rest = rest;
        Ok(value)
    }

    /// A number that a field of the width of `T` can hold.
    #[inline(always)]
    fn number<T: TryFrom<u64>>(&mut self, key: &str) -> Result<u64, Refusal> {
        decimal(self.value(key)?)
            .filter(|&number| T::try_from(number).is_ok())
            .ok_or(Refusal::TextMalformed)
    }

    fn road(&mut self) -> Result<Road, Refusal> {
        Ok(Road {
            surface: self.number::<u32>("surface")?,
            end: self.number::<u32>("end")?,
            limit: self.number::<u32>("limit")?,
        })
    }

    fn carrier(&mut self) -> Result<Carrier, Refusal> {
        Ok(Carrier {
            number: self.number::<u16>("car")?,
            position: self.number::<u32>("at")?,
            speed: self.number::<u32>("speed")?,
            length: self.number::<u32>("length")?,
            rate: self.number::<u32>("brake")?,
        })
    }

    #[inline(always)]
    fn row(&mut self) -> Result<Row, Refusal> {
        Ok(Row {
            guaranteed_braking: self.number::<u64>("b")?,
            hardest_braking: self.number::<u64>("B")?,
            most_acceleration: self.number::<u64>("A")?,
        })
    }

    #[inline(always)]
    fn table(&mut self) -> Result<Table, Refusal> {
        let mut rows = [Row::default(); SURFACES];
        for row in &mut rows {
            *row = self.row()?;
        }
        Ok(Table(rows))
    }

    /// How many carriers or wishes follow.
    fn cars(&mut self) -> Result<u64, Refusal> {
        let count = self.number::<u64>("cars")?;
        Refusal::TextMalformed.when(count > PLACES as u64)?;
        Ok(count)
    }

    /// Nothing may follow.
    fn end(&self) -> Result<(), Refusal> {
        Refusal::TextMalformed.when(!self.rest.is_empty())
    }

    fn cycle(&mut self) -> Result<Call, Refusal> {
        let count = self.cars()?;
        let mut wishes = Box::new([Wish::Hold; PLACES]);
        for wanted in wishes.iter_mut().take(count as usize) {
            *wanted = wish(self.value("want")?).ok_or(Refusal::TextMalformed)?;
        }
        Ok(Call::Cycle { count, wishes })
    }
}

fn wish(value: &[u8]) -> Option<Wish> {
    if value == b"hold" {
        return Some(Wish::Hold);
    }
    let colon = value.iter().position(|&byte| byte == b':')?;
    let figure = &value[colon + 1..];
    match &value[..colon] {
        b"units" => units(figure).map(Wish::Units),
        b"accel" => float_bits(figure).map(Wish::Acceleration),
        b"speed" => float_bits(figure).map(Wish::TargetSpeed),
        _ => None,
    }
}

/// A signed number; only one that is not 0 may carry a minus.
fn units(figure: &[u8]) -> Option<i16> {
    let number = match figure.strip_prefix(b"-") {
        Some(digits) => -i64::try_from(decimal(digits).filter(|&number| number > 0)?).ok()?,
        None => i64::try_from(decimal(figure)?).ok()?,
    };
    i16::try_from(number).ok()
}

/// A decimal number of at most 64 bits, without sign or leading zeros.
#[inline(always)]
fn decimal(digits: &[u8]) -> Option<u64> {
    let leading_zero = digits.len() > 1 && digits[0] == b'0';
    if digits.is_empty() || leading_zero {
        return None;
    }
    digits.iter().try_fold(0_u64, |number, digit| {
        let value = digit.checked_sub(b'0').filter(|&value| value <= 9)?;
        number.checked_mul(10)?.checked_add(u64::from(value))
    })
}

/// Eight upper-case hexadecimal digits.
fn float_bits(digits: &[u8]) -> Option<u32> {
    if digits.len() != 8 {
        return None;
    }
    digits.iter().try_fold(0, |bits, &digit| {
        let value = match digit {
            b'0'..=b'9' => digit - b'0',
            b'A'..=b'F' => digit - b'A' + 10,
            _ => return None,
        };
        Some(bits << 4 | u32::from(value))
    })
}
