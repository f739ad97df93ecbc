//! Cases as text: a word and its figures on each line. The figures of a load and of
//! a reading are the bytes of its text.

use super::binding::Words;
use super::case::Case;
use super::host_call::HostCall;
use lane_reference::{Call, Carrier, Newcomer, Road};
use std::fmt::Write;
use std::str::{FromStr, SplitWhitespace};

/// The case as text, which [`parse`] reads back. Rows of the lane that are
/// all 0 are left out.
pub fn print(case: &Case) -> String {
    let mut text = String::new();
    for (place, row) in case.first.iter().enumerate() {
        if row.iter().any(|&word| word != 0) {
            writeln!(text, "row {place}{}", joined(row)).expect("a string takes all");
        }
    }
    for call in &case.calls {
        text += &print_call(call);
    }
    assert_eq!(parse(&text).as_ref(), Ok(case), "a case that reads back");
    text
}

fn print_call(call: &HostCall) -> String {
    match call {
        HostCall::Plain(call) => print_plain(call),
        HostCall::Cycle {
            count,
            sorts,
            values,
        } => format!(
            "cycle {count}\nsorts{}\nvalues{}\n",
            joined(sorts),
            joined(values)
        ),
        &HostCall::FindOpening {
            head,
            number,
            newcomer,
        } => {
            let Newcomer {
                speed,
                length,
                rate,
            } = newcomer;
            let figures = [head, number, speed, length, rate];
            format!("find_opening{}\n", joined(&figures))
        }
        HostCall::TakeOver { text } => format!("take_over{}\n", joined(text)),
    }
}

fn print_plain(call: &Call) -> String {
    match call {
        Call::Start { road, first } => {
            let figures = [road.surface, road.end, road.limit, *first];
            format!("start{}\n", joined(&figures))
        }
        Call::Enter(carrier) => {
            let figures = [
                carrier.number,
                carrier.position,
                carrier.speed,
                carrier.length,
                carrier.rate,
            ];
            format!("enter{}\n", joined(&figures))
        }
        Call::Leave { number } => format!("leave {number}\n"),
        Call::Read { number } => format!("read {number}\n"),
        Call::LaneText { room } => format!("lane_text {room}\n"),
        Call::Handover { room } => format!("handover {room}\n"),
        Call::Surface { surface } => format!("surface {surface}\n"),
        Call::Load { text } => format!("load{}\n", joined(text)),
        Call::Cycle { .. } => unreachable!("a host's cycle is no plain call"),
        Call::FindOpening { .. } => unreachable!("nor is a host's question"),
    }
}

fn joined<T: ToString>(figures: &[T]) -> String {
    let figures = figures
        .iter()
        .map(|figure| format!(" {}", figure.to_string()));
    figures.collect()
}

/// Reads a case; lines that begin with `#` are comments.
pub fn parse(text: &str) -> Result<Case, String> {
    let mut case = Case {
        first: [[0; 8]; 89],
        calls: Vec::new(),
    };
    for line in text.lines().filter(|line| !line.starts_with('#')) {
        let mut words = line.split_whitespace();
        let read = match words.next().unwrap_or_default() {
            "row" => parse_row(&mut words, &mut case.first),
            word => parse_call(word, &mut words, &mut case.calls),
        };
        if read.is_none() || words.next().is_some() {
            return Err(format!("not of a case: {line}"));
        }
    }
    Ok(case)
}

fn figure<T: FromStr>(words: &mut SplitWhitespace) -> Option<T> {
    words.next()?.parse().ok()
}

fn figures<T: FromStr>(words: &mut SplitWhitespace) -> Option<Vec<T>> {
    words.map(|word| word.parse().ok()).collect()
}

fn parse_row(words: &mut SplitWhitespace, lane: &mut Words) -> Option<()> {
    let place: usize = figure(words)?;
    *lane.get_mut(place)? = figures(words)?.try_into().ok()?;
    Some(())
}

/// Adds a call, or a list of wishes to the cycle that it follows.
fn parse_call(word: &str, words: &mut SplitWhitespace, calls: &mut Vec<HostCall>) -> Option<()> {
    match (word, calls.last_mut()) {
        ("sorts", Some(HostCall::Cycle { sorts, .. })) => *sorts = figures(words)?,
        ("values", Some(HostCall::Cycle { values, .. })) => *values = figures(words)?,
        ("cycle", _) => calls.push(HostCall::Cycle {
            count: figure(words)?,
            sorts: Vec::new(),
            values: Vec::new(),
        }),
        ("find_opening", _) => calls.push(HostCall::FindOpening {
            head: figure(words)?,
            number: figure(words)?,
            newcomer: Newcomer {
                speed: figure(words)?,
                length: figure(words)?,
                rate: figure(words)?,
            },
        }),
        ("take_over", _) => calls.push(HostCall::TakeOver {
            text: figures(words)?,
        }),
        _ => calls.push(HostCall::Plain(parse_plain(word, words)?)),
    }
    Some(())
}

fn parse_plain(word: &str, words: &mut SplitWhitespace) -> Option<Call> {
    Some(match word {
        "start" => Call::Start {
            road: Road {
                surface: figure(words)?,
                end: figure(words)?,
                limit: figure(words)?,
            },
            first: figure(words)?,
        },
        "enter" => Call::Enter(Carrier {
            number: figure(words)?,
            position: figure(words)?,
            speed: figure(words)?,
            length: figure(words)?,
            rate: figure(words)?,
        }),
        "leave" => Call::Leave {
            number: figure(words)?,
        },
        "read" => Call::Read {
            number: figure(words)?,
        },
        "lane_text" => Call::LaneText {
            room: figure(words)?,
        },
        "handover" => Call::Handover {
            room: figure(words)?,
        },
        "surface" => Call::Surface {
            surface: figure(words)?,
        },
        "load" => Call::Load {
            text: figures(words)?,
        },
        _ => return None,
    })
}
