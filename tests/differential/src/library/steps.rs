//! A program's text by the library's steps, block by block.

use super::binding::Words;
use super::host::{self, Step};
use super::outcome::{lent, settled, within};
use super::words;
use lane_reference::program::{self, Stepped, ANSWER_BUFFER, LONGEST_INPUT};
use lane_reference::FastLane;

/// How many steps were made, and what the last of them did wrong.
pub fn run(input: &[u8]) -> (u64, Result<(), String>) {
    let (mut lane, mut at, mut steps) = (host::empty(), 0, 0);
    if input.len() > LONGEST_INPUT {
        return (steps, Ok(())); // Refused by the program, before any step.
    }
    loop {
        steps += 1;
        words::scramble(&mut lane, steps);
        match in_rooms(&mut lane, input, at, steps as usize) {
            Ok(Stepped { stop: true, .. }) => break,
            Ok(Stepped { next, .. }) => at = next,
            Err(what) => return (steps, Err(format!("the step at {at}: {what}"))),
        }
    }
    for past in [input.len(), input.len() + 1, usize::MAX] {
        if let Err(what) = in_rooms(&mut lane, input, past, steps as usize) {
            return (steps, Err(format!("the step at the end, {past}: {what}")));
        }
    }
    (steps, Ok(()))
}

/// A step in buffers that are too short, which change nothing, and then in
/// one that is just long enough or longer by a byte.
fn in_rooms(lane: &mut Words, input: &[u8], at: usize, turn: usize) -> Result<Stepped, String> {
    for short in [ANSWER_BUFFER - 1, turn % ANSWER_BUFFER] {
        step(lane, input, at, short)?;
    }
    step(lane, input, at, ANSWER_BUFFER + turn % 2)
}

/// What the reference gives for a step, if the product gives and does the same.
fn step(lane: &mut Words, input: &[u8], at: usize, room: usize) -> Result<Stepped, String> {
    let before = *lane;
    let mut out = lent(room);
    let step = host::step(lane, input, at, within(&mut out));
    let mut expected = FastLane(words::lane(&before));
    let wanted = program::step(&mut expected, input, at, room);
    compared(&step, &wanted, room, out)?;
    // A refused block is answered by its number, and a show changes nothing.
    let told = |answer: &[u8]| wanted.answer.starts_with(answer);
    let kept = wanted.stop || told(b"no=") || told(b"ok=show");
    require(!kept || *lane == before, "a word is changed")?;
    let same = settled(&words::lane(lane)) == settled(&expected.0);
    require(same, "another lane")?;
    Ok(wanted)
}

/// The same is returned, and the answer and nothing else is written.
fn compared(step: &Step, wanted: &Stepped, room: usize, mut out: Vec<u8>) -> Result<(), String> {
    let length = wanted.answer.len();
    let as_wanted = Step {
        next: wanted.next,
        written: length,
        no: wanted.no,
        stop: wanted.stop,
    };
    let mut expected = lent(room);
    within(&mut expected)[..length].copy_from_slice(&wanted.answer);
    if *step == as_wanted && out == expected {
        return Ok(());
    }
    let written = &within(&mut out)[..step.written.min(room)];
    let (answer, got) = (wanted.answer.escape_ascii(), written.escape_ascii());
    Err(format!(
        "room {room}\nwanted {as_wanted:?} {answer}\ngot {step:?} {got}"
    ))
}

fn require(condition: bool, otherwise: &str) -> Result<(), String> {
    condition.then_some(()).ok_or_else(|| otherwise.to_string())
}
