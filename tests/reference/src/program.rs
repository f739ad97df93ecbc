//! The program: call texts in, answers out.

use crate::call::Answer;
use crate::lane::{Lane, Supervisor};
use crate::refusal::Refusal;
use crate::text;

/// The most bytes of input that are read.
pub const LONGEST_INPUT: usize = 65_536;

/// The least buffer of a step.
pub const ANSWER_BUFFER: usize = 4_096;

/// What a step of the library gives, and what it puts at its buffer's start.
pub struct Stepped {
    pub next: usize,
    pub answer: Vec<u8>,
    /// 0, or the number by which the step itself is refused.
    pub no: u32,
    pub stop: bool,
}

/// The whole output for the whole input.
pub fn run(input: &[u8]) -> Vec<u8> {
    run_on(Lane::default(), input)
}

/// As [`run`], on a lane of the caller's.
pub fn run_on(mut lane: impl Supervisor, input: &[u8]) -> Vec<u8> {
    if input.len() > LONGEST_INPUT {
        return refused(Refusal::InputTooLong);
    }
    let (mut output, mut at) = (Vec::new(), 0);
    loop {
        let stepped = step(&mut lane, input, at, ANSWER_BUFFER);
        output.extend(stepped.answer);
        if stepped.stop {
            return output;
        }
        at = stepped.next;
    }
}

/// The block at a place of the input, with a buffer of so many bytes for its answer.
pub fn step(lane: &mut impl Supervisor, input: &[u8], at: usize, room: usize) -> Stepped {
    let idle = |refusal: Option<Refusal>| Stepped {
        next: at,
        answer: Vec::new(),
        no: refusal.map_or(0, Refusal::number),
        stop: true,
    };
    if room < ANSWER_BUFFER {
        return idle(Some(Refusal::AnswerBufferTooShort));
    }
    let rest = input.get(at..).unwrap_or_default();
    if rest.is_empty() {
        return idle(None);
    }
    // A block is read whole before it is run.
    match text::block(rest) {
        Ok((call, after)) => Stepped {
            next: input.len() - after.len(),
            answer: lane.call(&call).map_or_else(refused, answered),
            no: 0,
            stop: false,
        },
        Err(refusal) => Stepped {
            answer: refused(refusal),
            ..idle(None)
        },
    }
}

fn refused(refusal: Refusal) -> Vec<u8> {
    format!("no={}\n", refusal.number()).into_bytes()
}

fn answered(answer: Answer) -> Vec<u8> {
    match answer {
        Answer::Started => b"ok=start\n".to_vec(),
        Answer::Entered(place) => format!("ok=enter\nplace={place}\n").into_bytes(),
        Answer::Left => b"ok=leave\n".to_vec(),
        Answer::Cycled(cycled) => format!(
            "ok=cycle\nover={:016X}\ngone={}\n",
            cycled.word, cycled.gone
        )
        .into_bytes(),
        Answer::LaneText(text) => [b"ok=show\n".as_slice(), &text].concat(),
        Answer::SurfaceChanged => b"ok=surface\n".to_vec(),
        Answer::Read(_) | Answer::OpeningFound(_) | Answer::HandoverText(_) | Answer::Loaded => {
            unreachable!("no call text reads, asks, hands over or loads")
        }
    }
}
