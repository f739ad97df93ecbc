//! By text: whole inputs through the program.

use crate::process;
use crate::regressions;
use crate::tally::Tally;
use lane_reference::program::{run, run_on, LONGEST_INPUT};
use lane_reference::random::{
    garbled_program, longest_program, malformed_program, oversize_program, program, Random,
};
use lane_reference::FastLane;
use std::path::Path;
use std::time::Instant;

/// Up to this length stopping distances are summed cycle by cycle, as the
/// paper defines them; the closed form, which is quicker, serves above it.
const SUMMED: usize = 4_096;

/// The longest input, then random ones until `end`.
pub fn explore(path: &Path, random: &mut Random, end: Instant, tally: &mut Tally) {
    check(path, &longest_program(), tally);
    while Instant::now() < end && !tally.enough() {
        check(path, &input(random), tally);
    }
}

/// Compares what the program prints for `input` with the reference.
pub fn check(path: &Path, input: &[u8], tally: &mut Tally) {
    let expected = expected(input);
    let answer = process::run(path, input);
    tally.by_text += answers(&expected);
    let (what, output) = match answer {
        Ok(output) if output == expected => return,
        Ok(output) => ("the program's output".to_string(), output),
        Err(fault) => (format!("the program: {fault}"), Vec::new()),
    };
    let file = regressions::save_input(input, &[("want", &expected), ("got", &output)]);
    tally.differs(&what, &file);
}

fn expected(input: &[u8]) -> Vec<u8> {
    if input.len() <= SUMMED {
        run(input)
    } else {
        run_on(FastLane::default(), input)
    }
}

/// Each call prints one line that begins so.
fn answers(output: &[u8]) -> u64 {
    let lines = output.split(|&byte| byte == b'\n');
    let firsts = lines.filter(|line| line.starts_with(b"ok=") || line.starts_with(b"no="));
    firsts.count() as u64
}

/// An input of any sort, mostly a long well-formed one.
pub fn input(random: &mut Random) -> Vec<u8> {
    match random.below(20) {
        0..=8 => packed(random),
        9 => [packed(random), malformed_program(random)].concat(),
        10..=13 => malformed_program(random),
        14..=18 => garbled_program(random),
        _ => oversize_program(random),
    }
}

/// As many histories as fit, one after the other.
fn packed(random: &mut Random) -> Vec<u8> {
    let mut text = program(random);
    loop {
        let next = program(random);
        if text.len() + next.len() > LONGEST_INPUT {
            return text;
        }
        text.extend(next);
    }
}
