//! A host that can be replaced while its lane runs, as that in C: it runs call
//! texts block by block; once its input has ended it hands the lane over by a
//! file, and the next host takes it over and goes on.
//!
//! Usage: rust-relay [--take-over FILE] [--hand-over FILE] < CALL_TEXTS

use rondavitse::Lane;
use std::error::Error;
use std::fs;
use std::io::{self, Read, Write};

const USAGE: &str = "usage: rust-relay [--take-over FILE] [--hand-over FILE] < CALL_TEXTS";

/// None where it begins with an empty lane, and where the lane ends with it.
#[derive(Default)]
struct Files {
    taken_over: Option<String>,
    handed_over: Option<String>,
}

impl Files {
    fn named(mut arguments: impl Iterator<Item = String>) -> Result<Files, &'static str> {
        let mut files = Files::default();
        while let Some(option) = arguments.next() {
            let file = arguments.next().ok_or(USAGE)?;
            match option.as_str() {
                "--take-over" => files.taken_over = Some(file),
                "--hand-over" => files.handed_over = Some(file),
                _ => return Err(USAGE),
            }
        }
        Ok(files)
    }
}

/// The answers are out when this returns, so that those of the next host come
/// after them.
fn run(lane: &mut Lane, input: &[u8]) -> Result<(), Box<dyn Error>> {
    let mut output = io::stdout().lock();
    let mut at = 0;
    loop {
        let step = lane.step(input, at)?;
        output.write_all(step.answer.as_bytes())?;
        if step.stop {
            return Ok(output.flush()?);
        }
        at = step.next;
    }
}

fn main() -> Result<(), Box<dyn Error>> {
    let files = Files::named(std::env::args().skip(1))?;
    let mut lane = match files.taken_over {
        Some(path) => Lane::take_over(&fs::read(path)?)?,
        None => Lane::empty(),
    };
    let mut input = Vec::new();
    io::stdin().read_to_end(&mut input)?;
    run(&mut lane, &input)?;
    if let Some(path) = files.handed_over {
        // What is refused leaves the file as it was.
        fs::write(path, lane.handover()?)?;
    }
    Ok(())
}
