//! The bytes of input that a program takes in a second, its start and end
//! included.

use std::io::{self, Write};
use std::process::{Command, Stdio};
use std::time::Instant;

const RUNS: usize = 101;

/// The most that the program reads.
const MOST_BYTES: usize = 65_536;

/// A full lane that stands, each front right behind a tail, with all sorts of own
/// rates, and as many cycles as go in.
fn input() -> Vec<u8> {
    let mut text = String::from("call=start\nsurface=0\nend=1000000\nlimit=1000\ncycle=0\n");
    for car in 1..=64 {
        let (at, rate) = (100_000 - 1_000 * car, 4 * car - 1);
        text += &format!("call=enter\ncar={car}\nat={at}\nspeed=0\nlength=999\nbrake={rate}\n");
    }
    let cycle = format!("call=cycle\ncars=64\n{}", "want=hold\n".repeat(64));
    while text.len() + cycle.len() <= MOST_BYTES {
        text += &cycle;
    }
    text.into_bytes()
}

fn seconds(program: &str, input: &[u8]) -> io::Result<f64> {
    let start = Instant::now();
    let mut child = Command::new(program)
        .stdin(Stdio::piped())
        .stdout(Stdio::null())
        .spawn()?;
    child.stdin.take().expect("a pipe").write_all(input)?;
    child.wait()?;
    Ok(start.elapsed().as_secs_f64())
}

/// The programs take turns, so that whatever else the machine does falls on all.
pub fn print(programs: &[&str]) -> io::Result<()> {
    let input = input();
    let mut times = vec![Vec::new(); programs.len()];
    for _ in 0..RUNS {
        for (program, times) in programs.iter().zip(&mut times) {
            times.push(seconds(program, &input)?);
        }
    }
    for (program, times) in programs.iter().zip(times) {
        let median = crate::timing::median(times);
        println!("{program}: {:.1} MB/s", input.len() as f64 / median / 1e6);
    }
    Ok(())
}
