//! Random calls through the product and through the reference: they must answer alike.

#[cfg(feature = "library")]
mod library;
mod options;
mod process;
mod regressions;
mod tally;
mod texts;

use lane_reference::random::Random;
use options::Options;
use std::process::ExitCode;
use std::time::{Duration, Instant};
use tally::Tally;

fn main() -> ExitCode {
    let options = match Options::parse(std::env::args().skip(1)) {
        Ok(options) => options,
        Err(fault) => {
            eprintln!("{fault}\n{}", options::USAGE);
            return ExitCode::FAILURE;
        }
    };
    println!("seed {}", options.seed);
    let mut tally = Tally::default();
    replay(&options, &mut tally);
    explore(&options, &mut tally);
    println!("{tally}");
    if tally.differences == 0 {
        ExitCode::SUCCESS
    } else {
        ExitCode::FAILURE
    }
}

/// What once differed comes first.
fn replay(options: &Options, tally: &mut Tally) {
    for input in regressions::inputs() {
        if let Some(program) = &options.program {
            texts::check(program, &input, tally);
        }
        #[cfg(feature = "library")]
        library::check_text(&input, tally);
    }
    #[cfg(feature = "library")]
    library::replay(tally);
}

/// The time is shared out evenly among the parts that there are.
fn explore(options: &Options, tally: &mut Tally) {
    let parts = u32::from(options.program.is_some()) + u32::from(cfg!(feature = "library"));
    let share = Duration::from_secs(options.seconds) / parts.max(1);
    let mut random = Random::new(options.seed);
    if let Some(program) = &options.program {
        texts::explore(program, &mut random, Instant::now() + share, tally);
    }
    #[cfg(feature = "library")]
    library::explore(&mut random, Instant::now() + share, tally);
}
