//! The command line.

use std::path::PathBuf;
use std::str::FromStr;
use std::time::{SystemTime, UNIX_EPOCH};

pub const USAGE: &str = "usage: differential [--program PATH] [--seconds N] [--seed S]
Without --program only the library is tested, for which the feature `library` must be on.";

pub struct Options {
    /// The product's program; none where only the library is tested.
    pub program: Option<PathBuf>,
    pub seconds: u64,
    pub seed: u64,
}

impl Options {
    pub fn parse(mut arguments: impl Iterator<Item = String>) -> Result<Options, String> {
        let mut options = Options {
            program: None,
            seconds: 20,
            seed: clock_seed(),
        };
        while let Some(name) = arguments.next() {
            let value = arguments
                .next()
                .ok_or_else(|| format!("{name} has no value"))?;
            match name.as_str() {
                "--program" => options.program = Some(PathBuf::from(value)),
                "--seconds" => options.seconds = number(&name, &value)?,
                "--seed" => options.seed = number(&name, &value)?,
                _ => return Err(format!("{name} is not known")),
            }
        }
        if options.program.is_none() && !cfg!(feature = "library") {
            return Err("there is nothing to test".to_string());
        }
        Ok(options)
    }
}

fn number<T: FromStr>(name: &str, value: &str) -> Result<T, String> {
    value
        .parse()
        .map_err(|_| format!("{name} has a value that is no number: {value}"))
}

/// A seed of its own for each run; it is printed, so that a run can be repeated.
fn clock_seed() -> u64 {
    SystemTime::now()
        .duration_since(UNIX_EPOCH)
        .map_or(0, |since| since.as_nanos() as u64)
}
