//! Instructions, as callgrind counts them: this program runs itself under
//! valgrind, which counts within the functions of the calls alone and writes
//! a file each time that `counted` returns.

use crate::call::Call;
use crate::lookup::Asked;
use crate::sample::{all_samples, Sample, CARRIERS, SAMPLES};
use crate::table::Sides;
use crate::{library, reference};
use std::ops::Range;
use std::path::Path;
use std::process::Command;
use std::{env, fs, io};

/// The flag of the run under valgrind.
pub const COUNTED: &str = "--counted";

/// Means over the samples.
pub struct Costs {
    /// For each number of carriers and each call.
    pub calls: Vec<Sides>,
    /// For each number of carriers and each thing that a read may ask for.
    pub reads: Vec<Sides>,
}

const CALLS: usize = CARRIERS.len() * Call::ALL.len();
const READS: usize = CARRIERS.len() * Asked::ALL.len();

pub fn costs() -> io::Result<Costs> {
    let directory = env::temp_dir().join(format!("lane-bench-{}", std::process::id()));
    fs::create_dir_all(&directory)?;
    let costs = run_counted(&directory).and_then(|()| read_costs(&directory));
    fs::remove_dir_all(&directory)?;
    costs
}

fn run_counted(directory: &Path) -> io::Result<()> {
    let symbols = library::SYMBOLS.iter().chain(&reference::SYMBOLS);
    let output = Command::new("valgrind")
        .args(["--quiet", "--tool=callgrind", "--collect-atstart=no"])
        .args(symbols.map(|symbol| format!("--toggle-collect={symbol}")))
        .arg("--dump-after=counted")
        .arg(format!(
            "--callgrind-out-file={}/count",
            directory.display()
        ))
        .arg(env::current_exe()?)
        .arg(COUNTED)
        .output()?;
    if output.status.success() {
        return Ok(());
    }
    let complaint = String::from_utf8_lossy(&output.stderr).into_owned();
    Err(io::Error::other(complaint))
}

fn read_costs(directory: &Path) -> io::Result<Costs> {
    Ok(Costs {
        calls: read_runs(directory, 0..CALLS)?,
        reads: read_runs(directory, CALLS..CALLS + READS)?,
    })
}

/// The files are numbered from 1, in the order of the run.
fn read_runs(directory: &Path, runs: Range<usize>) -> io::Result<Vec<Sides>> {
    runs.map(|index| {
        Ok(Sides {
            library: mean(directory, 2 * index + 1)?,
            reference: mean(directory, 2 * index + 2)?,
        })
    })
    .collect()
}

/// The mean over the samples in one file.
fn mean(directory: &Path, file: usize) -> io::Result<f64> {
    let text = fs::read_to_string(directory.join(format!("count.{file}")))?;
    let total = text.lines().find_map(|line| line.strip_prefix("totals: "));
    total
        .and_then(|total| total.trim().parse::<f64>().ok())
        .map(|total| total / SAMPLES as f64)
        .ok_or_else(|| io::Error::other("a count without a total"))
}

/// The run under valgrind: all calls, then the reads that tell of lookups.
pub fn run_all() {
    for mut samples in all_samples() {
        for call in Call::ALL {
            count(call, &mut samples);
        }
    }
    for mut samples in all_samples() {
        for asked in Asked::ALL {
            for sample in &mut samples {
                sample.asked = asked.number(sample);
            }
            count(Call::Read, &mut samples);
        }
    }
}

fn count(call: Call, samples: &mut [Sample]) {
    samples.iter_mut().for_each(|sample| sample.restore(call));
    counted(library::run(call), samples);
    counted(reference::run(call), samples);
}

/// Under a name that valgrind can be told.
#[no_mangle]
#[inline(never)]
fn counted(run: fn(&mut Sample), samples: &mut [Sample]) {
    samples.iter_mut().for_each(run);
}
