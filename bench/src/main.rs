//! What each call costs in the library and in the reference's fast form, on
//! the same random sound lanes in one run. Both change a lane in place, and
//! no caller copies one.

mod agreement;
mod call;
mod instructions;
mod library;
mod lookup;
mod reference;
mod sample;
mod stack;
mod table;
mod throughput;
mod timing;

use sample::all_samples;
use std::process::ExitCode;
use std::{env, io};

const USAGE: &str = "usage: bench/run [--programs PROGRAM..]";

fn main() -> ExitCode {
    let flags: Vec<String> = env::args().skip(1).collect();
    let flags: Vec<&str> = flags.iter().map(String::as_str).collect();
    match run(&flags) {
        Ok(()) => ExitCode::SUCCESS,
        Err(fault) => {
            eprintln!("{fault}");
            ExitCode::FAILURE
        }
    }
}

fn run(flags: &[&str]) -> io::Result<()> {
    match flags {
        [] => print_all()?,
        [instructions::COUNTED] => instructions::run_all(),
        ["--programs", programs @ ..] => throughput::print(programs)?,
        _ => return Err(io::Error::other(USAGE)),
    }
    Ok(())
}

fn print_all() -> io::Result<()> {
    let mut samples = all_samples();
    for sample in samples.iter_mut().flatten() {
        agreement::check(sample);
        agreement::check_lookups(sample);
    }
    let instructions = instructions::costs()?;
    table::print_costs(&instructions.calls, &timing::costs());
    println!("\nWhat a further carrier adds, in instructions:\n");
    table::print_growth(&instructions.calls);
    println!("\nThe most that a call takes of the stack:\n");
    table::print_stack(&stack::costs());
    println!("\nWhat a lookup takes, by two reads that look at more and fewer records, in instructions:\n");
    lookup::print(&instructions.reads);
    Ok(())
}
