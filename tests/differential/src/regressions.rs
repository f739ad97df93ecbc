//! The cases that once differed, kept in files and tried again at each run.

use std::fs;
use std::path::{Path, PathBuf};

fn directory() -> &'static Path {
    Path::new(concat!(env!("CARGO_MANIFEST_DIR"), "/regressions"))
}

/// The inputs of the program.
pub fn inputs() -> Vec<Vec<u8>> {
    files("in")
        .iter()
        .map(|path| fs::read(path).expect("a readable file"))
        .collect()
}

/// The files with an extension, in the order of their names.
pub fn files(extension: &str) -> Vec<PathBuf> {
    let entries = fs::read_dir(directory()).expect("the directory of regressions");
    let mut files: Vec<PathBuf> = entries
        .map(|entry| entry.expect("a readable directory").path())
        .filter(|path| path.extension().is_some_and(|found| found == extension))
        .collect();
    files.sort();
    files
}

/// Writes an input and beside it what is to be known of it, each part under
/// an extension of its own; gives the input's file.
pub fn save_input(input: &[u8], known: &[(&str, &[u8])]) -> String {
    for (extension, content) in known {
        save(input, extension, content);
    }
    save(input, "in", input)
}

/// Writes a case of the library; gives its file.
#[cfg(feature = "library")]
pub fn save_case(case: &str, what: &str) -> String {
    let comment: String = what.lines().map(|line| format!("# {line}\n")).collect();
    save(case.as_bytes(), "case", (comment + case).as_bytes())
}

/// The name comes from the case, so that none is kept twice.
fn save(case: &[u8], extension: &str, content: &[u8]) -> String {
    let path = directory().join(format!("{:016x}.{extension}", hash(case)));
    fs::write(&path, content).expect("a writable directory of regressions");
    path.display().to_string()
}

/// FNV-1a.
fn hash(bytes: &[u8]) -> u64 {
    bytes.iter().fold(0xCBF2_9CE4_8422_2325, |hash, &byte| {
        (hash ^ u64::from(byte)).wrapping_mul(0x0000_0100_0000_01B3)
    })
}
