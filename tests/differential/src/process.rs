//! One run of the product's program.

use std::io::{self, Read, Write};
use std::path::Path;
use std::process::{Child, Command, Stdio};
use std::sync::mpsc;
use std::thread;
use std::time::Duration;

/// A run that takes longer counts as hanging.
const LONGEST_RUN: Duration = Duration::from_secs(20);

/// What the program prints for `input`; a fault if it hangs or ends by a signal.
pub fn run(program: &Path, input: &[u8]) -> Result<Vec<u8>, String> {
    let mut child = Command::new(program)
        .stdin(Stdio::piped())
        .stdout(Stdio::piped())
        .spawn()
        .map_err(|fault| format!("{}: {fault}", program.display()))?;
    let answer = talk(&mut child, input.to_vec());
    if answer.is_err() {
        // It may have ended by itself meanwhile.
        let _ = child.kill();
    }
    let status = child.wait().map_err(|fault| fault.to_string())?;
    let output = answer?;
    match status.code() {
        Some(_) => Ok(output),
        None => Err(format!("ended by a signal: {status}")),
    }
}

/// Writes and reads at the same time: neither pipe holds a long text.
fn talk(child: &mut Child, input: Vec<u8>) -> Result<Vec<u8>, String> {
    let mut to_program = child.stdin.take().expect("a pipe");
    let mut from_program = child.stdout.take().expect("a pipe");
    // The program need not read on once it knows its answer.
    thread::spawn(move || to_program.write_all(&input));
    let (sender, receiver) = mpsc::channel();
    thread::spawn(move || {
        let mut output = Vec::new();
        let read: io::Result<usize> = from_program.read_to_end(&mut output);
        sender.send(read.map(|_| output))
    });
    match receiver.recv_timeout(LONGEST_RUN) {
        Ok(read) => read.map_err(|fault| fault.to_string()),
        Err(_) => Err(format!("no end within {LONGEST_RUN:?}")),
    }
}
