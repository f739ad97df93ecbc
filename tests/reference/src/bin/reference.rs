//! Call texts on standard input, answers on standard output.

use lane_reference::program::{run, LONGEST_INPUT};
use std::io::{self, Read, Write};

fn main() -> io::Result<()> {
    let mut input = Vec::new();
    // One byte above the most is enough to know that the input is too long.
    let most = LONGEST_INPUT as u64 + 1;
    io::stdin().take(most).read_to_end(&mut input)?;
    io::stdout().write_all(&run(&input))
}
