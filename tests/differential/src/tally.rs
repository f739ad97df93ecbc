//! What was tried and what was found.

use std::fmt::{self, Display, Formatter};

/// So many differences are shown; after them a run has told enough.
const ENOUGH: u64 = 10;

/// So much of a line is shown; the file has it whole.
const SHOWN: usize = 160;

#[derive(Default)]
pub struct Tally {
    /// Calls answered by the program.
    pub by_text: u64,
    /// Calls answered by the library.
    pub by_library: u64,
    pub differences: u64,
}

impl Tally {
    /// Counts a difference and shows it.
    pub fn differs(&mut self, what: &str, file: &str) {
        self.differences += 1;
        println!("DIFFERENCE, in full in {file}:");
        for line in what.lines() {
            println!("  {}", line.chars().take(SHOWN).collect::<String>());
        }
    }

    pub fn enough(&self) -> bool {
        self.differences >= ENOUGH
    }
}

impl Display for Tally {
    fn fmt(&self, f: &mut Formatter<'_>) -> fmt::Result {
        let (text, library) = (self.by_text, self.by_library);
        let (calls, differences) = (text + library, self.differences);
        write!(
            f,
            "{calls} calls ({text} by text, {library} by library), {differences} differences"
        )
    }
}
