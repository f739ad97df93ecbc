//! What a lookup of a number takes. Neither side has a call for it alone, so it
//! is told by the difference of two reads on the same lanes.

use crate::sample::{Sample, CARRIERS};
use crate::table::Sides;

/// What a read asks for.
#[derive(Clone, Copy)]
pub enum Asked {
    /// Number 0, which is refused right before the lookup.
    Zero,
    /// A number in no record, idle ones included: a lookup that goes on past the
    /// last carrier present would show.
    Absent,
    /// The number of the foremost carrier.
    First,
    /// That of the rearmost.
    Last,
}

impl Asked {
    pub const ALL: [Asked; 4] = [Asked::Zero, Asked::Absent, Asked::First, Asked::Last];

    pub fn number(self, sample: &Sample) -> u64 {
        let lane = &sample.lanes.reference.0;
        let unused = |&number: &u64| lane.carriers.iter().all(|record| record.number != number);
        match self {
            Asked::Zero => 0,
            Asked::Absent => (1..).find(unused).expect("more numbers than records"),
            Asked::First => lane.carriers[0].number,
            Asked::Last => lane.carriers[lane.present().len() - 1].number,
        }
    }

    /// The refusal that the read must get; 0 if it is accepted.
    pub fn refusal(self) -> u32 {
        match self {
            Asked::Zero => 4,
            Asked::Absent => 24,
            Asked::First | Asked::Last => 0,
        }
    }
}

/// Of reads for each number of carriers, in the order of [`Asked::ALL`].
pub fn print(reads: &[Sides]) {
    println!(
        "| read | carriers | library | reference | ratio | library, a record | reference, a record |"
    );
    println!("|---|---:|---:|---:|---:|---:|---:|");
    let rows = CARRIERS.into_iter().zip(reads.chunks(Asked::ALL.len()));
    for (carriers, reads) in rows.clone() {
        let cost = difference(reads, Asked::Absent, Asked::Zero);
        print_row("absent less 0", carriers, carriers, cost);
    }
    // A single carrier is both the first and the last.
    for (carriers, reads) in rows.filter(|&(carriers, _)| carriers > 1) {
        let cost = difference(reads, Asked::Last, Asked::First);
        print_row("last less first", carriers, carriers - 1, cost);
    }
}

fn difference(reads: &[Sides], more: Asked, less: Asked) -> Sides {
    reads[more as usize].less(reads[less as usize])
}

/// `records` is how many more are looked at.
fn print_row(name: &str, carriers: usize, records: usize, cost: Sides) {
    let [library, reference] = [cost.library, cost.reference].map(|cost| cost / records as f64);
    let cells = cost.cells();
    println!("| {name} | {carriers} | {cells} | {library:.1} | {reference:.1} |");
}
