//! The tables that are printed.

use crate::call::Call;
use crate::sample::CARRIERS;

/// What a call costs on each side.
#[derive(Clone, Copy)]
pub struct Sides {
    pub library: f64,
    pub reference: f64,
}

impl Sides {
    pub fn less(self, other: Sides) -> Sides {
        Sides {
            library: self.library - other.library,
            reference: self.reference - other.reference,
        }
    }

    pub fn cells(self) -> String {
        let ratio = self.library / self.reference;
        let (library, reference) = (grouped(self.library), grouped(self.reference));
        format!("{library} | {reference} | {ratio:.2}")
    }
}

/// A whole number with a comma before each three digits.
fn grouped(number: f64) -> String {
    let digits = format!("{number:.0}");
    let first = (digits.len() + 2) % 3 + 1;
    let (head, rest) = digits.split_at(first.min(digits.len()));
    let groups = rest.as_bytes().chunks(3).map(|group| group.escape_ascii());
    groups.fold(head.to_string(), |text, group| format!("{text},{group}"))
}

/// The cost of a call at each number of carriers, of costs in the order of
/// the runs.
fn of(costs: &[Sides], call: usize) -> Vec<Sides> {
    let costs = costs.iter().skip(call).step_by(Call::ALL.len());
    costs.copied().collect()
}

pub fn print_costs(instructions: &[Sides], times: &[Sides]) {
    println!(
        "| call | carriers | library, instructions | reference, instructions | ratio \
         | library, ns | reference, ns | ratio |"
    );
    println!("|---|---:|---:|---:|---:|---:|---:|---:|");
    for (place, call) in Call::ALL.into_iter().enumerate() {
        let costs = of(instructions, place).into_iter().zip(of(times, place));
        for (carriers, (counted, timed)) in call.carriers().iter().zip(costs) {
            let (counted, timed) = (counted.cells(), timed.cells());
            println!("| {} | {carriers} | {counted} | {timed} |", call.name());
        }
    }
}

/// How the cost grows: what a further carrier adds.
pub fn print_growth(costs: &[Sides]) {
    let steps = CARRIERS.windows(2);
    let steps: Vec<String> = steps
        .map(|step| format!("{} to {}", step[0], step[1]))
        .collect();
    let heads = ["library", "reference"].map(|side| {
        let heads: Vec<String> = steps.iter().map(|step| format!("{side}, {step}")).collect();
        heads.join(" | ")
    });
    println!("| call | {} |", heads.join(" | "));
    println!("|---|{}", "---:|".repeat(2 * steps.len()));
    for (place, call) in Call::ALL.into_iter().enumerate() {
        if call.carriers() != CARRIERS {
            continue;
        }
        let costs = of(costs, place);
        let (library, reference) = (
            added(&costs, |cost| cost.library),
            added(&costs, |cost| cost.reference),
        );
        println!("| {} | {library} | {reference} |", call.name());
    }
}

fn added(costs: &[Sides], side: fn(&Sides) -> f64) -> String {
    let steps = CARRIERS.windows(2).zip(costs.windows(2));
    let added = steps.map(|(carriers, costs)| {
        let more = (carriers[1] - carriers[0]) as f64;
        format!("{:.1}", (side(&costs[1]) - side(&costs[0])) / more)
    });
    added.collect::<Vec<_>>().join(" | ")
}

pub fn print_stack(costs: &[Sides]) {
    println!("| call | library, bytes of stack | reference, bytes of stack |");
    println!("|---|---:|---:|");
    for (call, cost) in Call::ALL.into_iter().zip(costs) {
        let (library, reference) = (grouped(cost.library), grouped(cost.reference));
        println!("| {} | {library} | {reference} |", call.name());
    }
}
