//! The reference's answers, in the shape of the product's.

use super::host_call::{gap, HostCall};
use super::outcome::{lent, lent_handover, lent_table, within, Outcome};
use lane_reference::{Answer, Call, Cycled, FastLane, Gap, Lane, Newcomer, Refusal, Supervisor};

pub fn outcome(lane: &Lane, call: &HostCall) -> Outcome {
    match call {
        HostCall::Plain(Call::LaneText { room }) => lane_text(lane, *room),
        HostCall::Plain(Call::Handover { room }) => handover(lane, *room),
        HostCall::Plain(call @ Call::Load { text }) => {
            answered(lane, call).with_lent(lent_table(text))
        }
        HostCall::TakeOver { text } => take_over(lane, text),
        HostCall::Plain(call) => answered(lane, call),
        HostCall::Cycle {
            count,
            sorts,
            values,
        } => cycle(lane, *count, sorts, values),
        HostCall::FindOpening {
            head,
            number,
            newcomer,
        } => find_opening(lane, gap(*head, *number), *newcomer),
    }
}

fn answered(lane: &Lane, call: &Call) -> Outcome {
    let mut after = FastLane(*lane);
    match after.call(call) {
        Ok(answer) => Outcome::new(0, &values(&answer), &after.0),
        Err(refusal) => Outcome::new(refusal.number(), no_values(call), &after.0),
    }
}

fn values(answer: &Answer) -> Vec<u64> {
    match answer {
        Answer::Started | Answer::Left | Answer::SurfaceChanged | Answer::Loaded => vec![],
        Answer::Entered(place) => vec![*place as u64],
        Answer::Read(reading) => vec![reading.position.to_bits(), reading.speed.to_bits()],
        Answer::Cycled(_) => unreachable!("a host's cycle is no plain call"),
        Answer::OpeningFound(_) => unreachable!("nor is a host's question"),
        Answer::LaneText(_) | Answer::HandoverText(_) => {
            unreachable!("texts go into a lent buffer")
        }
    }
}

/// The values of a refusal, all of them zero.
fn no_values(call: &Call) -> &'static [u64] {
    match call {
        Call::Start { .. } | Call::Leave { .. } | Call::Surface { .. } | Call::Load { .. } => &[],
        Call::Enter { .. } | Call::LaneText { .. } | Call::Handover { .. } => &[0],
        Call::Read { .. } => &[0; 2],
        Call::Cycle { .. } | Call::FindOpening { .. } => &[0; 3],
    }
}

/// Both positions are 0 where there is no opening.
fn find_opening(lane: &Lane, gap: Gap, newcomer: Newcomer) -> Outcome {
    let found = FastLane(*lane).find_opening(gap, newcomer);
    let no = found.err().map_or(0, Refusal::number);
    let values = found
        .ok()
        .flatten()
        .map_or([0; 3], |opening| [1, opening.lowest, opening.highest]);
    Outcome::new(no, &values, lane)
}

fn lane_text(lane: &Lane, room: usize) -> Outcome {
    let mut lent = lent(room);
    let listed = FastLane(*lane).lane_text(within(&mut lent));
    let no = listed.err().map_or(0, Refusal::number);
    Outcome::new(no, &[listed.unwrap_or(0) as u64], lane).with_lent(lent)
}

fn handover(lane: &Lane, room: usize) -> Outcome {
    let mut lent = lent(room);
    let listed = FastLane(*lane).handover(within(&mut lent));
    let no = listed.err().map_or(0, Refusal::number);
    Outcome::new(no, &[listed.unwrap_or(0) as u64], lane).with_lent(lent)
}

fn take_over(lane: &Lane, text: &[u8]) -> Outcome {
    let mut after = FastLane(*lane);
    let no = after.take_over(text).map_or_else(Refusal::number, |()| 0);
    Outcome::new(no, &[], &after.0).with_lent(lent_handover(text))
}

fn cycle(lane: &Lane, count: u64, sorts: &[u8], values: &[u32]) -> Outcome {
    let mut after = FastLane(*lane);
    let cycled = after.cycle_given(count, sorts, values);
    let no = cycled.err().map_or(0, Refusal::number);
    let Cycled {
        word,
        replaced,
        gone,
    } = cycled.unwrap_or_default();
    Outcome::new(no, &[word, replaced.into(), gone.into()], &after.0)
}
