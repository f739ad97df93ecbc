//! What is compared by cost must do the same.

use crate::call::Call;
use crate::lookup::Asked;
use crate::sample::{carrier, road, rows, Sample};
use crate::{library, reference};
use lane_reference::Refusal;

/// Panics unless both sides accept every call, answer it alike and leave the
/// same lane.
pub fn check(sample: &mut Sample) {
    for call in Call::ALL {
        sample.restore(call);
        sample.text.fill(0);
        let ours = (by_library(call, sample), sample.text);
        sample.text.fill(0);
        let values = by_reference(call, sample).expect("an accepted call");
        assert_eq!(ours, ((0, values), sample.text), "{}", call.name());
        lanes_agree(call, sample);
    }
}

/// Panics unless both sides answer the reads that tell of lookups as they must.
pub fn check_lookups(sample: &mut Sample) {
    sample.restore(Call::Read);
    for asked in Asked::ALL {
        sample.asked = asked.number(sample);
        let expected = match by_reference(Call::Read, sample) {
            Ok(values) => (0, values),
            Err(refusal) => (refusal.number(), vec![0; 2]),
        };
        assert_eq!(expected.0, asked.refusal());
        assert_eq!(by_library(Call::Read, sample), expected);
    }
}

/// The number and the values of an answer, doubles by their bits.
fn by_library(call: Call, sample: &mut Sample) -> (u32, Vec<u64>) {
    match call {
        Call::Start => (library::start(sample), vec![]),
        Call::Enter => {
            let answer = library::enter(sample);
            (answer.no, vec![answer.place as u64])
        }
        Call::Leave => (library::leave(sample), vec![]),
        Call::Cycle => {
            let answer = library::cycle(sample);
            let counts = [answer.replaced, answer.gone].map(u64::from);
            (answer.no, vec![answer.word, counts[0], counts[1]])
        }
        Call::Read => {
            let answer = library::read(sample);
            let figures = [answer.reading.position, answer.reading.speed];
            (answer.no, figures.map(f64::to_bits).to_vec())
        }
        Call::Opening => {
            let answer = library::opening(sample);
            let values = [answer.exists.into(), answer.lowest, answer.highest];
            (answer.no, values.to_vec())
        }
        Call::LaneText => {
            let answer = library::lane_text(sample);
            (answer.no, vec![answer.length as u64])
        }
        Call::Handover => {
            let answer = library::handover(sample);
            (answer.no, vec![answer.length as u64])
        }
        Call::TakeOver => (library::take_over(sample), vec![]),
        Call::Surface => (library::surface(sample), vec![]),
        Call::Load => (library::load(sample), vec![]),
    }
}

fn by_reference(call: Call, sample: &mut Sample) -> Result<Vec<u64>, Refusal> {
    Ok(match call {
        Call::Start => reference::start(sample).map(|()| vec![])?,
        Call::Enter => vec![reference::enter(sample)? as u64],
        Call::Leave => reference::leave(sample).map(|()| vec![])?,
        Call::Cycle => {
            let cycled = reference::cycle(sample)?;
            vec![cycled.word, cycled.replaced.into(), cycled.gone.into()]
        }
        Call::Read => {
            let reading = reference::read(sample)?;
            [reading.position, reading.speed].map(f64::to_bits).to_vec()
        }
        Call::Opening => {
            let opening = reference::opening(sample)?.expect("a question with an opening");
            vec![1, opening.lowest, opening.highest]
        }
        Call::LaneText => vec![reference::lane_text(sample)? as u64],
        Call::Handover => vec![reference::handover(sample)? as u64],
        Call::TakeOver => reference::take_over(sample).map(|()| vec![])?,
        Call::Surface => reference::surface(sample).map(|()| vec![])?,
        Call::Load => reference::load(sample).map(|()| vec![])?,
    })
}

fn lanes_agree(call: Call, sample: &Sample) {
    let (ours, theirs) = (&sample.lanes.library, &sample.lanes.reference.0);
    let head = (ours.started, ours.road, ours.cycle, ours.count);
    let road = road(theirs.road);
    let expected = (theirs.started.into(), road, theirs.cycle, theirs.count);
    assert_eq!(head, expected, "{}", call.name());
    let tables = (ours.rows, ours.next_rows);
    let expected = [theirs.tables.in_force, theirs.tables.for_next_start].map(rows);
    assert_eq!(tables, expected.into(), "{}", call.name());
    for (record, &expected) in ours.records.iter().zip(theirs.present()) {
        assert_eq!(record.carrier, carrier(expected), "{}", call.name());
    }
}
