//! What a handover and a reading say of each other, by making both.

use super::binding::Words;
use super::host;
use super::host_call::HostCall;
use super::outcome::{within, Outcome};
use lane_reference::lane::LONGEST_HANDOVER;
use lane_reference::Call;

/// What is wrong with a text that the product wrote, by its own reading, or with a
/// lane that it took over, by its own handover. `after` is the lane after the call.
pub fn tried(call: &HostCall, outcome: &Outcome, after: &Words) -> Result<(), String> {
    match call {
        _ if outcome.no != 0 => Ok(()),
        HostCall::Plain(Call::Handover { .. }) => taken_over(&written(outcome), outcome),
        HostCall::TakeOver { text } => written_again(after, text),
        _ => Ok(()),
    }
}

/// What stands in the buffer of an accepted handover.
fn written(outcome: &Outcome) -> Vec<u8> {
    let mut lent = outcome.lent.clone();
    within(&mut lent)[..outcome.values[0] as usize].to_vec()
}

/// The text is taken over, whatever was there, and the lane then is the one written.
fn taken_over(text: &[u8], outcome: &Outcome) -> Result<(), String> {
    let text = text.to_vec();
    let mut other = [[u64::MAX; 8]; 89];
    let taken = host::outcome(&mut other, &HostCall::TakeOver { text });
    if taken.no == 0 && taken.lane == outcome.lane {
        Ok(())
    } else {
        Err(format!("read back it is {taken:?}"))
    }
}

/// In a buffer of its length, and in the longest one, the text is written again.
fn written_again(lane: &Words, text: &[u8]) -> Result<(), String> {
    for room in [text.len(), LONGEST_HANDOVER] {
        let handover = HostCall::Plain(Call::Handover { room });
        let outcome = host::outcome(&mut lane.clone(), &handover);
        if outcome.no != 0 || written(&outcome) != text {
            let got = written(&outcome).escape_ascii().to_string();
            return Err(format!("written again it is {} {got}", outcome.no));
        }
    }
    Ok(())
}
