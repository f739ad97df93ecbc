//! Whole program inputs.

use super::breaks::{broken, garbled};
use super::histories::calls_of_texts;
use super::Random;
use crate::call::Call;
use crate::carrier::Carrier;
use crate::program::LONGEST_INPUT;
use crate::wish::Wish;

/// The call text of a call; none for a read, a question where one could enter, a
/// handover or a load, nor for a cycle whose count no text can hold.
pub fn call_text(call: &Call) -> Option<String> {
    match call {
        Call::Start { road, first } => Some(format!(
            "call=start\nsurface={}\nend={}\nlimit={}\ncycle={first}\n",
            road.surface, road.end, road.limit
        )),
        Call::Enter(carrier) => Some(format!("call=enter\n{}", carrier_lines(carrier))),
        Call::Leave { number } => Some(format!("call=leave\ncar={number}\n")),
        Call::Cycle { count, wishes } => {
            let wanted = wishes.get(..usize::try_from(*count).ok()?)?;
            let wants: String = wanted.iter().map(want_line).collect();
            Some(format!("call=cycle\ncars={count}\n{wants}"))
        }
        Call::LaneText { .. } => Some("call=show\n".to_string()),
        Call::Surface { surface } => Some(format!("call=surface\nsurface={surface}\n")),
        Call::Read { .. }
        | Call::FindOpening { .. }
        | Call::Handover { .. }
        | Call::Load { .. } => None,
    }
}

/// The lines of a carrier, in a call text as in a lane text.
pub fn carrier_lines(carrier: &Carrier) -> String {
    let Carrier {
        number,
        position,
        speed,
        length,
        rate,
    } = carrier;
    format!("car={number}\nat={position}\nspeed={speed}\nlength={length}\nbrake={rate}\n")
}

fn want_line(wish: &Wish) -> String {
    match wish {
        Wish::Units(units) => format!("want=units:{units}\n"),
        Wish::Acceleration(bits) => format!("want=accel:{bits:08X}\n"),
        Wish::TargetSpeed(bits) => format!("want=speed:{bits:08X}\n"),
        Wish::Hold => "want=hold\n".to_string(),
    }
}

/// A well-formed input of a random history, with refusals in it.
pub fn program(random: &mut Random) -> Vec<u8> {
    let length = random.pick(&[1, 4, 12, 40, 120]);
    let mut text = String::new();
    for call in calls_of_texts(random, length) {
        let block = call_text(&call).unwrap_or_else(|| "call=show\n".to_string());
        if text.len() + block.len() <= LONGEST_INPUT {
            text.push_str(&block);
        }
    }
    text.into_bytes()
}

/// A well-formed input of exactly the most bytes that are read.
pub fn longest_program() -> Vec<u8> {
    let leaves = "call=leave\ncar=1\n".repeat(8);
    let shows = "call=show\n".repeat((LONGEST_INPUT - leaves.len()) / 10);
    [leaves, shows].concat().into_bytes()
}

/// An input of more bytes than are read, by one or by many.
pub fn oversize_program(random: &mut Random) -> Vec<u8> {
    let surplus = random.pick(&["\n", "call=show\n", "call=leave\ncar=1\n"]);
    let times = random.pick(&[1, 2, 1_000]);
    [longest_program(), surplus.repeat(times).into_bytes()].concat()
}

/// An input broken in one way for which the program must end with refusal 8.
pub fn malformed_program(random: &mut Random) -> Vec<u8> {
    loop {
        let text = program(random);
        let broken = broken(random, &text).filter(|broken| broken.len() <= LONGEST_INPUT);
        if let Some(broken) = broken {
            return broken;
        }
    }
}

/// An input with a few bytes changed, added or lost; it may still be well-formed.
pub fn garbled_program(random: &mut Random) -> Vec<u8> {
    let text = program(random);
    garbled(random, text)
}
