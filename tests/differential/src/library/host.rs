//! The product's answers. Each call changes the lane in place.

use super::binding::*;
use super::host_call::HostCall;
use super::outcome::{lent, lent_handover, lent_table, within, Outcome};
use super::words;
use lane_reference::Call;

/// One step of the program.
#[derive(Debug, PartialEq, Eq)]
pub struct Step {
    pub next: usize,
    pub written: usize,
    pub no: u32,
    pub stop: bool,
}

/// Whether the library has the interface that the binding is for.
pub fn is_bound() -> bool {
    unsafe { rondavitse_version() == VERSION }
}

/// The empty lane, whatever was there before.
pub fn empty() -> Words {
    let mut lane = [[u64::MAX; 8]; 89];
    unsafe { rondavitse_empty(&mut lane) };
    lane
}

pub fn outcome(lane: &mut Words, call: &HostCall) -> Outcome {
    match call {
        HostCall::Plain(Call::LaneText { room }) => lane_text(lane, *room),
        HostCall::Plain(Call::Handover { room }) => handover(lane, *room),
        HostCall::Plain(Call::Load { text }) => load(lane, text),
        HostCall::TakeOver { text } => take_over(lane, text),
        HostCall::Plain(call) => {
            let (no, values) = plain(lane, call);
            Outcome::new(no, &values, &words::lane(lane))
        }
        HostCall::Cycle {
            count,
            sorts,
            values,
        } => cycle(lane, *count as usize, sorts, values),
        HostCall::FindOpening {
            head,
            number,
            newcomer,
        } => find_opening(lane, *head, *number, *newcomer),
    }
}

/// The number and the values of a call that is lent nothing but the lane.
fn plain(lane: &mut Words, call: &Call) -> (u32, Vec<u64>) {
    match *call {
        Call::Start { road, first } => {
            let road = Road {
                surface: road.surface,
                end: road.end,
                limit: road.limit,
            };
            (unsafe { rondavitse_start(lane, road, first) }, vec![])
        }
        Call::Enter(carrier) => {
            let carrier = Carrier {
                number: carrier.number,
                position: carrier.position,
                speed: carrier.speed,
                length: carrier.length,
                rate: carrier.rate,
            };
            let entered = unsafe { rondavitse_enter(lane, carrier) };
            (entered.no, vec![entered.place as u64])
        }
        Call::Leave { number } => (unsafe { rondavitse_leave(lane, number) }, vec![]),
        Call::Read { number } => {
            let ReadOut { no, reading } = unsafe { rondavitse_read(lane, number) };
            (
                no,
                vec![reading.position.to_bits(), reading.speed.to_bits()],
            )
        }
        Call::Surface { surface } => (unsafe { rondavitse_surface(lane, surface) }, vec![]),
        Call::LaneText { .. } | Call::Handover { .. } | Call::Load { .. } => {
            unreachable!("these are lent a buffer")
        }
        Call::Cycle { .. } => unreachable!("a host's cycle is no plain call"),
        Call::FindOpening { .. } => unreachable!("nor is a host's question"),
    }
}

fn cycle(lane: &mut Words, count: usize, sorts: &[u8], values: &[u32]) -> Outcome {
    let (s, v) = (sorts.as_ptr(), values.as_ptr());
    let cycled = unsafe { rondavitse_cycle(lane, count, s, sorts.len(), v, values.len()) };
    let (replaced, gone) = (cycled.replaced.into(), cycled.gone.into());
    let values = [cycled.word, replaced, gone];
    Outcome::new(cycled.no, &values, &words::lane(lane))
}

fn find_opening(
    lane: &Words,
    head: u64,
    number: u64,
    newcomer: lane_reference::Newcomer,
) -> Outcome {
    let newcomer = Newcomer {
        speed: newcomer.speed,
        length: newcomer.length,
        rate: newcomer.rate,
    };
    let opening = unsafe { rondavitse_find_opening(lane, head, number, newcomer) };
    let exists = bool::from(opening.exists).into();
    let values = [exists, opening.lowest, opening.highest];
    Outcome::new(opening.no, &values, &words::lane(lane))
}

fn lane_text(lane: &Words, room: usize) -> Outcome {
    let mut lent = lent(room);
    let buffer = within(&mut lent);
    let Listed { no, length } =
        unsafe { rondavitse_lane_text(lane, buffer.as_mut_ptr(), buffer.len()) };
    Outcome::new(no, &[length as u64], &words::lane(lane)).with_lent(lent)
}

fn load(lane: &mut Words, text: &[u8]) -> Outcome {
    let mut lent = lent_table(text);
    let text = within(&mut lent);
    let no = unsafe { rondavitse_load(lane, text.as_ptr(), text.len()) };
    Outcome::new(no, &[], &words::lane(lane)).with_lent(lent)
}

fn handover(lane: &Words, room: usize) -> Outcome {
    let mut lent = lent(room);
    let buffer = within(&mut lent);
    let Listed { no, length } =
        unsafe { rondavitse_handover(lane, buffer.as_mut_ptr(), buffer.len()) };
    Outcome::new(no, &[length as u64], &words::lane(lane)).with_lent(lent)
}

fn take_over(lane: &mut Words, text: &[u8]) -> Outcome {
    let mut lent = lent_handover(text);
    let text = within(&mut lent);
    let no = unsafe { rondavitse_take_over(lane, text.as_ptr(), text.len()) };
    Outcome::new(no, &[], &words::lane(lane)).with_lent(lent)
}

/// One block of `input`, from `at` on; its answer goes into `out`.
pub fn step(lane: &mut Words, input: &[u8], at: usize, out: &mut [u8]) -> Step {
    let (i, o) = (input.as_ptr(), out.as_mut_ptr());
    let stepped = unsafe { rondavitse_step(lane, i, input.len(), at, o, out.len()) };
    Step {
        next: stepped.next,
        written: stepped.written,
        no: stepped.no,
        stop: stepped.stop.into(),
    }
}
