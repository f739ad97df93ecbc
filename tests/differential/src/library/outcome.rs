//! What a call gives, of whichever implementation.

use lane_reference::{Carrier, Lane};

/// Bytes on both sides of a lent buffer, which nobody may write to.
const GUARD: usize = 16;

#[derive(Clone, Debug, PartialEq, Eq)]
pub struct Outcome {
    /// 0, or the number of the refusal.
    pub no: u32,
    /// Every value of the answer, doubles by their bits.
    pub values: Vec<u64>,
    /// The lent buffer between its guards.
    pub lent: Vec<u8>,
    /// What counts of the lane after the call.
    pub lane: Lane,
}

impl Outcome {
    pub fn new(no: u32, values: &[u64], lane: &Lane) -> Outcome {
        Outcome {
            no,
            values: values.to_vec(),
            lent: Vec::new(),
            lane: settled(lane),
        }
    }

    /// With what a lent buffer holds after the call.
    pub fn with_lent(self, lent: Vec<u8>) -> Outcome {
        Outcome { lent, ..self }
    }
}

/// The lane without what its idle records hold.
pub fn settled(lane: &Lane) -> Lane {
    let mut settled = *lane;
    settled.carriers[lane.present().len()..].fill(Carrier::default());
    settled
}

/// A buffer of `room` bytes between guards, all of them told apart by place.
pub fn lent(room: usize) -> Vec<u8> {
    (0..room + 2 * GUARD).map(|place| !(place as u8)).collect()
}

/// A table text between guards. What lies behind its end would go on with it:
/// nobody may look there.
pub fn lent_table(text: &[u8]) -> Vec<u8> {
    lent_text(text, &ROW[lines(text) % ROW.len()..])
}

/// A handover text between guards, as [`lent_table`].
pub fn lent_handover(text: &[u8]) -> Vec<u8> {
    let rest = match lines(text) {
        read @ 0..TABLES => &ROW[read % ROW.len()..],
        read @ TABLES..HEAD_END => &HEAD[read - TABLES..],
        read => &CARRIER[(read - HEAD_END) % CARRIER.len()..],
    };
    lent_text(text, rest)
}

/// Lines of a row, of what follows the rows in a handover text, and of a carrier.
const ROW: [&str; 3] = ["b=1\n", "B=1\n", "A=1\n"];
const HEAD: [&str; 5] = [
    "surface=0\n",
    "end=1\n",
    "limit=1\n",
    "cycle=0\n",
    "cars=0\n",
];
const CARRIER: [&str; 5] = ["car=1\n", "at=0\n", "speed=0\n", "length=0\n", "brake=1\n"];

/// How many lines of a handover text are of rows, and how many come before carriers.
const TABLES: usize = 48;
const HEAD_END: usize = TABLES + HEAD.len();

fn lines(text: &[u8]) -> usize {
    text.iter().filter(|&&byte| byte == b'\n').count()
}

/// A text between guards, with as much of lines that would go on with it as there is
/// room; an unfinished line goes on to its newline.
fn lent_text(text: &[u8], going_on: &[&str]) -> Vec<u8> {
    let finished = text.is_empty() || text.ends_with(b"\n");
    let rest = if finished {
        going_on.concat()
    } else {
        "\n".to_string()
    };
    let mut lent = lent(text.len());
    let behind = &mut lent[GUARD..];
    behind[..text.len()].copy_from_slice(text);
    for (byte, &on) in behind[text.len()..].iter_mut().zip(rest.as_bytes()) {
        *byte = on;
    }
    lent
}

/// The buffer itself.
pub fn within(lent: &mut [u8]) -> &mut [u8] {
    let end = lent.len() - GUARD;
    &mut lent[GUARD..end]
}
