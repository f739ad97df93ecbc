//! Demand 3, checked after every call of a history.

use super::{Breach, Drive, RoadBook};
use crate::call::{Answer, Call};
use crate::carrier::Carrier;
use crate::headway::rests_behind;
use crate::lane::{Lane, Supervisor, PLACES};
use crate::stopping::Stopping;
use crate::wish::Wish;

/// Denominators whose fractions are all looked at.
const DENOMINATORS: [i128; 4] = [1, 3, 7, 8];

/// Fractions next to a cycle's start and end.
const MARGINS: [(i128, i128); 2] = [(1, 1 << 32), ((1 << 32) - 1, 1 << 32)];

/// Follows a history, of whichever implementation, with the road book.
pub struct Checker {
    book: RoadBook,
}

impl Checker {
    /// For a history that begins with `first`, a lane without carriers.
    pub fn new(first: &Lane) -> Checker {
        Checker {
            book: RoadBook::of(first),
        }
    }

    /// For a history that begins with what a reading left.
    pub fn after_reading(text: &[u8], refused: bool, first: &Lane) -> Result<Checker, Breach> {
        let book = RoadBook::after_reading(text, refused)?;
        let checker = Checker { book };
        checker.agrees(first)?;
        Ok(checker)
    }

    /// Takes the next call, what it answered (the word counts for a cycle
    /// only) and the lane after it.
    pub fn observe<S: Stopping>(
        &mut self,
        call: &Call,
        refused: bool,
        word: u64,
        after: &Lane,
    ) -> Result<(), Breach> {
        if let (Call::Cycle { wishes, .. }, false) = (call, refused) {
            apart_throughout(&self.book.drives(wishes, word)?)?;
            self.replaced_rightly::<S>(wishes, word)?;
        }
        self.book.record(call, refused, word)?;
        self.agrees(after)
    }

    /// The lane has what the book has, and each front is below every tail ahead.
    fn agrees(&self, lane: &Lane) -> Result<(), Breach> {
        let held = RoadBook::of(lane);
        if held != self.book {
            return Err(format!(
                "the lane has {held:?}, but the book {:?}",
                self.book
            ));
        }
        let carriers = held.carriers;
        let ends = |carrier: &Carrier| {
            let front = i128::from(carrier.position);
            (front, front - i128::from(carrier.length))
        };
        in_order(carriers.iter().map(ends))
            .map_err(|place| format!("place {place} is not below a tail ahead: {carriers:?}"))
    }

    /// A bit is set exactly if the wish leads to resting level with or past the
    /// tail next ahead; with no carrier ahead, or no carrier at all, it is not set.
    fn replaced_rightly<S: Stopping>(
        &self,
        wishes: &[Wish; PLACES],
        word: u64,
    ) -> Result<(), Breach> {
        let row = self.book.row()?;
        let carriers = &self.book.carriers;
        let mut expected = 0;
        for (place, wished) in self.book.trimmed(wishes)?.into_iter().enumerate().skip(1) {
            let (leader, follower) = (carriers[place - 1], carriers[place]);
            let crossed = !rests_behind::<S>(&row, follower, wished, leader);
            expected |= u64::from(crossed) << place;
        }
        if word == expected {
            Ok(())
        } else {
            Err(format!("word {word:016X}, but {expected:016X} is right"))
        }
    }
}

/// Each front stays below the tail of every carrier ahead over the whole cycle,
/// carriers that are gone after it included. It is enough to look at
/// neighbours, and between them at the closest approach; the other fractions
/// are there to test that thought too.
fn apart_throughout(drives: &[Drive]) -> Result<(), Breach> {
    let whole = DENOMINATORS
        .iter()
        .flat_map(|&n| (0..=n).map(move |k| (k, n)));
    for (k, n) in whole.chain(MARGINS) {
        let ends = |drive: &Drive| (drive.scaled_position(k, n), drive.scaled_tail(k, n));
        in_order(drives.iter().map(ends))
            .map_err(|place| format!("place {place} touches a tail ahead at {k}/{n}"))?;
    }
    for pair in drives.windows(2) {
        let (leader, follower) = (pair[0], pair[1]);
        if let Some((k, n)) = follower.closest_approach(&leader) {
            if follower.scaled_position(k, n) >= leader.scaled_tail(k, n) {
                return Err(format!("{follower:?} touches {leader:?} at {k}/{n}"));
            }
        }
    }
    Ok(())
}

/// Of fronts and tails, from the first place on, each front must lie below all
/// tails ahead; else the first place whose front doesn't.
fn in_order(ends: impl Iterator<Item = (i128, i128)>) -> Result<(), usize> {
    let mut rearmost_tail = i128::MAX;
    for (place, (front, tail)) in ends.enumerate() {
        if front >= rearmost_tail {
            return Err(place);
        }
        rearmost_tail = rearmost_tail.min(tail);
    }
    Ok(())
}

/// Runs `calls` on `lane`, which holds no carriers, and checks each of them.
pub fn check_history<L: Supervisor>(lane: L, calls: &[Call]) -> Result<(), Breach> {
    let checker = Checker::new(lane.lane());
    check_calls(checker, lane, calls)
}

/// As [`check_history`], after a reading of `text`, whatever `lane` was before.
pub fn check_taken_over<L: Supervisor>(
    mut lane: L,
    text: &[u8],
    calls: &[Call],
) -> Result<(), Breach> {
    let refused = lane.take_over(text).is_err();
    let checker = Checker::after_reading(text, refused, lane.lane())?;
    check_calls(checker, lane, calls)
}

fn check_calls<L: Supervisor>(
    mut checker: Checker,
    mut lane: L,
    calls: &[Call],
) -> Result<(), Breach> {
    for (index, call) in calls.iter().enumerate() {
        let answer = lane.call(call);
        let word = match answer {
            Ok(Answer::Cycled(cycled)) => cycled.word,
            _ => 0,
        };
        checker
            .observe::<L::Stopping>(call, answer.is_err(), word, lane.lane())
            .map_err(|breach| format!("call {index}, {call:?}: {breach}"))?;
    }
    Ok(())
}
