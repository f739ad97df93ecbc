//! Questions where one could enter: gaps that have room for a few positions, for one
//! or just for none. Their figures are such as a line of text can hold, whatever the
//! lane is.

use super::edges::{narrow, row_of};
use super::entries::{gap_ends, known_number, number, number_left_behind, speed, to_position};
use super::lengths::{length, to_length};
use super::rates::rate;
use super::Random;
use crate::carrier::{Carrier, Newcomer, LONGEST_CARRIER};
use crate::lane::{FastLane, Gap, Lane, Opening, Supervisor};
use crate::surface::Row;

/// How many positions a gap is to have room for.
const WIDTHS: [i128; 8] = [0, 0, 1, 1, 2, 2, 3, 100];

/// A gap, and what is known of a newcomer, mostly fitted to it.
pub fn question(random: &mut Random, lane: &Lane) -> (Gap, Newcomer) {
    let spot = Spot::any(random, lane);
    let rate = rate(random, &[spot.row]);
    let any = speed(random, lane, &spot.row, rate);
    let speed = match random.below(10) {
        0 => any,
        1..=3 => spot.limiting_speed(random, rate),
        _ => spot.fitting_speed(random, rate, any),
    };
    let length = if random.chance(70) {
        spot.fitting_length(random, rate, speed)
    } else {
        length(random)
    };
    let mut newcomer = Newcomer {
        speed,
        length,
        rate,
    };
    if random.chance(3) {
        spoil(random, lane, &mut newcomer);
    }
    (spot.gap(random), newcomer)
}

/// Puts one value or several out of their ranges, mostly by as little as can be.
fn spoil(random: &mut Random, lane: &Lane, newcomer: &mut Newcomer) {
    let Newcomer {
        speed,
        length,
        rate,
    } = newcomer;
    let most = u32::MAX.into();
    for (value, faults) in [
        (speed, [narrow(narrow(lane.road.limit) + 1), most]),
        (length, [LONGEST_CARRIER + 1, most]),
        (rate, [0, 256]),
    ] {
        if random.chance(60) {
            *value = random.pick(&faults);
        }
    }
}

/// A place among the carriers of a lane, with the row in force.
struct Spot<'a> {
    lane: &'a Lane,
    row: Row,
    place: usize,
}

impl Spot<'_> {
    /// The head and the place behind the last carrier above all.
    fn any<'a>(random: &mut Random, lane: &'a Lane) -> Spot<'a> {
        let last = lane.present().len();
        let any = random.index(last + 1);
        Spot {
            lane,
            row: row_of(lane),
            place: random.pick(&[0, last, any, any, any]),
        }
    }

    /// The carriers ahead and behind.
    fn neighbours(&self) -> [Option<Carrier>; 2] {
        let places = [self.place.checked_sub(1), Some(self.place)];
        places.map(|place| self.lane.present().get(place?).copied())
    }

    /// The gap, or now and then one behind a number that no carrier has.
    fn gap(&self, random: &mut Random) -> Gap {
        match (self.neighbours()[0], random.below(30)) {
            (_, 0) => Gap::Behind(random.pick(&[0, 65_536])),
            (_, 1..=2) => Gap::Behind(number_left_behind(random, self.lane)),
            (_, 3) => Gap::Behind(known_number(random, self.lane)),
            (Some(leader), _) => Gap::Behind(leader.number),
            (None, _) => Gap::AheadOfAll,
        }
    }

    /// The greatest length with which there is a position, and less than 0 where
    /// there is none; with nobody behind, the highest position.
    fn room(&self, rate: u64, speed: u64) -> i128 {
        let one = Newcomer {
            speed,
            length: 0,
            rate,
        };
        let (front, tail) = gap_ends(self.lane, &[self.row], self.place, one.at(0));
        front - tail.unwrap_or(0)
    }

    /// A speed with which there is room, if a few tries after `first` find one: those
    /// of the two neighbours among them.
    fn fitting_speed(&self, random: &mut Random, rate: u64, first: u64) -> u64 {
        let speed_of = |there: Option<Carrier>| there.map_or(0, |carrier| narrow(carrier.speed));
        let [ahead, behind] = self.neighbours().map(speed_of);
        let mut tried = first;
        for _ in 0..8 {
            if self.room(rate, tried) >= 0 {
                break;
            }
            let any = speed(random, self.lane, &self.row, rate);
            let low = random.below(2 * self.row.guaranteed_braking + 1);
            let next = random.pick(&[any, low, ahead, behind, 0]);
            tried = next.min(narrow(self.lane.road.limit));
        }
        tried
    }

    /// About the speed up to which there is room.
    fn limiting_speed(&self, random: &mut Random, rate: u64) -> u64 {
        let limit = narrow(self.lane.road.limit);
        let (mut low, mut high) = (0, limit + 1);
        while high - low > 1 {
            let speed = (low + high) / 2;
            if self.room(rate, speed) >= 0 {
                low = speed;
            } else {
                high = speed;
            }
        }
        random.pick(&[low, low, low.saturating_sub(1), high.min(limit)])
    }

    /// A length with which as many positions are left as one of the widths says; any
    /// where nobody is behind.
    fn fitting_length(&self, random: &mut Random, rate: u64, speed: u64) -> u64 {
        if self.neighbours()[1].is_none() {
            return length(random);
        }
        let fitting = to_length(self.room(rate, speed) + 1 - random.pick(&WIDTHS));
        let longest = LONGEST_CARRIER + u64::from(random.chance(5));
        fitting.min(longest)
    }
}

/// An entry with the values of a question, at an end of what it found, one past that
/// or between; where it found nothing, where one neighbour would allow it.
pub fn entry_in(random: &mut Random, lane: &Lane, gap: Gap, newcomer: Newcomer) -> Carrier {
    let position = match FastLane(*lane).find_opening(gap, newcomer) {
        Ok(Some(Opening { lowest, highest })) => {
            let between = lowest + random.below(highest - lowest + 1);
            let before = lowest.saturating_sub(1);
            let past = highest + 1;
            random.pick(&[before, before, lowest, highest, past, past, between])
        }
        Ok(None) => at_either_end(random, lane, gap, newcomer),
        Err(_) => random.below(narrow(lane.road.end) + 2),
    };
    Carrier {
        number: number(random, lane),
        ..newcomer.at(to_position(position.into()))
    }
}

/// As near as one neighbour allows, or one nearer, in a gap in which the other does not.
fn at_either_end(random: &mut Random, lane: &Lane, gap: Gap, newcomer: Newcomer) -> u64 {
    let place = match gap {
        Gap::AheadOfAll => 0,
        Gap::Behind(number) => lane.look_up(number).place.map_or(0, |ahead| ahead + 1),
    };
    let (front, tail) = gap_ends(lane, &[row_of(lane)], place, newcomer.at(0));
    let rear = tail.unwrap_or(0) + i128::from(newcomer.length);
    to_position(random.pick(&[front, front + 1, rear, rear - 1]))
}
