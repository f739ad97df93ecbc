//! How often a mistaken rule would find another opening in random histories and on
//! random lanes.

mod common;

use common::edges::each_call;
use common::place_in;
use lane_reference::random::{gapped_lane, question, short_lane, sound_lane, Random};
use lane_reference::stopping::fast;
use lane_reference::{
    Answer, Call, Carrier, FastLane, Gap, Lane, Newcomer, Opening, Row, Supervisor, PLACES,
};
use std::collections::BTreeMap;

/// A newcomer and its two neighbours to be.
#[derive(Clone, Copy)]
struct Asked<'a> {
    lane: &'a Lane,
    row: Row,
    one: Carrier,
    ahead: Option<Carrier>,
    behind: Option<Carrier>,
}

/// A figure of a pair, of which one is ahead and the other behind.
type OfPair = fn(&Row, Carrier, Carrier) -> u64;

/// How an opening is reckoned. `rates` are those of the one ahead and of the one
/// behind, in the pair with the leader and in the pair with the follower.
#[derive(Clone, Copy)]
struct Rule {
    rates: [[OfPair; 2]; 2],
    /// The lengths that are taken off the fronts of those ahead.
    lengths: [OfPair; 2],
    /// Whether it is looked at where the two are now, and where they rest.
    halves: [[bool; 2]; 2],
    /// The last position before the end.
    last: fn(&Asked) -> i64,
    first: i64,
    /// What is added to the lowest and to the highest position.
    off: [i64; 2],
    /// The fewest positions of an opening, and the most carriers with one.
    fewest: i64,
    most: usize,
}

const HARDEST: OfPair = |row, _, _| row.hardest_braking;
const GUARANTEED: OfPair = |row, _, behind| behind.guaranteed_braking(row);
const B: OfPair = |row, _, _| row.guaranteed_braking;
const OWN_BEHIND: OfPair = |_, _, behind| behind.rate;
const OF_AHEAD: OfPair = |row, ahead, _| ahead.guaranteed_braking(row);
const WORST_AHEAD: OfPair = |row, ahead, _| ahead.rate.min(row.hardest_braking);
const LENGTH: OfPair = |_, ahead, _| ahead.length;
const LENGTH_BEHIND: OfPair = |_, _, behind| behind.length;
const NOTHING: OfPair = |_, _, _| 0;

const RIGHT: Rule = Rule {
    rates: [[HARDEST, GUARANTEED]; 2],
    lengths: [LENGTH; 2],
    halves: [[true; 2]; 2],
    last: |asked| asked.lane.road.end as i64 - 1,
    first: 0,
    off: [0; 2],
    fewest: 1,
    most: PLACES,
};

const fn with_rates(leader: [OfPair; 2], follower: [OfPair; 2]) -> Rule {
    Rule {
        rates: [leader, follower],
        ..RIGHT
    }
}

const fn with_lengths(leader: OfPair, follower: OfPair) -> Rule {
    Rule {
        lengths: [leader, follower],
        ..RIGHT
    }
}

const fn with_halves(leader: [bool; 2], follower: [bool; 2]) -> Rule {
    Rule {
        halves: [leader, follower],
        ..RIGHT
    }
}

const fn off(lowest: i64, highest: i64) -> Rule {
    Rule {
        off: [lowest, highest],
        ..RIGHT
    }
}

const fn up_to(last: fn(&Asked) -> i64) -> Rule {
    Rule { last, ..RIGHT }
}

const SOUND: [OfPair; 2] = [HARDEST, GUARANTEED];

const OF_RATES: [(&str, Rule); 10] = [
    ("behind, b alone", with_rates(SOUND, [HARDEST, B])),
    (
        "behind, own rate alone",
        with_rates(SOUND, [HARDEST, OWN_BEHIND]),
    ),
    ("behind, B", with_rates(SOUND, [HARDEST, HARDEST])),
    ("newcomer, b alone", with_rates([HARDEST, B], SOUND)),
    (
        "newcomer, own rate alone",
        with_rates([HARDEST, OWN_BEHIND], SOUND),
    ),
    ("newcomer, B", with_rates([HARDEST, HARDEST], SOUND)),
    (
        "ahead, its guaranteed braking",
        with_rates([OF_AHEAD, GUARANTEED], SOUND),
    ),
    (
        "ahead, its own rate up to B",
        with_rates([WORST_AHEAD, GUARANTEED], SOUND),
    ),
    (
        "newcomer ahead, as guaranteed",
        with_rates(SOUND, [OF_AHEAD, GUARANTEED]),
    ),
    (
        "newcomer ahead, own rate up to B",
        with_rates(SOUND, [WORST_AHEAD, GUARANTEED]),
    ),
];

const OF_LENGTHS: [(&str, Rule); 9] = [
    ("no length ahead", with_lengths(NOTHING, LENGTH)),
    (
        "the newcomer's length for that ahead",
        with_lengths(LENGTH_BEHIND, LENGTH),
    ),
    ("no length of the newcomer", with_lengths(LENGTH, NOTHING)),
    (
        "the length of the one behind",
        with_lengths(LENGTH, LENGTH_BEHIND),
    ),
    ("ahead, no stops", with_halves([true, false], [true; 2])),
    ("ahead, stops alone", with_halves([false, true], [true; 2])),
    ("behind, no stops", with_halves([true; 2], [true, false])),
    ("behind, stops alone", with_halves([true; 2], [false, true])),
    ("no follower at all", with_halves([true; 2], [false; 2])),
];

const OF_ENDS: [(&str, Rule); 12] = [
    ("lowest one too low", off(-1, 0)),
    ("lowest one too high", off(1, 0)),
    ("highest one too high", off(0, 1)),
    ("highest one too low", off(0, -1)),
    ("the end left out", up_to(|_| i64::from(u32::MAX))),
    ("the end itself", up_to(|asked| asked.lane.road.end as i64)),
    (
        "the end for the tail",
        up_to(|asked| asked.lane.road.end as i64 - 1 + asked.one.length as i64),
    ),
    ("the start left out", Rule { first: -1, ..RIGHT }),
    ("from position 1 on", Rule { first: 1, ..RIGHT }),
    ("one position is none", Rule { fewest: 2, ..RIGHT }),
    ("none is one position", Rule { fewest: 0, ..RIGHT }),
    (
        "none on a full lane",
        Rule {
            most: PLACES - 1,
            ..RIGHT
        },
    ),
];

fn stop(rate: u64, carrier: Carrier) -> i64 {
    fast(rate as u32, carrier.speed as u32) as i64
}

impl Asked<'_> {
    /// By how much the front of the one behind has to be below that of the one ahead;
    /// `pair` is 0 for the pair with the leader and 1 for that with the follower.
    fn distance(&self, rule: &Rule, pair: usize, ahead: Carrier, behind: Carrier) -> Option<i64> {
        let of = |figure: OfPair| figure(&self.row, ahead, behind);
        let [hardest, guaranteed] = rule.rates[pair].map(of);
        let more = stop(guaranteed, behind) - stop(hardest, ahead);
        let [now, at_rest] = rule.halves[pair];
        let nearest = now.then_some(0).max(at_rest.then_some(more));
        nearest.map(|distance| distance + 1 + of(rule.lengths[pair]) as i64)
    }

    /// The lowest and the highest position by a rule.
    fn reckoned(&self, rule: &Rule) -> Option<(i64, i64)> {
        let (mut lowest, mut highest) = (rule.first, (rule.last)(self));
        if let Some(ahead) = self.ahead {
            let distance = self.distance(rule, 0, ahead, self.one);
            let nearest = distance.map(|distance| ahead.front() - distance);
            highest = highest.min(nearest.unwrap_or(i64::MAX));
        }
        if let Some(behind) = self.behind {
            let distance = self.distance(rule, 1, self.one, behind);
            let nearest = distance.map(|distance| behind.front() + distance);
            lowest = lowest.max(nearest.unwrap_or(i64::MIN));
        }
        lowest = (lowest + rule.off[0]).max(rule.first);
        highest += rule.off[1];
        let wide = highest - lowest + 1 >= rule.fewest;
        (wide && self.lane.present().len() <= rule.most).then_some((lowest, highest))
    }
}

/// How often a mistake finds something else than what is right.
#[derive(Debug, Default)]
struct Otherwise(BTreeMap<&'static str, u32>);

impl Otherwise {
    fn judge(&mut self, lane: &Lane, gap: Gap, newcomer: Newcomer, found: Option<Opening>) {
        let row = lane.tables.in_force.row(lane.road.surface);
        let row = row.expect("a question that is accepted");
        let place = place_in(lane, gap);
        let asked = |place: usize| Asked {
            lane,
            row,
            one: newcomer.at(0),
            ahead: place.checked_sub(1).map(|ahead| lane.carriers[ahead]),
            behind: lane.present().get(place).copied(),
        };
        let found = found.map(|found| (found.lowest as i64, found.highest as i64));
        assert_eq!(asked(place).reckoned(&RIGHT), found);
        let mistakes = OF_RATES.iter().chain(&OF_LENGTHS).chain(&OF_ENDS);
        for (mistake, rule) in mistakes {
            self.add(mistake, asked(place).reckoned(rule) != found);
        }
        let beside = |place: Option<usize>| place.map(|place| asked(place).reckoned(&RIGHT));
        let further = (place < lane.present().len()).then_some(place + 1);
        self.add(
            "the gap ahead of the one named",
            beside(place.checked_sub(1)) != Some(found),
        );
        self.add("the gap further behind", beside(further) != Some(found));
    }

    fn add(&mut self, mistake: &'static str, differs: bool) {
        *self.0.entry(mistake).or_insert(0) += u32::from(differs);
    }

    /// Each mistake has been told more often than that.
    fn expect(&self, least: u32) {
        assert_eq!(self.0.len(), 10 + 9 + 12 + 2);
        assert!(self.0.values().all(|&times| times > least), "{self:?}");
    }
}

#[test]
fn histories_tell_mistaken_openings() {
    let mut otherwise = Otherwise::default();
    each_call(|before, call, outcome, _| {
        if let (&Call::FindOpening { gap, newcomer }, Ok(Answer::OpeningFound(found))) =
            (call, outcome)
        {
            otherwise.judge(before, gap, newcomer, *found);
        }
    });
    otherwise.expect(60);
}

#[test]
fn lanes_handed_in_tell_mistaken_openings() {
    let (mut random, mut otherwise) = (Random::new(30), Otherwise::default());
    for _ in 0..20_000 {
        for lane in [sound_lane, gapped_lane, short_lane] {
            let lane = lane(&mut random);
            let (gap, newcomer) = question(&mut random, &lane);
            if let Ok(found) = FastLane(lane).find_opening(gap, newcomer) {
                otherwise.judge(&lane, gap, newcomer, found);
            }
        }
    }
    otherwise.expect(1_000);
}
