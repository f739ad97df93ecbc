//! How often random histories and lanes meet the edges of questions where one could
//! enter, and of the entries that follow them.

mod common;

use common::edges::{add, each_call, number, Edges, Met, Outcome};
use common::place_in;
use lane_reference::headway::{foremost_behind, front_at_rest, rearmost_ahead, tail_at_rest};
use lane_reference::random::{
    call, gapped_lane, short_lane, sound_lane, unsound_lane, Random, Weights,
};
use lane_reference::stopping::Fast;
use lane_reference::{
    Answer, Call, Carrier, FastLane, Gap, Lane, Newcomer, Opening, Row, Supervisor, PLACES,
};

/// Questions alone.
const QUESTIONS: Weights = [0, 0, 0, 0, 0, 0, 0, 0, 0, 0, 0, 1, 0];

/// What histories and the entries in them have to meet more often than that.
const IN_HISTORIES: [(&str, u32); 20] = [
    ("ahead: none by one", 50),
    ("ahead: one", 30),
    ("between: none by one", 100),
    ("between: one", 80),
    ("between: two", 50),
    ("behind: none by one", 25),
    ("full: open between", 25),
    ("full: open behind", 15),
    ("front past the end: open", 20),
    ("tail at the start", 40),
    ("entered: at the lowest", 200),
    ("entered: at the highest", 120),
    ("entered: between", 80),
    ("26: one below the lowest", 80),
    ("25: one above the highest", 100),
    ("5: one above the highest", 70),
    ("22: at the lowest", 5),
    ("22: at the highest", 5),
    ("24: a number left behind", 10),
    ("4: number 65,536", 40),
];

/// The same of sound lanes that are handed in.
const ON_LANES: [(&str, u32); 21] = [
    ("ahead: none by one", 1_000),
    ("ahead: one", 600),
    ("ahead: two", 300),
    ("between: none by one", 1_200),
    ("between: one", 600),
    ("between: two", 250),
    ("behind: none by one", 2_000),
    ("behind: one", 500),
    ("behind: two", 400),
    ("lowest 1", 150),
    ("highest 0", 500),
    ("highest two before the end", 350),
    ("front past the end: open", 400),
    ("tail at the start", 2_500),
    ("full: open ahead", 100),
    ("full: open between", 300),
    ("full: open behind", 400),
    ("highest: by the stop, by one", 250),
    ("lowest: by the stop, by one", 120),
    ("open: weak behind", 1_200),
    ("open: the newcomer's rate below b", 4_000),
];

/// A question that is accepted, on a lane that 21 passes.
#[derive(Clone, Copy)]
struct Question<'a> {
    lane: &'a Lane,
    row: Row,
    newcomer: Newcomer,
    ahead: Option<Carrier>,
    behind: Option<Carrier>,
}

impl Question<'_> {
    fn of<'a>(lane: &'a Lane, row: Row, gap: Gap, newcomer: Newcomer) -> Question<'a> {
        let place = place_in(lane, gap);
        let ahead = place.checked_sub(1).map(|ahead| lane.carriers[ahead]);
        let behind = lane.present().get(place).copied();
        Question {
            lane,
            row,
            newcomer,
            ahead,
            behind,
        }
    }

    /// The ends of the opening, which cross where there is none: the lowest may then
    /// be past the lane's end, and the highest before its start.
    fn ends(&self) -> [i64; 2] {
        let one = self.newcomer.at(0);
        let last = self.lane.road.end as i64 - 1;
        let lowest = self
            .behind
            .map_or(0, |there| rearmost_ahead::<Fast>(&self.row, one, there));
        let highest = self
            .ahead
            .map_or(last, |there| foremost_behind::<Fast>(&self.row, one, there));
        [lowest, highest]
    }

    fn width(&self) -> i64 {
        let [lowest, highest] = self.ends();
        highest - lowest + 1
    }
}

/// By how many positions are left, in each sort of gap.
fn width_edges(asked: &Question) -> Edges {
    let names = match (asked.ahead, asked.behind) {
        (None, None) => return vec![("an empty lane", true)],
        (None, Some(_)) => [
            "ahead: none by more",
            "ahead: none by one",
            "ahead: one",
            "ahead: two",
            "ahead: more",
        ],
        (Some(_), Some(_)) => [
            "between: none by more",
            "between: none by one",
            "between: one",
            "between: two",
            "between: more",
        ],
        (Some(_), None) => [
            "behind: none by more",
            "behind: none by one",
            "behind: one",
            "behind: two",
            "behind: more",
        ],
    };
    let width = asked.width().clamp(-1, 3);
    let widths = names.into_iter().zip(-1..);
    widths.map(|(name, of)| (name, of == width)).collect()
}

/// At the start of the lane and at its end.
fn bound_edges(asked: &Question) -> Edges {
    let ([lowest, highest], end) = (asked.ends(), asked.lane.road.end as i64);
    let open = lowest <= highest;
    let mut edges = vec![
        ("lowest 1", open && lowest == 1),
        ("lowest 2", open && lowest == 2),
        ("lowest at the end", lowest == end),
        ("lowest past the end", lowest > end),
    ];
    if let Some(ahead) = asked.ahead {
        let (tail, past) = (ahead.tail(), ahead.front() >= end);
        edges.extend([
            ("highest 0", open && highest == 0),
            ("highest 1", open && highest == 1),
            ("highest two before the end", open && highest == end - 2),
            ("front past the end: open", past && open),
            ("front past the end: closed", past && !open),
            (
                "front past the end: tail next to it",
                past && tail + 1 == end,
            ),
            ("tail one past the start", tail == 1 && open),
            ("tail at the start", tail == 0),
            ("tail before the start", tail < 0),
        ]);
    }
    edges
}

/// By which half of safe behind decides, of the newcomer and of the one behind it.
fn half_edges(asked: &Question) -> Edges {
    let (row, one, open) = (&asked.row, asked.newcomer.at(0), asked.width() > 0);
    let mut edges = Vec::new();
    if let Some(ahead) = asked.ahead {
        // How much nearer the newcomer rests than it is: above 0 the stop decides.
        let nearer = front_at_rest::<Fast>(row, one) - tail_at_rest::<Fast>(row, ahead);
        let nearer = nearer + ahead.tail();
        edges.extend([
            ("highest: by the tail", open && nearer < 0),
            ("highest: by both", open && nearer == 0 && one.speed > 0),
            ("highest: by the stop", open && nearer > 0),
            ("highest: by the stop, by one", open && nearer == 1),
        ]);
    }
    if let Some(behind) = asked.behind {
        let stop = tail_at_rest::<Fast>(row, one) - one.tail();
        let nearer = front_at_rest::<Fast>(row, behind) - behind.front() - stop;
        edges.extend([
            ("lowest: by the front", open && nearer < 0),
            ("lowest: by both", open && nearer == 0 && behind.speed > 0),
            ("lowest: by the stop", open && nearer > 0),
            ("lowest: by the stop, by one", open && nearer == 1),
        ]);
    }
    edges
}

/// By own rates, lengths and speeds at the ends of their ranges.
fn value_edges(asked: &Question) -> Edges {
    let (newcomer, open) = (asked.newcomer, asked.width() > 0);
    let b = asked.row.guaranteed_braking;
    let weak = |carrier: Carrier| carrier.speed > 0 && carrier.rate < b;
    let moves = open && newcomer.speed > 0;
    let limit = asked.lane.road.limit;
    vec![
        (
            "open: the newcomer's rate below b",
            moves && newcomer.rate < b,
        ),
        (
            "open: the newcomer's rate above b",
            moves && newcomer.rate > b,
        ),
        ("open: rate 1", moves && newcomer.rate == 1 && b > 1),
        ("open: rate 255", moves && newcomer.rate == 255 && b < 255),
        ("open: weak ahead", open && asked.ahead.is_some_and(weak)),
        ("open: weak behind", open && asked.behind.is_some_and(weak)),
        ("open: at the limit", moves && newcomer.speed == limit),
        ("open: standing", open && newcomer.speed == 0),
        ("open: length 0", open && newcomer.length == 0),
        ("open: length 65,535", open && newcomer.length == 65_535),
    ]
}

/// On lanes with no place free.
fn full_edges(asked: &Question) -> Edges {
    if asked.lane.present().len() < PLACES {
        return Vec::new();
    }
    let open = asked.width() > 0;
    let name = match (asked.ahead, asked.behind, open) {
        (None, _, true) => "full: open ahead",
        (None, _, false) => "full: closed ahead",
        (_, Some(_), true) => "full: open between",
        (_, Some(_), false) => "full: closed between",
        (_, None, true) => "full: open behind",
        (_, None, false) => "full: closed behind",
    };
    vec![(name, true)]
}

/// Refusals, with what would have been refused after it as well.
fn refusal_edges(lane: &Lane, gap: Gap, newcomer: Newcomer, no: u32) -> Edges {
    let Newcomer {
        speed,
        length,
        rate,
    } = newcomer;
    let (fast, long) = (speed > lane.road.limit, length > 65_535);
    let odd = !(1..=255).contains(&rate);
    let faulty = fast || long || odd;
    let idle = lane.carriers.get(lane.present().len());
    let left = idle.is_some_and(|idle| gap == Gap::Behind(idle.number));
    let head = gap == Gap::AheadOfAll;
    vec![
        ("4: number 0", no == 4 && gap == Gap::Behind(0)),
        ("4: number 65,536", no == 4 && gap == Gap::Behind(65_536)),
        ("4: the values as well", no == 4 && faulty),
        ("24", no == 24),
        ("24: a number left behind", no == 24 && left),
        ("24: the values as well", no == 24 && faulty),
        ("24: on an empty lane", no == 24 && lane.count == 0),
        (
            "6: one above the limit",
            no == 6 && speed == lane.road.limit + 1,
        ),
        ("6: others as well", no == 6 && (long || odd)),
        ("6: ahead of all", no == 6 && head),
        ("33: length 65,536", no == 33 && length == 65_536),
        ("33: the rate as well", no == 33 && odd),
        ("33: ahead of all", no == 33 && head),
        ("35: rate 0", no == 35 && rate == 0),
        ("35: rate 256", no == 35 && rate == 256),
        ("35: ahead of all", no == 35 && head),
        ("refused on a full lane", no != 0 && lane.count == 64),
    ]
}

/// All edges of a question, on a lane that 21 passes or on one that it does not.
fn question_edges(lane: &Lane, gap: Gap, newcomer: Newcomer, no: u32) -> Edges {
    let Ok(row) = lane.sound_row::<Fast>() else {
        return vec![
            ("21: ahead of all", no == 21 && gap == Gap::AheadOfAll),
            ("21: number 0", no == 21 && gap == Gap::Behind(0)),
            ("21: a value as well", no == 21 && newcomer.rate == 0),
        ];
    };
    if no != 0 {
        return refusal_edges(lane, gap, newcomer, no);
    }
    let asked = Question::of(lane, row, gap, newcomer);
    let sorts = [
        width_edges,
        bound_edges,
        half_edges,
        value_edges,
        full_edges,
    ];
    sorts.into_iter().flat_map(|edges| edges(&asked)).collect()
}

fn edges(lane: &Lane, call: &Call, outcome: &Outcome) -> Edges {
    match *call {
        Call::FindOpening { gap, newcomer } => question_edges(lane, gap, newcomer, number(outcome)),
        _ => Vec::new(),
    }
}

/// An entry with the values of the question before it, by where that found an opening.
fn entry_edges(found: Opening, entry: Carrier, no: u32) -> Edges {
    let (lowest, highest, at) = (found.lowest, found.highest, entry.position);
    let (before, past) = (at + 1 == lowest, at == highest + 1);
    vec![
        ("entered: at the lowest", no == 0 && at == lowest),
        ("entered: at the highest", no == 0 && at == highest),
        ("entered: between", no == 0 && lowest < at && at < highest),
        ("26: one below the lowest", no == 26 && before),
        ("25: one above the highest", no == 25 && past),
        ("5: one above the highest", no == 5 && past),
        ("22: at the lowest", no == 22 && at == lowest),
        ("22: at the highest", no == 22 && at == highest),
    ]
}

/// What histories meet, with the entries that follow a question.
#[test]
fn histories_crowd_the_edges_of_openings() {
    let (mut met, mut last) = (Met::new(), None);
    each_call(|before, call, outcome, _| {
        add(&mut met, edges(before, call, outcome));
        if let (Call::Enter(entry), Some((newcomer, found))) = (call, last) {
            if entry.as_newcomer() == newcomer {
                add(&mut met, entry_edges(found, *entry, number(outcome)));
            }
        }
        last = match (call, outcome) {
            (&Call::FindOpening { newcomer, .. }, Ok(Answer::OpeningFound(found))) => {
                found.map(|found| (newcomer, found))
            }
            _ => None,
        };
    });
    for (edge, least) in IN_HISTORIES {
        assert!(met[edge] > least, "{edge}: {met:?}");
    }
}

fn met_on_lanes(lanes: &[fn(&mut Random) -> Lane]) -> Met {
    let (mut random, mut met) = (Random::new(29), Met::new());
    for _ in 0..20_000 {
        for lane in lanes {
            let lane = lane(&mut random);
            let asked = call(&mut random, &lane, &QUESTIONS);
            let outcome = FastLane(lane).call(&asked);
            add(&mut met, edges(&lane, &asked, &outcome));
        }
    }
    met
}

#[test]
fn lanes_handed_in_crowd_the_edges_of_openings() {
    let sound = met_on_lanes(&[sound_lane, gapped_lane, short_lane]);
    assert!(sound.values().all(|&times| times > 15), "{sound:?}");
    for (edge, least) in ON_LANES {
        assert!(sound[edge] > least, "{edge}: {sound:?}");
    }
    let unsound = met_on_lanes(&[unsound_lane]);
    assert!(unsound.values().all(|&times| times > 150), "{unsound:?}");
}
