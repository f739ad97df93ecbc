//! How often random texts meet the edges that readings have, and histories and lanes
//! those of handovers.

mod common;

use common::edges::{add, each_call, gaps, number, Edges, Met, Outcome};
use common::handover::HANDOVERS_ALONE;
use lane_reference::lane::LONGEST_HANDOVER;
use lane_reference::random::{call, handover_text, sound_lane, text_to_read, unsound_lane, Random};
use lane_reference::stopping::Fast;
use lane_reference::text;
use lane_reference::{Call, Carrier, FastLane, Lane, Refusal, Row, Supervisor, Table};

/// How far each pair, front to back, is from being level, now and at rest.
fn pair_gaps(row: &Row, carriers: &[Carrier]) -> Vec<[i64; 2]> {
    let pairs = carriers.windows(2);
    pairs.map(|pair| gaps(row, pair[1], pair[0])).collect()
}

fn is_safe(row: &Row, carriers: &[Carrier]) -> bool {
    let gaps = pair_gaps(row, carriers);
    gaps.iter().flatten().all(|&gap| gap > 0)
}

/// What a text that is accepted holds.
fn accepted_edges(lane: &Lane) -> Edges {
    let (road, count) = (lane.road, lane.count);
    vec![
        ("accepted: no carrier", count == 0),
        ("accepted: one carrier", count == 1),
        ("accepted: two carriers", count == 2),
        ("accepted: 64 carriers", count == 64),
        ("accepted: surface 7", road.surface == 7),
        ("accepted: end 1", road.end == 1),
        ("accepted: end 2^31", road.end == 1 << 31),
        ("accepted: limit 1", road.limit == 1),
        ("accepted: limit 8,192", road.limit == 8_192),
        ("accepted: cycle 0", lane.cycle == 0),
        ("accepted: the last cycle number", lane.cycle == u64::MAX),
        ("accepted: one before it", lane.cycle == u64::MAX - 1),
        ("accepted: 20 digits", lane.cycle >= 10_u64.pow(19)),
    ]
}

/// The same of rows and of what safety goes by.
fn accepted_row_edges(lane: &Lane, row: &Row) -> Edges {
    let (now, next) = (lane.tables.in_force, lane.tables.for_next_start);
    let house = Table::HOUSE;
    let other = next.row(lane.road.surface).unwrap_or_default();
    let gaps = pair_gaps(row, lane.present());
    let tightest = gaps.iter().flatten().min();
    vec![
        ("accepted: other rows next", now != next),
        (
            "accepted: house rows in force alone",
            now == house && next != house,
        ),
        (
            "accepted: house rows next alone",
            now != house && next == house,
        ),
        ("accepted: safe by one", tightest == Some(&1)),
        (
            "accepted: unsafe by the row for the next start",
            !is_safe(&other, lane.present()),
        ),
    ]
}

/// Of carriers that are accepted.
fn accepted_carrier_edges(lane: &Lane) -> Edges {
    let end = lane.road.end as i64;
    let edges_of = |carrier: &Carrier| {
        vec![
            ("accepted: number 1", carrier.number == 1),
            ("accepted: number 65,535", carrier.number == 65_535),
            ("accepted: position 0", carrier.position == 0),
            ("accepted: front at the end", carrier.front() == end),
            ("accepted: front past the end", carrier.front() > end),
            ("accepted: tail next to the end", carrier.tail() == end - 1),
            ("accepted: tail before the start", carrier.tail() < 0),
            ("accepted: at the limit", carrier.speed == lane.road.limit),
            ("accepted: length 65,535", carrier.length == 65_535),
            ("accepted: rate 1", carrier.rate == 1),
            ("accepted: rate 255", carrier.rate == 255),
        ]
    };
    lane.present().iter().flat_map(edges_of).collect()
}

/// Which pairs keep a lane from being safe, and by how much.
fn unsafe_pair_edges(gaps: &[[i64; 2]]) -> Edges {
    let is_unsafe: Vec<bool> = gaps
        .iter()
        .map(|gap| gap.iter().any(|&gap| gap < 1))
        .collect();
    let alone = gaps.len() > 2 && is_unsafe.iter().filter(|&&met| met).count() == 1;
    let (foremost, last) = (is_unsafe[0], is_unsafe[gaps.len() - 1]);
    let any = |met: fn(&[i64; 2]) -> bool| gaps.iter().any(met);
    vec![
        ("37: level with a tail", any(|gap| gap[0] == 0)),
        ("37: one past a tail", any(|gap| gap[0] == -1)),
        (
            "37: behind the tail, too near by one",
            any(|gap| gap[0] > 0 && gap[1] == 0),
        ),
        (
            "37: behind the tail, too near",
            any(|gap| gap[0] > 0 && gap[1] < 0),
        ),
        (
            "37: at rest behind a tail that it is past",
            any(|gap| gap[0] < 1 && gap[1] > 0),
        ),
        ("37: the foremost pair alone", alone && foremost),
        ("37: the last pair alone", alone && last),
        ("37: a pair between alone", alone && !foremost && !last),
        (
            "37: the last pair of 64 alone",
            alone && last && gaps.len() == 63,
        ),
    ]
}

/// How carriers of a lane that is not safe lie.
fn disorder_edges(lane: &Lane) -> Edges {
    let pairs = || lane.present().windows(2);
    vec![
        (
            "37: out of order",
            pairs().any(|pair| pair[1].position > pair[0].position),
        ),
        (
            "37: fronts level",
            pairs().any(|pair| pair[1].position == pair[0].position),
        ),
        (
            "37: a tail at the start or before it",
            pairs().any(|pair| pair[0].tail() <= 0),
        ),
    ]
}

/// Which mistake would accept it.
fn mistaken_edges(lane: &Lane, row: &Row) -> Edges {
    let present = lane.present();
    let next = lane.tables.for_next_start.row(lane.road.surface);
    let mut codes = lane.tables.in_force.0.iter();
    let with = |told: fn(&mut Carrier)| {
        let mut carriers = present.to_vec();
        carriers.iter_mut().for_each(told);
        is_safe(row, &carriers)
    };
    vec![
        (
            "37: safe from the next start",
            next.is_some_and(|row| is_safe(&row, present)),
        ),
        (
            "37: safe by another code",
            codes.any(|row| is_safe(row, present)),
        ),
        (
            "37: safe without lengths",
            with(|carrier| carrier.length = 0),
        ),
        (
            "37: safe without own rates",
            with(|carrier| carrier.rate = 255),
        ),
    ]
}

/// The figures by which a well-formed text gets 36, each one past its range.
fn road_edges(lane: &Lane) -> Edges {
    let road = lane.road;
    let (now, next) = (lane.tables.in_force, lane.tables.for_next_start);
    let figures = now.0.iter().chain(&next.0);
    let any = |met: fn(&Row) -> bool| figures.clone().any(met);
    vec![
        ("36: surface 8", road.surface == 8),
        ("36: end 0", road.end == 0),
        ("36: end 2^31 + 1", road.end == (1 << 31) + 1),
        ("36: limit 0", road.limit == 0),
        ("36: limit 8,193", road.limit == 8_193),
        (
            "36: unsound in force alone",
            !now.is_sound() && next.is_sound(),
        ),
        ("36: unsound next alone", now.is_sound() && !next.is_sound()),
        ("36: b 0", any(|row| row.guaranteed_braking == 0)),
        (
            "36: b one above B",
            any(|row| row.guaranteed_braking == row.hardest_braking + 1),
        ),
        ("36: B 256", any(|row| row.hardest_braking == 256)),
        ("36: A 0", any(|row| row.most_acceleration == 0)),
        ("36: A 256", any(|row| row.most_acceleration == 256)),
    ]
}

/// The same of carriers.
fn carrier_edges(lane: &Lane) -> Edges {
    let (end, limit) = (lane.road.end, lane.road.limit);
    let edges_of = |carrier: &Carrier| {
        vec![
            ("36: number 0", carrier.number == 0),
            ("36: one above the limit", carrier.speed == limit + 1),
            ("36: length 65,536", carrier.length == 65_536),
            ("36: rate 0", carrier.rate == 0),
            ("36: rate 256", carrier.rate == 256),
            (
                "36: tail at the end",
                carrier.position == end + carrier.length,
            ),
            ("36: position 2^32 - 1", carrier.position == u32::MAX.into()),
        ]
    };
    lane.present().iter().flat_map(edges_of).collect()
}

fn twice_edges(lane: &Lane) -> Edges {
    let numbers: Vec<u64> = lane
        .present()
        .iter()
        .map(|carrier| carrier.number)
        .collect();
    let again = |place: usize| {
        numbers[..place]
            .iter()
            .rposition(|&one| one == numbers[place])
    };
    let apart = (0..numbers.len()).filter_map(|place| Some(place - again(place)?));
    let apart: Vec<usize> = apart.collect();
    vec![
        ("36: a number twice, neighbours", apart.contains(&1)),
        (
            "36: a number twice, far apart",
            apart.iter().any(|&apart| apart > 10),
        ),
    ]
}

/// How a text that is not in its form ends.
fn end_edges(given: &[u8]) -> Edges {
    let given_text = String::from_utf8_lossy(given);
    let lines: Vec<&str> = given_text.lines().collect();
    let read = |text: &[u8]| text::handover(text).is_ok();
    let without_cr = given_text.replace('\r', "");
    let one_less = &given[..given.len().saturating_sub(1)];
    vec![
        ("form: empty", given.is_empty()),
        (
            "form: cut in a line",
            !given.is_empty() && !given.ends_with(b"\n"),
        ),
        (
            "form: its last newline alone",
            read(&[given, b"\n"].concat()),
        ),
        ("form: one byte after the end", read(one_less)),
        (
            "form: a line after the end",
            read(&without_last_line(&lines)),
        ),
        ("form: CRLF", read(without_cr.as_bytes())),
    ]
}

/// How its numbers are written.
fn number_edges(given: &[u8]) -> Edges {
    let given_text = String::from_utf8_lossy(given);
    let any = |met: &dyn Fn(&str) -> bool| given_text.lines().any(met);
    let zero_first = |key: &str| any(&|line| line.starts_with(key) && line != key);
    vec![
        (
            "form: leading zeros",
            any(&|line| line.contains("=0") && !line.ends_with("=0")),
        ),
        (
            "form: leading zeros in the cycle number",
            zero_first("cycle=0"),
        ),
        ("form: leading zeros in cars", zero_first("cars=0")),
        ("form: a minus", any(&|line| line.contains("=-"))),
        ("form: no number", any(&|line| line.ends_with('='))),
        (
            "form: 2^64",
            any(&|line| line.ends_with("=18446744073709551616")),
        ),
        ("form: 2^32", any(&|line| line.ends_with("=4294967296"))),
        ("form: car 65,536", any(&|line| line == "car=65536")),
    ]
}

/// How many rows and carriers it has.
fn count_edges(given: &[u8]) -> Edges {
    let given_text = String::from_utf8_lossy(given);
    let keyed = |key: &str| {
        given_text
            .lines()
            .filter(|line| line.starts_with(key))
            .count()
    };
    let cars = given_text
        .lines()
        .find_map(|line| line.strip_prefix("cars="));
    let cars = cars.and_then(|cars| cars.parse().ok()).unwrap_or(0);
    let (rows, carriers) = (keyed("b="), keyed("brake="));
    vec![
        ("form: a row short", rows == 15),
        ("form: a row more", rows == 17),
        ("form: one table", rows == 8),
        ("form: three tables", rows == 24),
        ("form: cars one more", cars == carriers + 1),
        ("form: cars one less", cars + 1 == carriers),
        ("form: cars 65 and as many", cars == 65 && carriers == 65),
    ]
}

fn without_last_line(lines: &[&str]) -> Vec<u8> {
    let kept = &lines[..lines.len().saturating_sub(1)];
    kept.iter()
        .flat_map(|line| [line, "\n"])
        .collect::<String>()
        .into_bytes()
}

/// Of a text and what its reading gave.
fn reading_edges(given: &[u8], read: Result<(), Refusal>) -> Edges {
    let Ok(lane) = text::handover(given) else {
        assert_eq!(read, Err(Refusal::HandoverFaulty));
        return [end_edges(given), number_edges(given), count_edges(given)].concat();
    };
    let row = lane.tables.in_force.row(lane.road.surface);
    let present = lane.present();
    match (read, row.filter(Row::is_sound)) {
        (Ok(()), Some(row)) => {
            let edges = [accepted_edges(&lane), accepted_row_edges(&lane, &row)];
            [edges.concat(), accepted_carrier_edges(&lane)].concat()
        }
        (Err(Refusal::HandoverUnsafe), Some(row)) => {
            let pairs = unsafe_pair_edges(&pair_gaps(&row, present));
            [pairs, disorder_edges(&lane), mistaken_edges(&lane, &row)].concat()
        }
        _ => {
            assert_eq!(read, Err(Refusal::HandoverFaulty));
            let disordered = present
                .windows(2)
                .any(|pair| pair[0].position <= pair[1].position);
            let both = vec![("36: out of order as well", disordered)];
            let figures = [road_edges(&lane), carrier_edges(&lane)].concat();
            [figures, twice_edges(&lane), both].concat()
        }
    }
}

#[test]
fn texts_crowd_the_edges_of_readings() {
    let (mut random, mut met) = (Random::new(45), Met::new());
    for _ in 0..40_000 {
        let text = text_to_read(&mut random);
        let read = FastLane::default().take_over(&text);
        add(&mut met, reading_edges(&text, read));
        add(&mut met, vec![("0", read.is_ok())]);
        add(&mut met, vec![("36", read == Err(Refusal::HandoverFaulty))]);
        add(&mut met, vec![("37", read == Err(Refusal::HandoverUnsafe))]);
    }
    assert!(met.values().all(|&times| times > 4), "{met:?}");
    for (edge, least) in [
        ("0", 10_000),
        ("36", 15_000),
        ("37", 5_000),
        ("accepted: 64 carriers", 800),
        ("accepted: other rows next", 5_000),
        ("accepted: safe by one", 3_000),
        ("accepted: unsafe by the row for the next start", 1_200),
        ("36: out of order as well", 600),
        ("36: unsound next alone", 1_200),
        ("36: tail at the end", 80),
        ("37: level with a tail", 800),
        ("37: behind the tail, too near by one", 600),
        ("37: the last pair of 64 alone", 80),
        ("37: safe from the next start", 800),
        ("37: safe without own rates", 400),
        ("form: its last newline alone", 80),
        ("form: one byte after the end", 200),
        ("form: leading zeros", 150),
        ("form: cars one more", 400),
        ("form: a row short", 600),
    ] {
        assert!(met[edge] > least, "{edge}: {met:?}");
    }
}

/// Of a handover, by its buffer.
fn handover_edges(lane: &Lane, room: usize, no: u32) -> Edges {
    if lane.sound_row::<Fast>().is_err() {
        return vec![
            ("21: never started", no == 21 && !lane.started),
            ("21: started", no == 21 && lane.started),
            ("21: no room either", no == 21 && room == 0),
        ];
    }
    let length = handover_text(lane).len();
    let differ = lane.tables.in_force != lane.tables.for_next_start;
    vec![
        ("written: no byte left", no == 0 && room == length),
        ("written: one byte left", no == 0 && room == length + 1),
        ("written: the longest", no == 0 && room == LONGEST_HANDOVER),
        ("9: one byte short", no == 9 && room + 1 == length),
        ("9: no room", no == 9 && room == 0),
        ("written: no carrier", no == 0 && lane.count == 0),
        ("written: one carrier", no == 0 && lane.count == 1),
        ("written: 64 carriers", no == 0 && lane.count == 64),
        ("written: other rows next", no == 0 && differ),
        (
            "written: the last cycle number",
            no == 0 && lane.cycle == u64::MAX,
        ),
    ]
}

fn edges(lane: &Lane, call: &Call, outcome: &Outcome) -> Edges {
    match *call {
        Call::Handover { room } => handover_edges(lane, room, number(outcome)),
        _ => Vec::new(),
    }
}

#[test]
fn histories_crowd_the_edges_of_handovers() {
    let mut met = Met::new();
    each_call(|before, call, outcome, _| add(&mut met, edges(before, call, outcome)));
    assert!(met.values().all(|&times| times > 15), "{met:?}");
}

#[test]
fn lanes_handed_in_crowd_the_edges_of_handovers() {
    let (mut random, mut met) = (Random::new(46), Met::new());
    for _ in 0..5_000 {
        for lane in [sound_lane, unsound_lane] {
            let lane = lane(&mut random);
            let next = call(&mut random, &lane, &HANDOVERS_ALONE);
            let outcome = FastLane(lane).call(&next);
            add(&mut met, edges(&lane, &next, &outcome));
        }
    }
    assert!(met.values().all(|&times| times > 15), "{met:?}");
}
