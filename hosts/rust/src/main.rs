//! A worked host: five minutes of a lane with an entry at its start, a side
//! road whose carriers wait for an opening, an exit and an end that carriers run
//! out at, on surface figures of the terminal's own; some trailers are loaded,
//! and for a while it rains. Halfway the lane is handed over as text and taken
//! over again. It prints a summary that is the same in every run, and the same as
//! that of the host in C.

use rondavitse::{Carrier, Gap, Lane, Newcomer, Refusal, Road, Wish};
use std::collections::BTreeMap;
use std::ops::{Range, RangeInclusive};

/// Positions count 1/2048 m, speeds 1/128 m/s.
const METRE: u64 = 2048;
const METRE_PER_SECOND: u64 = 128;
const CYCLES: u32 = 2_400;
/// The cycle before which the lane is.
const HANDED_OVER: u32 = 1_200;
/// Surface codes.
const DRY: u64 = 0;
const WET: u64 = 4;
/// In cycles.
const RAIN: Range<u32> = 900..1_700;
const ROAD: Road = Road {
    surface: DRY,
    end: 400 * METRE,
    limit: 20 * METRE_PER_SECOND,
};
/// What the terminal has measured of its concrete, a row for each surface code.
const TABLE: &[u8] = b"b=58\nB=132\nA=30\n\
b=52\nB=124\nA=30\n\
b=45\nB=110\nA=24\n\
b=38\nB=100\nA=22\n\
b=30\nB=92\nA=16\n\
b=15\nB=70\nA=12\n\
b=5\nB=50\nA=8\n\
b=1\nB=255\nA=1\n";
/// Own braking rates of trailers: below the b of both surfaces, of the dry one
/// alone, and of neither.
const FULL: u64 = 24;
const HALF_FULL: u64 = 40;
const UNLOADED: u64 = 72;
/// Beside it carriers may drive in.
const SIDE_ROAD: RangeInclusive<u64> = 110 * METRE..=150 * METRE;
/// Carriers there have numbers of their own.
const FIRST_ON_SIDE_ROAD: u64 = 1_001;
/// In metres.
const EXIT_POSITION: f64 = 300.0;

struct Host {
    lane: Lane,
    next_number: u64,
    next_on_side_road: u64,
    /// By a carrier that waits to drive in.
    side_road_taken: bool,
    admitted: u32,
    /// Entries at the start, by their refusal.
    refused: BTreeMap<Refusal, u32>,
    /// Carriers in from the side road that became the foremost.
    ahead_of_all: u32,
    /// Questions there without an opening, and with one that is not beside it.
    unopened: u32,
    out_of_reach: u32,
    /// Changes of surface accepted, and refused with 34.
    changed: u32,
    postponed: u32,
    replaced: u32,
    replaced_loaded: u32,
    left: u32,
    gone: u32,
    /// The least distance to the tail ahead, in metres.
    closest: f64,
    /// Where a front has been, in metres.
    farthest: f64,
    /// In m/s.
    fastest: f64,
}

impl Host {
    /// The codes mean the table's rows from the next start on, so it is loaded
    /// before.
    fn started() -> Result<Host, Refusal> {
        let mut lane = Lane::empty();
        lane.load(TABLE)?;
        lane.start(ROAD, 0)?;
        Ok(Host {
            lane,
            next_number: 1,
            next_on_side_road: FIRST_ON_SIDE_ROAD,
            side_road_taken: false,
            admitted: 0,
            refused: BTreeMap::new(),
            ahead_of_all: 0,
            unopened: 0,
            out_of_reach: 0,
            changed: 0,
            postponed: 0,
            replaced: 0,
            replaced_loaded: 0,
            left: 0,
            gone: 0,
            closest: f64::INFINITY,
            farthest: 0.0,
            fastest: 0.0,
        })
    }

    /// Until a change is accepted nobody is let in, and all but the foremost
    /// slow down: once they stand, no surface is refused.
    fn awaits_surface(&self, cycle: u32) -> bool {
        self.lane.road().surface != surface_wanted(cycle)
    }

    /// A change that is refused is asked for again in the next cycle.
    fn try_surface(&mut self, cycle: u32) -> Result<(), Refusal> {
        if !self.awaits_surface(cycle) {
            return Ok(());
        }
        match self.lane.change_surface(surface_wanted(cycle)) {
            Ok(()) => self.changed += 1,
            Err(Refusal::SurfaceUnsafe) => self.postponed += 1,
            Err(refusal) => return Err(refusal),
        }
        Ok(())
    }

    fn let_carriers_in(&mut self, cycle: u32) -> Result<(), Refusal> {
        if cycle % 29 == 5 {
            self.side_road_taken = true;
        }
        if self.awaits_surface(cycle) {
            return Ok(());
        }
        if cycle.is_multiple_of(32) {
            self.try_start();
        }
        if self.side_road_taken {
            self.try_side_road()?;
        }
        Ok(())
    }

    /// A carrier that is refused at the lane's start waits with its number for
    /// the next try.
    fn try_start(&mut self) {
        let carrier = Carrier {
            number: self.next_number,
            position: 0,
            speed: 14 * METRE_PER_SECOND,
            length: length_of(self.next_number),
            rate: rate_of(self.next_number),
        };
        match self.lane.enter(carrier) {
            Ok(_) => {
                self.next_number += 1;
                self.admitted += 1;
            }
            Err(refusal) => *self.refused.entry(refusal).or_default() += 1,
        }
    }

    /// The gap behind the last carrier that has passed the side road, or ahead
    /// of all where none has.
    fn gap_at_side_road(&self) -> Gap {
        let carriers = self.lane.carriers();
        let passed = carriers.take_while(|carrier| carrier.position > *SIDE_ROAD.end());
        passed
            .last()
            .map_or(Gap::AheadOfAll, |carrier| Gap::Behind(carrier.number))
    }

    /// A carrier may drive in anywhere in an opening. It cannot be refused there:
    /// its number is new, and 64 carriers do not fit on this lane.
    fn leave_side_road(&mut self, position: u64, newcomer: Newcomer) -> Result<(), Refusal> {
        let place = self.lane.enter(Carrier {
            number: self.next_on_side_road,
            position,
            speed: newcomer.speed,
            length: newcomer.length,
            rate: newcomer.rate,
        })?;
        self.next_on_side_road += 1;
        self.side_road_taken = false;
        self.admitted += 1;
        self.ahead_of_all += u32::from(place == 0);
        Ok(())
    }

    /// The carrier there takes the middle of what is beside the road of an
    /// opening. Where there is nothing it waits, and asks in the next cycle.
    fn try_side_road(&mut self) -> Result<(), Refusal> {
        let newcomer = Newcomer {
            speed: 10 * METRE_PER_SECOND,
            length: length_of(self.next_on_side_road),
            rate: rate_of(self.next_on_side_road),
        };
        let Some(opening) = self.lane.opening(self.gap_at_side_road(), newcomer)? else {
            self.unopened += 1;
            return Ok(());
        };
        let lowest = *opening.start().max(SIDE_ROAD.start());
        let highest = *opening.end().min(SIDE_ROAD.end());
        if lowest > highest {
            self.out_of_reach += 1;
            return Ok(());
        }
        self.leave_side_road(lowest + (highest - lowest) / 2, newcomer)
    }

    /// A word with a bit for each place that has a loaded trailer.
    fn loaded_places(&self) -> u64 {
        let carriers = self.lane.carriers().enumerate();
        carriers.fold(0, |word, (place, carrier)| {
            word | u64::from(carrier.rate < UNLOADED) << place
        })
    }

    fn drive(&mut self, cycle: u32) -> Result<(), Refusal> {
        let loaded = self.loaded_places(); // a cycle's word goes by the places before it
        let slower = self.awaits_surface(cycle);
        let carriers = self.lane.carriers().enumerate();
        let wishes: Vec<Wish> = carriers
            .map(|(place, carrier)| wish_of(carrier, place, cycle, slower))
            .collect();
        let cycled = self.lane.cycle(&wishes)?;
        self.replaced += cycled.replaced;
        self.replaced_loaded += (cycled.word & loaded).count_ones();
        self.gone += cycled.gone;
        Ok(())
    }

    fn watch(&mut self) -> Result<(), Refusal> {
        let mut tail_ahead = f64::INFINITY;
        for carrier in self.lane.carriers() {
            let reading = self.lane.read(carrier.number)?;
            self.closest = self.closest.min(tail_ahead - reading.position);
            self.farthest = self.farthest.max(reading.position);
            self.fastest = self.fastest.max(reading.speed);
            tail_ahead = reading.position - carrier.length as f64 / METRE as f64;
        }
        Ok(())
    }

    /// Every fifth carrier takes the exit.
    fn let_carriers_out(&mut self) -> Result<(), Refusal> {
        let numbers: Vec<u64> = self.lane.carriers().map(|carrier| carrier.number).collect();
        for number in numbers {
            if number % 5 == 0 && self.lane.read(number)?.position >= EXIT_POSITION {
                self.lane.leave(number)?;
                self.left += 1;
            }
        }
        Ok(())
    }

    /// As when another host takes this one's place: nothing of the lane goes
    /// over but its text. What a host knows beside the lane, as its next number,
    /// is not in it.
    fn change_hosts(&mut self) -> Result<(), Refusal> {
        let text = self.lane.handover()?;
        self.lane = Lane::take_over(text.as_bytes())?;
        Ok(())
    }

    /// A file that was not yet whole, and one in which somebody has put the lane
    /// on another surface, where nobody brakes so well.
    fn try_take_overs(&self) -> Result<(), Refusal> {
        let text = self.lane.handover()?;
        let changed = text.replace("surface=0", "surface=7");
        try_take_over("handover text cut short", &text[..text.len() - 1]);
        try_take_over("handover text with another surface", &changed);
        Ok(())
    }

    /// A load that is refused leaves the lane, and the rows for its next start,
    /// as they were.
    fn try_table(&mut self, table: &str, text: &[u8]) {
        if let Err(refusal) = self.lane.load(text) {
            println!("{table} refused with {refusal}");
        }
    }

    /// A question that is refused says nothing of the lane.
    fn try_opening(&self, name: &str, gap: Gap) {
        let newcomer = Newcomer {
            speed: 0,
            length: 0,
            rate: UNLOADED,
        };
        if let Err(refusal) = self.lane.opening(gap, newcomer) {
            println!("{name} refused with {refusal}");
        }
    }

    fn print_summary(&self) -> Result<(), Refusal> {
        println!("cycles run: {CYCLES}");
        println!("entries admitted: {}", self.admitted);
        for (refusal, times) in &self.refused {
            println!("entries at the start refused with {refusal}: {times}");
        }
        println!(
            "carriers in from the side road: {}, ahead of all: {}",
            self.next_on_side_road - FIRST_ON_SIDE_ROAD,
            self.ahead_of_all
        );
        println!(
            "questions there without an opening: {}, with one out of reach: {}",
            self.unopened, self.out_of_reach
        );
        println!("changes of surface: {}", self.changed);
        let (refusal, times) = (Refusal::SurfaceUnsafe, self.postponed);
        println!("changes of surface refused with {refusal}: {times}");
        println!(
            "wishes replaced: {}, of loaded trailers: {}",
            self.replaced, self.replaced_loaded
        );
        println!("carriers out by the exit: {}", self.left);
        println!("carriers gone at the lane end: {}", self.gone);
        // As many digits as 1/2048 and 1/128 have: nothing is rounded.
        println!("closest to the tail ahead: {:.11} m", self.closest);
        let lane_end = ROAD.end / METRE;
        println!(
            "farthest front, on a lane of {lane_end} m: {:.11} m",
            self.farthest
        );
        println!("fastest: {:.7} m/s", self.fastest);
        print!("the lane now:\n{}", self.lane.text()?);
        Ok(())
    }
}

/// A text that is refused gives no lane.
fn try_take_over(name: &str, text: &str) {
    if let Err(refusal) = Lane::take_over(text.as_bytes()) {
        println!("{name} refused with {refusal}");
    }
}

fn surface_wanted(cycle: u32) -> u64 {
    if RAIN.contains(&cycle) {
        WET
    } else {
        DRY
    }
}

/// Every third carrier takes a container of 20 feet, the others take one of 40.
fn length_of(number: u64) -> u64 {
    METRE * if number.is_multiple_of(3) { 8 } else { 14 }
}

/// Two of seven trailers are loaded.
fn rate_of(number: u64) -> u64 {
    match number % 7 {
        0 => FULL,
        1 => HALF_FULL,
        _ => UNLOADED,
    }
}

/// By the carrier's number; but now and then the foremost brakes for six seconds,
/// and those behind it slow down where they are to.
fn wish_of(carrier: Carrier, place: usize, cycle: u32, slower: bool) -> Wish {
    if place == 0 && cycle % 600 >= 552 {
        return Wish::Acceleration(-2.5);
    }
    if place > 0 && slower {
        return Wish::Acceleration(-1.5);
    }
    match carrier.number % 4 {
        0 if carrier.speed < 8 * METRE_PER_SECOND => Wish::Units(16),
        0 => Wish::Hold,
        1 => Wish::Units(if cycle.is_multiple_of(3) { -4 } else { 12 }),
        2 => Wish::Acceleration(0.7),
        _ => Wish::TargetSpeed(13.3),
    }
}

fn main() -> Result<(), Refusal> {
    let mut host = Host::started()?;
    for cycle in 0..CYCLES {
        if cycle == HANDED_OVER {
            host.change_hosts()?;
        }
        host.try_surface(cycle)?;
        host.let_carriers_in(cycle)?;
        host.drive(cycle)?;
        host.watch()?;
        host.let_carriers_out()?;
    }
    host.try_table("table on a lane in use", TABLE);
    host.try_table("table cut short", &TABLE[..TABLE.len() - 1]);
    host.try_opening("opening behind a carrier that is gone", Gap::Behind(1));
    host.try_take_overs()?;
    host.print_summary()
}
