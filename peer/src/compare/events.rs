//! What compared inputs did, so that a comparison can show that it met what matters.

use std::collections::BTreeMap;
use std::fmt::{self, Display, Formatter};

use peer::forward::{
    step, Packet, Step, DELIVERED, DROP_NO_PROXY, DROP_NO_ROUTE, DROP_RETRY, DROP_TTL, FORWARDED,
    JOURNEY_ROOM,
};
use peer::hall::{cell, racks_of, servers_of, size_of, Hall, LEAST_FILLED_K};
use peer::plan::{fitted_servers, is_fitted};
use peer::ports::UP;
use peer::refusal::{
    ADDRESS, CHECKSUM, DHL, FLAGS, HALL, LENGTH, NONE, PF, SHEET, SHORT_FRAME, VERSION,
};
use peer::route::first_link;
use peer::sheet;

use super::counts::{full, is_full, without_far_servers};
use super::faults::{Fault, Faults, FRAME_FAULTS, PAIRS};
use super::packets::{Far, Near};
use super::tables::{cell_codes, lent_to_step};

/// The first count of a sheet whose hall is not full.
const PART_SECTION: u32 = 7;
/// The highest first count that is an event.
const MOST_FIRST_COUNT: u32 = 8;
/// The offset of the count of DCell(1)s in such a sheet, the offset behind it, and the least length of a sheet that ends within it.
const PART_COUNT_AT: usize = 7;
const PART_COUNT_END: usize = 11;
const PART_COUNT_CUT: usize = PART_COUNT_AT + 1;
/// The most links of a journey.
pub const MOST_LINKS: usize = JOURNEY_ROOM - 1;

/// One thing that an input did.
#[derive(Debug, Clone, Copy, PartialEq, Eq, PartialOrd, Ord)]
pub enum Event {
    /// The step or the journey ended so.
    Ending(u32),
    /// A step made so many reroutes.
    Reroutes(u32),
    /// A reroute set a proxy.
    Set,
    /// A reroute cleared a proxy.
    Cleared,
    /// In a hall of top level k a packet at its proxy found a link of a level of no use, and a new proxy.
    Arrived { k: u32, level: u32 },
    /// A step would do something else if every far port were up.
    FarPort,
    /// In a hall that is not full, a server that is not fitted does something else than if it were: a port is shut for its own server
    /// alone.
    OwnServer,
    /// In a hall that is not full, a fitted server does something else than in a full one: a port is shut for its far server alone.
    FarServer,
    /// A journey of a link or more is delivered in a hall that is not full.
    PartDelivered,
    /// Such a journey is delivered after a reroute.
    PartRerouted,
    /// In a hall that is not full, a server is fitted or is not.
    Fitted(bool),
    /// Of the DCell(2) around a server of a hall that is not full nothing is fitted (0), a part (1) or all (2).
    Share(u32),
    /// What became of the first section of a sheet.
    Section(Section),
    /// A step was refused a table of its cell that has no far codes.
    CellAlone,
    /// The journey crossed the most links and ended so.
    Longest(u32),
    /// The call returned a number, and the first of its two rooms, the second or both were short.
    Short { number: u32, short: [bool; 2] },
    /// The call returned a number, and its room had so many bytes more than what was to be written, or fewer.
    Spare { number: u32, bytes: isize },
    /// The reading of a frame gives a number and a place.
    Told { number: u32, place: u32 },
    /// A frame, with the room that is lent for it, had these two faults and no other.
    Faults([Fault; 2]),
}

/// What became of the first section of a sheet.
#[derive(Debug, Clone, Copy, PartialEq, Eq, PartialOrd, Ord)]
pub enum Section {
    /// One of 7 bytes stands in a sheet that was accepted.
    Accepted,
    /// The count of DCell(1)s was that of a full hall.
    FullCount,
    /// It was higher.
    TooHigh,
    /// It was the highest number there is.
    Highest,
    /// It stood there with k below 2.
    LowTop,
    /// The sheet ended within it.
    Cut,
    /// The first count was this small number, neither 3 nor 7.
    FirstCount(u32),
}

/// What every comparison of the reading of a sheet has to meet of its first section.
pub const SECTIONS: &[Event] = &[
    Event::Section(Section::Accepted),
    Event::Section(Section::FullCount),
    Event::Section(Section::TooHigh),
    Event::Section(Section::Highest),
    Event::Section(Section::LowTop),
    Event::Section(Section::Cut),
    Event::Section(Section::FirstCount(0)),
    Event::Section(Section::FirstCount(1)),
    Event::Section(Section::FirstCount(2)),
    Event::Section(Section::FirstCount(4)),
    Event::Section(Section::FirstCount(5)),
    Event::Section(Section::FirstCount(6)),
    Event::Section(Section::FirstCount(8)),
];
/// What every comparison of a call that takes more than the first section of a sheet has to meet.
pub const PART_SHEET: &[Event] = SECTIONS.split_at(1).0;

/// What a comparison of whatever searches the DCell(b) of a server has to meet: both ends of its links are fitted or both are not.
pub const OWN_SERVER: &[Event] = &[Event::OwnServer];

/// What steps and journeys have to meet: first what steps alone do, then what both share, last what journeys alone do.
const ALL: &[Event] = &[
    Event::Ending(FORWARDED),
    Event::CellAlone,
    Event::Ending(DROP_TTL),
    Event::Ending(DROP_NO_ROUTE),
    Event::Ending(DROP_RETRY),
    Event::Ending(DROP_NO_PROXY),
    Event::Ending(DELIVERED),
    Event::Reroutes(0),
    Event::Reroutes(1),
    Event::Reroutes(2),
    Event::Set,
    Event::Cleared,
    Event::Arrived { k: 1, level: 1 },
    Event::Arrived { k: 2, level: 1 },
    Event::Arrived { k: 2, level: 2 },
    Event::Arrived { k: 3, level: 1 },
    Event::Arrived { k: 3, level: 2 },
    Event::Arrived { k: 3, level: 3 },
    Event::FarPort,
    Event::OwnServer,
    Event::FarServer,
    Event::PartDelivered,
    Event::PartRerouted,
    Event::Longest(DROP_TTL),
    Event::Longest(DELIVERED),
];

/// What every comparison of steps has to meet.
pub const STEP: &[Event] = ALL.split_at(ALL.len() - 4).0;
/// What every comparison of journeys has to meet.
pub const JOURNEY: &[Event] = ALL.split_at(2).1;

/// The numbers that the reading of a frame can give, each with its place.
const TOLD: [Event; 8] = [
    told(NONE, 0),
    told(SHORT_FRAME, 0),
    told(CHECKSUM, 0),
    told(ADDRESS, 0),
    told(VERSION, 0),
    told(DHL, 0),
    told(FLAGS, 8),
    told(PF, 8),
];
/// What calls that read a frame have to meet: first each number with its place, then each pair of faults, last those with a short room.
const READING: &[Event] = &reading();

/// What every comparison of reading a frame's header to lent room has to meet.
pub const READ_HEADER: &[Event] = READING.split_at(TOLD.len()).1;
/// What every comparison of the place that a frame's refusal is told at has to meet. Two faults of one place give one answer there: it is
/// the number that tells them apart, in the comparison of reading the header.
pub const HEADER_PLACE: &[Event] = READING.split_at(READING.len() - FRAME_FAULTS).0;
/// What every comparison of a frame's payload has to meet: a refused frame has an empty one, for which no room is too short.
pub const PAYLOAD: &[Event] = HEADER_PLACE.split_at(TOLD.len()).1;

impl Display for Event {
    /// The event in the words of the rules.
    fn fmt(&self, f: &mut Formatter<'_>) -> fmt::Result {
        match *self {
            Event::Ending(ending) => f.write_str(ending_words(ending)),
            Event::Reroutes(1) => f.write_str("1 reroute"),
            Event::Reroutes(count) => write!(f, "{count} reroutes"),
            Event::Set => f.write_str("proxy set"),
            Event::Cleared => f.write_str("proxy cleared"),
            Event::Arrived { k, level } => {
                write!(f, "arrived k={k} link {level} m={}", m(k, level))
            }
            Event::FarPort => f.write_str("far port decides"),
            Event::OwnServer => f.write_str("own server not fitted"),
            Event::FarServer => f.write_str("far server not fitted"),
            Event::PartDelivered => f.write_str("delivered in a part of a hall"),
            Event::PartRerouted => f.write_str("rerouted and delivered there"),
            Event::Fitted(true) => f.write_str("fitted"),
            Event::Fitted(false) => f.write_str("not fitted"),
            Event::Share(share) => {
                let words = ["nothing", "a part", "all"];
                write!(f, "{} of a DCell(2)", words[share as usize % words.len()])
            }
            Event::Section(section) => section.fmt(f),
            Event::CellAlone => f.write_str("table without far codes"),
            Event::Longest(ending) => {
                write!(f, "{} after {MOST_LINKS} links", ending_words(ending))
            }
            Event::Short { number, short } => {
                let rooms = match short {
                    [true, true] => "both rooms",
                    [true, false] => "first room",
                    _ => "second room",
                };
                write!(f, "{rooms} short, {number}")
            }
            Event::Spare { number, bytes } => write!(f, "spare bytes {bytes}, {number}"),
            Event::Told { number, place } => write!(f, "{number} at {place}"),
            Event::Faults([first, second]) => write!(f, "{first} + {second}"),
        }
    }
}

impl Display for Section {
    /// What became of the section, in words.
    fn fmt(&self, f: &mut Formatter<'_>) -> fmt::Result {
        match *self {
            Section::Accepted => f.write_str("7-byte section accepted"),
            Section::FullCount => f.write_str("full count, 1 at 7"),
            Section::TooHigh => f.write_str("count too high, 1 at 7"),
            Section::Highest => write!(f, "count {}, 1 at 7", u32::MAX),
            Section::LowTop => f.write_str("k below 2, 1 at 7"),
            Section::Cut => f.write_str("cut within the count"),
            Section::FirstCount(count) => write!(f, "first count {count}"),
        }
    }
}

impl Section {
    /// What becomes of the first section of a sheet; none where it is a sound one of 3 bytes, or is refused for n, k or b.
    fn of(sheet: &[u8]) -> Option<Section> {
        let read = sheet::read(sheet);
        let [first, count] = [0, PART_COUNT_AT].map(|at| sheet::word_at(sheet, at));
        match (first, read.refusal, read.place as usize) {
            (PART_SECTION, NONE, _) => Some(Section::Accepted),
            (PART_SECTION, HALL, PART_COUNT_AT) => Some(Section::refused(sheet, count)),
            (PART_SECTION, SHEET, PART_COUNT_CUT..PART_COUNT_END) => Some(Section::Cut),
            (0..=MOST_FIRST_COUNT, LENGTH, 0) => Some(Section::FirstCount(first)),
            _ => None,
        }
    }

    /// Why the count of DCell(1)s of a sheet is refused.
    fn refused(sheet: &[u8], count: u32) -> Section {
        let [n, k] = [4, 5].map(|place| u32::from(sheet[place]));
        match count {
            _ if k < LEAST_FILLED_K => Section::LowTop,
            u32::MAX => Section::Highest,
            count if count == racks_of(n, k) => Section::FullCount,
            _ => Section::TooHigh,
        }
    }
}

/// How often each event was met.
#[derive(Debug, Default, Clone, PartialEq, Eq)]
pub struct Met(BTreeMap<Event, u64>);

impl Met {
    /// Counts an event.
    pub fn add(&mut self, event: Event) {
        *self.0.entry(event).or_default() += 1;
    }

    /// Those of the events that were never met.
    pub fn unmet(&self, events: &[Event]) -> Vec<Event> {
        let unmet = events.iter().filter(|event| !self.0.contains_key(event));
        unmet.copied().collect()
    }

    /// A text for each event that was met.
    pub fn texts(&self) -> impl Iterator<Item = String> + '_ {
        let each = |(event, count): (&Event, &u64)| format!("{event}: {count}");
        self.0.iter().map(each)
    }

    /// Counts two faults that are all the faults there are.
    pub fn add_faults(&mut self, faults: Faults) {
        if let Some(pair) = faults.pair() {
            self.add(Event::Faults(pair));
        }
    }

    /// Counts what became of the first section of a sheet.
    pub fn add_section(&mut self, sheet: &[u8]) {
        if let Some(section) = Section::of(sheet) {
            self.add(Event::Section(section));
        }
    }

    /// Counts that a sheet with a section of 7 bytes was accepted.
    pub fn add_part_sheet(&mut self, sheet: &[u8]) {
        if Section::of(sheet) == Some(Section::Accepted) {
            self.add(Event::Section(Section::Accepted));
        }
    }

    /// Counts whether a server of a sound hall that is not full is fitted.
    pub fn add_whether_fitted(&mut self, h: Hall, uid: u32) {
        if !is_full(h) && uid < servers_of(h) {
            self.add(Event::Fitted(is_fitted(h, uid)));
        }
    }

    /// Counts how much is fitted of the DCell(2) around a server of a sound hall that is not full.
    pub fn add_share(&mut self, h: Hall, uid: u32) {
        if is_full(h) || uid >= servers_of(h) {
            return;
        }
        let fitted = fitted_servers(h, uid);
        let share = match fitted {
            0 => 0,
            _ if fitted < size_of(h, LEAST_FILLED_K) => 1,
            _ => 2,
        };
        self.add(Event::Share(share));
    }

    /// Counts whose server shuts a port that decides what a server of a sound hall does, if one does. It is lent codes that begin at a
    /// server, and whether other codes in the full hall have it do something else is asked.
    pub fn add_fitted(
        &mut self,
        h: Hall,
        uid: u32,
        first: u32,
        codes: &[u8],
        differs: impl Fn(Hall, &[u8]) -> bool,
    ) {
        if is_full(h) {
            return;
        }
        if is_fitted(h, uid) {
            if differs(full(h), codes) {
                self.add(Event::FarServer);
            }
        } else if differs(full(h), &without_far_servers(h, first, codes)) {
            self.add(Event::OwnServer);
        }
    }

    /// Takes a sound step of a packet that came to a server, and counts what it did.
    fn add_step(&mut self, h: Hall, uid: u32, came: Packet, lent: &[u8]) -> Step {
        let answer = step(h, uid, came, lent);
        self.add(Event::Reroutes(answer.reroutes));
        let set = set_by(&answer);
        if set {
            self.add(Event::Set);
        }
        if answer.reroutes > u32::from(set) {
            self.add(Event::Cleared);
        }
        if set && answer.reroutes == 1 && came.has_proxy && came.proxy == uid {
            let level = first_link(h, uid, came.dst).level;
            self.add(Event::Arrived { k: h.k, level });
        }
        if answer != step(h, uid, came, &with_far_ports_up(h, lent)) {
            self.add(Event::FarPort);
        }
        let (near, far) = lent.split_at(cell_codes(h));
        self.add_fitted(h, uid, cell(h, uid, h.b).first, near, |hall, near| {
            answer != step(hall, uid, came, &[near, far].concat())
        });
        answer
    }

    /// Counts what a step did that returned a number, and how it ended.
    pub fn add_near(&mut self, at: &Near, number: u32) {
        if number == NONE {
            let answer = self.add_step(at.hall, at.uid, at.packet, &at.codes);
            self.add(Event::Ending(answer.ending));
        }
        if number == LENGTH && at.codes.len() == cell_codes(at.hall) {
            self.add(Event::CellAlone);
        }
    }

    /// Counts what the steps of a sound journey did, how it ended, and whether it crossed the most links.
    pub fn add_journey(&mut self, at: &Far) {
        let (mut uid, mut packet) = (at.uid, at.packet);
        let mut reroutes = 0;
        for links in 0.. {
            let lent = lent_to_step(full(at.hall), &at.table, uid);
            let answer = self.add_step(at.hall, uid, packet, &lent);
            reroutes += answer.reroutes;
            if answer.ending == FORWARDED {
                (uid, packet) = (answer.next, answer.packet);
                continue;
            }
            self.add(Event::Ending(answer.ending));
            if links > 0 && answer.ending == DELIVERED && !is_full(at.hall) {
                self.add(Event::PartDelivered);
                if reroutes > 0 {
                    self.add(Event::PartRerouted);
                }
            }
            if links == MOST_LINKS {
                self.add(Event::Longest(answer.ending));
            }
            return;
        }
    }
}

/// A number with its place.
const fn told(number: u32, place: u32) -> Event {
    Event::Told { number, place }
}

/// The numbers with their places, and behind them the pairs of faults.
const fn reading() -> [Event; TOLD.len() + PAIRS.len()] {
    let mut events = [TOLD[0]; TOLD.len() + PAIRS.len()];
    let mut place = 1;
    while place < events.len() {
        events[place] = if place < TOLD.len() {
            TOLD[place]
        } else {
            Event::Faults(PAIRS[place - TOLD.len()])
        };
        place += 1;
    }
    events
}

/// The words for an ending.
fn ending_words(ending: u32) -> &'static str {
    match ending {
        FORWARDED => "forwarded",
        DROP_TTL => "drop 1",
        DROP_NO_ROUTE => "drop 2",
        DROP_RETRY => "drop 3",
        DROP_NO_PROXY => "drop 4",
        DELIVERED => "delivered",
        _ => "no ending",
    }
}

/// The level that an arrived packet looks for a proxy from, where a link of a level is of no use.
fn m(k: u32, level: u32) -> u32 {
    k.min(level + 1)
}

/// The table lent to a step, with every far port up.
fn with_far_ports_up(h: Hall, lent: &[u8]) -> Vec<u8> {
    let mut codes = lent.to_vec();
    codes[cell_codes(h)..].fill(UP);
    codes
}

/// Whether a step set a proxy: the last of its reroutes did, where it sends the packet on to one.
fn set_by(answer: &Step) -> bool {
    answer.ending == FORWARDED && answer.reroutes > 0 && answer.packet.has_proxy
}

#[cfg(test)]
mod tests {
    use super::*;
    use crate::compare::packets::{any_far, any_near};
    use crate::compare::tables::Table;
    use peer::forward::journey;
    use peer::random::Random;

    const RING: Hall = Hall::full(4, 1, 0);

    /// A packet over a proxy to server 19.
    fn over(proxy: u32, retry: u8) -> Packet {
        Packet {
            dst: 19,
            has_proxy: true,
            proxy,
            retry,
            ttl: 9,
        }
    }

    /// What one step does at server 0 with these ports down; those from 8 on are far ones.
    fn step_events(packet: Packet, down: &[usize]) -> Vec<String> {
        let mut codes = [1; 12];
        for &place in down {
            codes[place] = 2;
        }
        let mut met = Met::default();
        met.add_step(RING, 0, packet, &codes);
        met.texts().collect()
    }

    #[test]
    fn a_proxy_that_is_cleared_and_one_that_is_set_are_told_apart() {
        let both = ["2 reroutes: 1", "proxy set: 1", "proxy cleared: 1"];
        assert_eq!(step_events(over(1, 5), &[2, 7]), both);
        let cleared = ["1 reroute: 1", "proxy cleared: 1"];
        assert_eq!(step_events(over(1, 5), &[2]), cleared);
        assert_eq!(step_events(over(1, 2), &[2, 7]), cleared);
        assert_eq!(step_events(over(4, 5), &[]), ["0 reroutes: 1"]);
    }

    #[test]
    fn a_packet_that_arrived_is_told_where_it_gets_a_new_proxy() {
        let arrived = ["1 reroute: 1", "proxy set: 1", "arrived k=1 link 1 m=1: 1"];
        assert_eq!(step_events(over(0, 5), &[7]), arrived);
        assert_eq!(step_events(over(0, 1), &[7]), ["0 reroutes: 1"]);
        assert_eq!(step_events(over(0, 5), &[]), ["0 reroutes: 1"]);
    }

    #[test]
    fn a_far_port_that_decides_is_told() {
        let rerouted = ["1 reroute: 1", "proxy set: 1", "far port decides: 1"];
        let packet = Packet {
            has_proxy: false,
            ..over(0, 5)
        };
        assert_eq!(step_events(packet, &[11]), rerouted);
        assert_eq!(step_events(packet, &[8]), ["0 reroutes: 1"]);
        assert_eq!(step_events(packet, &[7, 11]), rerouted[..2]);
    }

    #[test]
    fn a_journey_tells_its_steps_and_its_ending() {
        let mut codes = vec![1; 40];
        (codes[7], codes[33]) = (2, 2);
        let at = Far {
            hall: RING,
            uid: 0,
            packet: Packet {
                has_proxy: false,
                ..over(0, 5)
            },
            flag: 0,
            table: Table::Own(codes),
        };
        let mut met = Met::default();
        met.add_journey(&at);
        let told = [
            "delivered: 1",
            "0 reroutes: 4",
            "1 reroute: 1",
            "proxy set: 1",
        ];
        assert_eq!(met.texts().collect::<Vec<String>>(), told);
    }

    #[test]
    fn each_call_that_reads_a_frame_has_its_pairs_and_its_numbers() {
        let texts = |events: &[Event]| events.iter().map(Event::to_string).collect::<Vec<_>>();
        let told = [
            "0 at 0", "7 at 0", "9 at 0", "11 at 0", "13 at 0", "14 at 0", "15 at 8", "16 at 8",
        ];
        let (numbers, pairs) = HEADER_PLACE.split_at(8);
        assert_eq!(texts(numbers), told);
        assert_eq!(pairs, PAYLOAD);
        let (without, with_room) = READ_HEADER.split_at(33);
        assert_eq!(without, PAYLOAD);
        assert_eq!(texts(&PAYLOAD[..1]), ["under 20 bytes + version"]);
        assert_eq!(texts(&with_room[8..]), ["short payload + short room"]);
    }

    #[test]
    fn two_faults_alone_are_an_event() {
        let mut met = Met::default();
        let one = Faults::NONE.and(Fault::Flags);
        let two = one.and(Fault::Version);
        for faults in [Faults::NONE, one, two, two.and(Fault::Room)] {
            met.add_faults(faults);
        }
        assert_eq!(met.texts().collect::<Vec<String>>(), ["version + flags: 1"]);
    }

    #[test]
    fn every_event_of_a_step_is_drawn_more_than_now_and_then() {
        let mut random = Random::new(1);
        let mut met = Met::default();
        for _ in 0..100_000 {
            let at = any_near(&mut random);
            let number = step(at.hall, at.uid, at.packet, &at.codes).refusal;
            met.add_near(&at, number);
        }
        let rare = |event: &&Event| met.0.get(event).is_none_or(|&count| count < 10);
        assert_eq!(
            STEP.iter().filter(rare).collect::<Vec<_>>(),
            [] as [&Event; 0]
        );
    }

    #[test]
    fn every_event_of_a_journey_but_the_longest_is_drawn_more_than_now_and_then() {
        let mut random = Random::new(2);
        let mut met = Met::default();
        for _ in 0..40_000 {
            let at = any_far(&mut random);
            if journey(at.hall, at.uid, at.packet, &at.table).refusal == NONE {
                met.add_journey(&at);
            }
        }
        let (drawn, _) = JOURNEY.split_at(JOURNEY.len() - 2);
        let rare = |event: &&Event| met.0.get(event).is_none_or(|&count| count < 10);
        assert_eq!(
            drawn.iter().filter(rare).collect::<Vec<_>>(),
            [] as [&Event; 0]
        );
    }

    #[test]
    fn a_port_that_is_shut_for_its_own_server_or_for_its_far_one_is_told() {
        let h = Hall {
            count: 3,
            ..Hall::full(2, 2, 1)
        };
        let told = |uid, dst| {
            let mut met = Met::default();
            let packet = Packet {
                dst,
                has_proxy: false,
                ..over(0, 5)
            };
            met.add_step(h, uid, packet, &[1; 24]);
            met.texts().collect::<Vec<String>>()
        };
        assert_eq!(told(0, 17), ["0 reroutes: 1"]);
        let rerouted = ["1 reroute: 1", "proxy set: 1", "far server not fitted: 1"];
        assert_eq!(told(2, 18), rerouted);
        assert_eq!(told(18, 19), ["0 reroutes: 1", "own server not fitted: 1"]);
        assert_eq!(told(18, 18), ["0 reroutes: 1"]);
    }

    #[test]
    fn what_became_of_a_first_section_is_told() {
        let mut bytes = vec![0, 0, 0, 7, 2, 2, 1, 0, 0, 0, 3, 0, 0, 0, 126];
        bytes.extend([1; 126]);
        bytes.extend([0; 4]);
        let told = |place: usize, byte, length: usize| {
            let mut sheet = bytes[..length].to_vec();
            sheet[place] = byte;
            Section::of(&sheet).map(|section| section.to_string())
        };
        let words = |text: &str| Some(text.to_owned());
        assert_eq!(told(0, 0, 145), words("7-byte section accepted"));
        assert_eq!(told(10, 7, 145), words("full count, 1 at 7"));
        assert_eq!(told(10, 8, 145), words("count too high, 1 at 7"));
        assert_eq!(told(5, 1, 145), words("k below 2, 1 at 7"));
        for length in 8..11 {
            assert_eq!(told(0, 0, length), words("cut within the count"));
        }
        assert_eq!(told(3, 5, 145), words("first count 5"));
        for (place, byte, length) in [(3, 9, 145), (3, 3, 145), (0, 0, 7), (0, 0, 11), (4, 9, 145)]
        {
            assert_eq!(told(place, byte, length), None);
        }
    }
}
