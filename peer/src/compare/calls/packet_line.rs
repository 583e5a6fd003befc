//! The line of a packet, by what became of it and the uids that it passed.

use peer::forward::DELIVERED;
use peer::random::Random;
use peer::refusal::{NONE, ROOM};
use peer::report;

use super::end_line::LINES;
use crate::compare::call::Call;
use crate::compare::cases::Case;
use crate::compare::events::{Event, Met};
use crate::compare::numbers::any_number;
use crate::compare::texts::{line_length, LineRooms, Spot, FITS};
use crate::rattle;

/// The most uids of a line.
const MOST_UIDS: u32 = 256;
/// The endings that there are and as many that there are not, from 0 on.
const ENDINGS: u32 = 10;
/// The servers of the largest hall.
const SERVERS: u32 = 27_630_792;

/// The call `calls_packet_line`.
pub struct PacketLine;

/// Source, dst, ending, links and reroutes of a packet, uids, more or fewer than the links say, and where the line is to be written.
#[derive(Debug)]
pub struct Input {
    told: [u32; 5],
    uids: Vec<u32>,
    spot: Spot,
}

impl Call for PacketLine {
    type Input = Input;
    type Rooms = LineRooms;

    const NAME: &'static str = "packet line";
    const NUMBERS: &'static [u32] = &[NONE, ROOM];
    const EVENTS: &'static [Event] = FITS;
    const INPUTS: u32 = LINES;

    fn any(random: &mut Random) -> Input {
        let count = any_count(random);
        let links = any_links(random, count);
        let ending = match random.below(4) {
            0 => any_number(random),
            _ => random.below(ENDINGS),
        };
        let [source, dst, reroutes] = [(); 3].map(|()| any_number(random));
        Input {
            told: [source, dst, ending, links, reroutes],
            uids: (0..count).map(|_| any_number(random)).collect(),
            spot: Spot::any(random),
        }
    }

    fn edges() -> impl Iterator<Item = Input> {
        let spots = Spot::edges().collect::<Vec<Spot>>().into_iter().cycle();
        let inputs = edge_lines().zip(spots);
        inputs.map(|((told, uids), spot)| Input { told, uids, spot })
    }

    fn count(_: &Input, number: u32, rooms: &LineRooms, met: &mut Met) {
        rooms.count(number, met);
    }

    fn rooms(input: &Input, random: &mut Random) -> LineRooms {
        let line = line_length(|text| add(input, text));
        input.spot.rooms(random, line)
    }

    fn cases() -> Vec<Case<Input>> {
        vec![
            case("0 links", 0),
            case("7 links", 7),
            case("15 links", 15),
            case("255 links", 255),
        ]
    }

    fn ample_rooms() -> LineRooms {
        LineRooms::ample()
    }

    fn rattle(input: &Input, rooms: &mut LineRooms) -> u32 {
        let (told, uids, at) = (input.told, &input.uids, input.spot.at);
        let (room, end) = rooms.lent();
        rattle::packet_line(told, uids, at, room, end)
    }

    fn peer(input: &Input, rooms: &mut LineRooms) -> u32 {
        rooms.tell_added(input.spot.at, |text| add(input, text))
    }
}

/// Adds the line of an input to a text.
fn add(input: &Input, text: &mut Vec<u8>) {
    let [source, dst, ending, links, reroutes] = input.told;
    report::packet_line(text, source, dst, ending, links, reroutes, &input.uids);
}

/// How many uids there are: few, about as many as a line can have, or any number of them.
fn any_count(random: &mut Random) -> u32 {
    match random.below(8) {
        0 => random.below(3),
        1 => MOST_UIDS - 3 + random.below(7),
        2 => random.below(2 * MOST_UIDS),
        _ => random.below(20),
    }
}

/// The links that so many uids are told with: mostly one fewer, else as many, about as many as a line can tell, or any number.
fn any_links(random: &mut Random, uids: u32) -> u32 {
    match random.below(8) {
        0 => any_number(random),
        1 => uids,
        2 => MOST_UIDS - 3 + random.below(5),
        3 => random.below(uids),
        _ => uids.saturating_sub(1),
    }
}

/// Lines with every ending, with links more and fewer than uids, and the longest of all.
fn edge_lines() -> impl Iterator<Item = ([u32; 5], Vec<u32>)> {
    let endings = (0..ENDINGS).chain([u32::MAX - 1, u32::MAX]);
    let counts = [0, 1, 2, 254, 255, 256, 257, 300];
    let sized = endings.flat_map(move |ending| counts.map(|count| (ending, count)));
    sized.flat_map(move |(ending, count)| {
        let links = counts.into_iter().chain([count, u32::MAX - 1, u32::MAX]);
        links.flat_map(move |links| {
            let short = ([1, 2, ending, links, 3], (0..count).collect());
            let most = u32::MAX;
            let long = (
                [most, most, ending, links, most],
                vec![most; count as usize],
            );
            [short, long]
        })
    })
}

/// A line of the benchmark: a packet that was delivered over so many links.
fn case(name: &str, links: u32) -> Case<Input> {
    Case::named(name, move |random| {
        let [source, dst] = [(); 2].map(|()| random.below(SERVERS));
        Input {
            told: [source, dst, DELIVERED, links, 0],
            uids: (0..=links).map(|_| random.below(SERVERS)).collect(),
            spot: Spot::START,
        }
    })
}

#[cfg(test)]
mod tests {
    use super::*;

    #[test]
    fn links_are_told_with_too_few_uids_with_enough_and_with_too_many() {
        let mut random = Random::new(1);
        let inputs: Vec<Input> = (0..8000).map(|_| PacketLine::any(&mut random)).collect();
        let met = |test: fn(u64, u64) -> bool| {
            let wanted = |input: &&Input| {
                let [_, _, _, links, _] = input.told;
                test(u64::from(links) + 1, input.uids.len() as u64)
            };
            let count = inputs.iter().filter(wanted).count();
            assert!(count > 20, "{count}");
        };
        met(|told, uids| told > uids);
        met(|told, uids| told == uids);
        met(|told, uids| told < uids);
        met(|told, uids| told > 256 && uids > 256);
        met(|told, uids| told == 1 << 32 && uids > 0);
    }
}
