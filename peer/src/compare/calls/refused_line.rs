//! The line of a refused sheet.

use peer::random::Random;
use peer::refusal::{NONE, ROOM};
use peer::report;

use super::end_line::LINES;
use crate::compare::call::Call;
use crate::compare::events::{Event, Met};
use crate::compare::numbers::{any_number, edge_numbers};
use crate::compare::texts::{line_length, LineRooms, Spot, FITS};
use crate::rattle;

/// The call `calls_refused_line`.
pub struct RefusedLine;

/// A refusal's number and place, or any two numbers, and where the line is to be written.
#[derive(Debug)]
pub struct Input {
    number: u32,
    place: u32,
    spot: Spot,
}

impl Call for RefusedLine {
    type Input = Input;
    type Rooms = LineRooms;

    const NAME: &'static str = "refused line";
    const NUMBERS: &'static [u32] = &[NONE, ROOM];
    const EVENTS: &'static [Event] = FITS;
    const INPUTS: u32 = LINES;

    fn any(random: &mut Random) -> Input {
        Input {
            number: any_number(random),
            place: any_number(random),
            spot: Spot::any(random),
        }
    }

    fn edges() -> impl Iterator<Item = Input> {
        let spots = Spot::edges().collect::<Vec<Spot>>().into_iter().cycle();
        let tens = (0..10).map(|digits| 10u32.pow(digits));
        let numbers = tens.flat_map(|ten| [ten - 1, ten]).chain(edge_numbers());
        let told = numbers.flat_map(|number| [(number, 0), (0, number), (number, !number)]);
        let inputs = told.zip(spots);
        inputs.map(|((number, place), spot)| Input {
            number,
            place,
            spot,
        })
    }

    fn count(_: &Input, number: u32, rooms: &LineRooms, met: &mut Met) {
        rooms.count(number, met);
    }

    fn rooms(input: &Input, random: &mut Random) -> LineRooms {
        let line = line_length(|text| report::refused_line(text, input.number, input.place));
        input.spot.rooms(random, line)
    }

    fn ample_rooms() -> LineRooms {
        LineRooms::ample()
    }

    fn rattle(input: &Input, rooms: &mut LineRooms) -> u32 {
        let (number, place, at) = (input.number, input.place, input.spot.at);
        let (room, end) = rooms.lent();
        rattle::refused_line(number, place, at, room, end)
    }

    fn peer(input: &Input, rooms: &mut LineRooms) -> u32 {
        let add = |text: &mut Vec<u8>| report::refused_line(text, input.number, input.place);
        rooms.tell_added(input.spot.at, add)
    }
}
