//! The line of a hall.

use peer::hall::Hall;
use peer::random::Random;
use peer::refusal::{NONE, ROOM};
use peer::report;

use super::end_line::LINES;
use crate::compare::call::Call;
use crate::compare::events::{Event, Met};
use crate::compare::numbers::{any_numbers_hall, edge_numbers_halls};
use crate::compare::texts::{line_length, LineRooms, Spot, FITS};
use crate::rattle;

/// The call `calls_hall_line`.
pub struct HallLine;

/// A hall, or any three numbers, and where its line is to be written.
#[derive(Debug)]
pub struct Input {
    hall: Hall,
    spot: Spot,
}

impl Call for HallLine {
    type Input = Input;
    type Rooms = LineRooms;

    const NAME: &'static str = "hall line";
    const NUMBERS: &'static [u32] = &[NONE, ROOM];
    const EVENTS: &'static [Event] = FITS;
    const INPUTS: u32 = LINES;

    fn any(random: &mut Random) -> Input {
        Input {
            hall: any_numbers_hall(random),
            spot: Spot::any(random),
        }
    }

    fn edges() -> impl Iterator<Item = Input> {
        let spots = Spot::edges().collect::<Vec<Spot>>().into_iter().cycle();
        let inputs = edge_numbers_halls().zip(spots);
        inputs.map(|(hall, spot)| Input { hall, spot })
    }

    fn count(_: &Input, number: u32, rooms: &LineRooms, met: &mut Met) {
        rooms.count(number, met);
    }

    fn rooms(input: &Input, random: &mut Random) -> LineRooms {
        let line = line_length(|text| report::hall_line(text, input.hall));
        input.spot.rooms(random, line)
    }

    fn ample_rooms() -> LineRooms {
        LineRooms::ample()
    }

    fn rattle(input: &Input, rooms: &mut LineRooms) -> u32 {
        let (hall, at) = (input.hall, input.spot.at);
        let (room, end) = rooms.lent();
        rattle::hall_line(hall, at, room, end)
    }

    fn peer(input: &Input, rooms: &mut LineRooms) -> u32 {
        rooms.tell_added(input.spot.at, |text| report::hall_line(text, input.hall))
    }
}
