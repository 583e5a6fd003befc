//! The last line of a trace: the number of packets.

use peer::random::Random;
use peer::refusal::{NONE, ROOM};
use peer::report;

use crate::compare::call::Call;
use crate::compare::events::{Event, Met};
use crate::compare::texts::{line_length, LineRooms, Spot, FITS};
use crate::rattle;

/// The random lines of a short comparison of each call that writes one from plain numbers.
pub const LINES: u32 = 40_000;

/// The call `calls_end_line`.
pub struct EndLine;

/// A number of packets and where its line is to be written.
#[derive(Debug)]
pub struct Input {
    packets: u32,
    spot: Spot,
}

impl Call for EndLine {
    type Input = Input;
    type Rooms = LineRooms;

    const NAME: &'static str = "end line";
    const NUMBERS: &'static [u32] = &[NONE, ROOM];
    const EVENTS: &'static [Event] = FITS;
    const INPUTS: u32 = LINES;

    fn any(random: &mut Random) -> Input {
        Input {
            packets: random.word() >> random.below(u32::BITS),
            spot: Spot::any(random),
        }
    }

    fn edges() -> impl Iterator<Item = Input> {
        let tens = (0..10).map(|digits| 10u32.pow(digits));
        let numbers = tens.flat_map(|ten| [ten - 1, ten]).chain([u32::MAX]);
        numbers.flat_map(|packets| Spot::edges().map(move |spot| Input { packets, spot }))
    }

    fn count(_: &Input, number: u32, rooms: &LineRooms, met: &mut Met) {
        rooms.count(number, met);
    }

    fn rooms(input: &Input, random: &mut Random) -> LineRooms {
        let line = line_length(|text| report::end_line(text, input.packets));
        input.spot.rooms(random, line)
    }

    fn ample_rooms() -> LineRooms {
        LineRooms::ample()
    }

    fn rattle(input: &Input, rooms: &mut LineRooms) -> u32 {
        let (packets, at) = (input.packets, input.spot.at);
        let (room, end) = rooms.lent();
        rattle::end_line(packets, at, room, end)
    }

    fn peer(input: &Input, rooms: &mut LineRooms) -> u32 {
        rooms.tell_added(input.spot.at, |text| report::end_line(text, input.packets))
    }
}
