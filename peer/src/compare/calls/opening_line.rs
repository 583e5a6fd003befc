//! The first line of a sheet's trace: its hall, or its refusal.

use peer::random::Random;
use peer::refusal::{NONE, ROOM};
use peer::{report, sheet};

use super::sheet::SHEETS;
use crate::compare::call::Call;
use crate::compare::events::{Event, Met};
use crate::compare::sheets::{any_sheet, edge_sheets, without_packets, Sheet};
use crate::compare::texts::{LineRooms, Spot, FITS};
use crate::rattle;

/// The call `calls_opening_line`.
pub struct OpeningLine;

/// A sheet and where its line is to be written.
#[derive(Debug)]
pub struct Input {
    sheet: Sheet,
    spot: Spot,
}

impl Call for OpeningLine {
    type Input = Input;
    type Rooms = LineRooms;

    const NAME: &'static str = "opening line";
    const NUMBERS: &'static [u32] = &[NONE, ROOM];
    const EVENTS: &'static [Event] = FITS;
    const INPUTS: u32 = SHEETS;

    fn any(random: &mut Random) -> Input {
        Input {
            sheet: any_sheet(random),
            spot: Spot::any(random),
        }
    }

    fn edges() -> impl Iterator<Item = Input> {
        let spots = Spot::edges().collect::<Vec<Spot>>().into_iter().cycle();
        let inputs = edge_sheets().zip(spots);
        inputs.map(|(sheet, spot)| Input { sheet, spot })
    }

    fn count(_: &Input, number: u32, rooms: &LineRooms, met: &mut Met) {
        rooms.count(number, met);
    }

    fn rooms(input: &Input, random: &mut Random) -> LineRooms {
        let line = first_line(&input.sheet).len();
        input.spot.rooms(random, line)
    }

    fn ample_rooms() -> LineRooms {
        LineRooms::ample()
    }

    fn rattle(input: &Input, rooms: &mut LineRooms) -> u32 {
        let (sheet, at) = (&input.sheet, input.spot.at);
        let (room, end) = rooms.lent();
        rattle::opening_line(sheet, at, room, end)
    }

    fn peer(input: &Input, rooms: &mut LineRooms) -> u32 {
        rooms.tell(NONE, &first_line(&input.sheet), input.spot.at)
    }
}

/// The first line of the peer's trace, of a sound sheet without its packets, as they are not part of it.
fn first_line(sheet: &[u8]) -> Vec<u8> {
    let text = match sheet::read(sheet).refusal {
        NONE => report::trace(&without_packets(sheet, sheet::codes(sheet).len())),
        _ => report::trace(sheet),
    };
    let mut lines = text.split_inclusive(|&byte| byte == b'\n');
    lines.next().unwrap_or_default().to_vec()
}
