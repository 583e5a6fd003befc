//! The line of a packet's journey.

use peer::random::Random;
use peer::refusal::{CODE, HALL, LENGTH, NONE, RANGE, RETRY, ROOM, SHEET, UID};
use peer::{report, sheet};

use super::sheet::SHEETS;
use super::sheet_packet::Picked;
use crate::compare::call::Call;
use crate::compare::events::{Event, Met, PART_SHEET};
use crate::compare::sheets::alone;
use crate::compare::texts::{LineRooms, Spot, FITS};
use crate::rattle;

/// What a comparison has to meet: what every call that writes a line has to, and a packet of a hall that is not full.
const MET: &[Event] = &[FITS[0], FITS[1], FITS[2], PART_SHEET[0]];

/// The call `calls_journey_line`.
pub struct JourneyLine;

/// A sheet, the index of a packet, and where its line is to be written.
#[derive(Debug)]
pub struct Input {
    picked: Picked,
    spot: Spot,
}

impl Call for JourneyLine {
    type Input = Input;
    type Rooms = LineRooms;

    const NAME: &'static str = "journey line";
    const NUMBERS: &'static [u32] = &[NONE, HALL, UID, RANGE, LENGTH, CODE, ROOM, RETRY, SHEET];
    const EVENTS: &'static [Event] = MET;
    const INPUTS: u32 = SHEETS;

    fn any(random: &mut Random) -> Input {
        Input {
            picked: Picked::any(random),
            spot: Spot::any(random),
        }
    }

    fn edges() -> impl Iterator<Item = Input> {
        let spots = Spot::edges().collect::<Vec<Spot>>().into_iter().cycle();
        let inputs = Picked::edges().zip(spots);
        inputs.map(|(picked, spot)| Input { picked, spot })
    }

    fn count(input: &Input, number: u32, rooms: &LineRooms, met: &mut Met) {
        rooms.count(number, met);
        if number == NONE {
            met.add_part_sheet(&input.picked.sheet);
        }
    }

    fn rooms(input: &Input, random: &mut Random) -> LineRooms {
        let line = journey_line(&input.picked).map_or(0, |line| line.len());
        input.spot.rooms(random, line)
    }

    fn ample_rooms() -> LineRooms {
        LineRooms::ample()
    }

    fn rattle(input: &Input, rooms: &mut LineRooms) -> u32 {
        let (sheet, i, at) = (&input.picked.sheet, input.picked.i, input.spot.at);
        let (room, end) = rooms.lent();
        rattle::journey_line(sheet, i, at, room, end)
    }

    fn peer(input: &Input, rooms: &mut LineRooms) -> u32 {
        match journey_line(&input.picked) {
            Ok(line) => rooms.tell(NONE, &line, input.spot.at),
            Err(refusal) => rooms.tell(refusal, &[], input.spot.at),
        }
    }
}

/// The line of a packet's journey in the peer's trace of the sheet with that packet alone, or the refusal.
fn journey_line(picked: &Picked) -> Result<Vec<u8>, u32> {
    let (sheet, i) = (&picked.sheet, picked.i);
    let refusal = sheet::packet(sheet, i).refusal;
    if refusal != NONE {
        return Err(refusal);
    }
    let text = report::trace(&alone(sheet, sheet::codes(sheet).len(), i));
    let mut lines = text.split_inclusive(|&byte| byte == b'\n');
    Ok(lines.nth(1).unwrap_or_default().to_vec())
}
