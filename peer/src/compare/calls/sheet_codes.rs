//! The hall table of a sheet.

use peer::random::Random;
use peer::refusal::{CODE, HALL, LENGTH, NONE, RETRY, ROOM, SHEET, UID};
use peer::sheet;

use super::sheet::SHEETS;
use crate::compare::call::Call;
use crate::compare::events::{Event, Met, PART_SHEET};
use crate::compare::room::{told, Room};
use crate::compare::sheets::{any_sheet, edge_sheets, Sheet};
use crate::rattle;

/// The most codes of a hall whose sheet can be sound: n = 8, k = 2.
pub const MOST_CODES: usize = 15_768;

/// The call `calls_sheet_codes`.
pub struct SheetCodes;

impl Call for SheetCodes {
    type Input = Sheet;
    type Rooms = Room<u8>;

    const NAME: &'static str = "sheet codes";
    const NUMBERS: &'static [u32] = &[NONE, HALL, UID, LENGTH, CODE, ROOM, RETRY, SHEET];
    const EVENTS: &'static [Event] = PART_SHEET;
    const INPUTS: u32 = SHEETS;

    fn any(random: &mut Random) -> Sheet {
        any_sheet(random)
    }

    fn edges() -> impl Iterator<Item = Sheet> {
        edge_sheets()
    }

    fn count(input: &Sheet, number: u32, _: &Room<u8>, met: &mut Met) {
        if number == NONE {
            met.add_part_sheet(input);
        }
    }

    fn rooms(input: &Sheet, random: &mut Random) -> Room<u8> {
        let needed = sheet::codes(input).len();
        Room::any(random, needed, needed + 2)
    }

    fn ample_rooms() -> Room<u8> {
        Room::new(MOST_CODES)
    }

    fn rattle(input: &Sheet, room: &mut Room<u8>) -> u32 {
        rattle::sheet_codes(input, room.lent())
    }

    fn peer(input: &Sheet, room: &mut Room<u8>) -> u32 {
        let number = sheet::read(input).refusal;
        told(number, sheet::codes(input), room.lent())
    }
}
