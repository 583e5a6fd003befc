//! The part of a sheet behind its second count, whether the sheet is sound or not.

use peer::random::Random;
use peer::refusal::{NONE, ROOM};
use peer::sheet;

use super::sheet::SHEETS;
use super::sheet_codes::MOST_CODES;
use crate::compare::call::Call;
use crate::compare::cases::Case;
use crate::compare::events::{Event, Met, PART_SHEET};
use crate::compare::room::{told, Room};
use crate::compare::sheets::{
    any_sheet, counted_sheets, edge_sheets, largest, Sheet, LARGEST_HALL,
};
use crate::rattle;

/// The call `calls_codes_part`.
pub struct CodesPart;

impl Call for CodesPart {
    type Input = Sheet;
    type Rooms = Room<u8>;

    const NAME: &'static str = "codes part";
    const NUMBERS: &'static [u32] = &[NONE, ROOM];
    const EVENTS: &'static [Event] = PART_SHEET;
    const INPUTS: u32 = SHEETS;
    const MEASURED: usize = 16;

    fn any(random: &mut Random) -> Sheet {
        any_sheet(random)
    }

    fn edges() -> impl Iterator<Item = Sheet> {
        edge_sheets().chain(counted_sheets())
    }

    fn count(input: &Sheet, number: u32, _: &Room<u8>, met: &mut Met) {
        if number == NONE {
            met.add_part_sheet(input);
        }
    }

    fn rooms(input: &Sheet, random: &mut Random) -> Room<u8> {
        let needed = sheet::codes_part(input).len();
        Room::any(random, needed, needed + 2)
    }

    fn cases() -> Vec<Case<Sheet>> {
        let most = |random: &mut Random| largest(random, LARGEST_HALL, 0);
        vec![Case::named("15,768 codes", most)]
    }

    fn ample_rooms() -> Room<u8> {
        Room::new(MOST_CODES)
    }

    fn rattle(input: &Sheet, room: &mut Room<u8>) -> u32 {
        rattle::codes_part(input, room.lent())
    }

    fn peer(input: &Sheet, room: &mut Room<u8>) -> u32 {
        told(NONE, sheet::codes_part(input), room.lent())
    }
}
