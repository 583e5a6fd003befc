//! The reading of a sheet: the place of its first fault.

use peer::random::Random;
use peer::sheet;

use super::sheet::SHEETS;
use crate::compare::call::Value;
use crate::compare::events::{Event, Met, SECTIONS};
use crate::compare::sheets::{any_sheet, edge_sheets, Sheet};
use crate::rattle;

/// The call `calls_sheet_place`, which returns the place.
pub struct SheetPlace;

impl Value for SheetPlace {
    type Input = Sheet;
    type Told = u32;

    const NAME: &'static str = "sheet place";
    const EVENTS: &'static [Event] = SECTIONS;
    const INPUTS: u32 = SHEETS;

    fn any(random: &mut Random) -> Sheet {
        any_sheet(random)
    }

    fn edges() -> impl Iterator<Item = Sheet> {
        edge_sheets()
    }

    fn count(input: &Sheet, met: &mut Met) {
        met.add_section(input);
    }

    fn rattle(input: &Sheet) -> u32 {
        rattle::sheet_place(input)
    }

    fn peer(input: &Sheet) -> u32 {
        sheet::read(input).place
    }
}
