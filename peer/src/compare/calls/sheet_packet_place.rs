//! One packet of a sheet: the place that its refusal is told at.

use peer::random::Random;
use peer::sheet;

use super::sheet::SHEETS;
use super::sheet_packet::Picked;
use crate::compare::call::Value;
use crate::rattle;

/// The call `calls_sheet_packet_place`, which returns the place.
pub struct SheetPacketPlace;

impl Value for SheetPacketPlace {
    type Input = Picked;
    type Told = u32;

    const NAME: &'static str = "packet place";
    const INPUTS: u32 = SHEETS;

    fn any(random: &mut Random) -> Picked {
        Picked::any(random)
    }

    fn edges() -> impl Iterator<Item = Picked> {
        Picked::edges()
    }

    fn rattle(input: &Picked) -> u32 {
        rattle::sheet_packet_place(&input.sheet, input.i)
    }

    fn peer(input: &Picked) -> u32 {
        sheet::packet(&input.sheet, input.i).place
    }
}
