//! One packet of a sheet.

use peer::random::Random;
use peer::refusal::{CODE, HALL, LENGTH, NONE, RANGE, RETRY, ROOM, SHEET, UID};
use peer::sheet;

use super::sheet::SHEETS;
use crate::compare::call::Call;
use crate::compare::events::{Event, Met, PART_SHEET};
use crate::compare::inputs::around;
use crate::compare::room::{told, Room};
use crate::compare::sheets::{any_sheet, edge_sheets, Sheet};
use crate::compare::trails::longest_sheets;
use crate::rattle;

/// The values of the answer: source, dst, retry and TTL.
const VALUES: usize = 4;

/// The call `calls_sheet_packet`.
pub struct SheetPacket;

/// A sheet and the index of a packet that it has or has not.
#[derive(Debug)]
pub struct Picked {
    pub sheet: Sheet,
    pub i: u32,
}

impl Call for SheetPacket {
    type Input = Picked;
    type Rooms = Room<u32>;

    const NAME: &'static str = "packet";
    const NUMBERS: &'static [u32] = &[NONE, HALL, UID, RANGE, LENGTH, CODE, ROOM, RETRY, SHEET];
    const EVENTS: &'static [Event] = PART_SHEET;
    const INPUTS: u32 = SHEETS;

    fn any(random: &mut Random) -> Picked {
        Picked::any(random)
    }

    fn edges() -> impl Iterator<Item = Picked> {
        Picked::edges()
    }

    fn count(input: &Picked, number: u32, _: &Room<u32>, met: &mut Met) {
        if number == NONE {
            met.add_part_sheet(&input.sheet);
        }
    }

    fn rooms(_: &Picked, random: &mut Random) -> Room<u32> {
        Room::any(random, VALUES, VALUES + 2)
    }

    fn ample_rooms() -> Room<u32> {
        Room::new(VALUES)
    }

    fn rattle(input: &Picked, room: &mut Room<u32>) -> u32 {
        rattle::sheet_packet(&input.sheet, input.i, room.lent())
    }

    fn peer(input: &Picked, room: &mut Room<u32>) -> u32 {
        let answer = sheet::packet(&input.sheet, input.i);
        let values = [answer.source, answer.dst, answer.retry, answer.ttl];
        told(answer.refusal, &values, room.lent())
    }
}

impl Picked {
    /// Any sheet, and the index of one of its packets, of the first that it has not, or of one beyond.
    pub fn any(random: &mut Random) -> Picked {
        let sheet = any_sheet(random);
        let i = around(random, sheet::read(&sheet).packets);
        Picked { sheet, i }
    }

    /// The sheets at an edge, each with the packet it has mostly.
    pub fn edges() -> impl Iterator<Item = Picked> {
        let sheets = edge_sheets().chain(longest_sheets());
        sheets.map(|sheet| Picked { sheet, i: 0 })
    }
}
