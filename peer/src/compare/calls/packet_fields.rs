//! The fields of a packet of a sheet by their bytes, whether the sheet is sound or not.

use peer::random::Random;
use peer::refusal::{NONE, RANGE, ROOM};
use peer::sheet;

use super::sheet::SHEETS;
use super::sheet_packet::Picked;
use crate::compare::call::Call;
use crate::compare::cases::Case;
use crate::compare::events::{Event, Met, PART_SHEET};
use crate::compare::inputs::within;
use crate::compare::numbers::any_number;
use crate::compare::room::{told, Room};
use crate::compare::sheets::{counted_sheets, largest, LARGEST_HALL};
use crate::rattle;

/// The values of the answer: place, source, dst, retry and TTL.
const VALUES: usize = 5;
/// The indices that the short sheets are tried with; ten times the last but one is a little above the numbers of 32 bits.
const INDICES: [u32; 6] = [0, 1, 2, 3, 429_496_730, u32::MAX];
/// A sheet that is refused is mostly asked for a packet before this one.
const FEW: u32 = 8;

/// The call `calls_packet_fields`.
pub struct PacketFields;

impl Call for PacketFields {
    type Input = Picked;
    type Rooms = Room<u32>;

    const NAME: &'static str = "packet fields";
    const NUMBERS: &'static [u32] = &[NONE, RANGE, ROOM];
    const EVENTS: &'static [Event] = PART_SHEET;
    const INPUTS: u32 = SHEETS;
    const MEASURED: usize = 16;

    fn any(random: &mut Random) -> Picked {
        let Picked { sheet, i } = Picked::any(random);
        let i = match random.below(8) {
            0 => any_number(random),
            1 | 2 => random.below(FEW),
            _ => i,
        };
        Picked { sheet, i }
    }

    fn edges() -> impl Iterator<Item = Picked> {
        let short = counted_sheets().flat_map(|sheet| {
            let with_index = move |i| Picked {
                sheet: sheet.clone(),
                i,
            };
            INDICES.map(with_index)
        });
        Picked::edges().chain(short)
    }

    fn count(input: &Picked, number: u32, _: &Room<u32>, met: &mut Met) {
        if number == NONE {
            met.add_part_sheet(&input.sheet);
        }
    }

    fn rooms(_: &Picked, random: &mut Random) -> Room<u32> {
        Room::any(random, VALUES, VALUES + 2)
    }

    fn cases() -> Vec<Case<Picked>> {
        let most = |random: &mut Random| {
            let sheet = largest(random, LARGEST_HALL, 0);
            let i = within(random, sheet::read(&sheet).packets);
            Picked { sheet, i }
        };
        vec![Case::named("sound", most)]
    }

    fn ample_rooms() -> Room<u32> {
        Room::new(VALUES)
    }

    fn rattle(input: &Picked, room: &mut Room<u32>) -> u32 {
        rattle::packet_fields(&input.sheet, input.i, room.lent())
    }

    fn peer(input: &Picked, room: &mut Room<u32>) -> u32 {
        let answer = sheet::packet_fields(&input.sheet, input.i);
        let values = [
            answer.place,
            answer.source,
            answer.dst,
            answer.retry,
            answer.ttl,
        ];
        told(answer.refusal, &values, room.lent())
    }
}
