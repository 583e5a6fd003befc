//! The table lent to a step of a server: the part of a hall table that holds its DCell(b), and the codes of the far ports above b.

use peer::hall::Hall;
use peer::ports;
use peer::random::Random;
use peer::refusal::{HALL, LENGTH, NONE, ROOM, UID};

use super::part::{sound, Input};
use crate::compare::call::Call;
use crate::compare::cases::{by_b, Case};
use crate::compare::events::{Event, Met};
use crate::compare::inputs::{any_hall, any_uid, edge_servers};
use crate::compare::room::Room;
use crate::compare::tables::{any_byte_table, lent_to_step, step_codes};
use crate::compare::texts::FITS;
use crate::rattle;

/// The most codes of a step's table: 72 servers with four ports and two far ones.
const MOST_CODES: usize = 432;

/// Whose server shuts a port is looked for in hall tables of at most so many codes.
const LOOKED_AT: usize = 8_000;

/// What a comparison has to meet: a room that is a byte too short, the exact one and one byte more, and a port that is shut for its own
/// server, or for its far one.
const MET: &[Event] = &[
    FITS[0],
    FITS[1],
    FITS[2],
    Event::OwnServer,
    Event::FarServer,
];

/// The call `tbexlum_step_table`.
pub struct StepTable;

impl Call for StepTable {
    type Input = Input;
    type Rooms = Room<u8>;

    const NAME: &'static str = "step table";
    const NUMBERS: &'static [u32] = &[NONE, HALL, LENGTH, UID, ROOM];
    const EVENTS: &'static [Event] = MET;
    const INPUTS: u32 = 60_000;
    const MEASURED: usize = 64;

    fn any(random: &mut Random) -> Input {
        let hall = any_hall(random);
        let uid = any_uid(random, hall);
        with_table(random, hall, uid)
    }

    fn edges() -> impl Iterator<Item = Input> {
        let mut random = Random::new(0);
        edge_servers().map(move |(hall, uid)| with_table(&mut random, hall, uid))
    }

    fn count(input: &Input, number: u32, room: &Room<u8>, met: &mut Met) {
        let spare = room.length().checked_signed_diff(step_codes(input.hall));
        if let (NONE | ROOM, Some(bytes @ -1..=1)) = (number, spare) {
            met.add(Event::Spare { number, bytes });
        }
        if number == NONE && input.table.len() <= LOOKED_AT {
            let own = lent_to_step(input.hall, &input.table, input.uid);
            met.add_fitted(input.hall, input.uid, 0, &input.table, |hall, table| {
                own != lent_to_step(hall, table, input.uid)
            });
        }
    }

    fn rooms(input: &Input, random: &mut Random) -> Room<u8> {
        let needed = step_codes(input.hall);
        Room::any(random, needed, 2 * needed)
    }

    fn cases() -> Vec<Case<Input>> {
        by_b(sound)
    }

    fn ample_rooms() -> Room<u8> {
        Room::new(MOST_CODES)
    }

    fn rattle(input: &Input, room: &mut Room<u8>) -> u32 {
        rattle::step_table(input.hall, &input.table, input.uid, room.lent())
    }

    fn peer(input: &Input, room: &mut Room<u8>) -> u32 {
        ports::step_table(input.hall, &input.table, input.uid, room.lent())
    }
}

/// A hall and a uid with any table, of any bytes where the hall is light.
fn with_table(random: &mut Random, hall: Hall, uid: u32) -> Input {
    let table = any_byte_table(random, hall);
    Input { hall, table, uid }
}

#[cfg(test)]
mod tests {
    use super::*;

    #[test]
    fn the_ample_room_is_that_of_the_largest_table() {
        assert_eq!(step_codes(Hall::full(8, 3, 1)), MOST_CODES);
    }
}
