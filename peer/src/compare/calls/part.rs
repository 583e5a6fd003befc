//! The part of a hall table that holds the DCell(b) of a server.

use peer::hall::Hall;
use peer::ports;
use peer::random::Random;
use peer::refusal::{HALL, LENGTH, NONE, ROOM, UID};

use crate::compare::call::Call;
use crate::compare::cases::{by_b, Case};
use crate::compare::inputs::{any_hall, any_uid, edge_halls, servers};
use crate::compare::room::{told, Room};
use crate::compare::tables::{any_hall_table, cell_codes, sound_hall_table, Table};
use crate::rattle;

/// The most codes of a part: 72 servers with four ports.
const MOST_CODES: usize = 288;
/// So many tables are drawn for each hall at an edge.
const TABLES: usize = 3;

/// The call `calls_part`.
pub struct Part;

/// A hall, a table and a server, its own or not.
#[derive(Debug)]
pub struct Input {
    pub hall: Hall,
    pub table: Table,
    pub uid: u32,
}

impl Call for Part {
    type Input = Input;
    type Rooms = Room<u8>;

    const NAME: &'static str = "part";
    const NUMBERS: &'static [u32] = &[NONE, HALL, LENGTH, UID, ROOM];
    const INPUTS: u32 = 60_000;
    const MEASURED: usize = 64;

    fn any(random: &mut Random) -> Input {
        let hall = any_hall(random);
        with_table(random, hall)
    }

    fn edges() -> impl Iterator<Item = Input> {
        let mut random = Random::new(0);
        let halls = edge_halls().flat_map(|hall| [hall; TABLES]);
        halls.flat_map(move |hall| edge_inputs(&mut random, hall))
    }

    fn rooms(input: &Input, random: &mut Random) -> Room<u8> {
        Room::any(random, cell_codes(input.hall), MOST_CODES + 2)
    }

    fn cases() -> Vec<Case<Input>> {
        by_b(sound)
    }

    fn ample_rooms() -> Room<u8> {
        Room::new(MOST_CODES)
    }

    fn rattle(input: &Input, room: &mut Room<u8>) -> u32 {
        rattle::part(input.hall, &input.table, input.uid, room.lent())
    }

    fn peer(input: &Input, room: &mut Room<u8>) -> u32 {
        let (refusal, part) = ports::part(input.hall, &input.table, input.uid);
        told(refusal, part, room.lent())
    }
}

/// Any table and any uid for a hall.
fn with_table(random: &mut Random, hall: Hall) -> Input {
    let table = any_hall_table(random, hall);
    let uid = any_uid(random, hall);
    Input { hall, table, uid }
}

/// The uids at the ends of a hall and past them, each with a table of its own.
fn edge_inputs(random: &mut Random, hall: Hall) -> Vec<Input> {
    let count = servers(hall).unwrap_or(1);
    let uids = [0, count / 2, count - 1, count, u32::MAX];
    let with_uid = |uid| Input {
        uid,
        ..with_table(random, hall)
    };
    uids.map(with_uid).into()
}

/// Any server of a sound hall, with a table of which all codes are up.
pub fn sound(random: &mut Random, hall: Hall) -> Input {
    let (table, uid) = sound_hall_table(random, hall, 0);
    Input { hall, table, uid }
}
