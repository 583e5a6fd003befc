//! The distances from a server to all of its DCell(b).

use peer::hall::{cell, Hall};
use peer::local::{self, CELL_ROOM};
use peer::random::Random;
use peer::refusal::{HALL, LENGTH, NONE, ROOM, UID};

use crate::compare::call::Call;
use crate::compare::cases::{by_b_and_share, Case};
use crate::compare::counts::fitted_server;
use crate::compare::events::{Event, Met, OWN_SERVER};
use crate::compare::inputs::{any_hall, any_uid, edge_halls, servers, sizes};
use crate::compare::room::{told, Room};
use crate::compare::tables::{any_codes, any_length, cell_codes, codes};
use crate::rattle;

/// The random searches of a short comparison of each call that searches a cell.
pub const SEARCHES: u32 = 500_000;
/// The inputs of each case of such a call.
pub const MEASURED: usize = 128;
/// So many tables are drawn for each uid at an edge.
const TABLES: usize = 3;

/// The call `calls_distances`.
pub struct Distances;

/// A server, a target in the hall, and the table of the server's cell.
#[derive(Debug)]
pub struct Local {
    pub hall: Hall,
    pub uid: u32,
    pub target: u32,
    pub codes: Vec<u8>,
}

impl Call for Distances {
    type Input = Local;
    type Rooms = Room<u8>;

    const NAME: &'static str = "distances";
    const NUMBERS: &'static [u32] = &[NONE, HALL, LENGTH, UID, ROOM];
    const EVENTS: &'static [Event] = OWN_SERVER;
    const INPUTS: u32 = SEARCHES;
    const MEASURED: usize = MEASURED;

    fn any(random: &mut Random) -> Local {
        Local::any(random)
    }

    fn edges() -> impl Iterator<Item = Local> {
        Local::edges()
    }

    fn count(at: &Local, number: u32, _: &Room<u8>, met: &mut Met) {
        if number == NONE {
            at.count(met, |hall, codes| {
                local::distances(hall, at.uid, codes).distance
            });
        }
    }

    fn rooms(_: &Local, random: &mut Random) -> Room<u8> {
        Room::any(random, CELL_ROOM, CELL_ROOM + 2)
    }

    fn cases() -> Vec<Case<Local>> {
        by_b_and_share(Local::sound)
    }

    fn ample_rooms() -> Room<u8> {
        Room::new(CELL_ROOM)
    }

    fn rattle(at: &Local, room: &mut Room<u8>) -> u32 {
        rattle::distances(at.hall, at.uid, &at.codes, room.lent())
    }

    fn peer(at: &Local, room: &mut Room<u8>) -> u32 {
        let answer = local::distances(at.hall, at.uid, &at.codes);
        told(answer.refusal, &answer.distance, room.lent())
    }
}

impl Local {
    /// Any hall, server, target and table.
    pub fn any(random: &mut Random) -> Local {
        let hall = any_hall(random);
        let uid = any_uid(random, hall);
        let count = any_length(random, cell_codes(hall));
        let codes = any_codes(random, count);
        Local::with_target(random, hall, uid, codes)
    }

    /// The uids at the ends of every hall, of its first cell and past them, each with some tables.
    pub fn edges() -> impl Iterator<Item = Local> {
        let mut random = Random::new(0);
        let places = edge_halls().flat_map(|hall| edge_uids(hall).map(|uid| (hall, uid)));
        let places = places.flat_map(|place| [place; TABLES]);
        places.map(move |(hall, uid)| {
            let count = any_length(&mut random, cell_codes(hall));
            let codes = any_codes(&mut random, count);
            Local::with_target(&mut random, hall, uid, codes)
        })
    }

    /// Counts whose server shuts a port that decides an answer on sound input.
    pub fn count<A: PartialEq>(&self, met: &mut Met, answer: impl Fn(Hall, &[u8]) -> A) {
        let first = cell(self.hall, self.uid, self.hall.b).first;
        let own = answer(self.hall, &self.codes);
        met.add_fitted(self.hall, self.uid, first, &self.codes, |hall, codes| {
            own != answer(hall, codes)
        });
    }

    /// A target for a server: mostly in its own cell, else any.
    fn with_target(random: &mut Random, hall: Hall, uid: u32, codes: Vec<u8>) -> Local {
        let cell = sizes(hall).map(|t| t[hall.b as usize]);
        let target = match cell {
            Some(cell) if !random.once_in(4) => {
                (uid / cell * cell).saturating_add(random.below(cell))
            }
            _ => any_uid(random, hall),
        };
        Local {
            hall,
            uid,
            target,
            codes,
        }
    }

    /// A server and a target of one cell of a sound hall, with so many in a hundred codes not up.
    pub fn sound(random: &mut Random, hall: Hall, not_up: u32) -> Local {
        let cell = sizes(hall).map_or(1, |t| t[hall.b as usize]);
        let uid = fitted_server(random, hall).unwrap_or(0);
        Local {
            hall,
            uid,
            target: uid / cell * cell + random.below(cell),
            codes: codes(random, cell_codes(hall), not_up),
        }
    }
}

/// The uids to try in a hall.
fn edge_uids(h: Hall) -> [u32; 7] {
    let count = servers(h).unwrap_or(1);
    let cell = sizes(h).map_or(1, |t| t[h.b as usize]);
    [0, cell - 1, cell, count / 2, count - 1, count, u32::MAX]
}
