//! The origin and the count of the distances in a DCell(b).

use peer::local;
use peer::random::Random;
use peer::refusal::{HALL, LENGTH, NONE, ROOM, UID};

use super::distances::{Local, MEASURED, SEARCHES};
use super::HALL_ROOM;
use crate::compare::call::Call;
use crate::compare::cases::{by_b_and_share, Case};
use crate::compare::room::{told, Room};
use crate::rattle;

/// The values of the answer: the origin and the count.
const VALUES: usize = 2;

/// The call `calls_distances_origin`.
pub struct DistancesOrigin;

impl Call for DistancesOrigin {
    type Input = Local;
    type Rooms = Room<u32>;

    const NAME: &'static str = "origin";
    const NUMBERS: &'static [u32] = &[NONE, HALL, LENGTH, UID, ROOM];
    const INPUTS: u32 = SEARCHES;
    const MEASURED: usize = MEASURED;

    fn any(random: &mut Random) -> Local {
        Local::any(random)
    }

    fn edges() -> impl Iterator<Item = Local> {
        Local::edges()
    }

    fn rooms(_: &Local, random: &mut Random) -> Room<u32> {
        Room::any(random, VALUES, HALL_ROOM)
    }

    fn cases() -> Vec<Case<Local>> {
        by_b_and_share(Local::sound)
    }

    fn ample_rooms() -> Room<u32> {
        Room::new(VALUES)
    }

    fn rattle(at: &Local, room: &mut Room<u32>) -> u32 {
        rattle::distances_origin(at.hall, at.uid, &at.codes, room.lent())
    }

    fn peer(at: &Local, room: &mut Room<u32>) -> u32 {
        let answer = local::distances(at.hall, at.uid, &at.codes);
        told(answer.refusal, &[answer.origin, answer.count], room.lent())
    }
}
