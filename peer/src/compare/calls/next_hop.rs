//! The local next hop from a server towards a target.

use peer::local;
use peer::random::Random;
use peer::refusal::{HALL, LENGTH, NONE, ROOM, UID};

use super::distances::{Local, MEASURED, SEARCHES};
use super::HALL_ROOM;
use crate::compare::call::Call;
use crate::compare::cases::{by_b_and_share, Case};
use crate::compare::events::{Event, Met, OWN_SERVER};
use crate::compare::room::{told, Room};
use crate::rattle;

/// The values of the answer: whether one was found, and its uid.
const VALUES: usize = 2;

/// The call `calls_next_hop`.
pub struct NextHop;

impl Call for NextHop {
    type Input = Local;
    type Rooms = Room<u32>;

    const NAME: &'static str = "next hop";
    const NUMBERS: &'static [u32] = &[NONE, HALL, LENGTH, UID, ROOM];
    const EVENTS: &'static [Event] = OWN_SERVER;
    const INPUTS: u32 = SEARCHES;
    const MEASURED: usize = MEASURED;

    fn any(random: &mut Random) -> Local {
        Local::any(random)
    }

    fn edges() -> impl Iterator<Item = Local> {
        Local::edges()
    }

    fn count(at: &Local, number: u32, _: &Room<u32>, met: &mut Met) {
        if number == NONE {
            at.count(met, |hall, codes| {
                local::next_hop(hall, at.uid, at.target, codes)
            });
        }
    }

    fn rooms(_: &Local, random: &mut Random) -> Room<u32> {
        Room::any(random, VALUES, HALL_ROOM)
    }

    fn cases() -> Vec<Case<Local>> {
        by_b_and_share(Local::sound)
    }

    fn ample_rooms() -> Room<u32> {
        Room::new(VALUES)
    }

    fn rattle(at: &Local, room: &mut Room<u32>) -> u32 {
        rattle::next_hop(at.hall, at.uid, at.target, &at.codes, room.lent())
    }

    fn peer(at: &Local, room: &mut Room<u32>) -> u32 {
        let answer = local::next_hop(at.hall, at.uid, at.target, &at.codes);
        told(answer.refusal, &[answer.found, answer.uid], room.lent())
    }
}
