//! The tuple of a uid.

use peer::hall::{self, Hall, LEVELS};
use peer::random::Random;
use peer::refusal::{HALL, NONE, ROOM, UID};

use super::HALL_ROOM;
use crate::compare::call::Call;
use crate::compare::cases::{by_size, Case};
use crate::compare::inputs::{edge_servers, Place};
use crate::compare::room::{told, Room};
use crate::rattle;

/// The call `calls_tuple`.
pub struct Tuple;

/// A hall and a uid.
#[derive(Debug)]
pub struct Input {
    hall: Hall,
    uid: u32,
}

impl Call for Tuple {
    type Input = Input;
    type Rooms = Room<u32>;

    const NAME: &'static str = "tuple";
    const NUMBERS: &'static [u32] = &[NONE, HALL, UID, ROOM];

    fn any(random: &mut Random) -> Input {
        at(Place::any(random))
    }

    fn edges() -> impl Iterator<Item = Input> {
        edge_servers().map(|(hall, uid)| Input { hall, uid })
    }

    fn rooms(_: &Input, random: &mut Random) -> Room<u32> {
        Room::any(random, LEVELS, HALL_ROOM)
    }

    fn cases() -> Vec<Case<Input>> {
        by_size(|random, hall| at(Place::sound(random, hall, 0)))
    }

    fn ample_rooms() -> Room<u32> {
        Room::new(LEVELS)
    }

    fn rattle(input: &Input, room: &mut Room<u32>) -> u32 {
        rattle::tuple(input.hall, input.uid, room.lent())
    }

    fn peer(input: &Input, room: &mut Room<u32>) -> u32 {
        let answer = hall::tuple_of(input.hall, input.uid);
        told(answer.refusal, &answer.tuple, room.lent())
    }
}

/// The server of a place.
fn at(place: Place) -> Input {
    Input {
        hall: place.hall,
        uid: place.uid,
    }
}
