//! The neighbour of a server at a level.

use peer::hall;
use peer::random::Random;
use peer::refusal::{HALL, NONE, RANGE, ROOM, UID};

use super::HALL_ROOM;
use crate::compare::call::Call;
use crate::compare::cases::{by_size, Case};
use crate::compare::inputs::Place;
use crate::compare::room::{told, Room};
use crate::rattle;

/// The values of the answer: the uid.
const VALUES: usize = 1;
/// The lowest level that has neighbours of its own.
const LEAST_LEVEL: u32 = 1;

/// The call `calls_neighbour`.
pub struct Neighbour;

impl Call for Neighbour {
    type Input = Place;
    type Rooms = Room<u32>;

    const NAME: &'static str = "neighbour";
    const NUMBERS: &'static [u32] = &[NONE, HALL, UID, RANGE, ROOM];

    fn any(random: &mut Random) -> Place {
        Place::any(random)
    }

    fn edges() -> impl Iterator<Item = Place> {
        Place::edges()
    }

    fn rooms(_: &Place, random: &mut Random) -> Room<u32> {
        Room::any(random, VALUES, HALL_ROOM)
    }

    fn cases() -> Vec<Case<Place>> {
        by_size(|random, hall| Place::sound(random, hall, LEAST_LEVEL))
    }

    fn ample_rooms() -> Room<u32> {
        Room::new(VALUES)
    }

    fn rattle(at: &Place, room: &mut Room<u32>) -> u32 {
        rattle::neighbour(at.hall, at.uid, at.level, room.lent())
    }

    fn peer(at: &Place, room: &mut Room<u32>) -> u32 {
        let answer = hall::neighbour(at.hall, at.uid, at.level);
        told(answer.refusal, &[answer.uid], room.lent())
    }
}
