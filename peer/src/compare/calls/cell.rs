//! The DCell of a level around a server.

use peer::hall;
use peer::random::Random;
use peer::refusal::{HALL, NONE, RANGE, ROOM, UID};

use super::HALL_ROOM;
use crate::compare::call::Call;
use crate::compare::cases::{by_size, Case};
use crate::compare::inputs::Place;
use crate::compare::room::{told, Room};
use crate::rattle;

/// The values of the answer: the first uid and the count.
const VALUES: usize = 2;

/// The call `calls_cell`.
pub struct Cell;

impl Call for Cell {
    type Input = Place;
    type Rooms = Room<u32>;

    const NAME: &'static str = "cell";
    const NUMBERS: &'static [u32] = &[NONE, HALL, UID, RANGE, ROOM];

    fn any(random: &mut Random) -> Place {
        Place::any(random)
    }

    fn edges() -> impl Iterator<Item = Place> {
        Place::edges()
    }

    fn rooms(_: &Place, random: &mut Random) -> Room<u32> {
        Room::any(random, VALUES, HALL_ROOM)
    }

    fn cases() -> Vec<Case<Place>> {
        by_size(|random, hall| Place::sound(random, hall, 0))
    }

    fn ample_rooms() -> Room<u32> {
        Room::new(VALUES)
    }

    fn rattle(at: &Place, room: &mut Room<u32>) -> u32 {
        rattle::cell(at.hall, at.uid, at.level, room.lent())
    }

    fn peer(at: &Place, room: &mut Room<u32>) -> u32 {
        let answer = hall::cell(at.hall, at.uid, at.level);
        told(answer.refusal, &[answer.first, answer.count], room.lent())
    }
}
