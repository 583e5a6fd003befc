//! The first link above the local level of the route between two servers.

use peer::hall::MOST_B;
use peer::random::Random;
use peer::refusal::{HALL, NONE, ROOM, UID};
use peer::route::first_link;

use super::HALL_ROOM;
use crate::compare::call::Call;
use crate::compare::cases::{by_b, Case};
use crate::compare::pairs::Pair;
use crate::compare::room::{told, Room};
use crate::rattle;

/// The values of the answer: the level, which is 0 where there is no such link, and the two ends.
const VALUES: usize = 3;

/// The call `calls_first_link`.
pub struct FirstLink;

impl Call for FirstLink {
    type Input = Pair;
    type Rooms = Room<u32>;

    const NAME: &'static str = "first link";
    const NUMBERS: &'static [u32] = &[NONE, HALL, UID, ROOM];
    const INPUTS: u32 = 500_000;

    fn any(random: &mut Random) -> Pair {
        Pair::any(random)
    }

    fn edges() -> impl Iterator<Item = Pair> {
        Pair::edges().flat_map(with_each_b)
    }

    fn long_edges() -> impl Iterator<Item = Pair> {
        Pair::long_edges().flat_map(with_each_b)
    }

    fn rooms(at: &Pair, random: &mut Random) -> Room<u32> {
        at.room(random, VALUES, HALL_ROOM)
    }

    fn cases() -> Vec<Case<Pair>> {
        by_b(Pair::sound)
    }

    fn ample_rooms() -> Room<u32> {
        Room::new(VALUES)
    }

    fn rattle(at: &Pair, room: &mut Room<u32>) -> u32 {
        rattle::first_link(at.hall, at.x, at.y, room.lent())
    }

    fn peer(at: &Pair, room: &mut Room<u32>) -> u32 {
        let link = first_link(at.hall, at.x, at.y);
        told(
            link.refusal,
            &[link.level, link.near, link.far],
            room.lent(),
        )
    }
}

/// The pair as it is, and with the other local level that its hall may have.
fn with_each_b(at: Pair) -> impl Iterator<Item = Pair> {
    let mut other = at;
    other.hall.b = MOST_B - at.hall.b.min(MOST_B);
    [at, other].into_iter()
}
