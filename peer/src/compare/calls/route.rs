//! The route between two servers.

use peer::random::Random;
use peer::refusal::{HALL, NONE, ROOM, UID};
use peer::route::{route, ROUTE_ROOM};

use crate::compare::call::Call;
use crate::compare::cases::{by_size, Case};
use crate::compare::pairs::Pair;
use crate::compare::room::{told, Room};
use crate::rattle;

/// The longest room, longer than the answer.
const LONGEST: usize = ROUTE_ROOM + 2;

/// The call `calls_route`.
pub struct Route;

impl Call for Route {
    type Input = Pair;
    type Rooms = Room<u32>;

    const NAME: &'static str = "route";
    const NUMBERS: &'static [u32] = &[NONE, HALL, UID, ROOM];
    const INPUTS: u32 = 1_500_000;

    fn any(random: &mut Random) -> Pair {
        Pair::any(random)
    }

    fn edges() -> impl Iterator<Item = Pair> {
        Pair::edges()
    }

    fn long_edges() -> impl Iterator<Item = Pair> {
        Pair::long_edges()
    }

    fn rooms(at: &Pair, random: &mut Random) -> Room<u32> {
        at.room(random, ROUTE_ROOM, LONGEST)
    }

    fn cases() -> Vec<Case<Pair>> {
        by_size(Pair::sound)
    }

    fn ample_rooms() -> Room<u32> {
        Room::new(ROUTE_ROOM)
    }

    fn rattle(at: &Pair, room: &mut Room<u32>) -> u32 {
        rattle::route(at.hall, at.x, at.y, room.lent())
    }

    fn peer(at: &Pair, room: &mut Room<u32>) -> u32 {
        let answer = route(at.hall, at.x, at.y);
        told(answer.refusal, &answer.uids, room.lent())
    }
}
