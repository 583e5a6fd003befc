//! The route between two servers in the driver's form.

use peer::random::Random;
use peer::refusal::{HALL, NONE, ROOM, UID};
use peer::route::{route, route_words, ROUTE_ROOM, WORD};

use crate::compare::call::Call;
use crate::compare::cases::{by_size, Case};
use crate::compare::pairs::Pair;
use crate::compare::room::Room;
use crate::rattle;

/// The bytes of the longest route.
const BYTES: usize = ROUTE_ROOM * WORD;

/// The call `tbexlum_route`.
pub struct DriverRoute;

impl Call for DriverRoute {
    type Input = Pair;
    type Rooms = Room<u8>;

    const NAME: &'static str = "driver route";
    const NUMBERS: &'static [u32] = &[NONE, HALL, UID, ROOM];
    const INPUTS: u32 = 1_500_000;

    fn any(random: &mut Random) -> Pair {
        Pair::any(random)
    }

    fn edges() -> impl Iterator<Item = Pair> {
        Pair::edges()
    }

    fn long_edges() -> impl Iterator<Item = Pair> {
        Pair::long_edges()
    }

    fn rooms(at: &Pair, random: &mut Random) -> Room<u8> {
        let servers = route(at.hall, at.x, at.y).links as usize + 1;
        at.room(random, servers * WORD, BYTES + 2)
    }

    fn cases() -> Vec<Case<Pair>> {
        by_size(Pair::sound)
    }

    fn ample_rooms() -> Room<u8> {
        Room::new(BYTES)
    }

    fn rattle(at: &Pair, room: &mut Room<u8>) -> u32 {
        rattle::driver_route(at.hall, at.x, at.y, room.lent())
    }

    fn peer(at: &Pair, room: &mut Room<u8>) -> u32 {
        route_words(at.hall, at.x, at.y, room.lent())
    }
}
