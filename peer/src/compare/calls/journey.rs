//! A journey over the hall table: the uids passed.

use peer::forward::{self, JOURNEY_ROOM};
use peer::random::Random;
use peer::refusal::{HALL, LENGTH, NONE, RETRY, ROOM, UID};

use crate::compare::call::Call;
use crate::compare::cases::{by_b_and_share, halves_by_b_and_share, Case};
use crate::compare::events::{self, Event, Met};
use crate::compare::packets::{any_far, sound_far, Far};
use crate::compare::room::{told, Room};
use crate::compare::trails::edge_longest;
use crate::rattle;

/// The random journeys of a short comparison of each call that makes one.
pub const JOURNEYS: u32 = 200_000;
/// The inputs of each case of such a call.
pub const MEASURED: usize = 64;
/// The journeys that every comparison tries.
const TRIED: u32 = 1_000;

/// The call `calls_journey`.
pub struct Journey;

impl Call for Journey {
    type Input = Far;
    type Rooms = Room<u32>;

    const NAME: &'static str = "journey";
    const NUMBERS: &'static [u32] = &[NONE, HALL, UID, LENGTH, ROOM, RETRY];
    const EVENTS: &'static [Event] = events::JOURNEY;
    const INPUTS: u32 = JOURNEYS;
    const MEASURED: usize = MEASURED;

    fn any(random: &mut Random) -> Far {
        any_far(random)
    }

    fn edges() -> impl Iterator<Item = Far> {
        tried()
    }

    fn count(at: &Far, number: u32, _: &Room<u32>, met: &mut Met) {
        if number == NONE {
            met.add_journey(at);
        }
    }

    fn rooms(_: &Far, random: &mut Random) -> Room<u32> {
        Room::any(random, JOURNEY_ROOM, JOURNEY_ROOM + 2)
    }

    fn cases() -> Vec<Case<Far>> {
        let full = by_b_and_share(sound_far).into_iter();
        full.chain(halves_by_b_and_share(sound_far)).collect()
    }

    fn ample_rooms() -> Room<u32> {
        Room::new(JOURNEY_ROOM)
    }

    fn rattle(at: &Far, room: &mut Room<u32>) -> u32 {
        rattle::journey(at.hall, at.uid, at.packet, at.flag, &at.table, room.lent())
    }

    fn peer(at: &Far, room: &mut Room<u32>) -> u32 {
        let answer = forward::journey(at.hall, at.uid, at.packet, &at.table);
        told(answer.refusal, &answer.uids, room.lent())
    }
}

/// Journeys of one seed, for every comparison, and those that cross the most links.
pub fn tried() -> impl Iterator<Item = Far> {
    let mut random = Random::new(3);
    let tried = (0..TRIED).map(move |_| any_far(&mut random));
    tried.chain(edge_longest())
}
