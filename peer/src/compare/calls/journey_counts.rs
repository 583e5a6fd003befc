//! A journey over the hall table: its ending, links and reroutes.

use peer::forward;
use peer::random::Random;
use peer::refusal::{HALL, LENGTH, NONE, RETRY, ROOM, UID};

use super::journey::{tried, JOURNEYS, MEASURED};
use crate::compare::call::Call;
use crate::compare::cases::{by_b_and_share, Case};
use crate::compare::events::{self, Event, Met};
use crate::compare::packets::{any_far, sound_far, Far};
use crate::compare::room::{told, Room};
use crate::rattle;

/// The values of the answer: the ending, the links, the reroutes.
const VALUES: usize = 3;

/// The call `calls_journey_counts`.
pub struct JourneyCounts;

impl Call for JourneyCounts {
    type Input = Far;
    type Rooms = Room<u32>;

    const NAME: &'static str = "counts";
    const NUMBERS: &'static [u32] = &[NONE, HALL, UID, LENGTH, ROOM, RETRY];
    const EVENTS: &'static [Event] = events::JOURNEY;
    const INPUTS: u32 = JOURNEYS;
    const MEASURED: usize = MEASURED;

    fn any(random: &mut Random) -> Far {
        any_far(random)
    }

    fn edges() -> impl Iterator<Item = Far> {
        tried()
    }

    fn count(at: &Far, number: u32, _: &Room<u32>, met: &mut Met) {
        if number == NONE {
            met.add_journey(at);
        }
    }

    fn rooms(_: &Far, random: &mut Random) -> Room<u32> {
        Room::any(random, VALUES, VALUES + 2)
    }

    fn cases() -> Vec<Case<Far>> {
        by_b_and_share(sound_far)
    }

    fn ample_rooms() -> Room<u32> {
        Room::new(VALUES)
    }

    fn rattle(at: &Far, room: &mut Room<u32>) -> u32 {
        rattle::journey_counts(at.hall, at.uid, at.packet, at.flag, &at.table, room.lent())
    }

    fn peer(at: &Far, room: &mut Room<u32>) -> u32 {
        let answer = forward::journey(at.hall, at.uid, at.packet, &at.table);
        let values = [answer.ending, answer.links, answer.reroutes];
        told(answer.refusal, &values, room.lent())
    }
}
