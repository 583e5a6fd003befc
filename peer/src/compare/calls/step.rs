//! One forwarding step in the driver's form.

use peer::forward;
use peer::random::Random;
use peer::refusal::{HALL, LENGTH, NONE, RETRY, ROOM, UID};
use peer::route::WORD;

use crate::compare::call::Call;
use crate::compare::cases::{by_b_and_share, halves_by_b_and_share, Case};
use crate::compare::events::{self, Event, Met};
use crate::compare::packets::{any_near, sound_near, words_of, Near};
use crate::compare::room::{told, Room};
use crate::rattle;

/// The bytes of the answer: eight words.
const BYTES: usize = 8 * WORD;

/// The call `tbexlum_step`.
pub struct Step;

impl Call for Step {
    type Input = Near;
    type Rooms = Room<u8>;

    const NAME: &'static str = "step";
    const NUMBERS: &'static [u32] = &[NONE, HALL, UID, LENGTH, ROOM, RETRY];
    const EVENTS: &'static [Event] = events::STEP;
    const INPUTS: u32 = 1_000_000;
    const MEASURED: usize = 128;

    fn any(random: &mut Random) -> Near {
        any_near(random)
    }

    fn edges() -> impl Iterator<Item = Near> {
        let mut random = Random::new(2);
        (0..1000).map(move |_| any_near(&mut random))
    }

    fn count(at: &Near, number: u32, _: &Room<u8>, met: &mut Met) {
        met.add_near(at, number);
    }

    fn rooms(_: &Near, random: &mut Random) -> Room<u8> {
        Room::any(random, BYTES, BYTES + 4)
    }

    fn cases() -> Vec<Case<Near>> {
        let full = by_b_and_share(sound_near).into_iter();
        full.chain(halves_by_b_and_share(sound_near)).collect()
    }

    fn ample_rooms() -> Room<u8> {
        Room::new(BYTES)
    }

    fn rattle(at: &Near, room: &mut Room<u8>) -> u32 {
        rattle::step(at.hall, at.uid, at.packet, at.flag, &at.codes, room.lent())
    }

    fn peer(at: &Near, room: &mut Room<u8>) -> u32 {
        let answer = forward::step(at.hall, at.uid, at.packet, &at.codes);
        told(answer.refusal, &words_of(&answer), room.lent())
    }
}
