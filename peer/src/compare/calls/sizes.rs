//! The sizes of a hall.

use peer::hall::{self, Hall, LEVELS};
use peer::random::Random;
use peer::refusal::{HALL, NONE, ROOM};

use super::HALL_ROOM;
use crate::compare::call::Call;
use crate::compare::cases::{by_size, Case};
use crate::compare::inputs::{any_hall, edge_halls};
use crate::compare::room::{told, Room};
use crate::rattle;

/// The call `calls_sizes`.
pub struct Sizes;

impl Call for Sizes {
    type Input = Hall;
    type Rooms = Room<u32>;

    const NAME: &'static str = "sizes";
    const NUMBERS: &'static [u32] = &[NONE, HALL, ROOM];

    fn any(random: &mut Random) -> Hall {
        any_hall(random)
    }

    fn edges() -> impl Iterator<Item = Hall> {
        edge_halls()
    }

    fn rooms(_: &Hall, random: &mut Random) -> Room<u32> {
        Room::any(random, LEVELS, HALL_ROOM)
    }

    fn cases() -> Vec<Case<Hall>> {
        by_size(|_, hall| hall)
    }

    fn ample_rooms() -> Room<u32> {
        Room::new(LEVELS)
    }

    fn rattle(h: &Hall, room: &mut Room<u32>) -> u32 {
        rattle::sizes(*h, room.lent())
    }

    fn peer(h: &Hall, room: &mut Room<u32>) -> u32 {
        let answer = hall::sizes(*h);
        told(answer.refusal, &answer.t, room.lent())
    }
}
