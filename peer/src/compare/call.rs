//! What the comparison and the benchmark know of one call.

use std::fmt::Debug;
use std::iter;

use peer::random::Random;
use peer::refusal::NONE;

use super::cases::Case;
use super::events::{Event, Met};
use super::room::{told, Element, Room};

/// A call that both implementations have.
pub trait Call {
    /// What the call is given, its rooms apart.
    type Input: Debug + 'static;
    /// What the call is lent to write to: a `Room`, several as a tuple, or nothing.
    type Rooms: Clone + PartialEq + Debug;

    /// The name of the call in the tables.
    const NAME: &'static str;
    /// Every number that the call can return, 0 included; a comparison has to meet each of them.
    const NUMBERS: &'static [u32];
    /// What a comparison has to meet besides, on inputs that both sides agree on.
    const EVENTS: &'static [Event] = &[];
    /// The random inputs of a short comparison, those of `edges` apart.
    const INPUTS: u32 = 200_000;
    /// The inputs of each case; fewer for a slow call.
    const MEASURED: usize = 1024;

    /// Any input: sound, at an edge, or damaged.
    fn any(random: &mut Random) -> Self::Input;
    /// The inputs that every comparison tries.
    fn edges() -> impl Iterator<Item = Self::Input>;
    /// The inputs that a long comparison tries besides.
    fn long_edges() -> impl Iterator<Item = Self::Input> {
        iter::empty()
    }
    /// Counts what an input did that both sides agree on, by the number returned and the rooms as they were left.
    fn count(_input: &Self::Input, _number: u32, _rooms: &Self::Rooms, _met: &mut Met) {}
    /// Rooms for one input, some of them too short, filled at random.
    fn rooms(input: &Self::Input, random: &mut Random) -> Self::Rooms;
    /// What is measured, a line of the benchmark each; nothing where another call's lines tell as much.
    fn cases() -> Vec<Case<Self::Input>> {
        Vec::new()
    }
    /// Rooms that are long enough for every input of the cases.
    fn ample_rooms() -> Self::Rooms;
    /// The number that Rattle's side returns; its rooms are left as it leaves them.
    fn rattle(input: &Self::Input, rooms: &mut Self::Rooms) -> u32;
    /// The number that the peer's side returns; its rooms are left as it leaves them.
    fn peer(input: &Self::Input, rooms: &mut Self::Rooms) -> u32;
}

/// A call that returns a value and no refusal: it is told by 0, with its value in a room of one element.
pub trait Value {
    /// What the call is given.
    type Input: Debug + 'static;
    /// What it returns.
    type Told: Element;

    /// The name of the call in the tables.
    const NAME: &'static str;
    /// What a comparison has to meet, on inputs that both sides agree on.
    const EVENTS: &'static [Event] = &[];
    /// The random inputs of a short comparison, those of `edges` apart.
    const INPUTS: u32 = 200_000;
    /// The inputs of each case; fewer for a slow call.
    const MEASURED: usize = 1024;

    /// Any input: sound, at an edge, or damaged.
    fn any(random: &mut Random) -> Self::Input;
    /// The inputs that every comparison tries.
    fn edges() -> impl Iterator<Item = Self::Input>;
    /// The inputs that a long comparison tries besides.
    fn long_edges() -> impl Iterator<Item = Self::Input> {
        iter::empty()
    }
    /// Counts what an input did that both sides agree on.
    fn count(_input: &Self::Input, _met: &mut Met) {}
    /// What is measured, a line of the benchmark each; nothing where another call's lines tell as much.
    fn cases() -> Vec<Case<Self::Input>> {
        Vec::new()
    }
    /// What Rattle's side returns.
    fn rattle(input: &Self::Input) -> Self::Told;
    /// What the peer's side returns.
    fn peer(input: &Self::Input) -> Self::Told;
}

impl<V: Value> Call for V {
    type Input = V::Input;
    type Rooms = Room<V::Told>;

    const NAME: &'static str = V::NAME;
    const NUMBERS: &'static [u32] = &[NONE];
    const EVENTS: &'static [Event] = V::EVENTS;
    const INPUTS: u32 = V::INPUTS;
    const MEASURED: usize = V::MEASURED;

    fn any(random: &mut Random) -> V::Input {
        V::any(random)
    }

    fn edges() -> impl Iterator<Item = V::Input> {
        V::edges()
    }

    fn long_edges() -> impl Iterator<Item = V::Input> {
        V::long_edges()
    }

    fn count(input: &V::Input, _: u32, _: &Room<V::Told>, met: &mut Met) {
        V::count(input, met);
    }

    fn rooms(_: &V::Input, _: &mut Random) -> Room<V::Told> {
        Room::new(1)
    }

    fn cases() -> Vec<Case<V::Input>> {
        V::cases()
    }

    fn ample_rooms() -> Room<V::Told> {
        Room::new(1)
    }

    fn rattle(input: &V::Input, room: &mut Room<V::Told>) -> u32 {
        told(NONE, &[V::rattle(input)], room.lent())
    }

    fn peer(input: &V::Input, room: &mut Room<V::Told>) -> u32 {
        told(NONE, &[V::peer(input)], room.lent())
    }
}
