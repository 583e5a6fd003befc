//! Words or bytes put at a place of lent room.

use std::fmt::Debug;
use std::marker::PhantomData;

use peer::random::Random;
use peer::refusal::NONE;
use peer::words;

use super::end_line::LINES;
use crate::compare::call::Call;
use crate::compare::events::{Event, Met};
use crate::compare::room::Element;
use crate::compare::texts::{LineRooms, Spot};
use crate::rattle;

/// The most elements that are put at random.
const MOST: u32 = 100;

/// What is put.
pub trait Puts: Element + 'static {
    /// The name of the call in the tables.
    const NAME: &'static str;
    /// Elements at an edge, each of whose starts is put too.
    const EDGES: &'static [Self];

    /// Rattle's side.
    fn rattle(room: &mut [u8], at: usize, values: &[Self]);
    /// The peer's side.
    fn peer(room: &mut [u8], at: usize, values: &[Self]);
}

impl Puts for u32 {
    const NAME: &'static str = "put words";
    const EDGES: &'static [u32] = &[0, u32::MAX, 255, 256, 65_535, 65_536, 1 << 24, 0x0102_0304];

    fn rattle(room: &mut [u8], at: usize, values: &[u32]) {
        rattle::put_words(room, at, values);
    }

    fn peer(room: &mut [u8], at: usize, values: &[u32]) {
        words::put_words(room, at, values);
    }
}

impl Puts for u8 {
    const NAME: &'static str = "put bytes";
    const EDGES: &'static [u8] = &[0, 255, 127, 128, 1];

    fn rattle(room: &mut [u8], at: usize, values: &[u8]) {
        rattle::put_bytes(room, at, values);
    }

    fn peer(room: &mut [u8], at: usize, values: &[u8]) {
        words::put_bytes(room, at, values);
    }
}

/// The call `calls_put_words` or `calls_put_bytes`, by what it puts; neither returns anything.
pub struct Put<E>(PhantomData<E>);

/// What is put, and where.
#[derive(Debug)]
pub struct Input<E> {
    values: Vec<E>,
    spot: Spot,
}

/// Room that is a byte too short, the exact one, and one byte more.
const fn spare(bytes: isize) -> Event {
    let number = NONE;
    Event::Spare { number, bytes }
}

impl<E: Puts> Call for Put<E> {
    type Input = Input<E>;
    type Rooms = LineRooms;

    const NAME: &'static str = E::NAME;
    const NUMBERS: &'static [u32] = &[NONE];
    const EVENTS: &'static [Event] = &[spare(-1), spare(0), spare(1)];
    const INPUTS: u32 = LINES;

    fn any(random: &mut Random) -> Input<E> {
        let count = random.below(MOST + 1);
        Input {
            values: (0..count).map(|_| E::any(random)).collect(),
            spot: Spot::any(random),
        }
    }

    fn edges() -> impl Iterator<Item = Input<E>> {
        (0..=E::EDGES.len()).flat_map(|count| {
            Spot::edges().map(move |spot| Input {
                values: E::EDGES[..count].to_vec(),
                spot,
            })
        })
    }

    fn count(_: &Input<E>, number: u32, rooms: &LineRooms, met: &mut Met) {
        rooms.count(number, met);
    }

    fn rooms(input: &Input<E>, random: &mut Random) -> LineRooms {
        input.spot.rooms(random, size_of_val(&input.values[..]))
    }

    fn ample_rooms() -> LineRooms {
        LineRooms::ample()
    }

    fn rattle(input: &Input<E>, rooms: &mut LineRooms) -> u32 {
        E::rattle(rooms.lent().0, input.spot.at, &input.values);
        NONE
    }

    fn peer(input: &Input<E>, rooms: &mut LineRooms) -> u32 {
        E::peer(rooms.lent().0, input.spot.at, &input.values);
        NONE
    }
}
