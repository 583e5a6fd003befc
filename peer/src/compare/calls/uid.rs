//! The uid of a tuple.

use peer::hall::{self, Hall, LEVELS};
use peer::random::Random;
use peer::refusal::{HALL, NONE, RANGE, ROOM};

use super::HALL_ROOM;
use crate::compare::call::Call;
use crate::compare::cases::{by_size, Case};
use crate::compare::inputs::{any_hall, around, edge_halls, sizes};
use crate::compare::room::{told, Room};
use crate::rattle;

/// The values of the answer: the uid.
const VALUES: usize = 1;
/// Every tuple of a hall with at most so many is tried, entries just above their limits included.
const MOST_TUPLES: u64 = 10_000;

/// The call `calls_uid`.
pub struct Uid;

/// A hall and a tuple; index i holds a(i).
#[derive(Debug)]
pub struct Input {
    hall: Hall,
    tuple: [u32; LEVELS],
}

impl Call for Uid {
    type Input = Input;
    type Rooms = Room<u32>;

    const NAME: &'static str = "uid";
    const NUMBERS: &'static [u32] = &[NONE, HALL, RANGE, ROOM];

    fn any(random: &mut Random) -> Input {
        let hall = any_hall(random);
        let tuple = limits(hall).map(|limit| around(random, limit));
        Input { hall, tuple }
    }

    fn edges() -> impl Iterator<Item = Input> {
        edge_halls().flat_map(|hall| {
            let tuples = edge_tuples(hall).into_iter();
            tuples.map(move |tuple| Input { hall, tuple })
        })
    }

    fn rooms(_: &Input, random: &mut Random) -> Room<u32> {
        Room::any(random, VALUES, HALL_ROOM)
    }

    fn cases() -> Vec<Case<Input>> {
        by_size(sound)
    }

    fn ample_rooms() -> Room<u32> {
        Room::new(VALUES)
    }

    fn rattle(input: &Input, room: &mut Room<u32>) -> u32 {
        rattle::uid(input.hall, input.tuple, room.lent())
    }

    fn peer(input: &Input, room: &mut Room<u32>) -> u32 {
        let answer = hall::uid_of(input.hall, input.tuple);
        told(answer.refusal, &[answer.uid], room.lent())
    }
}

/// A tuple of a sound hall.
fn sound(random: &mut Random, hall: Hall) -> Input {
    let tuple = limits(hall).map(|limit| random.below(limit));
    Input { hall, tuple }
}

/// The numbers that the entries of a hall's tuples stay below; 1 above the top level, and everywhere in a hall that is not sound.
fn limits(h: Hall) -> [u32; LEVELS] {
    let mut limits = [1; LEVELS];
    let Some(t) = sizes(h) else {
        return limits;
    };
    limits[0] = h.n;
    for level in 1..=h.k as usize {
        limits[level] = t[level - 1] + 1;
    }
    limits
}

/// The tuples to try in a hall: all of a small one and those of a larger one at the limits, with entries above them too.
fn edge_tuples(h: Hall) -> Vec<[u32; LEVELS]> {
    let limits = limits(h);
    let all: u64 = limits.iter().map(|&limit| u64::from(limit) + 2).product();
    let entries = limits.map(|limit| {
        if all <= MOST_TUPLES {
            (0..limit + 2).collect()
        } else {
            vec![0, limit - 1, limit, limit + 1, u32::MAX]
        }
    });
    products(&entries)
}

/// Every tuple that takes each of its entries from those given for its place.
fn products(entries: &[Vec<u32>; LEVELS]) -> Vec<[u32; LEVELS]> {
    let mut tuples = vec![[0; LEVELS]];
    for (place, entries) in entries.iter().enumerate() {
        let with = |mut tuple: [u32; LEVELS], entry| {
            tuple[place] = entry;
            tuple
        };
        let with_each = |&tuple| entries.iter().map(move |&entry| with(tuple, entry));
        tuples = tuples.iter().flat_map(with_each).collect();
    }
    tuples
}

#[cfg(test)]
mod tests {
    use super::*;

    #[test]
    fn the_limits_of_a_hall_are_n_and_its_sub_cells_and_1_above_the_top() {
        assert_eq!(limits(Hall::full(4, 1, 0)), [4, 5, 1, 1]);
        assert_eq!(limits(Hall::full(8, 3, 1)), [8, 9, 73, 5_257]);
        assert_eq!(limits(Hall::full(9, 1, 0)), [1; 4]);
    }

    #[test]
    fn the_edges_of_a_small_hall_hold_each_of_its_tuples_once() {
        let h = Hall::full(2, 2, 0);
        let sound = edge_tuples(h).into_iter();
        let sound = sound.filter(|&tuple| hall::uid_of(h, tuple).refusal == NONE);
        assert_eq!(sound.count(), 42);
    }
}
