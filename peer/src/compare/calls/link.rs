//! The link between two sub-cells of the DCell of a level around a server.

use peer::hall::{self, Hall};
use peer::random::Random;
use peer::refusal::{HALL, NONE, RANGE, ROOM, UID};

use super::HALL_ROOM;
use crate::compare::call::Call;
use crate::compare::cases::{by_size, Case};
use crate::compare::inputs::{around, sub_cells, Place};
use crate::compare::room::{told, Room};
use crate::rattle;

/// The values of the answer: the two ends.
const VALUES: usize = 2;
/// The lowest level that has links between sub-cells.
const LEAST_LEVEL: u32 = 1;
/// One pair of sub-cells in so many is of two equal ones.
const EQUAL: u32 = 16;
/// The sub-cells that a level which has none is called as if it had.
const SUPPOSED_SUB_CELLS: u32 = 5;
/// Every pair of sub-cells is tried where a level has at most so many of them.
const FEW: u32 = 9;

/// The call `calls_link`.
pub struct Link;

/// The server and the level that name a DCell, and two indices of its sub-cells.
#[derive(Debug)]
pub struct Input {
    at: Place,
    p: u32,
    q: u32,
}

impl Call for Link {
    type Input = Input;
    type Rooms = Room<u32>;

    const NAME: &'static str = "link";
    const NUMBERS: &'static [u32] = &[NONE, HALL, UID, RANGE, ROOM];

    fn any(random: &mut Random) -> Input {
        let at = Place::any(random);
        let count = sub_cells_at(at);
        let p = around(random, count);
        let q = if random.once_in(EQUAL) {
            p
        } else {
            around(random, count)
        };
        Input { at, p, q }
    }

    fn edges() -> impl Iterator<Item = Input> {
        Place::edges().flat_map(|at| {
            let pairs = edge_pairs(at).into_iter();
            pairs.map(move |(p, q)| Input { at, p, q })
        })
    }

    fn rooms(_: &Input, random: &mut Random) -> Room<u32> {
        Room::any(random, VALUES, HALL_ROOM)
    }

    fn cases() -> Vec<Case<Input>> {
        by_size(sound)
    }

    fn ample_rooms() -> Room<u32> {
        Room::new(VALUES)
    }

    fn rattle(input: &Input, room: &mut Room<u32>) -> u32 {
        let Input { at, p, q } = *input;
        rattle::link(at.hall, at.uid, at.level, p, q, room.lent())
    }

    fn peer(input: &Input, room: &mut Room<u32>) -> u32 {
        let Input { at, p, q } = *input;
        let answer = hall::link(at.hall, at.uid, at.level, p, q);
        told(answer.refusal, &[answer.from, answer.to], room.lent())
    }
}

/// Two sub-cells of a sound hall, at any of its levels.
fn sound(random: &mut Random, hall: Hall) -> Input {
    let at = Place::sound(random, hall, LEAST_LEVEL);
    let count = sub_cells_at(at);
    let p = random.below(count);
    let q = (p + 1 + random.below(count - 1)) % count;
    Input { at, p, q }
}

/// The sub-cells around a place, or those supposed where it has none.
fn sub_cells_at(at: Place) -> u32 {
    sub_cells(at.hall, at.level).unwrap_or(SUPPOSED_SUB_CELLS)
}

/// The pairs of sub-cells to try at a place: all of a few, else those at the ends, with indices beyond; two where it has none.
fn edge_pairs(at: Place) -> Vec<(u32, u32)> {
    let Some(count) = sub_cells(at.hall, at.level) else {
        return vec![(0, 1), (1, 1)];
    };
    let indices: Vec<u32> = if count <= FEW {
        (0..=count).chain([u32::MAX]).collect()
    } else {
        vec![0, 1, count - 1, count, u32::MAX]
    };
    let with_each = |&p| indices.iter().map(move |&q| (p, q));
    indices.iter().flat_map(with_each).collect()
}

#[cfg(test)]
mod tests {
    use super::*;
    use crate::compare::inputs::sound_hall;

    #[test]
    fn the_edges_of_a_level_of_few_sub_cells_are_all_pairs_and_some_beyond() {
        let hall = Hall::full(4, 2, 0);
        let at = |level| Place {
            hall,
            uid: 0,
            level,
        };
        let pairs = edge_pairs(at(1));
        for (p, q) in (0..=5).flat_map(|p| (0..=5).map(move |q| (p, q))) {
            assert!(pairs.contains(&(p, q)));
        }
        assert_eq!(edge_pairs(at(2)).len(), 25);
        assert_eq!(edge_pairs(at(3)), [(0, 1), (1, 1)]);
    }

    #[test]
    fn sound_sub_cells_are_never_equal_and_never_beyond() {
        let mut random = Random::new(8);
        for _ in 0..1000 {
            let hall = sound_hall(&mut random, LEAST_LEVEL);
            let Input { at, p, q } = sound(&mut random, hall);
            let count = sub_cells_at(at);
            assert!(p < count && q < count && p != q);
        }
    }
}
