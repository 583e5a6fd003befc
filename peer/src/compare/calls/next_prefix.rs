//! The prefix of the DCell(1) to be fitted next.

use peer::hall::{Hall, LEVELS};
use peer::plan;
use peer::random::Random;
use peer::refusal::{FULL, HALL, NONE, ROOM};

use super::HALL_ROOM;
use crate::compare::call::Call;
use crate::compare::cases::{by_size, Case};
use crate::compare::counts::half;
use crate::compare::inputs::any_hall;
use crate::compare::numbers::{any_numbers_hall, edge_numbers_halls};
use crate::compare::room::{told, Room};
use crate::rattle;

/// Every count of a hall of at most so many DCell(1)s is tried.
const FEW: u32 = 10_000;

/// The call `calls_next_prefix`.
pub struct NextPrefix;

impl Call for NextPrefix {
    type Input = Hall;
    type Rooms = Room<u32>;

    const NAME: &'static str = "next prefix";
    const NUMBERS: &'static [u32] = &[NONE, HALL, FULL, ROOM];

    fn any(random: &mut Random) -> Hall {
        if random.once_in(4) {
            any_numbers_hall(random)
        } else {
            any_hall(random)
        }
    }

    fn edges() -> impl Iterator<Item = Hall> {
        edge_numbers_halls().chain(all_counts(0, FEW))
    }

    fn long_edges() -> impl Iterator<Item = Hall> {
        all_counts(FEW, u32::MAX)
    }

    fn rooms(_: &Hall, random: &mut Random) -> Room<u32> {
        Room::any(random, LEVELS, HALL_ROOM)
    }

    fn cases() -> Vec<Case<Hall>> {
        let cases = by_size(any_part).into_iter();
        cases.filter(Case::is_tall).collect()
    }

    fn ample_rooms() -> Room<u32> {
        Room::new(LEVELS)
    }

    fn rattle(h: &Hall, room: &mut Room<u32>) -> u32 {
        rattle::next_prefix(*h, room.lent())
    }

    fn peer(h: &Hall, room: &mut Room<u32>) -> u32 {
        let answer = plan::next_prefix(*h);
        told(answer.refusal, &answer.tuple, room.lent())
    }
}

/// Every count, up to one too high, of each hall of more DCell(1)s than the least and no more than the most.
fn all_counts(above: u32, most: u32) -> impl Iterator<Item = Hall> {
    let halls = (2..=8).flat_map(|n| [2, 3].map(|k| Hall::full(n, k, 0)));
    let halls = halls.filter(move |h| h.count > above && h.count <= most);
    halls.flat_map(|h| (0..=h.count + 1).map(move |count| Hall { count, ..h }))
}

/// The hall with any count of those that leave it not full; half of it is fitted at most as often as not.
fn any_part(random: &mut Random, hall: Hall) -> Hall {
    let half = half(hall);
    let bound = if random.once_in(2) {
        half.count
    } else {
        hall.count
    };
    Hall {
        count: random.below(bound),
        ..hall
    }
}

#[cfg(test)]
mod tests {
    use super::*;

    #[test]
    fn every_count_of_each_hall_is_tried_by_the_one_comparison_or_the_other() {
        let small: Vec<Hall> = all_counts(0, FEW).collect();
        for (n, k) in [(2, 2), (8, 2), (2, 3), (3, 3), (4, 3)] {
            let all = Hall::full(n, k, 0).count;
            let tried = small.iter().filter(|h| (h.n, h.k) == (n, k));
            assert_eq!(tried.count() as u32, all + 2);
        }
        let large: u32 = (5..=8).map(|n| Hall::full(n, 3, 0).count + 2).sum();
        assert_eq!(all_counts(FEW, u32::MAX).count() as u32, large);
    }

    #[test]
    fn the_halls_that_are_measured_are_not_full() {
        let mut random = Random::new(1);
        for case in NextPrefix::cases() {
            let h = (case.draw)(&mut random);
            assert_eq!(plan::next_prefix(h).refusal, NONE);
        }
    }
}
