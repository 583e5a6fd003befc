//! The servers of a DCell of a level; 0 where there is no such hall or level.

use peer::hall::{self, Hall};
use peer::random::Random;

use crate::compare::call::Value;
use crate::compare::cases::{by_size, Case};
use crate::compare::inputs::around;
use crate::compare::numbers::{any_number, any_numbers_hall, edge_numbers, edge_numbers_halls};
use crate::rattle;

/// The call `calls_size_of`, which returns them.
pub struct SizeOf;

/// A hall, or any three numbers for one, and a level, which it may have or not.
#[derive(Debug)]
pub struct Input {
    hall: Hall,
    level: u32,
}

impl Value for SizeOf {
    type Input = Input;
    type Told = u32;

    const NAME: &'static str = "size of";

    fn any(random: &mut Random) -> Input {
        let hall = any_numbers_hall(random);
        let level = if random.once_in(4) {
            any_number(random)
        } else {
            around(random, hall.k.saturating_add(1))
        };
        Input { hall, level }
    }

    fn edges() -> impl Iterator<Item = Input> {
        edge_numbers_halls().flat_map(|hall| edge_numbers().map(move |level| Input { hall, level }))
    }

    fn cases() -> Vec<Case<Input>> {
        by_size(|random, hall| Input {
            hall,
            level: random.below(hall.k + 1),
        })
    }

    fn rattle(input: &Input) -> u32 {
        rattle::size_of(input.hall, input.level)
    }

    fn peer(input: &Input) -> u32 {
        hall::size_of(input.hall, input.level)
    }
}

#[cfg(test)]
mod tests {
    use super::*;

    #[test]
    fn sizes_and_levels_that_a_hall_has_not_are_drawn() {
        let mut random = Random::new(1);
        let mut met = [0; 2];
        for _ in 0..2000 {
            let input = SizeOf::any(&mut random);
            let level = usize::from(input.level <= input.hall.k);
            met[level] += usize::from(hall::servers_of(input.hall) > 0);
        }
        assert!(met.iter().all(|&count| count > 100), "{met:?}");
    }
}
