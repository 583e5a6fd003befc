//! The DCell(1)s that a hall can have; 0 where n or k is outside its range.

use peer::hall;
use peer::random::Random;

use crate::compare::call::Value;
use crate::compare::cases::Case;
use crate::compare::inputs::{around, sound_hall};
use crate::compare::numbers::{any_number, edge_pairs};
use crate::rattle;

/// The numbers that most n and k are below, a little above their ranges.
const SMALL: [u32; 2] = [10, 5];

/// The call `calls_racks` on n and k, which returns them.
pub struct Racks;

impl Value for Racks {
    type Input = [u32; 2];
    type Told = u32;

    const NAME: &'static str = "racks";

    fn any(random: &mut Random) -> [u32; 2] {
        if random.once_in(2) {
            return SMALL.map(|bound| around(random, bound));
        }
        [(); 2].map(|()| any_number(random))
    }

    fn edges() -> impl Iterator<Item = [u32; 2]> {
        edge_pairs()
    }

    fn cases() -> Vec<Case<[u32; 2]>> {
        let sound = |random: &mut Random| {
            let h = sound_hall(random, 0);
            [h.n, h.k]
        };
        vec![Case::named("sound", sound)]
    }

    fn rattle(&[n, k]: &[u32; 2]) -> u32 {
        rattle::racks(n, k)
    }

    fn peer(&[n, k]: &[u32; 2]) -> u32 {
        hall::racks_of(n, k)
    }
}

#[cfg(test)]
mod tests {
    use super::*;

    #[test]
    fn every_n_and_k_is_drawn_and_some_outside_their_ranges() {
        let mut random = Random::new(1);
        let pairs: Vec<[u32; 2]> = (0..5_000).map(|_| Racks::any(&mut random)).collect();
        for pair in (1..=9).flat_map(|n| (0..=4).map(move |k| [n, k])) {
            assert!(pairs.contains(&pair), "{pair:?}");
        }
    }
}
