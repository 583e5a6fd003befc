//! Whether n is in its range.

use peer::hall;
use peer::random::Random;

use crate::compare::call::Value;
use crate::compare::cases::Case;
use crate::compare::numbers::{any_number, edge_numbers};
use crate::rattle;

/// The call `calls_n_fits`, which returns a bool.
pub struct NFits;

impl Value for NFits {
    type Input = u32;
    type Told = bool;

    const NAME: &'static str = "n fits";

    fn any(random: &mut Random) -> u32 {
        any_number(random)
    }

    fn edges() -> impl Iterator<Item = u32> {
        edge_numbers()
    }

    fn cases() -> Vec<Case<u32>> {
        vec![Case::named("any", any_number)]
    }

    fn rattle(n: &u32) -> bool {
        rattle::n_fits(*n)
    }

    fn peer(n: &u32) -> bool {
        hall::n_fits(*n)
    }
}
