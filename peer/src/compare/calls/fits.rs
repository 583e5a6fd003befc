//! Whether k is in its range, in a hall of n servers to a switch, or b in a hall of top level k.

use peer::hall;
use peer::random::Random;

use crate::compare::call::Value;
use crate::compare::cases::Case;
use crate::compare::numbers::{any_number, edge_pairs};
use crate::rattle;

/// The call `calls_k_fits` on n and k, or `calls_b_fits` on k and b where B is true; each returns a bool.
pub struct Fits<const B: bool>;

impl<const B: bool> Value for Fits<B> {
    type Input = [u32; 2];
    type Told = bool;

    const NAME: &'static str = if B { "b fits" } else { "k fits" };

    fn any(random: &mut Random) -> [u32; 2] {
        [(); 2].map(|()| any_number(random))
    }

    fn edges() -> impl Iterator<Item = [u32; 2]> {
        edge_pairs()
    }

    fn cases() -> Vec<Case<[u32; 2]>> {
        vec![Case::named("any", Self::any)]
    }

    fn rattle(&[above, number]: &[u32; 2]) -> bool {
        if B {
            rattle::b_fits(above, number)
        } else {
            rattle::k_fits(above, number)
        }
    }

    fn peer(&[above, number]: &[u32; 2]) -> bool {
        if B {
            hall::b_fits(above, number)
        } else {
            hall::k_fits(above, number)
        }
    }
}
