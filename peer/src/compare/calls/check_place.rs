//! The check of a hall table: the place of the first unknown code.

use peer::ports;
use peer::random::Random;

use super::check::{Checked, TABLES};
use crate::compare::call::Value;
use crate::compare::cases::{by_share, Case};
use crate::rattle;

/// The call `calls_check_place`, which returns the place.
pub struct CheckPlace;

impl Value for CheckPlace {
    type Input = Checked;
    type Told = u32;

    const NAME: &'static str = "check place";
    const INPUTS: u32 = TABLES;
    const MEASURED: usize = 1;

    fn any(random: &mut Random) -> Checked {
        Checked::any(random)
    }

    fn edges() -> impl Iterator<Item = Checked> {
        Checked::edges()
    }

    fn cases() -> Vec<Case<Checked>> {
        by_share(Checked::sound)
    }

    fn rattle(input: &Checked) -> u32 {
        rattle::check_place(input.hall, &input.table)
    }

    fn peer(input: &Checked) -> u32 {
        ports::check(input.hall, &input.table).place
    }
}
