//! The servers of a hall; 0 where there is no such hall.

use peer::hall::{self, Hall};
use peer::random::Random;

use crate::compare::call::Value;
use crate::compare::cases::{by_size, Case};
use crate::compare::numbers::{any_numbers_hall, edge_numbers_halls};
use crate::rattle;

/// The call `calls_servers`, which returns them.
pub struct Servers;

impl Value for Servers {
    type Input = Hall;
    type Told = u32;

    const NAME: &'static str = "servers";

    fn any(random: &mut Random) -> Hall {
        any_numbers_hall(random)
    }

    fn edges() -> impl Iterator<Item = Hall> {
        edge_numbers_halls()
    }

    fn cases() -> Vec<Case<Hall>> {
        by_size(|_, hall| hall)
    }

    fn rattle(h: &Hall) -> u32 {
        rattle::servers(*h)
    }

    fn peer(h: &Hall) -> u32 {
        hall::servers_of(*h)
    }
}
