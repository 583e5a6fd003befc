//! The links of the route between two servers.

use peer::random::Random;
use peer::route::route;

use crate::compare::call::Value;
use crate::compare::cases::{by_size, Case};
use crate::compare::pairs::Pair;
use crate::rattle;

/// The call `calls_route_links`, which returns the links.
pub struct RouteLinks;

impl Value for RouteLinks {
    type Input = Pair;
    type Told = u32;

    const NAME: &'static str = "route links";
    const INPUTS: u32 = 1_500_000;

    fn any(random: &mut Random) -> Pair {
        Pair::any(random)
    }

    fn edges() -> impl Iterator<Item = Pair> {
        Pair::edges()
    }

    fn long_edges() -> impl Iterator<Item = Pair> {
        Pair::long_edges()
    }

    fn cases() -> Vec<Case<Pair>> {
        by_size(Pair::sound)
    }

    fn rattle(at: &Pair) -> u32 {
        rattle::route_links(at.hall, at.x, at.y)
    }

    fn peer(at: &Pair) -> u32 {
        route(at.hall, at.x, at.y).links
    }
}
