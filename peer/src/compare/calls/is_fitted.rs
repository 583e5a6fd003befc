//! Whether a server is fitted.

use peer::hall::Hall;
use peer::plan;
use peer::random::Random;

use crate::compare::call::Value;
use crate::compare::cases::{by_size, Case};
use crate::compare::counts::half;
use crate::compare::events::{Event, Met};
use crate::compare::inputs::{any_hall, any_uid, edge_servers, servers};
use crate::compare::numbers::{any_number, any_numbers_hall};
use crate::rattle;

/// Servers of halls that are not full are to be met that are fitted, and some that are not.
const FITTED: &[Event] = &[Event::Fitted(false), Event::Fitted(true)];
/// Every server is tried with every count of these halls, n and k of each.
const TRIED: [(u32, u32); 4] = [(2, 2), (3, 2), (4, 2), (2, 3)];

/// The call `calls_is_fitted`, which returns a bool.
pub struct IsFitted;

/// A hall, or any four numbers for one, and a uid, which it may have or not.
#[derive(Debug)]
pub struct Input {
    pub hall: Hall,
    pub uid: u32,
}

impl Value for IsFitted {
    type Input = Input;
    type Told = bool;

    const NAME: &'static str = "is fitted";
    const EVENTS: &'static [Event] = FITTED;
    const INPUTS: u32 = 500_000;

    fn any(random: &mut Random) -> Input {
        Input::any(random)
    }

    fn edges() -> impl Iterator<Item = Input> {
        Input::edges()
    }

    fn count(input: &Input, met: &mut Met) {
        input.count(met);
    }

    fn cases() -> Vec<Case<Input>> {
        Input::cases()
    }

    fn rattle(input: &Input) -> bool {
        rattle::is_fitted(input.hall, input.uid)
    }

    fn peer(input: &Input) -> bool {
        plan::is_fitted(input.hall, input.uid)
    }
}

impl Input {
    /// Any hall, or any four numbers for one, and any uid.
    pub fn any(random: &mut Random) -> Input {
        if random.once_in(8) {
            let hall = any_numbers_hall(random);
            let uid = any_number(random);
            return Input { hall, uid };
        }
        let hall = any_hall(random);
        let uid = any_uid(random, hall);
        Input { hall, uid }
    }

    /// Each hall at an edge with the uids to try there, and every server of some halls with each of their counts.
    pub fn edges() -> impl Iterator<Item = Input> {
        let ends = edge_servers().map(|(hall, uid)| Input { hall, uid });
        ends.chain(TRIED.into_iter().flat_map(|(n, k)| all_of(n, k)))
    }

    /// Counts whether the server is fitted, in a hall that is not full.
    pub fn count(&self, met: &mut Met) {
        met.add_whether_fitted(self.hall, self.uid);
    }

    /// Any server of halls of which half is fitted, and of those that are full, where a hall need not be.
    pub fn cases() -> Vec<Case<Input>> {
        let sound = |random: &mut Random, hall| Input {
            hall,
            uid: random.below(servers(hall).unwrap_or(1)),
        };
        let full = by_size(sound).into_iter().map(|case| case.also("full"));
        let part = by_size(move |random: &mut Random, hall| sound(random, half(hall)));
        let part = part.into_iter().map(|case| case.also("half"));
        full.chain(part).filter(Case::is_tall).collect()
    }
}

/// Every server of a hall with each of its counts.
fn all_of(n: u32, k: u32) -> impl Iterator<Item = Input> {
    let whole = Hall::full(n, k, 0);
    let halls = (0..=whole.count).map(move |count| Hall { count, ..whole });
    let servers = servers(whole).unwrap_or(0);
    halls.flat_map(move |hall| (0..servers).map(move |uid| Input { hall, uid }))
}
