//! The fitted servers of the DCell(2) around a server.

use peer::plan;
use peer::random::Random;

use super::is_fitted::Input;
use crate::compare::call::Value;
use crate::compare::cases::Case;
use crate::compare::events::{Event, Met};
use crate::rattle;

/// Servers are to be met in DCell(2)s of which nothing is fitted, a part, and all.
const SHARES: &[Event] = &[Event::Share(0), Event::Share(1), Event::Share(2)];

/// The call `calls_fitted_servers`, which returns them.
pub struct FittedServers;

impl Value for FittedServers {
    type Input = Input;
    type Told = u32;

    const NAME: &'static str = "fitted servers";
    const EVENTS: &'static [Event] = SHARES;
    const INPUTS: u32 = 500_000;

    fn any(random: &mut Random) -> Input {
        Input::any(random)
    }

    fn edges() -> impl Iterator<Item = Input> {
        Input::edges()
    }

    fn count(input: &Input, met: &mut Met) {
        met.add_share(input.hall, input.uid);
    }

    fn cases() -> Vec<Case<Input>> {
        Input::cases()
    }

    fn rattle(input: &Input) -> u32 {
        rattle::fitted_servers(input.hall, input.uid)
    }

    fn peer(input: &Input) -> u32 {
        plan::fitted_servers(input.hall, input.uid)
    }
}
