//! Whether a code is known.

use peer::ports;
use peer::random::Random;

use crate::compare::call::Value;
use crate::compare::cases::Case;
use crate::rattle;

/// The call `calls_is_known`, which returns a bool.
pub struct IsKnown;

impl Value for IsKnown {
    type Input = u8;
    type Told = bool;

    const NAME: &'static str = "is known";
    const INPUTS: u32 = 1_000;

    fn any(random: &mut Random) -> u8 {
        random.byte()
    }

    fn edges() -> impl Iterator<Item = u8> {
        0..=u8::MAX
    }

    fn cases() -> Vec<Case<u8>> {
        vec![Case::named("any", Random::byte)]
    }

    fn rattle(code: &u8) -> bool {
        rattle::is_known(*code)
    }

    fn peer(code: &u8) -> bool {
        ports::is_known(*code)
    }
}
