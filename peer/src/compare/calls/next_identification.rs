//! The identification after one.

use peer::frame::next_identification;
use peer::random::Random;

use crate::compare::call::Value;
use crate::compare::cases::Case;
use crate::compare::frames::edge_words;
use crate::rattle;

/// The call `calls_next_identification`, which returns the identification.
pub struct NextIdentification;

impl Value for NextIdentification {
    type Input = u32;
    type Told = u32;

    const NAME: &'static str = "next id";

    fn any(random: &mut Random) -> u32 {
        random.word()
    }

    fn edges() -> impl Iterator<Item = u32> {
        edge_words()
    }

    fn cases() -> Vec<Case<u32>> {
        vec![Case::named("any", Random::word)]
    }

    fn rattle(identification: &u32) -> u32 {
        rattle::next_identification(*identification)
    }

    fn peer(identification: &u32) -> u32 {
        next_identification(*identification)
    }
}
