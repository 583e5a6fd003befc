//! The ones' complement of a plain sum with its carries brought in.

use peer::frame;
use peer::random::Random;

use crate::compare::call::Value;
use crate::compare::cases::Case;
use crate::compare::frames::edge_words;
use crate::rattle;

/// The numbers up to which every sum is tried: several times round 65,535.
const TRIED: u64 = 400_000;
/// The most words that a header's sum has.
const MOST_WORDS: u64 = 6;
/// What the sums come round at.
const ROUND: u64 = 65_535;

/// The call `calls_complement`, which returns the complement.
pub struct Complement;

impl Value for Complement {
    type Input = u64;
    type Told = u32;

    const NAME: &'static str = "complement";

    fn any(random: &mut Random) -> u64 {
        let sum = random.bits() >> random.below(u64::BITS);
        if random.once_in(2) {
            sum
        } else {
            sum / ROUND * ROUND
        }
    }

    fn edges() -> impl Iterator<Item = u64> {
        let words = edge_words().flat_map(|high| {
            edge_words().map(move |low| (u64::from(high) << u32::BITS) | u64::from(low))
        });
        (0..TRIED).chain(words)
    }

    fn cases() -> Vec<Case<u64>> {
        let of_a_header = |random: &mut Random| MOST_WORDS * u64::from(random.word());
        vec![Case::named("a header's sum", of_a_header)]
    }

    fn rattle(&sum: &u64) -> u32 {
        rattle::complement(sum)
    }

    fn peer(&sum: &u64) -> u32 {
        frame::complement(sum)
    }
}
