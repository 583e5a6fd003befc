//! The comparison of one call, and what it counts.

use std::collections::BTreeMap;

use peer::random::Random;

use super::call::Call;
use super::events::Met;

/// A long comparison draws so many times the random inputs of a short one.
const LONG: u32 = 25;
/// So many of the inputs that differ are kept to be printed.
const SHOWN: usize = 3;
/// The start of the FNV-1a sum of a call's name.
const FNV_START: u64 = 0xCBF2_9CE4_8422_2325;
/// The prime of that sum.
const FNV_PRIME: u64 = 0x100_0000_01B3;

/// How many random inputs a comparison draws.
#[derive(Debug, Clone, Copy, PartialEq, Eq)]
pub enum Effort {
    Short,
    Long,
}

/// What the comparison of one call met.
#[derive(Debug, Default)]
pub struct Tally {
    /// The inputs compared.
    pub inputs: u64,
    /// How often Rattle's side returned each number.
    pub met: BTreeMap<u32, u64>,
    /// What the inputs did that both sides agree on.
    pub events: Met,
    /// The inputs on which the two sides differ.
    pub differences: u64,
    /// The first of these, whole.
    pub shown: Vec<String>,
}

/// Compares both sides of a call on its edges and on random inputs that depend on the seed and the call's name alone.
pub fn compare<C: Call>(seed: u64, effort: Effort) -> Tally {
    let mut random = Random::new(own_seed(seed, C::NAME));
    let mut tally = Tally::default();
    for input in C::edges() {
        tally.add::<C>(&input, &mut random);
    }
    let times = match effort {
        Effort::Short => 1,
        Effort::Long => LONG,
    };
    if effort == Effort::Long {
        for input in C::long_edges() {
            tally.add::<C>(&input, &mut random);
        }
    }
    for _ in 0..C::INPUTS * times {
        let input = C::any(&mut random);
        tally.add::<C>(&input, &mut random);
    }
    tally
}

impl Tally {
    /// Runs both sides on an input and equal rooms, and adds what came of it.
    fn add<C: Call>(&mut self, input: &C::Input, random: &mut Random) {
        let lent = C::rooms(input, random);
        let (mut ours, mut theirs) = (lent.clone(), lent.clone());
        let number = C::rattle(input, &mut ours);
        let expected = C::peer(input, &mut theirs);
        self.inputs += 1;
        *self.met.entry(number).or_default() += 1;
        if number == expected && ours == theirs {
            C::count(input, number, &ours, &mut self.events);
            return;
        }
        self.differences += 1;
        if self.shown.len() < SHOWN {
            self.shown.push(format!(
                "{} differs on {input:?}\n  lent   {lent:?}\n  Rattle {number} {ours:?}\n  peer   {expected} {theirs:?}",
                C::NAME
            ));
        }
    }

    /// The numbers that were never met.
    pub fn unmet(&self, numbers: &[u32]) -> Vec<u32> {
        let unmet = numbers
            .iter()
            .filter(|&number| !self.met.contains_key(number));
        unmet.copied().collect()
    }

    /// The numbers met that are not among those a call can return.
    pub fn unknown(&self, numbers: &[u32]) -> Vec<u32> {
        let met = self.met.keys().copied();
        met.filter(|number| !numbers.contains(number)).collect()
    }
}

/// The seed of one call, so that its inputs stay the same whichever calls stand before it.
fn own_seed(seed: u64, name: &str) -> u64 {
    let add = |sum: u64, byte| (sum ^ u64::from(byte)).wrapping_mul(FNV_PRIME);
    seed ^ name.bytes().fold(FNV_START, add)
}

#[cfg(test)]
mod tests {
    use super::*;
    use crate::compare::cases::Case;
    use crate::compare::room::{told, Room};

    /// A call that doubles a number below 10, wrong in a way of its own on Rattle's side.
    struct Doubling<const WAY: u32>;
    const RIGHT: u32 = 0;
    const WRONG_NUMBER: u32 = 1;
    const WRONG_VALUE: u32 = 2;
    const WRITES_ON_REFUSAL: u32 = 3;
    const WRITES_BEHIND: u32 = 4;

    fn doubled(input: u32, room: &mut [u32]) -> u32 {
        told(if input < 10 { 0 } else { 2 }, &[2 * input], room)
    }

    impl<const WAY: u32> Call for Doubling<WAY> {
        type Input = u32;
        type Rooms = Room<u32>;
        const NAME: &'static str = "doubling";
        const NUMBERS: &'static [u32] = &[0, 2, 6];
        const INPUTS: u32 = 1000;

        fn any(random: &mut Random) -> u32 {
            random.below(12)
        }

        fn edges() -> impl Iterator<Item = u32> {
            [9, 10].into_iter()
        }

        fn rooms(_: &u32, random: &mut Random) -> Room<u32> {
            Room::any(random, 1, 3)
        }

        fn cases() -> Vec<Case<u32>> {
            Vec::new()
        }

        fn ample_rooms() -> Room<u32> {
            Room::new(1)
        }

        fn rattle(input: &u32, room: &mut Room<u32>) -> u32 {
            let number = doubled(*input, room.lent());
            match (WAY, number, room.lent()) {
                (WRONG_NUMBER, 2, _) => return 3,
                (WRONG_VALUE, 0, [value, ..]) if *input == 7 => *value += 1,
                (WRITES_ON_REFUSAL, 2, [value, ..]) => *value = !*value,
                (WRITES_BEHIND, 0, [_, .., last]) => *last = !*last,
                _ => {}
            }
            number
        }

        fn peer(input: &u32, room: &mut Room<u32>) -> u32 {
            doubled(*input, room.lent())
        }
    }

    fn compared<const WAY: u32>() -> Tally {
        compare::<Doubling<WAY>>(1, Effort::Short)
    }

    #[test]
    fn two_equal_sides_pass_and_every_input_is_counted() {
        let tally = compared::<RIGHT>();
        assert_eq!(tally.differences, 0);
        assert_eq!(tally.inputs, 2 + 1000);
        assert_eq!(tally.met.values().sum::<u64>(), tally.inputs);
        assert!(tally.shown.is_empty());
    }

    #[test]
    fn a_wrong_number_is_a_difference() {
        assert_ne!(compared::<WRONG_NUMBER>().differences, 0);
    }

    #[test]
    fn a_value_wrong_for_one_input_alone_is_a_difference() {
        assert_ne!(compared::<WRONG_VALUE>().differences, 0);
    }

    #[test]
    fn room_written_on_a_refusal_is_a_difference() {
        assert_ne!(compared::<WRITES_ON_REFUSAL>().differences, 0);
    }

    #[test]
    fn room_written_behind_the_answer_is_a_difference() {
        assert_ne!(compared::<WRITES_BEHIND>().differences, 0);
    }

    #[test]
    fn the_first_differing_inputs_are_shown_whole() {
        let tally = compared::<WRONG_NUMBER>();
        assert_eq!(tally.shown.len(), SHOWN);
        assert!(tally.shown[0].starts_with("doubling differs on 10\n  lent   ["));
        assert!(tally.differences > SHOWN as u64);
    }

    #[test]
    fn a_number_never_met_and_one_that_is_not_known_are_told() {
        let numbers = Doubling::<RIGHT>::NUMBERS;
        let right = compared::<RIGHT>();
        assert!(right.unmet(numbers).is_empty() && right.unknown(numbers).is_empty());
        let wrong = compared::<WRONG_NUMBER>();
        assert_eq!(
            (wrong.unmet(numbers), wrong.unknown(numbers)),
            (vec![2], vec![3])
        );
    }

    #[test]
    fn a_long_comparison_draws_25_times_as_many() {
        let tally = compare::<Doubling<RIGHT>>(1, Effort::Long);
        assert_eq!(tally.inputs, 2 + 25 * 1000);
    }

    #[test]
    fn one_seed_meets_the_same_and_two_calls_draw_apart() {
        let met = |seed| compare::<Doubling<RIGHT>>(seed, Effort::Short).met;
        assert_eq!(met(5), met(5));
        assert_ne!(met(5), met(6));
        assert_ne!(own_seed(5, "cell"), own_seed(5, "link"));
    }
}
