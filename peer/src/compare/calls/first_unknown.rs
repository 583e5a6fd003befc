//! Where the first unknown code of a table stands.

use peer::ports::{self, UP};
use peer::random::Random;

use super::check::{any_tried_codes, Checked};
use crate::compare::call::Value;
use crate::compare::cases::{by_share, Case};
use crate::compare::tables::Table;
use crate::rattle;

/// A table mostly has fewer codes than this.
const FEW: u32 = 800;
/// A table has fewer codes than this.
const MANY: u32 = 8_000;
/// The lengths of the tables that are tried with every code in every place.
const TRIED: usize = 6;
/// The lengths that are tried with an unknown code in each place: those beside a power of two, as tables are read by blocks.
const LENGTHS: [usize; 8] = [63, 64, 65, 255, 256, 257, 512, 513];

/// The call `calls_first_unknown`, which returns the place.
pub struct FirstUnknown;

impl Value for FirstUnknown {
    type Input = Table;
    type Told = u64;

    const NAME: &'static str = "first unknown";
    const INPUTS: u32 = 60_000;
    const MEASURED: usize = 1;

    fn any(random: &mut Random) -> Table {
        let longest = if random.once_in(16) { MANY } else { FEW };
        let count = random.below(longest) as usize;
        Table::Own(any_tried_codes(random, count))
    }

    fn edges() -> impl Iterator<Item = Table> {
        let places = (1..=TRIED).flat_map(|length| (0..length).map(move |place| (length, place)));
        let each = places.flat_map(|at| (0..=u8::MAX).map(move |code| (at, code)));
        let short = each.flat_map(|((length, place), code)| {
            let last = if place + 1 < length { u8::MAX } else { code };
            [UP, last].map(|last| {
                let mut codes = vec![UP; length];
                codes[length - 1] = last;
                codes[place] = code;
                codes
            })
        });
        let long = LENGTHS.into_iter().flat_map(|length| {
            (0..=length).map(move |place| {
                let mut codes = vec![UP; length];
                codes[place..].fill(u8::MAX);
                codes
            })
        });
        let none = [Vec::new()].into_iter();
        none.chain(short).chain(long).map(Table::Own)
    }

    fn cases() -> Vec<Case<Table>> {
        by_share(|random, hall, not_up| Checked::sound(random, hall, not_up).table)
    }

    fn rattle(table: &Table) -> u64 {
        rattle::first_unknown(table) as u64
    }

    fn peer(table: &Table) -> u64 {
        ports::first_unknown(table) as u64
    }
}

#[cfg(test)]
mod tests {
    use super::*;

    #[test]
    fn tables_without_an_unknown_code_and_with_one_in_every_tenth_are_drawn() {
        let mut random = Random::new(1);
        let mut met = [0; 11];
        for _ in 0..4000 {
            let table = FirstUnknown::any(&mut random);
            let place = table.iter().position(|&code| code > 4);
            met[place.map_or(10, |place| 10 * place / table.len())] += 1;
        }
        assert!(met.iter().all(|&count| count > 50), "{met:?}");
    }
}
