//! The check of a hall table: its refusal.

use peer::hall::Hall;
use peer::ports::{self, UP};
use peer::random::Random;
use peer::refusal::{CODE, HALL, LENGTH, NONE};

use crate::compare::call::Call;
use crate::compare::cases::{by_share, Case};
use crate::compare::counts::is_full;
use crate::compare::inputs::edge_halls;
use crate::compare::tables::{
    any_length, codes, hall_codes, known_codes, light, light_hall, unknown_code, Table, KNOWN,
};
use crate::rattle;

/// The random tables of a short comparison of each of the two calls.
pub const TABLES: u32 = 60_000;
/// The hall whose table is tried with every code in every place.
const TRIED: Hall = Hall::full(4, 1, 0);
/// A table has fewer unknown codes than this, unless it is of any bytes.
const UNKNOWN: u32 = 4;

/// The call `calls_check`.
pub struct Check;

/// A hall and a table, its own or not.
#[derive(Debug)]
pub struct Checked {
    pub hall: Hall,
    pub table: Table,
}

impl Call for Check {
    type Input = Checked;
    type Rooms = ();

    const NAME: &'static str = "check";
    const NUMBERS: &'static [u32] = &[NONE, HALL, LENGTH, CODE];
    const INPUTS: u32 = TABLES;
    const MEASURED: usize = 1;

    fn any(random: &mut Random) -> Checked {
        Checked::any(random)
    }

    fn edges() -> impl Iterator<Item = Checked> {
        Checked::edges()
    }

    fn rooms(_: &Checked, _: &mut Random) {}

    fn cases() -> Vec<Case<Checked>> {
        by_share(Checked::sound)
    }

    fn ample_rooms() {}

    fn rattle(input: &Checked, _: &mut ()) -> u32 {
        rattle::check(input.hall, &input.table)
    }

    fn peer(input: &Checked, _: &mut ()) -> u32 {
        ports::check(input.hall, &input.table).refusal
    }
}

impl Checked {
    /// A table for any light hall: of known codes, a few unknown ones among them, or of any bytes.
    pub fn any(random: &mut Random) -> Checked {
        let hall = light_hall(random);
        let count = any_length(random, hall_codes(hall));
        let table = Table::Own(any_tried_codes(random, count));
        Checked { hall, table }
    }

    /// A sound table of a hall, with so many in a hundred codes not up.
    pub fn sound(random: &mut Random, hall: Hall, not_up: u32) -> Checked {
        let mut codes = codes(random, hall_codes(hall), not_up);
        codes.iter_mut().for_each(|code| *code %= KNOWN);
        let table = Table::Own(codes);
        Checked { hall, table }
    }

    /// Tables of every hall and of some that are none, and one table with every code in every place.
    pub fn edges() -> impl Iterator<Item = Checked> {
        let tables = edge_halls().filter(|&h| light(h) || h.b == 0 && is_full(h));
        let tables = tables.flat_map(edge_tables);
        let places =
            (0..hall_codes(TRIED)).flat_map(|place| (0..=u8::MAX).map(move |c| (place, c)));
        let tried = places.map(|at| all_up_but(TRIED, hall_codes(TRIED), Some(at)));
        tables.chain(tried)
    }
}

/// So many codes: known ones, a few unknown ones among them, or any bytes.
pub fn any_tried_codes(random: &mut Random, count: usize) -> Vec<u8> {
    let mut codes = known_codes(random, count);
    if random.once_in(8) {
        codes.fill_with(|| random.byte());
    } else if count > 0 {
        for _ in 0..random.below(UNKNOWN) {
            codes[random.below(count as u32) as usize] = unknown_code(random);
        }
    }
    codes
}

/// The tables to try with a hall: right and wrong lengths, each with an unknown code in the first place, the last, or none.
fn edge_tables(h: Hall) -> impl Iterator<Item = Checked> {
    let right = hall_codes(h);
    let lengths = if light(h) {
        vec![0, 1, right - 1, right, right + 1]
    } else {
        vec![right - 1, right, right + 1]
    };
    let with_code = move |count| edge_codes(h, count).into_iter().map(move |at| (count, at));
    let tables = lengths.into_iter().flat_map(with_code);
    tables.map(move |(count, at)| all_up_but(h, count, at))
}

/// The unknown codes to try in a table of so many codes, a place and a code each; also none.
fn edge_codes(h: Hall, count: usize) -> Vec<Option<(usize, u8)>> {
    let Some(last) = count.checked_sub(1) else {
        return vec![None];
    };
    if light(h) {
        vec![None, Some((0, 5)), Some((last, u8::MAX))]
    } else {
        vec![None, Some((last, u8::MAX))]
    }
}

/// A table of so many codes, all up but one.
fn all_up_but(hall: Hall, count: usize, but: Option<(usize, u8)>) -> Checked {
    let mut codes = vec![UP; count];
    if let Some((place, code)) = but {
        codes[place] = code;
    }
    let table = Table::Own(codes);
    Checked { hall, table }
}

#[cfg(test)]
mod tests {
    use super::*;

    #[test]
    fn places_all_over_a_table_are_refused() {
        let mut random = Random::new(1);
        let mut met = [false; 5];
        for _ in 0..2000 {
            let input = Checked::any(&mut random);
            let answer = ports::check(input.hall, &input.table);
            if answer.refusal == CODE {
                met[(answer.place * 5) as usize / input.table.len()] = true;
            }
        }
        assert_eq!(met, [true; 5]);
    }
}
