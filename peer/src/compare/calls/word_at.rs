//! The number in four bytes of a sheet, wherever they stand.

use peer::random::Random;
use peer::sheet;

use super::sheet::SHEETS;
use crate::compare::call::Value;
use crate::compare::inputs::around;
use crate::compare::sheets::{any_sheet, edge_sheets, Sheet};
use crate::rattle;

/// The places from which four bytes are at no sheet's end, though their sum with 4 may be.
const BEYOND: [usize; 4] = [usize::MAX, usize::MAX - 3, usize::MAX - 4, 1 << 32];
/// The places that are tried at the start of each sheet at an edge, and at its end.
const TRIED: usize = 6;

/// The call `calls_word_at`, which returns the number.
pub struct WordAt;

/// A sheet, sound or not, and a place in it or behind it.
#[derive(Debug)]
pub struct Input {
    sheet: Sheet,
    at: usize,
}

impl Value for WordAt {
    type Input = Input;
    type Told = u32;

    const NAME: &'static str = "word at";
    const INPUTS: u32 = SHEETS;

    fn any(random: &mut Random) -> Input {
        let sheet = any_sheet(random);
        let length = sheet.len() as u32;
        let at = match random.below(8) {
            0 => BEYOND[random.below(BEYOND.len() as u32) as usize],
            1 => random.bits() as usize >> random.below(u64::BITS),
            2 => around(random, length) as usize,
            _ => random.below(length + 1) as usize,
        };
        Input { sheet, at }
    }

    fn edges() -> impl Iterator<Item = Input> {
        edge_sheets().flat_map(|sheet| {
            let end = sheet.len();
            let places = (0..TRIED).chain(end.saturating_sub(TRIED)..end + TRIED);
            places.chain(BEYOND).map(move |at| Input {
                sheet: sheet.clone(),
                at,
            })
        })
    }

    fn rattle(input: &Input) -> u32 {
        rattle::word_at(&input.sheet, input.at)
    }

    fn peer(input: &Input) -> u32 {
        sheet::word_at(&input.sheet, input.at)
    }
}
