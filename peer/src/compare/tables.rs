//! Tables of port codes to call with: of the right length and of wrong ones, with all codes up or most of them not.

use std::collections::BTreeMap;
use std::fmt::{self, Debug, Formatter};
use std::iter;
use std::ops::Deref;
use std::sync::{Mutex, OnceLock, PoisonError};

use peer::hall::{self, Hall, MOST_K, MOST_N};
use peer::ports::{self, UP};
use peer::random::Random;
use peer::refusal::NONE;

use super::counts::{fitted_server, with_sound_count};
use super::inputs::{any_hall, sizes};

/// The highest share of codes that are not up, of a hundred.
const MOST_NOT_UP: u32 = 70;
/// The known codes but the one that is up.
const NOT_UP: [u8; 4] = [0, 2, 3, 4];
/// The known codes, from 0 on.
pub const KNOWN: u8 = 5;
/// One table in so many has a wrong length.
const WRONG_LENGTH: u32 = 8;
/// The codes of a table for a hall that is none.
const SUPPOSED_CODES: u32 = 40;
/// A hall whose table has at most so many codes is light; tables of others are parts of the pool.
const LIGHT: usize = 20_000;
/// A table of at most so many codes is shown whole.
const SHOWN: usize = 400;
/// The places of the pool that a table of the largest hall may begin at.
const PLACES: usize = 1 << 20;
/// The seed of the pool where no comparison gave one.
const TESTED_SEED: u64 = 0x7AB1E;
/// A run of the pool in which one share of codes is not up has so many codes at least.
const LEAST_RUN: usize = 1 << 6;
/// It has at most the least ones doubled fewer times than this.
const DOUBLINGS: u32 = 9;

/// Codes that depend on the seed of a comparison alone; each table of a hall that is not light is a part of them.
static POOL: OnceLock<Vec<u8>> = OnceLock::new();

/// A table, drawn for one input or a part of what is lent to all.
#[derive(Clone)]
pub enum Table {
    Own(Vec<u8>),
    Shared(&'static [u8]),
}

impl Deref for Table {
    type Target = [u8];

    #[inline]
    fn deref(&self) -> &[u8] {
        match self {
            Table::Own(codes) => codes,
            Table::Shared(codes) => codes,
        }
    }
}

impl Debug for Table {
    /// The length, and the codes where they are few or else the first that are not up.
    fn fmt(&self, f: &mut Formatter<'_>) -> fmt::Result {
        let codes: &[u8] = self;
        write!(f, "{} codes ", codes.len())?;
        if codes.len() <= SHOWN {
            return write!(f, "{codes:?}");
        }
        let not_up = codes.iter().enumerate().filter(|&(_, &code)| code != UP);
        write!(f, "all 1 but ")?;
        f.debug_map().entries(not_up.take(SHOWN)).finish()
    }
}

/// The codes of the table of a sound hall, or those supposed.
pub fn hall_codes(h: Hall) -> usize {
    codes_of(h, h.k)
}

/// The codes of the table of a DCell(b) of a sound hall, or those supposed.
pub fn cell_codes(h: Hall) -> usize {
    codes_of(h, h.b)
}

/// The codes of the table lent to a step in a sound hall, or those supposed: those of a DCell(b), then those of its far ports above b.
pub fn step_codes(h: Hall) -> usize {
    let far = sizes(h).map_or(0, |t| t[h.b as usize] * (h.k - h.b));
    cell_codes(h) + far as usize
}

/// The codes of a DCell(level) of a sound hall, or those supposed.
fn codes_of(h: Hall, level: u32) -> usize {
    let count = sizes(h).map(|t| t[level as usize] * (h.k + 1));
    count.unwrap_or(SUPPOSED_CODES) as usize
}

/// Whether the table of a hall is light.
pub fn light(h: Hall) -> bool {
    hall_codes(h) <= LIGHT
}

/// Any hall, its top level lowered to where its table is light.
pub fn light_hall(random: &mut Random) -> Hall {
    let h = any_hall(random);
    if light(h) {
        return h;
    }
    let lower = Hall { k: MOST_K - 1, ..h };
    let sound = hall::sizes(h).refusal == NONE;
    if sound {
        with_sound_count(random, lower)
    } else {
        lower
    }
}

/// A length that is mostly the right one, else one beside it or any a little above it or below.
pub fn any_length(random: &mut Random, right: usize) -> usize {
    if random.once_in(WRONG_LENGTH) {
        wrong_length(random, right)
    } else {
        right
    }
}

/// A length beside the right one, or any a little above it or below.
fn wrong_length(random: &mut Random, right: usize) -> usize {
    match random.below(4) {
        0 => right - 1,
        1 => right + 1,
        2 => 0,
        _ => random.below(right as u32 + 4) as usize,
    }
}

/// Codes of which so many in a hundred are not up.
pub fn codes(random: &mut Random, count: usize, not_up: u32) -> Vec<u8> {
    if not_up == 0 {
        return vec![UP; count];
    }
    iter::repeat_with(|| code(random, not_up))
        .take(count)
        .collect()
}

/// Codes of which any share up to the highest is not up; all of them are up in one table of a few.
pub fn any_codes(random: &mut Random, count: usize) -> Vec<u8> {
    let not_up = if random.once_in(8) {
        0
    } else {
        random.below(MOST_NOT_UP + 1)
    };
    codes(random, count, not_up)
}

/// Any bytes.
pub fn any_bytes(random: &mut Random, count: usize) -> Vec<u8> {
    let words = iter::repeat_with(|| random.bits().to_le_bytes());
    words.flatten().take(count).collect()
}

/// Known codes.
pub fn known_codes(random: &mut Random, count: usize) -> Vec<u8> {
    let mut codes = any_bytes(random, count);
    codes.iter_mut().for_each(|code| *code %= KNOWN);
    codes
}

/// A code that is unknown.
pub fn unknown_code(random: &mut Random) -> u8 {
    KNOWN + random.below(u32::from(u8::MAX - KNOWN) + 1) as u8
}

/// A code that is not up: a known one or any.
pub fn code_not_up(random: &mut Random) -> u8 {
    let known = NOT_UP[random.below(4) as usize];
    let any = random.byte();
    if any == UP || random.once_in(2) {
        known
    } else {
        any
    }
}

/// Draws the pool from the seed of a comparison, before its first table.
pub fn draw_pool(seed: u64) {
    POOL.get_or_init(|| drawn_pool(seed));
}

/// A table for any hall, mostly of the right length; a part of the pool, from any of its places on, where the hall is not light.
pub fn any_hall_table(random: &mut Random, h: Hall) -> Table {
    hall_table(random, h, any_codes)
}

/// Such a table, of any bytes where the hall is light.
pub fn any_byte_table(random: &mut Random, h: Hall) -> Table {
    hall_table(random, h, any_bytes)
}

/// Such a table, its codes drawn in a given way where the hall is light.
fn hall_table(random: &mut Random, h: Hall, drawn: fn(&mut Random, usize) -> Vec<u8>) -> Table {
    let count = any_length(random, hall_codes(h));
    if light(h) {
        return Table::Own(drawn(random, count));
    }
    pool_part(random, count)
}

/// So many codes of the pool, from any of its places on.
fn pool_part(random: &mut Random, count: usize) -> Table {
    let pool = POOL.get_or_init(|| drawn_pool(TESTED_SEED));
    let start = random.below((pool.len() - count) as u32 + 1) as usize;
    Table::Shared(&pool[start..start + count])
}

/// A table for a step in any hall, mostly of the right length. Among the wrong lengths are that of the cell alone, without the far codes,
/// and that of the hall table.
pub fn any_step_table(random: &mut Random, h: Hall) -> Table {
    let right = step_codes(h);
    let count = match (random.once_in(WRONG_LENGTH), random.below(3)) {
        (false, _) => right,
        (true, 0) => cell_codes(h),
        (true, 1) => return pool_part(random, hall_codes(h)),
        (true, _) => wrong_length(random, right),
    };
    Table::Own(any_codes(random, count))
}

/// The table lent to a step of a server of a sound hall, filled from the hall table.
pub fn lent_to_step(h: Hall, hall_table: &[u8], uid: u32) -> Vec<u8> {
    let mut codes = vec![0; step_codes(h)];
    assert_eq!(ports::step_table(h, hall_table, uid, &mut codes), NONE);
    codes
}

/// A table of the right length for a hall, with so many in a hundred codes not up, and one of the hall's fitted servers. Where the hall is
/// not light the table is drawn once and shared.
pub fn sound_hall_table(random: &mut Random, h: Hall, not_up: u32) -> (Table, u32) {
    let uid = fitted_server(random, h).unwrap_or(0);
    if light(h) {
        let codes = codes(random, hall_codes(h), not_up);
        return (Table::Own(codes), uid);
    }
    (Table::Shared(shared_sound(random, h, not_up)), uid)
}

/// The table of a hall that is not light with so many in a hundred codes not up, drawn by whoever asks for it first.
fn shared_sound(random: &mut Random, h: Hall, not_up: u32) -> &'static [u8] {
    static TABLES: Mutex<BTreeMap<(u32, u32), &'static [u8]>> = Mutex::new(BTreeMap::new());
    let mut tables = TABLES.lock().unwrap_or_else(PoisonError::into_inner);
    let drawn = || &*codes(random, hall_codes(h), not_up).leak();
    tables.entry((h.n, not_up)).or_insert_with(drawn)
}

/// A code that is not up so many times in a hundred.
fn code(random: &mut Random, not_up: u32) -> u8 {
    if random.below(100) < not_up {
        code_not_up(random)
    } else {
        UP
    }
}

/// The pool of a seed: a table of the largest hall, and more for the other places it may begin at.
fn drawn_pool(seed: u64) -> Vec<u8> {
    let largest = Hall::full(MOST_N, MOST_K, 0);
    pool_of(seed, hall_codes(largest) + PLACES)
}

/// So many codes of a seed, in runs of any length with any share that is not up.
fn pool_of(seed: u64, count: usize) -> Vec<u8> {
    let mut random = Random::new(seed);
    let mut pool = Vec::with_capacity(count);
    while pool.len() < count {
        let run = LEAST_RUN << random.below(DOUBLINGS);
        let codes = any_codes(&mut random, run.min(count - pool.len()));
        pool.extend_from_slice(&codes);
    }
    pool
}

#[cfg(test)]
mod tests {
    use super::*;

    #[test]
    fn tables_have_the_lengths_of_their_halls() {
        let h = Hall::full(4, 1, 0);
        assert_eq!((hall_codes(h), cell_codes(h)), (40, 8));
        let h = Hall::full(3, 3, 1);
        assert_eq!((hall_codes(h), cell_codes(h)), (97_968, 48));
        let mut random = Random::new(1);
        let (table, uid) = sound_hall_table(&mut random, h, 5);
        assert_eq!(table.len(), 97_968);
        assert!(uid < 24_492);
    }

    #[test]
    fn the_largest_table_of_a_step_has_432_codes_and_one_of_top_level_b_no_far_ones() {
        let codes = |n, k, b| step_codes(Hall::full(n, k, b));
        assert_eq!(codes(8, 3, 1), 432);
        assert_eq!(
            [codes(8, 3, 0), codes(2, 2, 0), codes(2, 2, 1)],
            [56, 10, 24]
        );
        assert_eq!([codes(4, 0, 0), codes(4, 1, 1)], [4, 40]);
    }

    #[test]
    fn tables_of_a_step_have_mostly_the_right_length_and_every_wrong_one_is_met() {
        let mut random = Random::new(7);
        for (h, [cell, right, hall]) in [
            (Hall::full(2, 3, 1), [24, 36, 7_224]),
            (Hall::full(4, 3, 0), [16, 28, 707_280]),
        ] {
            let lengths: Vec<usize> = (0..2_000)
                .map(|_| any_step_table(&mut random, h).len())
                .collect();
            let sound = lengths.iter().filter(|&&length| length == right).count();
            assert!((1_700..1_800).contains(&sound), "{sound}");
            for length in [0, cell, right - 1, right + 1, hall] {
                assert!(lengths.contains(&length), "{length}");
            }
        }
    }

    #[test]
    fn codes_lent_to_a_step_are_those_of_its_cell_and_of_the_far_ports() {
        let h = Hall::full(4, 1, 0);
        let table: Vec<u8> = (0..40).collect();
        let lent = [0, 1, 2, 3, 4, 5, 6, 7, 9, 17, 25, 33];
        assert_eq!(lent_to_step(h, &table, 2), lent);
    }

    #[test]
    fn a_table_that_is_shared_has_the_share_that_was_asked() {
        let h = Hall::full(3, 3, 1);
        let mut random = Random::new(6);
        for (share, least, most) in [(0, 0, 0), (5, 4_000, 6_000)] {
            let (table, _) = sound_hall_table(&mut random, h, share);
            let not_up = table.iter().filter(|&&code| code != UP).count();
            assert!((least..=most).contains(&not_up), "{not_up}");
        }
    }

    #[test]
    fn the_share_that_is_not_up_is_as_asked() {
        let mut random = Random::new(2);
        for share in [0, 5, 70] {
            let table = codes(&mut random, 100_000, share);
            let not_up = table.iter().filter(|&&code| code != UP).count() as u32;
            assert!(not_up.abs_diff(share * 1000) < 1000, "{not_up}");
        }
    }

    #[test]
    fn all_256_codes_are_met() {
        let mut random = Random::new(3);
        let table = codes(&mut random, 100_000, MOST_NOT_UP);
        assert!((0..=255).all(|code| table.contains(&code)));
        let known = known_codes(&mut random, 1000);
        assert!((0..5).all(|code| known.contains(&code)) && known.iter().all(|&code| code < 5));
        assert!((0..1000).all(|_| unknown_code(&mut random) >= 5));
    }

    #[test]
    fn a_pool_depends_on_its_seed_and_has_runs_of_every_share() {
        let pool = |seed| pool_of(seed, 1_000_000);
        assert_eq!(pool(7), pool(7));
        assert_ne!(pool(7), pool(8));
        let not_up = |run: &[u8]| run.iter().filter(|&&code| code != UP).count();
        let runs: Vec<usize> = pool(7).chunks(LEAST_RUN).map(not_up).collect();
        assert!(runs.contains(&0) && runs.iter().any(|&count| count > LEAST_RUN / 2));
    }

    #[test]
    fn two_tables_of_one_heavy_hall_are_different_parts_of_the_pool() {
        let h = Hall::full(3, 3, 0);
        let mut random = Random::new(9);
        let mut table = || {
            any_hall_table(&mut random, h)
                .first_chunk::<1000>()
                .copied()
        };
        assert_ne!(table(), table());
    }

    #[test]
    fn heavy_tables_serve_the_right_length_and_one_code_more() {
        let h = Hall::full(3, 3, 0);
        let mut random = Random::new(4);
        let mut met = [false; 3];
        for _ in 0..1000 {
            let length = any_hall_table(&mut random, h).len();
            if let 97_967..=97_969 = length {
                met[length - 97_967] = true;
            }
        }
        assert_eq!(met, [true; 3]);
    }

    #[test]
    fn a_long_table_is_shown_by_its_codes_that_are_not_up() {
        let mut codes = vec![UP; 1000];
        codes[7] = 2;
        let shown = format!("{:?}", Table::Own(codes));
        assert_eq!(shown, "1000 codes all 1 but {7: 2}");
        assert_eq!(format!("{:?}", Table::Own(vec![1, 3])), "2 codes [1, 3]");
    }
}
