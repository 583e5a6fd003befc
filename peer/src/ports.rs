//! The port codes of a hall: the check of a hall table, the part of it that one server's DCell(b) has, and the table lent to a step.

use crate::hall::{self, partner, Hall, Scale, LEAST_FILLED_K};
use crate::plan::Filling;
use crate::refusal;

/// The code of a port that is not fitted.
pub const NOT_FITTED: u8 = 0;
/// The one code that counts as up.
pub const UP: u8 = 1;
/// The highest known code: held for tests.
pub const HIGHEST_CODE: u8 = 4;

/// Codes looked at together by the check.
const BLOCK: usize = 256;

/// Whether a hall table is sound; refusal 5 comes with the index of the first unknown code.
#[derive(Debug, Clone, Copy, PartialEq, Eq)]
pub struct TableCheck {
    pub refusal: u32,
    pub place: u32,
}

/// Checks the length and the codes of a hall table.
pub fn check(h: Hall, table: &[u8]) -> TableCheck {
    let answer = |refusal, place| TableCheck { refusal, place };
    let Some(scale) = hall::scale(h) else {
        return answer(refusal::HALL, 0);
    };
    if table.len() != scale.table_length(h.k, h.k) {
        return answer(refusal::LENGTH, 0);
    }
    let place = first_unknown(table);
    if place < table.len() {
        return answer(refusal::CODE, place as u32);
    }
    answer(refusal::NONE, 0)
}

/// The refusal, or the part of the hall table that holds the DCell(b) of a server.
pub fn part(h: Hall, table: &[u8], uid: u32) -> (u32, &[u8]) {
    match own_cell(h, table, uid) {
        Ok((scale, first)) => (refusal::NONE, cell_part(scale, h.k, table, first, h.b)),
        Err(refusal) => (refusal, &[]),
    }
}

/// Writes the table lent to a step of a server to the start of the room: the part of the hall table for its DCell(b), and behind it the
/// code of the far port for each server there and each level above b, each code as it counts.
pub fn step_table(h: Hall, table: &[u8], uid: u32, room: &mut [u8]) -> u32 {
    let (scale, first) = match own_cell(h, table, uid) {
        Ok(found) => found,
        Err(refusal) => return refusal,
    };
    let part = cell_part(scale, h.k, table, first, h.b);
    let Some(written) = room.get_mut(..part.len() + far_codes(scale, h)) else {
        return refusal::ROOM;
    };
    let (near, far) = written.split_at_mut(part.len());
    near.copy_from_slice(part);
    put_far_codes(scale, h, table, first, far);
    if let Some(filling) = Filling::of(h, scale) {
        shut(&filling, scale, h, first, near, far);
    }
    refusal::NONE
}

/// Writes 0 over the codes of the ports whose own server or far server is not fitted, for the DCell(b) that begins at server `first`.
/// Such a DCell is fitted whole or not at all, and so are the two ends of a link below level 2.
fn shut(filling: &Filling, scale: &Scale, h: Hall, first: u32, near: &mut [u8], far: &mut [u8]) {
    if !filling.is_fitted(first) {
        near.fill(NOT_FITTED);
        far.fill(NOT_FITTED);
        return;
    }
    let nears = near.chunks_exact_mut(h.k as usize + 1);
    let fars = far.chunks_exact_mut((h.k - h.b) as usize);
    for (uid, (near, far)) in (first..).zip(nears.zip(fars)) {
        for level in LEAST_FILLED_K..=h.k {
            if filling.is_fitted(scale.neighbour(uid, level)) {
                continue;
            }
            near[level as usize] = NOT_FITTED;
            far[(level - h.b - 1) as usize] = NOT_FITTED;
        }
    }
}

/// The two parts of a table lent to a step: the codes of its DCell(b), then those of the far ports; none where its length is wrong.
#[inline]
pub(crate) fn step_parts<'a>(
    scale: &Scale,
    h: Hall,
    table: &'a [u8],
) -> Option<(&'a [u8], &'a [u8])> {
    let (near, far) = table.split_at_checked(scale.table_length(h.b, h.k))?;
    (far.len() == far_codes(scale, h)).then_some((near, far))
}

/// The codes of far ports in a table lent to a step: one for each server of a DCell(b) and each level above b.
#[inline]
fn far_codes(scale: &Scale, h: Hall) -> usize {
    scale.size(h.b) as usize * (h.k - h.b) as usize
}

/// Fills the room with the codes of the far ports for the DCell(b) that begins at server `first`, which is in one sub-cell of each level.
#[inline]
fn put_far_codes(scale: &Scale, h: Hall, table: &[u8], first: u32, far: &mut [u8]) {
    let ports = h.k as usize + 1;
    let levels = (h.k - h.b) as usize;
    let mut inside = first;
    for below in (h.b..h.k).rev() {
        let size = scale.size(below);
        let around = first - inside;
        let sub_cell = scale.cells_below(inside, below);
        inside -= sub_cell * size;
        let neighbour = around + partner(size, sub_cell, inside);
        let mut place = neighbour as usize * ports + below as usize + 1;
        let stride = size as usize * ports;
        let codes = far.iter_mut().skip((below - h.b) as usize).step_by(levels);
        for (next, code) in (inside + 1..).zip(codes) {
            if let Some(&found) = table.get(place) {
                *code = found;
            }
            // The next neighbour is one sub-cell farther on, or two and one server where the own sub-cell lies between.
            place += if next == sub_cell {
                2 * stride + ports
            } else {
                stride
            };
        }
    }
}

/// The scale of the hall and the first server of the DCell(b) of a server, or the refusal of the hall, the table or the uid.
#[inline]
fn own_cell(h: Hall, table: &[u8], uid: u32) -> Result<(&'static Scale, u32), u32> {
    let scale = hall::scale(h).ok_or(refusal::HALL)?;
    if table.len() != scale.table_length(h.k, h.k) {
        return Err(refusal::LENGTH);
    }
    if uid >= scale.size(h.k) {
        return Err(refusal::UID);
    }
    Ok((scale, scale.first(uid, h.b)))
}

/// The part of a hall table for the DCell(level) that begins at server `first`.
#[inline]
pub(crate) fn cell_part<'a>(
    scale: &Scale,
    k: u32,
    table: &'a [u8],
    first: u32,
    level: u32,
) -> &'a [u8] {
    let start = first as usize * (k as usize + 1);
    let end = start + scale.table_length(level, k);
    table.get(start..end).unwrap_or(&[])
}

/// Whether a port of a server has code 1 in a table of k + 1 ports a server; no port above k has, and none behind the table's end.
#[inline]
pub fn is_up(h: Hall, table: &[u8], server: u32, port: u32) -> bool {
    if port > h.k {
        return false;
    }
    let place = u64::from(server) * (u64::from(h.k) + 1) + u64::from(port);
    usize::try_from(place).is_ok_and(|place| table.get(place) == Some(&UP))
}

/// Whether a code is one of the known ones.
#[inline]
pub fn is_known(code: u8) -> bool {
    code <= HIGHEST_CODE
}

/// The index of the first unknown code; the table's length where all are known.
pub fn first_unknown(table: &[u8]) -> usize {
    let unknown = |&code: &u8| !is_known(code);
    let any = |block: &[u8]| block.iter().fold(false, |any, code| any | unknown(code));
    let Some(block) = table.chunks(BLOCK).position(any) else {
        return table.len();
    };
    let rest = table.get(block * BLOCK..).unwrap_or(&[]);
    let inside = rest.iter().position(unknown).unwrap_or(rest.len());
    block * BLOCK + inside
}

#[cfg(test)]
mod tests {
    use super::*;
    use crate::naive;
    use crate::random::Random;

    const HALL: Hall = Hall::full(4, 1, 0);

    #[test]
    fn a_table_of_known_codes_is_sound() {
        let table: Vec<u8> = (0..40).map(|i| i % 5).collect();
        assert_eq!(
            check(HALL, &table),
            TableCheck {
                refusal: 0,
                place: 0
            }
        );
    }

    #[test]
    fn the_first_unknown_code_is_told_by_its_index() {
        let mut table = [1; 40];
        for place in (0..40).rev() {
            table[place] = 5 + place as u8;
            assert_eq!(
                check(HALL, &table),
                TableCheck {
                    refusal: 5,
                    place: place as u32
                }
            );
        }
    }

    #[test]
    fn the_first_unknown_code_is_found_in_any_block() {
        let mut random = Random::new(9);
        for _ in 0..500 {
            let length = random.below(2000) as usize;
            let mut codes = vec![4; length];
            for _ in 0..random.below(3) {
                if let Some(code) = codes.get_mut(random.below(2000) as usize) {
                    *code = 5 + random.byte() % 251;
                }
            }
            let literal = codes.iter().position(|&c| c > 4).unwrap_or(length);
            assert_eq!(first_unknown(&codes), literal);
        }
    }

    #[test]
    fn the_length_comes_before_the_codes_and_the_hall_before_both() {
        let answer = |refusal| TableCheck { refusal, place: 0 };
        assert_eq!(check(HALL, &[9; 39]), answer(4));
        assert_eq!(check(HALL, &[9; 41]), answer(4));
        assert_eq!(check(HALL, &[]), answer(4));
        assert_eq!(check(Hall::full(4, 1, 2), &[9; 40]), answer(1));
    }

    #[test]
    fn a_part_holds_the_ports_of_exactly_the_own_cell() {
        let mut random = Random::new(4);
        for h in naive::small_halls() {
            let count = naive::servers(h);
            let ports = h.k as usize + 1;
            let table: Vec<u8> = (0..count as usize * ports).map(|_| random.byte()).collect();
            for uid in 0..count {
                let t = naive::size(h.n, h.b);
                let start = (uid / t * t) as usize * ports;
                let own = &table[start..start + t as usize * ports];
                assert_eq!(part(h, &table, uid), (0, own));
            }
        }
    }

    #[test]
    fn a_refused_part_is_empty_and_refusals_come_in_order() {
        let none: &[u8] = &[];
        assert_eq!(part(Hall::full(9, 1, 0), &[1; 4], 99), (1, none));
        assert_eq!(part(HALL, &[1; 39], 99), (4, none));
        assert_eq!(part(HALL, &[1; 41], 99), (4, none));
        assert_eq!(part(HALL, &[1; 40], 20), (2, none));
        assert_eq!(part(HALL, &[7; 40], 19).0, 0);
    }

    /// The hall table whose byte at each place is the place, modulo 256.
    fn places(h: Hall) -> Vec<u8> {
        let codes = naive::servers(h) * (h.k + 1);
        (0..codes).map(|place| place as u8).collect()
    }

    /// The table of a step over that hall table, with three bytes behind it that stay as lent.
    fn written(h: Hall, uid: u32, length: usize) -> Vec<u8> {
        let mut room = vec![0xEE; length + 3];
        assert_eq!(step_table(h, &places(h), uid, &mut room), 0);
        assert_eq!(room[length..], [0xEE; 3]);
        room.truncate(length);
        room
    }

    #[test]
    fn servers_0_and_1_are_joined_to_2_and_4_at_level_1() {
        let h = Hall::full(2, 1, 0);
        for uid in [0, 1] {
            assert_eq!(written(h, uid, 6), [0, 1, 2, 3, 5, 9]);
        }
    }

    #[test]
    fn servers_6_to_11_are_joined_to_0_13_19_25_31_and_37_at_level_2() {
        let h = Hall::full(2, 2, 1);
        let mut own: Vec<u8> = (18..36).collect();
        own.extend([2, 41, 59, 77, 95, 113]);
        for uid in 6..12 {
            assert_eq!(written(h, uid, 24), own);
        }
    }

    #[test]
    fn servers_2_and_3_are_joined_to_0_and_5_at_level_1_and_to_18_and_24_at_level_2() {
        let h = Hall::full(2, 2, 0);
        for uid in [2, 3] {
            assert_eq!(written(h, uid, 10), [6, 7, 8, 9, 10, 11, 1, 56, 16, 74]);
        }
    }

    #[test]
    fn a_hall_of_top_level_b_has_no_far_code() {
        assert_eq!(written(Hall::full(2, 0, 0), 1, 2), [0, 1]);
        let whole: Vec<u8> = (0..40).collect();
        assert_eq!(written(Hall::full(4, 1, 1), 19, 40), whole);
    }

    #[test]
    fn each_far_code_is_that_of_the_neighbours_port() {
        let mut random = Random::new(5);
        for h in naive::small_halls() {
            let codes = naive::servers(h) * (h.k + 1);
            let table: Vec<u8> = (0..codes).map(|_| random.byte()).collect();
            let t = naive::size(h.n, h.b);
            for first in (0..naive::servers(h)).step_by(t as usize) {
                let literal = naive::step_table(h, &table, first);
                let mut room = vec![0; literal.len()];
                let uid = first + random.below(t);
                assert_eq!(step_table(h, &table, uid, &mut room), 0);
                assert_eq!(room, literal, "{h:?} {uid}");
            }
        }
    }

    #[test]
    fn each_code_of_a_hall_that_is_not_full_is_written_as_it_counts() {
        let mut random = Random::new(8);
        for _ in 0..4 {
            for h in naive::part_halls(&mut random) {
                let codes = naive::servers(h) * (h.k + 1);
                let table: Vec<u8> = (0..codes).map(|_| random.byte()).collect();
                let counted = naive::counted(h, &table);
                for _ in 0..20 {
                    let uid = random.below(naive::servers(h));
                    let literal = naive::step_table(h, &counted, uid);
                    let mut room = vec![0xEE; literal.len()];
                    assert_eq!(step_table(h, &table, uid, &mut room), 0);
                    assert_eq!(room, literal, "{h:?} {uid}");
                }
            }
        }
    }

    #[test]
    fn with_three_of_seven_dcell_1s_the_ports_to_the_other_four_are_written_as_0() {
        let h = Hall {
            count: 3,
            ..Hall::full(2, 2, 1)
        };
        let lent = |uid| {
            let mut room = [0xEE; 24];
            assert_eq!(step_table(h, &[1; 126], uid, &mut room), 0);
            room
        };
        // Servers 6 to 11 are joined to 0, 13, 19, 25, 31 and 37 at level 2, of which 0 and 13 are fitted.
        let mut own = [1; 24];
        for place in 2..6 {
            own[place * 3 + 2] = 0;
            own[18 + place] = 0;
        }
        assert_eq!(lent(6), own);
        assert_eq!(lent(11), own);
        assert_eq!(lent(18), [0; 24]);
        assert_eq!(lent(41), [0; 24]);
    }

    #[test]
    fn the_check_and_the_part_know_nothing_of_what_is_fitted() {
        let h = Hall {
            count: 1,
            ..Hall::full(2, 2, 1)
        };
        let mut table: Vec<u8> = (0..126).map(|place| place % 5).collect();
        assert_eq!(part(h, &table, 41), (0, &table[108..]));
        assert_eq!(check(h, &table).refusal, 0);
        table[125] = 5;
        let place = 125;
        assert_eq!(check(h, &table), TableCheck { refusal: 5, place });
        assert!(is_up(h, &table, 40, 1));
    }

    #[test]
    fn a_refused_step_table_leaves_the_room_as_lent_and_refusals_come_in_order() {
        let refused = |h, codes, uid, length| {
            let mut room = vec![0xEE; length];
            let number = step_table(h, &vec![7; codes], uid, &mut room);
            assert_eq!(room, vec![0xEE; length]);
            number
        };
        for length in [0, 11, 12, 13] {
            for h in [(9, 1, 0), (4, 4, 0), (4, 1, 2), (1, 1, 0)] {
                let (n, k, b) = h;
                assert_eq!(refused(Hall::full(n, k, b), 39, 99, length), 1);
                assert_eq!(refused(Hall::full(n, k, b), 40, 0, length), 1);
            }
            for count in [0, 2, u32::MAX] {
                assert_eq!(refused(Hall { count, ..HALL }, 40, 0, length), 1);
            }
            for codes in [0, 8, 39, 41] {
                assert_eq!(refused(HALL, codes, 99, length), 4);
                assert_eq!(refused(HALL, codes, 0, length), 4);
            }
            for uid in [20, 21, u32::MAX] {
                assert_eq!(refused(HALL, 40, uid, length), 2);
            }
        }
        for length in 0..12 {
            assert_eq!(refused(HALL, 40, 19, length), 6);
        }
        assert_eq!(step_table(HALL, &[7; 40], 19, &mut [0; 12]), 0);
    }

    #[test]
    fn a_port_is_up_when_its_byte_is_there_and_is_1() {
        let table: Vec<u8> = (0..40).map(|i| i % 5).collect();
        for server in 0..25 {
            for port in 0..2 {
                let place = server * 2 + port;
                let up = place < 40 && place % 5 == 1;
                assert_eq!(is_up(HALL, &table, server, port), up);
            }
        }
        assert!(!is_up(HALL, &[], 0, 0));
    }

    #[test]
    fn a_port_above_k_is_never_up() {
        for k in 0..4 {
            for port in k + 1..20 {
                assert!(!is_up(Hall::full(4, k, 0), &[1; 80], 0, port));
            }
        }
        assert!(!is_up(HALL, &[1; 40], 0, u32::MAX));
    }

    #[test]
    fn a_port_of_any_hall_and_server_is_looked_up_without_a_wrap() {
        let h = |k| Hall::full(9, k, 9);
        assert!(is_up(h(u32::MAX), &[0, 1], 0, 1));
        assert!(!is_up(h(u32::MAX), &[1; 40], 1, 0));
        assert!(!is_up(h(1), &[1; 40], 1 << 31, 0));
        assert!(!is_up(h(u32::MAX), &[1; 40], u32::MAX, u32::MAX));
    }

    #[test]
    fn codes_0_to_4_are_known() {
        for code in 0..=255 {
            assert_eq!(is_known(code), [0, 1, 2, 3, 4].contains(&code));
        }
    }

    #[test]
    fn a_table_of_known_codes_has_its_length_as_the_first_unknown() {
        for length in [0, 1, 255, 256, 257, 512, 1000] {
            assert_eq!(first_unknown(&vec![4; length]), length);
        }
    }
}
