//! The filling of a hall, one DCell(1) after the other: which one comes next, and which servers are fitted.

use crate::hall::{self, Hall, Scale, LEAST_FILLED_K, LEVELS};
use crate::refusal;

/// The place of a tuple that tells the DCell(1) inside a DCell(2).
const CELL_PLACE: usize = 2;
/// The place of a tuple that tells the DCell(2) inside a DCell(3).
const ROW_PLACE: usize = 3;

/// The prefix of the next DCell(1), as the tuple of its first server; index i holds a(i).
#[derive(Debug, Clone, Copy, PartialEq, Eq)]
pub struct NextPrefix {
    pub refusal: u32,
    pub tuple: [u32; LEVELS],
}

/// The prefix of the DCell(1) to be fitted next.
pub fn next_prefix(h: Hall) -> NextPrefix {
    let refused = |refusal| NextPrefix {
        refusal,
        tuple: [0; LEVELS],
    };
    let Some(scale) = hall::scale(h).filter(|_| h.k >= LEAST_FILLED_K) else {
        return refused(refusal::HALL);
    };
    if scale.is_full(h) {
        return refused(refusal::FULL);
    }
    let (row, cell) = match h.k {
        LEAST_FILLED_K => (0, h.count),
        _ => next_cell(scale, h.count),
    };
    let mut tuple = [0; LEVELS];
    tuple[CELL_PLACE] = cell;
    tuple[ROW_PLACE] = row;
    NextPrefix {
        refusal: refusal::NONE,
        tuple,
    }
}

/// The DCell(2) that takes the next DCell(1) of a hall of top level 3, and the index it has there, when so many are fitted.
///
/// First the rows, which are the DCell(2)s, are begun with one DCell(1) each, until there are as many rows as a row has DCell(1)s. Then
/// these rows are filled in order, each with all that it lacks. Every later row is begun and filled before the next.
fn next_cell(scale: &Scale, count: u32) -> (u32, u32) {
    let row = row_length(scale);
    if count < row {
        return (count, 0);
    }
    if count < row * row {
        let lacking = row - 1;
        let filled = count - row;
        return (filled / lacking, 1 + filled % lacking);
    }
    (count / row, count % row)
}

/// The DCell(1)s of a DCell(2), and the DCell(2)s that are begun before the first one is filled: t(1) + 1.
#[inline]
fn row_length(scale: &Scale) -> u32 {
    scale.size(1) + 1
}

/// Whether a server is fitted; none is where there is no such hall or server.
pub fn is_fitted(h: Hall, uid: u32) -> bool {
    let Some(scale) = hall::scale(h).filter(|scale| uid < scale.size(h.k)) else {
        return false;
    };
    Filling::of(h, scale).is_none_or(|filling| filling.is_fitted(uid))
}

/// The fitted servers of the DCell(2) around a server; 0 where there is no such hall or server, or k is below 2.
pub fn fitted_servers(h: Hall, uid: u32) -> u32 {
    let there = |scale: &&Scale| h.k >= LEAST_FILLED_K && uid < scale.size(h.k);
    let Some(scale) = hall::scale(h).filter(there) else {
        return 0;
    };
    match Filling::of(h, scale) {
        Some(filling) => filling.fitted_around(uid).1,
        None => scale.size(LEAST_FILLED_K),
    }
}

/// What is fitted of a sound hall that is not full; its top level is 2 or 3.
#[derive(Debug, Clone, Copy)]
pub(crate) struct Filling {
    scale: &'static Scale,
    k: u32,
    count: u32,
}

impl Filling {
    /// The filling of a sound hall; none where the hall is full, so that a full one is asked nothing more.
    #[inline]
    pub(crate) fn of(h: Hall, scale: &'static Scale) -> Option<Filling> {
        let Hall { k, count, .. } = h;
        (!scale.is_full(h)).then_some(Filling { scale, k, count })
    }

    /// Whether a server of the hall is fitted.
    #[inline]
    pub(crate) fn is_fitted(&self, uid: u32) -> bool {
        self.fitted_from(uid) > 0
    }

    /// The codes that count in the table of a DCell of level 2 or below that begins at server `first`: those of its fitted servers, which
    /// stand in front of the others. Behind their end no port is up. A link of that DCell with one end behind it is of no use either,
    /// as both its ends have to be up.
    #[inline]
    pub(crate) fn counted<'a>(&self, first: u32, table: &'a [u8]) -> &'a [u8] {
        let codes = self.fitted_from(first) as usize * (self.k as usize + 1);
        table.get(..codes).unwrap_or(table)
    }

    /// The fitted servers among those of the DCell(2) around a server that are not before it.
    #[inline]
    fn fitted_from(&self, uid: u32) -> u32 {
        let (first, fitted) = self.fitted_around(uid);
        (first + fitted).saturating_sub(uid)
    }

    /// The first server of the DCell(2) around a server, and how many servers from it on are fitted there.
    #[inline]
    fn fitted_around(&self, uid: u32) -> (u32, u32) {
        let row = self.scale.cells_below(uid, LEAST_FILLED_K);
        let first = row * self.scale.size(LEAST_FILLED_K);
        (first, self.fitted_cells(row) * self.scale.size(1))
    }

    /// The fitted DCell(1)s of a DCell(2), told by its number in the hall.
    #[inline]
    fn fitted_cells(&self, row: u32) -> u32 {
        if self.k == LEAST_FILLED_K {
            return self.count;
        }
        let length = row_length(self.scale);
        if row >= length {
            return self.count.saturating_sub(row * length).min(length);
        }
        let lacking = length - 1;
        let behind_the_first = self.count.saturating_sub(length + row * lacking);
        u32::from(row < self.count) + behind_the_first.min(lacking)
    }
}

#[cfg(test)]
mod tests {
    use super::*;
    use crate::hall::{racks_of, tuple_of, uid_of};
    use crate::naive;
    use crate::random::Random;

    fn hall(n: u32, k: u32, count: u32) -> Hall {
        Hall { n, k, b: 0, count }
    }

    /// The prefixes of a hall in the order the planner gives them.
    fn planned(n: u32, k: u32) -> Vec<[u32; 4]> {
        let counts = 0..racks_of(n, k);
        let prefix = |count| {
            let answer = next_prefix(hall(n, k, count));
            assert_eq!(answer.refusal, 0);
            answer.tuple
        };
        counts.map(prefix).collect()
    }

    #[test]
    fn the_planner_follows_figure_6_addition_by_addition() {
        for (n, k) in [(2, 2), (3, 2), (4, 2), (8, 2), (2, 3), (3, 3)] {
            let placed = naive::placed(n, k, racks_of(n, k));
            let literal: Vec<[u32; 4]> = placed.iter().map(|&(a3, a2)| [0, 0, a2, a3]).collect();
            assert_eq!(planned(n, k), literal, "{n} {k}");
        }
    }

    #[test]
    fn in_a_dcell_2_the_next_free_index_is_used() {
        for n in 2..=8 {
            let cells = naive::size(n, 1) + 1;
            let indices: Vec<[u32; 4]> = (0..cells).map(|a2| [0, 0, a2, 0]).collect();
            assert_eq!(planned(n, 2), indices);
        }
    }

    #[test]
    fn with_n_2_and_k_3_seven_dcell_2s_are_begun_then_filled_in_order_and_then_one_follows_the_other(
    ) {
        let at = |count| {
            let [a0, a1, a2, a3] = next_prefix(hall(2, 3, count)).tuple;
            assert_eq!([a0, a1], [0, 0]);
            [a3, a2]
        };
        assert_eq!([0, 1, 6].map(at), [[0, 0], [1, 0], [6, 0]]);
        assert_eq!([7, 8, 12, 13].map(at), [[0, 1], [0, 2], [0, 6], [1, 1]]);
        assert_eq!([48, 49, 50, 55].map(at), [[6, 6], [7, 0], [7, 1], [7, 6]]);
        assert_eq!([56, 300].map(at), [[8, 0], [42, 6]]);
    }

    #[test]
    fn no_prefix_comes_twice_and_every_dcell_1_comes_once() {
        for (n, k) in [(2, 2), (5, 2), (2, 3), (3, 3), (4, 3), (8, 3)] {
            let h = hall(n, k, 0);
            let t1 = naive::size(n, 1);
            let mut given = vec![false; racks_of(n, k) as usize];
            for tuple in planned(n, k) {
                let first = uid_of(h, tuple);
                assert_eq!((first.refusal, first.uid % t1), (0, 0));
                let cell = (first.uid / t1) as usize;
                assert!(!given[cell], "{tuple:?}");
                given[cell] = true;
            }
            assert!(given.into_iter().all(|there| there));
        }
    }

    #[test]
    fn a_full_hall_gets_12_and_a_hall_that_is_none_or_too_low_1_before_it() {
        let refused = |refusal| NextPrefix {
            refusal,
            tuple: [0; 4],
        };
        for n in 2..=8 {
            for k in [2, 3] {
                assert_eq!(next_prefix(Hall::full(n, k, 1)), refused(12));
                assert_eq!(next_prefix(hall(n, k, racks_of(n, k) + 1)), refused(1));
                assert_eq!(next_prefix(hall(n, k, u32::MAX)), refused(1));
                assert_eq!(
                    next_prefix(Hall {
                        b: 2,
                        ..hall(n, k, 0)
                    }),
                    refused(1)
                );
            }
            for k in [0, 1] {
                for count in [0, 1, 2, u32::MAX] {
                    assert_eq!(next_prefix(hall(n, k, count)), refused(1));
                }
            }
        }
        for (n, k) in [(1, 2), (9, 2), (4, 4), (4, u32::MAX)] {
            assert_eq!(next_prefix(hall(n, k, 0)), refused(1));
        }
    }

    #[test]
    fn exactly_the_servers_of_the_dcell_1s_given_so_far_are_fitted() {
        for (n, k) in [(2, 2), (3, 2), (4, 2), (2, 3)] {
            let mut fitted = vec![false; naive::size(n, k) as usize];
            let servers = || 0..naive::size(n, k);
            for count in 0..=racks_of(n, k) {
                let h = hall(n, k, count);
                assert!(servers().all(|uid| is_fitted(h, uid) == fitted[uid as usize]));
                let Some(first) = Some(next_prefix(h)).filter(|next| next.refusal == 0) else {
                    continue;
                };
                let first = uid_of(h, first.tuple).uid;
                for uid in first..first + naive::size(n, 1) {
                    assert!(!fitted[uid as usize]);
                    fitted[uid as usize] = true;
                }
            }
            assert!(fitted.into_iter().all(|there| there));
        }
    }

    #[test]
    fn servers_are_fitted_as_by_figure_6() {
        let mut random = Random::new(6);
        for (n, k) in [(2, 2), (4, 2), (2, 3), (3, 3)] {
            for _ in 0..12 {
                let h = hall(n, k, random.below(racks_of(n, k) + 1));
                let placed = naive::placed(n, k, h.count);
                for uid in (0..naive::size(n, k)).step_by(5) {
                    let [_, _, a2, a3] = tuple_of(h, uid).tuple;
                    assert_eq!(is_fitted(h, uid), placed.contains(&(a3, a2)), "{h:?} {uid}");
                }
            }
        }
    }

    #[test]
    fn the_fitted_servers_around_one_are_those_of_its_dcell_2_that_are_fitted() {
        let mut random = Random::new(7);
        for (n, k) in [(2, 2), (3, 2), (2, 3), (3, 3)] {
            let t2 = naive::size(n, 2);
            for _ in 0..60 {
                let h = hall(n, k, random.below(racks_of(n, k) + 1));
                let uid = random.below(naive::size(n, k));
                let around = uid / t2 * t2..uid / t2 * t2 + t2;
                let fitted = around.filter(|&other| is_fitted(h, other)).count();
                assert_eq!(fitted_servers(h, uid), fitted as u32);
            }
        }
        let whole = Hall::full(8, 3, 0);
        assert_eq!(fitted_servers(whole, 27_630_791), 5256);
        assert_eq!(fitted_servers(hall(8, 3, 383_760), 27_630_791), 5256 - 72);
        assert_eq!(fitted_servers(hall(8, 3, 74), 0), 144);
        assert_eq!(fitted_servers(hall(8, 3, 74), 72 * 5256), 72);
        assert_eq!(fitted_servers(hall(8, 3, 74), 73 * 5256), 0);
    }

    #[test]
    fn nothing_is_fitted_where_there_is_no_such_hall_or_server() {
        let none = |h, uid| {
            assert!(!is_fitted(h, uid), "{h:?} {uid}");
            assert_eq!(fitted_servers(h, uid), 0);
        };
        for uid in [42, 43, u32::MAX] {
            none(hall(2, 2, 7), uid);
            none(hall(2, 2, 3), uid);
        }
        for uid in [0, 41, u32::MAX] {
            none(hall(2, 2, 0), uid);
            none(hall(2, 2, 8), uid);
            none(hall(9, 2, 1), uid);
            none(hall(2, 4, 1), uid);
            none(
                Hall {
                    b: 2,
                    ..hall(2, 2, 7)
                },
                uid,
            );
        }
    }

    #[test]
    fn a_hall_below_top_level_2_is_fitted_whole_and_has_no_dcell_2() {
        for (k, servers) in [(0, 4), (1, 20)] {
            for uid in 0..servers + 2 {
                assert_eq!(is_fitted(hall(4, k, 1), uid), uid < servers);
                assert!(!is_fitted(hall(4, k, 0), uid));
                assert!(!is_fitted(hall(4, k, 2), uid));
                assert_eq!(fitted_servers(hall(4, k, 1), uid), 0);
            }
        }
    }

    #[test]
    fn the_codes_that_count_are_those_of_the_fitted_servers_in_front() {
        let h = hall(2, 2, 3);
        let scale = hall::scale(h).unwrap();
        let filling = Filling::of(h, scale).unwrap();
        let table: Vec<u8> = (0..126).collect();
        assert_eq!(filling.counted(0, &table), &table[..3 * 18]);
        assert_eq!(filling.counted(12, &table[..18]), &table[..18]);
        assert_eq!(filling.counted(16, &table[..6]), &table[..6]);
        for first in [18, 20, 40] {
            assert!(filling.counted(first, &table[..6]).is_empty());
        }
        assert!(Filling::of(Hall::full(2, 2, 0), scale).is_none());
    }
}
