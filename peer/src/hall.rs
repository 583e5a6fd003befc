//! The hall and its numbers: sizes, uids, tuples, cells, neighbours and links, and how many DCell(1)s it has.

use crate::refusal;

/// The fewest servers on a mini-switch.
pub const LEAST_N: u32 = 2;
/// The most servers on a mini-switch.
pub const MOST_N: u32 = 8;
/// The highest top level.
pub const MOST_K: u32 = 3;
/// The highest local level.
pub const MOST_B: u32 = 1;
/// The levels of the highest hall, 0 included; also the places of a tuple.
pub const LEVELS: usize = MOST_K as usize + 1;

/// The number of allowed values of n.
const SCALE_COUNT: usize = (MOST_N - LEAST_N + 1) as usize;
/// The binary places behind the point of a reciprocal; see `Scale::cells_below`.
const INVERSE_PLACES: u32 = 40;

/// The lowest top level of a hall that is bought one DCell(1) at a time; one below it is always full.
pub const LEAST_FILLED_K: u32 = 2;

/// n servers on a mini-switch, top level k, local level b, and the number of its DCell(1)s that are fitted.
#[derive(Debug, Clone, Copy, PartialEq, Eq)]
pub struct Hall {
    pub n: u32,
    pub k: u32,
    pub b: u32,
    pub count: u32,
}

impl Hall {
    /// The hall of these numbers of which everything is fitted.
    pub const fn full(n: u32, k: u32, b: u32) -> Hall {
        let count = racks_of(n, k);
        Hall { n, k, b, count }
    }
}

/// The sizes t(0) to t(k), with zeros above k.
#[derive(Debug, Clone, Copy, PartialEq, Eq)]
pub struct Sizes {
    pub refusal: u32,
    pub t: [u32; LEVELS],
}

/// The uid of a tuple.
#[derive(Debug, Clone, Copy, PartialEq, Eq)]
pub struct UidOf {
    pub refusal: u32,
    pub uid: u32,
}

/// The tuple of a uid; index i holds a(i).
#[derive(Debug, Clone, Copy, PartialEq, Eq)]
pub struct TupleOf {
    pub refusal: u32,
    pub tuple: [u32; LEVELS],
}

/// The uids of a DCell: so many from the first on.
#[derive(Debug, Clone, Copy, PartialEq, Eq)]
pub struct Cell {
    pub refusal: u32,
    pub first: u32,
    pub count: u32,
}

/// The one neighbour of a server at a level.
#[derive(Debug, Clone, Copy, PartialEq, Eq)]
pub struct Neighbour {
    pub refusal: u32,
    pub uid: u32,
}

/// The two ends of a link, the one in the sub-cell named first in front.
#[derive(Debug, Clone, Copy, PartialEq, Eq)]
pub struct Link {
    pub refusal: u32,
    pub from: u32,
    pub to: u32,
}

/// The sizes of all levels for one n, with reciprocals to divide by them, and the DCell(1)s that a hall of each top level can have.
#[derive(Debug)]
pub(crate) struct Scale {
    pub(crate) t: [u32; LEVELS],
    inverse: [u64; LEVELS],
    racks: [u32; LEVELS],
}

/// One scale for each n from 2 to 8.
static SCALES: [Scale; SCALE_COUNT] = all_scales();

/// The scale of a sound hall; none where n, k, b or the count is outside its range.
#[inline]
pub(crate) fn scale(h: Hall) -> Option<&'static Scale> {
    if !shape_fits(h) {
        return None;
    }
    let scale = SCALES.get((h.n - LEAST_N) as usize)?;
    let below = h.k >= LEAST_FILLED_K && h.count < scale.racks(h.k);
    (scale.is_full(h) || below).then_some(scale)
}

/// The uid inside sub-cell p of the end of its link to sub-cell q.
#[inline]
pub(crate) fn door(p: u32, q: u32) -> u32 {
    q - u32::from(q > p)
}

/// The sub-cell that server `inside` of a sub-cell has its link to.
#[inline]
fn joined_cell(sub_cell: u32, inside: u32) -> u32 {
    inside + u32::from(inside >= sub_cell)
}

/// The neighbour of server `inside` of a sub-cell, both told inside the one DCell that holds its sub-cells of that size.
#[inline]
pub(crate) fn partner(size: u32, sub_cell: u32, inside: u32) -> u32 {
    let other = joined_cell(sub_cell, inside);
    other * size + door(other, sub_cell)
}

impl Scale {
    /// t(level).
    #[inline]
    pub(crate) fn size(&self, level: u32) -> u32 {
        self.t[level as usize % LEVELS]
    }

    /// The DCell(1)s that a hall of top level k can have.
    #[inline]
    pub(crate) fn racks(&self, k: u32) -> u32 {
        self.racks[k as usize % LEVELS]
    }

    /// Whether everything of a hall is fitted.
    #[inline]
    pub(crate) fn is_full(&self, h: Hall) -> bool {
        h.count == self.racks(h.k)
    }

    /// The bytes of the port codes of one DCell(level) in a hall of top level k.
    #[inline]
    pub(crate) fn table_length(&self, level: u32, k: u32) -> usize {
        self.size(level) as usize * (k as usize + 1)
    }

    /// The whole DCell(level)s below a uid of the hall: uid / t(level).
    ///
    /// With m = 2^40 / t rounded up, uid × m / 2^40 has the right whole part as long as uid × t < 2^40: true for t(2) and below,
    /// as t(3) × t(2) < 2^38. A hall of top level 3 is one DCell(3), so m is 0 there.
    #[inline]
    pub(crate) fn cells_below(&self, uid: u32, level: u32) -> u32 {
        ((u64::from(uid) * self.inverse[level as usize % LEVELS]) >> INVERSE_PLACES) as u32
    }

    /// The first uid of the DCell(level) around a server.
    #[inline]
    pub(crate) fn first(&self, uid: u32, level: u32) -> u32 {
        self.cells_below(uid, level) * self.size(level)
    }

    /// The neighbour of a server at a level above 0.
    #[inline]
    pub(crate) fn neighbour(&self, uid: u32, level: u32) -> u32 {
        let size = self.size(level - 1);
        let first = self.first(uid, level);
        let sub_cell = self.cells_below(uid - first, level - 1);
        let inside = uid - first - sub_cell * size;
        first + partner(size, sub_cell, inside)
    }
}

/// Whether n is in its range.
#[inline]
pub fn n_fits(n: u32) -> bool {
    (LEAST_N..=MOST_N).contains(&n)
}

/// Whether k is in its range in a hall of n servers on a mini-switch; the range is the same for every n.
#[inline]
pub fn k_fits(_n: u32, k: u32) -> bool {
    k <= MOST_K
}

/// Whether b is in its range in a hall of top level k.
#[inline]
pub fn b_fits(k: u32, b: u32) -> bool {
    b <= MOST_B.min(k)
}

/// Whether n, k and b are all in their ranges.
#[inline]
fn shape_fits(h: Hall) -> bool {
    n_fits(h.n) && k_fits(h.n, h.k) && b_fits(h.k, h.b)
}

/// The DCell(1)s that a hall can have, t(k) / t(1), and 1 with k below 2; 0 where n or k is outside its range.
pub const fn racks_of(n: u32, k: u32) -> u32 {
    if n < LEAST_N || n > MOST_N || k > MOST_K {
        return 0;
    }
    scale_of(n).racks[k as usize]
}

/// The servers of a hall; 0 where it is not valid.
pub fn servers_of(h: Hall) -> u32 {
    scale(h).map_or(0, |scale| scale.size(h.k))
}

/// t(level), the servers of a DCell of a level; 0 where the hall is not valid or has no such level.
pub fn size_of(h: Hall, level: u32) -> u32 {
    scale(h).map_or(0, |scale| if level <= h.k { scale.size(level) } else { 0 })
}

/// The sizes of a hall.
pub fn sizes(h: Hall) -> Sizes {
    let mut answer = Sizes {
        refusal: refusal::HALL,
        t: [0; LEVELS],
    };
    let Some(scale) = scale(h) else {
        return answer;
    };
    answer.refusal = refusal::NONE;
    for (level, t) in (0..=h.k).zip(answer.t.iter_mut()) {
        *t = scale.size(level);
    }
    answer
}

/// The uid of a tuple.
pub fn uid_of(h: Hall, tuple: [u32; LEVELS]) -> UidOf {
    let refused = |refusal| UidOf { refusal, uid: 0 };
    let Some(scale) = scale(h) else {
        return refused(refusal::HALL);
    };
    let [a0, above @ ..] = tuple;
    if a0 >= h.n {
        return refused(refusal::RANGE);
    }
    let mut uid = a0;
    for (below, a) in (0..).zip(above) {
        let greatest = if below < h.k { scale.size(below) } else { 0 };
        if a > greatest {
            return refused(refusal::RANGE);
        }
        uid += a * greatest;
    }
    UidOf {
        refusal: refusal::NONE,
        uid,
    }
}

/// The tuple of a uid.
pub fn tuple_of(h: Hall, uid: u32) -> TupleOf {
    let mut answer = TupleOf {
        refusal: refusal::NONE,
        tuple: [0; LEVELS],
    };
    let Some(scale) = scale(h) else {
        answer.refusal = refusal::HALL;
        return answer;
    };
    if uid >= scale.size(h.k) {
        answer.refusal = refusal::UID;
        return answer;
    }
    let mut inside = uid;
    for level in (1..LEVELS).rev() {
        let a = scale.cells_below(inside, level as u32 - 1);
        inside -= a * scale.t[level - 1];
        answer.tuple[level] = a;
    }
    answer.tuple[0] = inside;
    answer
}

/// The uids of the DCell of a level, 0 to k, around a server.
pub fn cell(h: Hall, uid: u32, level: u32) -> Cell {
    let refused = |refusal| Cell {
        refusal,
        first: 0,
        count: 0,
    };
    let Some(scale) = scale(h) else {
        return refused(refusal::HALL);
    };
    if uid >= scale.size(h.k) {
        return refused(refusal::UID);
    }
    if level > h.k {
        return refused(refusal::RANGE);
    }
    Cell {
        refusal: refusal::NONE,
        first: scale.first(uid, level),
        count: scale.size(level),
    }
}

/// The neighbour of a server at a level, 1 to k.
pub fn neighbour(h: Hall, uid: u32, level: u32) -> Neighbour {
    let refused = |refusal| Neighbour { refusal, uid: 0 };
    let Some(scale) = scale(h) else {
        return refused(refusal::HALL);
    };
    if uid >= scale.size(h.k) {
        return refused(refusal::UID);
    }
    if level == 0 || level > h.k {
        return refused(refusal::RANGE);
    }
    Neighbour {
        refusal: refusal::NONE,
        uid: scale.neighbour(uid, level),
    }
}

/// The link between sub-cells p and q of the DCell of a level, 1 to k, around a server.
pub fn link(h: Hall, uid: u32, level: u32, p: u32, q: u32) -> Link {
    let refused = |refusal| Link {
        refusal,
        from: 0,
        to: 0,
    };
    let Some(scale) = scale(h) else {
        return refused(refusal::HALL);
    };
    if uid >= scale.size(h.k) {
        return refused(refusal::UID);
    }
    if level == 0 || level > h.k {
        return refused(refusal::RANGE);
    }
    let size = scale.size(level - 1);
    if p > size || q > size || p == q {
        return refused(refusal::RANGE);
    }
    let first = scale.first(uid, level);
    Link {
        refusal: refusal::NONE,
        from: first + p * size + door(p, q),
        to: first + q * size + door(q, p),
    }
}

/// The scales of every allowed n.
const fn all_scales() -> [Scale; SCALE_COUNT] {
    let mut scales = [const {
        Scale {
            t: [0; LEVELS],
            inverse: [0; LEVELS],
            racks: [0; LEVELS],
        }
    }; SCALE_COUNT];
    let mut i = 0;
    while i < SCALE_COUNT {
        scales[i] = scale_of(LEAST_N + i as u32);
        i += 1;
    }
    scales
}

/// The scale of one n.
const fn scale_of(n: u32) -> Scale {
    let mut t = [n; LEVELS];
    let mut inverse = [0; LEVELS];
    let mut racks = [1; LEVELS];
    let mut level = 1;
    while level < LEVELS {
        t[level] = (t[level - 1] + 1) * t[level - 1];
        inverse[level - 1] = (1 << INVERSE_PLACES) / t[level - 1] as u64 + 1;
        if level >= LEAST_FILLED_K as usize {
            racks[level] = (t[level - 1] + 1) * racks[level - 1];
        }
        level += 1;
    }
    Scale { t, inverse, racks }
}

#[cfg(test)]
mod tests {
    use super::*;
    use crate::naive;

    #[test]
    fn four_on_a_switch_give_4_20_420_and_176820_servers() {
        let t = [4, 20, 420, 176_820];
        for k in 0..=3 {
            let mut cut = [0; 4];
            cut[..=k].copy_from_slice(&t[..=k]);
            let answer = sizes(Hall::full(4, k as u32, 0));
            assert_eq!(answer, Sizes { refusal: 0, t: cut });
        }
    }

    #[test]
    fn the_largest_hall_has_27630792_servers() {
        assert_eq!(sizes(Hall::full(8, 3, 1)).t[3], 27_630_792);
    }

    #[test]
    fn tuples_0_2_1_and_6_0_1_are_servers_5_and_37() {
        let h = Hall::full(2, 2, 0);
        for (tuple, uid) in [([1, 2, 0, 0], 5), ([1, 0, 6, 0], 37)] {
            assert_eq!(uid_of(h, tuple), UidOf { refusal: 0, uid });
            assert_eq!(tuple_of(h, uid), TupleOf { refusal: 0, tuple });
        }
    }

    #[test]
    fn server_19_is_4_3_and_server_20_gets_2() {
        let h = Hall::full(4, 1, 0);
        assert_eq!(tuple_of(h, 19).tuple, [3, 4, 0, 0]);
        assert_eq!(
            tuple_of(h, 20),
            TupleOf {
                refusal: 2,
                tuple: [0; 4]
            }
        );
    }

    #[test]
    fn cells_0_and_4_meet_at_3_and_16_and_turned_at_16_and_3() {
        let h = Hall::full(4, 1, 0);
        for uid in 0..20 {
            let link = |p, q| link(h, uid, 1, p, q);
            let answer = |from, to| Link {
                refusal: 0,
                from,
                to,
            };
            assert_eq!(link(0, 4), answer(3, 16));
            assert_eq!(link(4, 0), answer(16, 3));
        }
    }

    #[test]
    fn n_k_b_and_the_count_are_checked_by_every_call() {
        let sound = Hall::full(4, 2, 1);
        let bad = [
            Hall { count: 22, ..sound },
            Hall {
                count: u32::MAX,
                ..sound
            },
            Hall { n: 1, ..sound },
            Hall { n: 9, ..sound },
            Hall { n: 0, ..sound },
            Hall {
                n: u32::MAX,
                ..sound
            },
            Hall { k: 4, ..sound },
            Hall {
                k: u32::MAX,
                ..sound
            },
            Hall { b: 2, ..sound },
            Hall { k: 0, ..sound },
        ];
        assert_eq!(sizes(sound).refusal, 0);
        for h in bad {
            assert_eq!(
                sizes(h),
                Sizes {
                    refusal: 1,
                    t: [0; 4]
                }
            );
            assert_eq!(uid_of(h, [9; 4]).refusal, 1);
            assert_eq!(tuple_of(h, u32::MAX).refusal, 1);
            assert_eq!(cell(h, u32::MAX, 9).refusal, 1);
            assert_eq!(neighbour(h, u32::MAX, 9).refusal, 1);
            assert_eq!(link(h, u32::MAX, 9, 0, 0).refusal, 1);
        }
    }

    #[test]
    fn a_bad_uid_comes_before_a_bad_level() {
        let h = Hall::full(4, 1, 0);
        assert_eq!(cell(h, 20, 9).refusal, 2);
        assert_eq!(neighbour(h, 20, 0).refusal, 2);
        assert_eq!(link(h, 20, 0, 1, 1).refusal, 2);
    }

    #[test]
    fn levels_sub_cells_and_tuple_places_outside_their_range_get_3() {
        let h = Hall::full(4, 1, 0);
        assert_eq!(cell(h, 0, 0).refusal, 0);
        assert_eq!(cell(h, 0, 2).refusal, 3);
        assert_eq!(neighbour(h, 0, 0).refusal, 3);
        assert_eq!(neighbour(h, 0, 2).refusal, 3);
        assert_eq!(link(h, 0, 0, 0, 1).refusal, 3);
        assert_eq!(link(h, 0, 2, 0, 1).refusal, 3);
        assert_eq!(link(h, 0, 1, 0, 5).refusal, 3);
        assert_eq!(link(h, 0, 1, 5, 0).refusal, 3);
        assert_eq!(link(h, 0, 1, 2, 2).refusal, 3);
        assert_eq!(uid_of(h, [4, 0, 0, 0]).refusal, 3);
        assert_eq!(uid_of(h, [0, 5, 0, 0]).refusal, 3);
        assert_eq!(uid_of(h, [0, 0, 1, 0]).refusal, 3);
        assert_eq!(uid_of(h, [0, 0, 0, 1]).refusal, 3);
        assert_eq!(uid_of(h, [3, 4, 0, 0]).uid, 19);
    }

    #[test]
    fn reciprocals_divide_every_uid_of_every_hall_exactly() {
        for scale in &SCALES {
            for level in 0..3 {
                let t = scale.size(level);
                assert!((0..scale.t[3]).all(|uid| scale.cells_below(uid, level) == uid / t));
            }
            assert_eq!(scale.cells_below(scale.t[3] - 1, 3), 0);
        }
    }

    #[test]
    fn every_uid_has_one_tuple_and_every_tuple_one_uid() {
        for h in naive::small_halls() {
            let count = naive::servers(h);
            for uid in 0..count {
                let tuple = tuple_of(h, uid).tuple;
                assert_eq!(tuple, naive::tuple(h, uid));
                assert_eq!(uid_of(h, tuple), UidOf { refusal: 0, uid });
            }
            assert_eq!(tuple_of(h, count).refusal, 2);
        }
    }

    #[test]
    fn exactly_as_many_tuples_are_sound_as_there_are_servers() {
        let h = Hall::full(2, 2, 0);
        let mut sound = 0;
        for code in 0..10_000 {
            let tuple = [code % 10, code / 10 % 10, code / 100 % 10, code / 1000];
            sound += u32::from(uid_of(h, tuple).refusal == 0);
        }
        assert_eq!(sound, 42);
    }

    #[test]
    fn a_cell_holds_exactly_the_servers_that_share_the_places_above_its_level() {
        for h in naive::small_halls() {
            let count = naive::servers(h);
            for uid in (0..count).step_by(7) {
                for level in 0..=h.k {
                    let cell = cell(h, uid, level);
                    assert_eq!(cell.count, naive::size(h.n, level));
                    let inside = |other: &u32| naive::same_cell(h, uid, *other, level);
                    let members: Vec<u32> = (0..count).filter(inside).collect();
                    let answered: Vec<u32> = (cell.first..cell.first + cell.count).collect();
                    assert_eq!(members, answered);
                }
            }
        }
    }

    #[test]
    fn neighbours_are_the_links_of_the_definition_and_turn_back() {
        for h in naive::small_halls() {
            for uid in 0..naive::servers(h) {
                for level in 1..=h.k {
                    let other = neighbour(h, uid, level).uid;
                    assert!(naive::linked(h, uid, other, level));
                    assert_eq!(neighbour(h, other, level).uid, uid);
                }
            }
        }
    }

    #[test]
    fn each_server_has_exactly_one_linked_server_at_each_level_above_0() {
        for h in [Hall::full(2, 2, 0), Hall::full(3, 2, 0)] {
            let count = naive::servers(h);
            for uid in 0..count {
                for level in 1..=h.k {
                    let linked = |other: &u32| naive::linked(h, uid, *other, level);
                    let all: Vec<u32> = (0..count).filter(linked).collect();
                    assert_eq!(all, [neighbour(h, uid, level).uid]);
                }
            }
        }
    }

    #[test]
    fn a_link_joins_its_two_sub_cells_whoever_asks() {
        for h in [Hall::full(2, 3, 0), Hall::full(3, 2, 1)] {
            for uid in (0..naive::servers(h)).step_by(5) {
                for level in 1..=h.k {
                    let g = naive::size(h.n, level - 1) + 1;
                    for (p, q) in (0..g).flat_map(|p| (0..g).map(move |q| (p, q))) {
                        let answer = link(h, uid, level, p, q);
                        if p == q {
                            assert_eq!(answer.refusal, 3);
                            continue;
                        }
                        assert!(naive::linked(h, answer.from, answer.to, level));
                        assert!(naive::same_cell(h, uid, answer.from, level));
                        assert_eq!(naive::tuple(h, answer.from)[level as usize], p);
                        assert_eq!(naive::tuple(h, answer.to)[level as usize], q);
                    }
                }
            }
        }
    }

    #[test]
    fn a_hall_is_valid_when_n_k_and_b_are_each_in_their_range() {
        let numbers = [0, 1, 2, 3, 4, 5, 6, 7, 8, 9, 258, u32::MAX];
        for n in numbers {
            assert_eq!(n_fits(n), (2..=8).contains(&n));
            for k in numbers {
                assert_eq!(k_fits(n, k), k <= 3);
                for b in numbers {
                    assert_eq!(b_fits(k, b), b <= 1 && b <= k);
                    let sound = (2..=8).contains(&n) && k <= 3 && b <= 1 && b <= k;
                    let h = Hall::full(n, k, b);
                    assert_eq!(shape_fits(h), sound);
                    assert_eq!(servers_of(h), if sound { naive::servers(h) } else { 0 });
                    for level in numbers {
                        let there = sound && level <= k;
                        let size = if there { naive::size(n, level) } else { 0 };
                        assert_eq!(size_of(h, level), size);
                    }
                }
            }
        }
    }

    #[test]
    fn a_hall_has_as_many_dcell_1s_as_fit_into_it_and_one_where_it_is_lower() {
        for n in 2..=8 {
            assert_eq!([racks_of(n, 0), racks_of(n, 1)], [1, 1]);
            for k in [2, 3] {
                assert_eq!(racks_of(n, k), naive::size(n, k) / naive::size(n, 1));
            }
        }
        assert_eq!(racks_of(8, 3), 383_761);
        assert_eq!([racks_of(4, 2), racks_of(2, 3)], [21, 301]);
        for (n, k) in [(1, 2), (9, 2), (0, 0), (u32::MAX, 3), (4, 4), (4, u32::MAX)] {
            assert_eq!(racks_of(n, k), 0);
        }
    }

    #[test]
    fn any_count_up_to_all_is_sound_from_top_level_2_on_and_1_alone_below() {
        for n in 2..=8 {
            for k in 0..=3 {
                let racks = racks_of(n, k);
                let counts = [0, 1, 2, racks / 2, racks - 1, racks, racks + 1, u32::MAX];
                for count in counts {
                    let h = Hall { n, k, b: 0, count };
                    let sound = count == racks || (k >= 2 && count < racks);
                    assert_eq!(scale(h).is_some(), sound, "{h:?}");
                    assert_eq!(sizes(h).refusal == 0, sound);
                    assert_eq!(servers_of(h) > 0, sound);
                    assert_eq!(size_of(h, 0) > 0, sound);
                }
            }
        }
    }

    #[test]
    fn the_count_moves_no_number_of_a_sound_hall() {
        let whole = Hall::full(2, 3, 1);
        for count in [0, 1, 7, 300] {
            let h = Hall { count, ..whole };
            assert_eq!(sizes(h), sizes(whole));
            for uid in (0..1806).step_by(13) {
                assert_eq!(tuple_of(h, uid), tuple_of(whole, uid));
                assert_eq!(uid_of(h, tuple_of(h, uid).tuple).uid, uid);
                assert_eq!(cell(h, uid, 2), cell(whole, uid, 2));
                assert_eq!(neighbour(h, uid, 3), neighbour(whole, uid, 3));
                assert_eq!(link(h, uid, 2, 0, 3), link(whole, uid, 2, 0, 3));
            }
        }
    }
}
