//! The route between two servers of a hall without failures, as uids and as the driver's words.

use crate::hall::{self, door, Hall, Scale};
use crate::refusal;

/// The most servers of a route: those of 15 links.
pub const ROUTE_ROOM: usize = 16;
/// The bytes of one uid in the driver's form.
pub const WORD: usize = 4;

/// The links of a route and its uids in order, zeros behind them.
#[derive(Debug, Clone, Copy, PartialEq, Eq)]
pub struct Route {
    pub refusal: u32,
    pub links: u32,
    pub uids: [u32; ROUTE_ROOM],
}

/// The level and the two ends of a link of a route, the near one in front; zeros where it has no such link.
#[derive(Debug, Clone, Copy, PartialEq, Eq)]
pub struct FirstLink {
    pub refusal: u32,
    pub level: u32,
    pub near: u32,
    pub far: u32,
}

/// The route from x to y.
pub fn route(h: Hall, x: u32, y: u32) -> Route {
    let refused = |refusal| Route {
        refusal,
        links: 0,
        uids: [0; ROUTE_ROOM],
    };
    let Some(scale) = hall::scale(h) else {
        return refused(refusal::HALL);
    };
    let count = scale.size(h.k);
    if x >= count || y >= count {
        return refused(refusal::UID);
    }
    match h.k {
        0 => route_in::<0>(scale, x, y),
        1 => route_in::<1>(scale, x, y),
        2 => route_in::<2>(scale, x, y),
        _ => route_in::<3>(scale, x, y),
    }
}

/// The first link above level b on the route from x to y.
pub fn first_link(h: Hall, x: u32, y: u32) -> FirstLink {
    let without = |refusal| FirstLink {
        refusal,
        level: 0,
        near: 0,
        far: 0,
    };
    let Some(scale) = hall::scale(h) else {
        return without(refusal::HALL);
    };
    let count = scale.size(h.k);
    if x >= count || y >= count {
        return without(refusal::UID);
    }
    let way = Way::between(h, scale, x, y);
    if way.level == 0 {
        return without(refusal::NONE);
    }
    FirstLink {
        refusal: refusal::NONE,
        level: way.level,
        near: scale.first(x, h.b) + way.near as u32,
        far: way.far,
    }
}

/// Writes the uids of the route from x to y to the start of the room as big-endian words; answers the refusal.
pub fn route_words(h: Hall, x: u32, y: u32, room: &mut [u8]) -> u32 {
    let route = route(h, x, y);
    if route.refusal != refusal::NONE {
        return route.refusal;
    }
    let words = route.uids.map(u32::to_be_bytes);
    let words = &words.as_flattened()[..(route.links as usize + 1) * WORD];
    let Some(written) = room.get_mut(..words.len()) else {
        return refusal::ROOM;
    };
    written.copy_from_slice(words);
    refusal::NONE
}

/// The first link above level b on a route: its level (0 for no such link), its near end as a place, its far end as a uid.
/// Where there is no such link, the near end is the goal.
pub(crate) struct Way {
    pub(crate) level: u32,
    pub(crate) near: usize,
    pub(crate) far: u32,
}

impl Way {
    /// The way from a server to a goal; places count from the first server of its DCell(b) on.
    ///
    /// At each level from the top, a crossing into another sub-cell makes its near end the goal of the levels below.
    #[inline]
    pub(crate) fn between(h: Hall, scale: &Scale, uid: u32, goal: u32) -> Way {
        let (mut first, mut from, mut to) = (0, uid, goal);
        let (mut level, mut far) = (0, 0);
        for l in (h.b + 1..=h.k).rev() {
            let size = scale.size(l - 1);
            let p = scale.cells_below(from, l - 1);
            let q = scale.cells_below(to, l - 1);
            from -= p * size;
            to -= q * size;
            if p != q {
                level = l;
                far = first + q * size + door(q, p);
                to = door(p, q);
            }
            first += p * size;
        }
        Way {
            level,
            near: to as usize,
            far,
        }
    }
}

/// The route between two servers of a hall of top level K, with all its loops of fixed length.
#[inline]
fn route_in<const K: u32>(scale: &Scale, x: u32, y: u32) -> Route {
    joined::<K>(&all_ends::<K>(scale, x, y))
}

/// The ends of all links the route could have at top level K, in order; a link that it lacks has two equal ends.
///
/// A stretch of the route inside one DCell(level) has 2 << level ends. Its middle two are those of its link of that level.
#[inline]
fn all_ends<const K: u32>(scale: &Scale, x: u32, y: u32) -> [u32; ROUTE_ROOM] {
    let mut ends = [y; ROUTE_ROOM];
    ends[0] = x;
    for level in (1..=K).rev() {
        let half = 1 << level;
        for start in (0..2 << K).step_by(2 * half) {
            let (near, far) = crossing(scale, level, ends[start], ends[start + 2 * half - 1]);
            ends[start + half - 1] = near;
            ends[start + half] = far;
        }
    }
    ends
}

/// The link of a level from the sub-cell of x to that of y, both in one DCell(level); twice y where the sub-cell is one.
#[inline]
fn crossing(scale: &Scale, level: u32, x: u32, y: u32) -> (u32, u32) {
    let size = scale.size(level - 1);
    let before = scale.cells_below(x, level) * (size + 1);
    let p = scale.cells_below(x, level - 1);
    let q = scale.cells_below(y, level - 1);
    if p == q {
        return (y, y);
    }
    (
        p * size + door(p - before, q - before),
        q * size + door(q - before, p - before),
    )
}

/// The route through all the ends, each server once.
#[inline]
fn joined<const K: u32>(ends: &[u32; ROUTE_ROOM]) -> Route {
    let mut uids = [0; ROUTE_ROOM];
    let mut links = 0;
    uids[0] = ends[0];
    for i in 1..2 << K {
        links += usize::from(ends[i] != ends[i - 1]);
        uids[links % ROUTE_ROOM] = ends[i];
    }
    Route {
        refusal: refusal::NONE,
        links: links as u32,
        uids,
    }
}

#[cfg(test)]
mod tests {
    use super::*;
    use crate::hall::tuple_of;
    use crate::naive;
    use crate::random::Random;

    const PAIR_HALL: Hall = Hall::full(2, 2, 0);

    fn servers(route: &Route) -> &[u32] {
        &route.uids[..=route.links as usize]
    }

    #[test]
    fn the_route_from_5_to_11_has_7_links() {
        let answer = route(PAIR_HALL, 5, 11);
        assert_eq!(servers(&answer), [5, 4, 1, 0, 6, 7, 10, 11]);
        assert_eq!(answer.links, 7);
        assert_eq!(answer.uids[8..], [0; 8]);
    }

    #[test]
    fn the_third_server_of_the_printed_route_is_0_0_1() {
        let third = route(PAIR_HALL, 5, 11).uids[2];
        assert_eq!(tuple_of(PAIR_HALL, third).tuple, [1, 0, 0, 0]);
    }

    #[test]
    fn two_equal_servers_have_a_route_of_no_link() {
        for uid in 0..42 {
            let answer = route(PAIR_HALL, uid, uid);
            assert_eq!((answer.refusal, answer.links), (0, 0));
            assert_eq!(answer.uids[0], uid);
            assert_eq!(answer.uids[1..], [0; 15]);
        }
    }

    #[test]
    fn two_servers_of_one_switch_have_a_route_of_one_link() {
        let answer = route(Hall::full(4, 1, 1), 5, 7);
        assert_eq!(servers(&answer), [5, 7]);
    }

    #[test]
    fn refusals_come_with_zeros_and_in_order() {
        let refused = |refusal| Route {
            refusal,
            links: 0,
            uids: [0; 16],
        };
        assert_eq!(route(Hall::full(2, 2, 2), 99, 99), refused(1));
        assert_eq!(route(PAIR_HALL, 42, 0), refused(2));
        assert_eq!(route(PAIR_HALL, 0, 42), refused(2));
    }

    #[test]
    fn every_route_of_the_small_halls_is_that_of_the_definition() {
        for h in naive::small_halls() {
            let count = naive::servers(h);
            let stride = 1 + (count / 60) as usize;
            for x in (0..count).step_by(stride) {
                for y in (0..count).step_by(stride) {
                    let answer = route(h, x, y);
                    let literal = naive::route(h, x, y);
                    assert_eq!(servers(&answer), literal);
                    assert!(answer.uids[literal.len()..].iter().all(|&uid| uid == 0));
                }
            }
        }
    }

    #[test]
    fn routes_of_the_largest_halls_are_those_of_the_definition() {
        let mut random = Random::new(3);
        for n in 3..=8 {
            let h = Hall::full(n, 3, 1);
            let count = naive::servers(h);
            for _ in 0..2000 {
                let (x, y) = (random.below(count), random.below(count));
                assert_eq!(servers(&route(h, x, y)), naive::route(h, x, y));
            }
        }
    }

    #[test]
    fn every_route_is_a_chain_of_links_that_passes_no_server_twice() {
        let halls = [(2, 2), (2, 3), (3, 2), (8, 1)].map(|(n, k)| Hall::full(n, k, 0));
        for h in halls {
            let count = naive::servers(h);
            for x in (0..count).step_by(1 + count as usize / 200) {
                for y in 0..count {
                    let answer = route(h, x, y);
                    let passed = servers(&answer);
                    assert!(answer.links < 2 << h.k);
                    assert_eq!((passed[0], passed[passed.len() - 1]), (x, y));
                    for pair in passed.windows(2) {
                        let level = naive::joint_level(h, pair[0], pair[1]);
                        assert!(naive::linked(h, pair[0], pair[1], level));
                    }
                    let mut each = passed.to_vec();
                    each.sort_unstable();
                    each.dedup();
                    assert_eq!(each.len(), passed.len());
                }
            }
        }
    }

    #[test]
    fn the_largest_hall_has_a_route_of_15_links() {
        let h = Hall::full(8, 3, 1);
        let mut random = Random::new(15);
        let longest = (0..10_000)
            .map(|_| route(h, random.below(27_630_792), random.below(27_630_792)).links)
            .max();
        assert_eq!(longest, Some(15));
    }

    #[test]
    fn words_are_the_uids_and_the_rest_of_the_room_stays() {
        let mut room = [0xEE; 40];
        assert_eq!(route_words(PAIR_HALL, 5, 11, &mut room), 0);
        for (word, uid) in room.chunks(4).zip([5u32, 4, 1, 0, 6, 7, 10, 11]) {
            assert_eq!(word, uid.to_be_bytes());
        }
        assert_eq!(room[32..], [0xEE; 8]);
    }

    #[test]
    fn short_room_gets_6_and_stays_as_lent() {
        let mut room = [0xEE; 31];
        assert_eq!(route_words(PAIR_HALL, 5, 11, &mut room), 6);
        assert_eq!(route_words(PAIR_HALL, 42, 11, &mut room), 2);
        assert_eq!(route_words(Hall::full(1, 2, 0), 42, 11, &mut room), 1);
        assert_eq!(room, [0xEE; 31]);
        assert_eq!(route_words(PAIR_HALL, 3, 3, &mut []), 6);
        assert_eq!(route_words(PAIR_HALL, 3, 3, &mut room), 0);
        assert_eq!(room[..5], [0, 0, 0, 3, 0xEE]);
    }

    #[test]
    fn words_and_route_agree_on_random_pairs() {
        let mut random = Random::new(3);
        for h in naive::small_halls() {
            for _ in 0..200 {
                let count = naive::servers(h);
                let (x, y) = (random.below(count), random.below(count));
                let mut room = [0; 64];
                assert_eq!(route_words(h, x, y, &mut room), 0);
                let words = [0, 1, 2, 3, 4, 5, 6, 7, 8, 9, 10, 11, 12, 13, 14, 15]
                    .map(|i| u32::from_be_bytes([0, 1, 2, 3].map(|j| room[4 * i + j])));
                assert_eq!(words, route(h, x, y).uids);
            }
        }
    }

    /// A link that is not refused, by its level and its ends.
    fn told([level, near, far]: [u32; 3]) -> FirstLink {
        FirstLink {
            refusal: 0,
            level,
            near,
            far,
        }
    }

    /// The first link above level b, looked for along the route of the definition.
    fn literal_first_link(h: Hall, x: u32, y: u32) -> FirstLink {
        let servers = naive::route(h, x, y);
        let mut links = servers
            .windows(2)
            .map(|pair| [naive::joint_level(h, pair[0], pair[1]), pair[0], pair[1]]);
        told(links.find(|link| link[0] > h.b).unwrap_or_default())
    }

    #[test]
    fn the_first_link_above_b_is_that_of_the_definition() {
        for h in naive::small_halls() {
            let count = naive::servers(h);
            let stride = 1 + (count / 60) as usize;
            for x in (0..count).step_by(stride) {
                for y in (0..count).step_by(stride) {
                    assert_eq!(first_link(h, x, y), literal_first_link(h, x, y));
                }
            }
        }
        let mut random = Random::new(5);
        for (n, b) in (3..=8).flat_map(|n| [(n, 0), (n, 1)]) {
            let h = Hall::full(n, 3, b);
            let count = naive::servers(h);
            for _ in 0..2000 {
                let (x, y) = (random.below(count), random.below(count));
                assert_eq!(first_link(h, x, y), literal_first_link(h, x, y));
            }
        }
    }

    #[test]
    fn the_first_link_from_5_to_11_is_4_1_and_above_level_1_it_is_0_6() {
        assert_eq!(first_link(PAIR_HALL, 5, 11), told([1, 4, 1]));
        let wide = Hall { b: 1, ..PAIR_HALL };
        assert_eq!(first_link(wide, 5, 11), told([2, 0, 6]));
    }

    #[test]
    fn there_is_no_first_link_inside_a_local_cell() {
        let none = told([0; 3]);
        assert_eq!(first_link(PAIR_HALL, 5, 5), none);
        assert_eq!(first_link(PAIR_HALL, 5, 4), none);
        assert_eq!(first_link(Hall::full(2, 2, 1), 5, 0), none);
        assert_eq!(first_link(Hall::full(4, 0, 0), 0, 3), none);
    }

    #[test]
    fn a_first_link_is_refused_for_the_hall_and_then_for_a_uid() {
        let refused = |refusal| FirstLink {
            refusal,
            ..told([0; 3])
        };
        assert_eq!(first_link(Hall::full(2, 2, 2), 42, 11), refused(1));
        assert_eq!(first_link(PAIR_HALL, 42, 11), refused(2));
        assert_eq!(first_link(PAIR_HALL, 5, 42), refused(2));
        assert_eq!(first_link(PAIR_HALL, u32::MAX, u32::MAX), refused(2));
    }
}
