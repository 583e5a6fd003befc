//! Halls, uids, levels and other numbers to call with: sound ones, those at an edge, and damaged ones.

use peer::hall::{self, Hall, LEAST_N, LEVELS, MOST_B, MOST_K, MOST_N};
use peer::random::Random;
use peer::refusal;

use super::counts::{
    edge_counts, full, is_full, part_ends, part_server, with_sound_count, wrong_count,
};

/// One number in so many is damaged.
const DAMAGE: u32 = 8;
/// One number in so many stands at each end of its range.
const END: u32 = 8;
/// A hall of at most so many servers is small; every one of its servers is tried.
const SMALL: u32 = 2_000;
/// So many servers, equally far apart, are tried of a hall that is not small.
const SAMPLES: u32 = 200;
/// The servers that a hall which is none is called as if it had.
const SUPPOSED_SERVERS: u32 = 20;
/// A number far above every range, as the highest of all is.
const HUGE: u32 = 1 << 31;

/// A server of a hall and a level, as several calls take them.
#[derive(Debug, Clone, Copy)]
pub struct Place {
    pub hall: Hall,
    pub uid: u32,
    pub level: u32,
}

/// The sizes of a hall whose n, k and b are sound, whatever its count: with a count that is not, all else is as in a sound hall.
pub fn sizes(h: Hall) -> Option<[u32; LEVELS]> {
    let answer = hall::sizes(full(h));
    (answer.refusal == refusal::NONE).then_some(answer.t)
}

/// The servers of such a hall.
pub fn servers(h: Hall) -> Option<u32> {
    sizes(h).map(|t| t[h.k as usize])
}

/// The number of sub-cells of a DCell of a level; none where n, k or b is not sound or the hall has no such level above 0.
pub fn sub_cells(h: Hall, level: u32) -> Option<u32> {
    let below = (1..=h.k).contains(&level).then(|| level as usize - 1)?;
    sizes(h).map(|t| t[below] + 1)
}

/// A number below the bound, often the first or the last.
pub fn within(random: &mut Random, bound: u32) -> u32 {
    match random.below(END) {
        0 => 0,
        1 => bound.saturating_sub(1),
        _ => random.below(bound),
    }
}

/// A number that is not below the bound, often the first or the last such.
pub fn beyond(random: &mut Random, bound: u32) -> u32 {
    match random.below(4) {
        0 => bound,
        1 => bound.saturating_add(1),
        2 => u32::MAX,
        _ => bound.saturating_add(random.word() >> random.below(u32::BITS)),
    }
}

/// A number below the bound, or, where it is damaged, beyond it.
pub fn around(random: &mut Random, bound: u32) -> u32 {
    if random.once_in(DAMAGE) {
        beyond(random, bound)
    } else {
        within(random, bound)
    }
}

/// A hall of any top level from the least one on, full or not.
pub fn sound_hall(random: &mut Random, least_k: u32) -> Hall {
    let n = LEAST_N + random.below(MOST_N - LEAST_N + 1);
    let k = least_k + random.below(MOST_K - least_k + 1);
    let b = random.below(MOST_B.min(k) + 1);
    with_sound_count(random, Hall::full(n, k, b))
}

/// A sound hall, or one with a number outside its range.
pub fn any_hall(random: &mut Random) -> Hall {
    let mut h = sound_hall(random, 0);
    if !random.once_in(DAMAGE) {
        return h;
    }
    match random.below(6) {
        0 => h.n = random.below(LEAST_N),
        1 => h.n = beyond(random, MOST_N + 1),
        2 => h.k = beyond(random, MOST_K + 1),
        3 => h.b = beyond(random, MOST_B.min(h.k) + 1),
        _ => h.count = wrong_count(random, h),
    }
    h
}

/// A server of the hall, mostly a fitted one, or a uid that is not below its servers.
pub fn any_uid(random: &mut Random, h: Hall) -> u32 {
    match part_server(random, h) {
        Some(uid) => uid,
        None => around(random, servers(h).unwrap_or(SUPPOSED_SERVERS)),
    }
}

/// A level of the hall, or one above its top.
pub fn any_level(random: &mut Random, h: Hall) -> u32 {
    around(random, h.k.saturating_add(1))
}

impl Place {
    /// A server and a level of a sound hall, from the least level on.
    pub fn sound(random: &mut Random, hall: Hall, least_level: u32) -> Place {
        let uid = random.below(servers(hall).unwrap_or(SUPPOSED_SERVERS));
        let level = least_level + random.below(hall.k + 1 - least_level);
        Place { hall, uid, level }
    }

    /// Any hall, uid and level.
    pub fn any(random: &mut Random) -> Place {
        let hall = any_hall(random);
        let uid = any_uid(random, hall);
        let level = any_level(random, hall);
        Place { hall, uid, level }
    }

    /// Every hall, uid and level at an edge.
    pub fn edges() -> impl Iterator<Item = Place> {
        edge_servers().flat_map(|(hall, uid)| {
            let levels = edge_levels(hall).into_iter();
            levels.map(move |level| Place { hall, uid, level })
        })
    }
}

/// Every full hall, halls with n, k, b or more than one of them at or past an edge of its range, and the other counts of each hall.
pub fn edge_halls() -> impl Iterator<Item = Hall> {
    whole_halls().chain(counted_halls())
}

/// Every full hall, and halls with n, k, b or more than one of them at or past an edge of its range.
fn whole_halls() -> impl Iterator<Item = Hall> {
    let ns = past(MOST_N + 1);
    ns.flat_map(|n| {
        let ks = past(MOST_K + 1);
        ks.flat_map(move |k| past(MOST_B + 1).map(move |b| Hall::full(n, k, b)))
    })
}

/// The halls of sound n, k and b with each count to try but that of a full one.
pub fn counted_halls() -> impl Iterator<Item = Hall> {
    let sound = whole_halls().filter(|&h| servers(h).is_some());
    sound.flat_map(|h| {
        let counts = edge_counts(h).into_iter();
        counts.map(move |count| Hall { count, ..h })
    })
}

/// Each hall at an edge with the uids to try there.
pub fn edge_servers() -> impl Iterator<Item = (Hall, u32)> {
    edge_halls().flat_map(|h| edge_uids(h).into_iter().map(move |uid| (h, uid)))
}

/// The uids to try in a hall: all of a small one, a sample and the ends of cells of a larger one, and some that are no servers. Of one that
/// is not full the ends of cells and of what is fitted are enough.
pub fn edge_uids(h: Hall) -> Vec<u32> {
    let Some(count) = servers(h) else {
        return vec![0, SUPPOSED_SERVERS, u32::MAX];
    };
    let step = if count <= SMALL { 1 } else { count / SAMPLES };
    let mut uids: Vec<u32> = if is_full(h) {
        (0..count).step_by(step as usize).collect()
    } else {
        part_ends(h)
    };
    uids.extend(cell_ends(h, count));
    uids.extend([count, count + 1, HUGE, u32::MAX]);
    uids.sort_unstable();
    uids.dedup();
    uids
}

/// The levels to try in a hall: all, and some above its top.
pub fn edge_levels(h: Hall) -> Vec<u32> {
    let top = h.k.min(MOST_K);
    (0..=top + 2).chain([HUGE, u32::MAX]).collect()
}

/// The servers at both ends of the first and the last cell of each level.
fn cell_ends(h: Hall, count: u32) -> impl Iterator<Item = u32> {
    let sizes = sizes(h).into_iter().flatten();
    let cells = sizes.take_while(|&size| size > 0);
    cells.flat_map(move |size| [0, size - 1, size % count, count - size, count - 1])
}

/// The numbers up to a little past the bound, and huge ones.
fn past(bound: u32) -> impl Iterator<Item = u32> {
    (0..=bound + 1).chain([HUGE, u32::MAX])
}

#[cfg(test)]
mod tests {
    use super::*;
    use peer::hall::racks_of;

    /// The full halls: 7 of top level 0, and 14 of each top level from 1 to 3, as b is 0 or 1 there.
    const SOUND_HALLS: usize = 7 + 3 * 14;

    /// Whether a hall is sound, its count too.
    fn sound(h: Hall) -> bool {
        hall::sizes(h).refusal == refusal::NONE
    }

    #[test]
    fn the_edges_hold_every_full_hall_once_and_no_hall_twice() {
        let halls: Vec<Hall> = edge_halls().filter(|&h| sound(h)).collect();
        let whole = halls.iter().filter(|&&h| is_full(h)).count();
        assert_eq!(whole, SOUND_HALLS);
        for (place, h) in halls.iter().enumerate() {
            assert!(!halls[..place].contains(h), "{h:?}");
        }
    }

    #[test]
    fn the_edges_hold_counts_that_are_sound_and_counts_that_are_not() {
        let halls: Vec<Hall> = counted_halls().collect();
        let met = |n, k, b, count| assert!(halls.contains(&Hall { n, k, b, count }));
        for count in [0, 1, 2, 10, 20, 22, u32::MAX] {
            met(4, 2, 1, count);
        }
        for count in [0, 2, u32::MAX] {
            met(4, 1, 0, count);
            met(8, 0, 0, count);
        }
        let many = halls.iter().filter(|&&h| sound(h)).count();
        assert!((200..400).contains(&many), "{many}");
    }

    #[test]
    fn the_edges_of_a_hall_that_is_not_full_are_those_of_its_cells_and_of_what_is_fitted() {
        let h = Hall {
            count: 3,
            ..Hall::full(2, 2, 0)
        };
        let uids = edge_uids(h);
        for uid in [0, 1, 5, 6, 11, 12, 17, 18, 23, 41, 42, 43, u32::MAX] {
            assert!(uids.contains(&uid), "{uid}");
        }
        assert!(uids.len() < 25);
    }

    #[test]
    fn the_edges_of_a_small_hall_are_all_its_servers_and_some_beyond() {
        let h = Hall::full(2, 3, 1);
        let mut uids: Vec<u32> = (0..=1807).collect();
        uids.extend([HUGE, u32::MAX]);
        assert_eq!(edge_uids(h), uids);
    }

    #[test]
    fn the_edges_of_the_largest_hall_are_the_ends_of_its_cells_and_some_beyond() {
        let largest = Hall::full(MOST_N, MOST_K, MOST_B);
        let uids = edge_uids(largest);
        for uid in [
            0,
            7,
            8,
            71,
            72,
            5_255,
            5_256,
            27_630_791,
            27_630_792,
            u32::MAX,
        ] {
            assert!(uids.contains(&uid), "{uid}");
        }
    }

    #[test]
    fn any_hall_meets_sound_halls_and_each_number_outside_its_range() {
        let mut random = Random::new(1);
        let halls: Vec<Hall> = (0..10_000).map(|_| any_hall(&mut random)).collect();
        let sound = halls.iter().filter(|&&h| sound(h)).count();
        assert!((8_000..9_500).contains(&sound), "{sound}");
        let met = |test: fn(&Hall) -> bool| assert!(halls.iter().any(test));
        met(|h| h.n < LEAST_N);
        met(|h| h.n == MOST_N + 1);
        met(|h| h.n == u32::MAX);
        met(|h| h.k == MOST_K + 1);
        met(|h| h.k == u32::MAX);
        met(|h| h.b == MOST_B + 1);
        met(|h| h.b == u32::MAX);
        met(|h| h.k == 0 && h.b == 1);
        met(|h| h.k < 2 && h.count == 0);
        met(|h| h.k < 2 && h.count == 2);
        met(|h| h.k < 2 && h.count == u32::MAX);
        met(|h| h.k == 3 && h.count == racks_of(h.n, 3) + 1);
        met(|h| h.k == 2 && h.count == u32::MAX);
        met(|h| h.k == 2 && h.count == 0);
        met(|h| h.k == 3 && h.count == racks_of(h.n, 3) - 1);
    }

    #[test]
    fn any_uid_meets_servers_the_last_one_and_those_beyond() {
        let h = Hall::full(4, 1, 0);
        let mut random = Random::new(2);
        let uids: Vec<u32> = (0..1000).map(|_| any_uid(&mut random, h)).collect();
        for uid in [0, 19, 20, 21, u32::MAX] {
            assert!(uids.contains(&uid), "{uid}");
        }
    }

    #[test]
    fn a_level_has_one_sub_cell_more_than_a_sub_cell_has_servers() {
        let h = Hall::full(4, 2, 1);
        assert_eq!([1, 2].map(|level| sub_cells(h, level)), [Some(5), Some(21)]);
        assert_eq!([0, 3].map(|level| sub_cells(h, level)), [None, None]);
        assert_eq!(sub_cells(Hall { n: 9, ..h }, 1), None);
    }
}
