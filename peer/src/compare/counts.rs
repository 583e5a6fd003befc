//! Numbers of DCell(1)s fitted to call with, and the servers that are fitted then or stand where the fitted ones end.

use peer::hall::{self, racks_of, Hall, LEAST_FILLED_K};
use peer::plan::{is_fitted, next_prefix};
use peer::random::Random;
use peer::refusal;

use super::inputs::beyond;

/// One hall in so many of those that need not be full is.
const FULL: u32 = 3;
/// One count in so many, of a hall that is not full, is one at which something turns.
const TURN: u32 = 2;
/// One server in so many, of a hall that is not full, is drawn as if all were fitted.
const ANY_SERVER: u32 = 4;

/// The hall of the same n, k and b of which everything is fitted.
pub fn full(h: Hall) -> Hall {
    Hall::full(h.n, h.k, h.b)
}

/// Whether everything of a hall is fitted, if it is sound.
pub fn is_full(h: Hall) -> bool {
    h == full(h)
}

/// The hall of the same n, k and b of which half is fitted, where it need not be full.
pub fn half(h: Hall) -> Hall {
    match h.k {
        LEAST_FILLED_K.. => Hall {
            count: racks_of(h.n, h.k) / 2,
            ..h
        },
        _ => full(h),
    }
}

/// The hall with any count that is sound for its n and k: often the full one, else one at which something turns, or any.
pub fn with_sound_count(random: &mut Random, h: Hall) -> Hall {
    let racks = racks_of(h.n, h.k);
    if h.k < LEAST_FILLED_K || random.once_in(FULL) {
        return full(h);
    }
    let turns = turns(h);
    let count = if random.once_in(TURN) {
        turns[random.below(turns.len() as u32) as usize]
    } else {
        random.below(racks)
    };
    Hall { count, ..h }
}

/// A count that is not sound for n and k: too high, or, with k below 2, any but 1.
pub fn wrong_count(random: &mut Random, h: Hall) -> u32 {
    if h.k < LEAST_FILLED_K && random.once_in(2) {
        return 0;
    }
    beyond(random, racks_of(h.n, h.k).saturating_add(1))
}

/// The counts to try with n, k and b besides the full one: those at which something turns, and those that are too high or too low.
pub fn edge_counts(h: Hall) -> Vec<u32> {
    if h.k < LEAST_FILLED_K {
        return vec![0, 2, u32::MAX];
    }
    let mut counts = turns(h);
    counts.extend([racks_of(h.n, h.k) + 1, u32::MAX]);
    counts
}

/// The counts of a hall that is not full, with k of 2 or above, at which something turns: the first ones, those around the last DCell(2)
/// that is begun before one is filled and around the first that is begun behind that, the middle, and the last one.
fn turns(h: Hall) -> Vec<u32> {
    let racks = racks_of(h.n, h.k);
    let row = racks_of(h.n, LEAST_FILLED_K);
    let around = |turn: u32| [turn.saturating_sub(1), turn, turn + 1];
    let mut counts = vec![0, 1, 2, racks / 2, racks.saturating_sub(1)];
    counts.extend(around(row));
    counts.extend(around(row * row));
    counts.retain(|&count| count < racks);
    counts.sort_unstable();
    counts.dedup();
    counts
}

/// The first server of the DCell(1) that a hall gets as the one of a number, from 0 on; none where it has not so many.
pub fn rack_start(h: Hall, number: u32) -> Option<u32> {
    let before = Hall { count: number, ..h };
    let next = next_prefix(before);
    let uid = (next.refusal == refusal::NONE).then(|| hall::uid_of(before, next.tuple).uid);
    uid
}

/// A server of a sound hall that is fitted: any of a full one; none where nothing is.
pub fn fitted_server(random: &mut Random, h: Hall) -> Option<u32> {
    if is_full(h) {
        return Some(random.below(hall::servers_of(h)));
    }
    let number = random.below(h.count);
    rack_server(random, h, number).filter(|_| h.count > 0)
}

/// A server of a sound hall that is not full: mostly a fitted one, else one of the last DCell(1) fitted or of the next; none where any of
/// the hall is to be drawn.
pub fn part_server(random: &mut Random, h: Hall) -> Option<u32> {
    let whole = is_full(h) || hall::servers_of(h) == 0;
    if whole || random.once_in(ANY_SERVER) {
        return None;
    }
    match random.below(4) {
        0 => rack_server(random, h, h.count.saturating_sub(1)),
        1 => rack_server(random, h, h.count),
        _ => fitted_server(random, h),
    }
}

/// The uids to try in a sound hall that is not full: those at both ends of the DCell(1)s between which the fitted ones end.
pub fn part_ends(h: Hall) -> Vec<u32> {
    let rack = hall::size_of(h, 1);
    let numbers = [0, h.count.saturating_sub(1), h.count];
    let starts = numbers
        .into_iter()
        .filter_map(|number| rack_start(h, number));
    let ends = starts.flat_map(|first| [first.saturating_sub(1), first, first + rack - 1]);
    ends.collect()
}

/// A server of the DCell(1) that a hall gets as the one of a number.
fn rack_server(random: &mut Random, h: Hall, number: u32) -> Option<u32> {
    let first = rack_start(h, number)?;
    Some(first + random.below(hall::size_of(h, 1)))
}

/// A table that begins at a server, with the near port of each link above level 1 as not fitted where its far server is not.
pub fn without_far_servers(h: Hall, first: u32, codes: &[u8]) -> Vec<u8> {
    let mut codes = codes.to_vec();
    let servers = codes.chunks_exact_mut(h.k as usize + 1);
    for (uid, ports) in (first..hall::servers_of(h)).zip(servers) {
        for level in LEAST_FILLED_K..=h.k {
            if !is_fitted(h, hall::neighbour(h, uid, level).uid) {
                ports[level as usize] = 0;
            }
        }
    }
    codes
}

#[cfg(test)]
mod tests {
    use super::*;

    #[test]
    fn the_counts_around_each_turn_are_tried() {
        let counts = |n, k| edge_counts(Hall::full(n, k, 0));
        assert_eq!(counts(4, 1), [0, 2, u32::MAX]);
        assert_eq!(counts(4, 2), [0, 1, 2, 10, 20, 22, u32::MAX]);
        let tall = [0, 1, 2, 6, 7, 8, 48, 49, 50, 150, 300, 302, u32::MAX];
        assert_eq!(counts(2, 3), tall);
    }

    #[test]
    fn sound_counts_are_sound_and_wrong_ones_are_not() {
        let mut random = Random::new(1);
        for n in 2..=8 {
            for k in 0..=3 {
                let h = Hall::full(n, k, 0);
                for _ in 0..100 {
                    let sound = with_sound_count(&mut random, h);
                    assert_eq!(hall::sizes(sound).refusal, 0);
                    let count = wrong_count(&mut random, h);
                    assert_eq!(hall::sizes(Hall { count, ..h }).refusal, 1);
                }
            }
        }
    }

    #[test]
    fn of_tall_halls_a_third_is_full_and_every_turn_is_drawn() {
        let mut random = Random::new(2);
        let h = Hall::full(2, 3, 1);
        let drawn: Vec<Hall> = (0..3_000)
            .map(|_| with_sound_count(&mut random, h))
            .collect();
        let whole = drawn.iter().filter(|&&h| is_full(h)).count();
        assert!((900..1_100).contains(&whole), "{whole}");
        for count in [0, 1, 2, 6, 7, 8, 48, 49, 50, 150, 300, 301] {
            assert!(drawn.contains(&Hall { count, ..h }), "{count}");
        }
    }

    #[test]
    fn fitted_servers_are_fitted_and_others_of_a_part_hall_are_met_too() {
        let mut random = Random::new(3);
        let h = Hall {
            count: 40,
            ..Hall::full(3, 3, 0)
        };
        let mut met = [0; 2];
        for _ in 0..1_000 {
            assert!(is_fitted(h, fitted_server(&mut random, h).unwrap()));
            if let Some(uid) = part_server(&mut random, h) {
                met[usize::from(is_fitted(h, uid))] += 1;
            }
        }
        assert!(met.iter().all(|&count| count > 100), "{met:?}");
        assert_eq!(fitted_server(&mut random, Hall { count: 0, ..h }), None);
        assert!(fitted_server(&mut random, full(h)).is_some());
        assert_eq!(part_server(&mut random, full(h)), None);
    }

    #[test]
    fn the_ends_of_what_is_fitted_are_tried() {
        let h = Hall {
            count: 3,
            ..Hall::full(2, 2, 0)
        };
        assert_eq!(part_ends(h), [0, 0, 5, 11, 12, 17, 17, 18, 23]);
    }

    #[test]
    fn half_of_a_hall_is_fitted_where_it_need_not_be_full() {
        assert_eq!(half(Hall::full(4, 2, 1)).count, 10);
        assert_eq!(half(Hall::full(4, 1, 1)), Hall::full(4, 1, 1));
    }

    #[test]
    fn the_ports_to_servers_that_are_not_fitted_are_shut_and_no_others() {
        let h = Hall {
            count: 3,
            ..Hall::full(2, 2, 0)
        };
        // Servers 6 to 11 are joined to 0, 13, 19, 25, 31 and 37 at level 2, of which 0 and 13 are fitted.
        let mut codes = vec![1; 18];
        for place in 2..6 {
            codes[place * 3 + 2] = 0;
        }
        assert_eq!(without_far_servers(h, 6, &[1; 18]), codes);
    }
}
