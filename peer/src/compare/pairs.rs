//! Pairs of servers to route between: all of the small halls, random ones of the others, and some that are none.

use peer::hall::{Hall, LEAST_N, MOST_K, MOST_N};
use peer::random::Random;

use super::counts::with_sound_count;
use super::inputs::{any_hall, any_uid, edge_halls, servers, sizes};
use super::room::{Element, Room};

/// Every pair of a hall of at most so many servers is tried by every comparison.
const FEW: u32 = 200;
/// Every pair of a hall of at most so many servers is tried by a long comparison.
const SMALL: u32 = 2_000;
/// One pair in so many of these is tried by a short one. No size of theirs is a multiple of it, so each server stands in some pair.
const STEP: usize = 11;
/// One random pair in so many is of any hall, the others of large ones.
const ANY_HALL: u32 = 8;
/// One random pair in so many lies within one DCell below the top level.
const NEAR: u32 = 4;

/// A hall, and the two ends of a route.
#[derive(Debug, Clone, Copy)]
pub struct Pair {
    pub hall: Hall,
    pub x: u32,
    pub y: u32,
    /// Whether the room has to be long enough, so that the whole route is compared.
    ample: bool,
}

impl Pair {
    /// Any pair: mostly of a large hall, some of them near each other, some with a uid that is no server.
    pub fn any(random: &mut Random) -> Pair {
        let hall = if random.once_in(ANY_HALL) {
            any_hall(random)
        } else {
            let hall = large_hall(random);
            with_sound_count(random, hall)
        };
        let x = any_uid(random, hall);
        let y = if random.once_in(NEAR) {
            near(random, hall, x)
        } else {
            any_uid(random, hall)
        };
        let ample = random.once_in(2);
        Pair { hall, x, y, ample }
    }

    /// A pair of a sound hall.
    pub fn sound(random: &mut Random, hall: Hall) -> Pair {
        let count = servers(hall).unwrap_or(1);
        let [x, y] = [(); 2].map(|()| random.below(count));
        let ample = true;
        Pair { hall, x, y, ample }
    }

    /// A room for an answer that needs so many elements.
    pub fn room<E: Element>(&self, random: &mut Random, needed: usize, longest: usize) -> Room<E> {
        if self.ample {
            Room::filled(random, needed)
        } else {
            Room::any(random, needed, longest)
        }
    }

    /// Pairs at the edges of every hall and of halls that are none, all pairs of the least halls, and a sample of the small ones.
    pub fn edges() -> impl Iterator<Item = Pair> {
        let ends = edge_halls().flat_map(edge_pairs);
        let few = small_halls(0, FEW).flat_map(all_pairs);
        let sample = small_halls(FEW, SMALL).flat_map(all_pairs);
        ends.chain(few).chain(sample.step_by(STEP))
    }

    /// All pairs of the small halls.
    pub fn long_edges() -> impl Iterator<Item = Pair> {
        small_halls(FEW, SMALL).flat_map(all_pairs)
    }
}

/// The halls of more than the least servers and of no more than the most, with one b.
fn small_halls(above: u32, most: u32) -> impl Iterator<Item = Hall> {
    let ns = LEAST_N..=MOST_N;
    let halls = ns.flat_map(|n| (0..=MOST_K).map(move |k| Hall::full(n, k, 0)));
    halls.filter(move |&h| servers(h).is_some_and(|count| count > above && count <= most))
}

/// Every pair of a hall.
fn all_pairs(hall: Hall) -> impl Iterator<Item = Pair> {
    let count = servers(hall).unwrap_or(0);
    let pair = move |x, y| Pair {
        hall,
        x,
        y,
        ample: true,
    };
    (0..count).flat_map(move |x| (0..count).map(move |y| pair(x, y)))
}

/// The pairs of the uids at the ends of a hall and past them.
fn edge_pairs(hall: Hall) -> impl Iterator<Item = Pair> {
    let count = servers(hall).unwrap_or(1);
    let uids = [0, 1, count / 2, count - 1, count, count + 1, u32::MAX];
    let pairs = uids.into_iter().flat_map(move |x| uids.map(|y| (x, y)));
    pairs.map(move |(x, y)| Pair {
        hall,
        x,
        y,
        ample: false,
    })
}

/// A full hall that is not small.
fn large_hall(random: &mut Random) -> Hall {
    let b = random.below(2);
    if random.once_in(4) {
        let n = MOST_N - random.below(2);
        return Hall::full(n, MOST_K - 1, b);
    }
    let n = LEAST_N + 1 + random.below(MOST_N - LEAST_N);
    Hall::full(n, MOST_K, b)
}

/// A server of the same DCell below the top level as another, or any uid where there is no such cell.
fn near(random: &mut Random, h: Hall, uid: u32) -> u32 {
    let Some(t) = sizes(h).filter(|t| h.k > 0 && uid < t[h.k as usize]) else {
        return any_uid(random, h);
    };
    let size = t[random.below(h.k) as usize];
    uid / size * size + random.below(size)
}

#[cfg(test)]
mod tests {
    use super::*;
    use peer::route::route;

    #[test]
    fn the_small_halls_have_7_million_pairs_and_the_least_40_thousand() {
        let pairs = |above, most| -> u64 {
            let counts = small_halls(above, most).map(|h| u64::from(servers(h).unwrap()));
            counts.map(|count| count * count).sum()
        };
        assert_eq!(pairs(0, FEW), 37_867);
        assert_eq!(pairs(FEW, SMALL), 1806 * 1806 * 2 + 420 * 420 + 930 * 930);
        let sizes = small_halls(FEW, SMALL).map(|h| servers(h).unwrap() as usize);
        assert!(sizes.into_iter().all(|size| size % STEP != 0));
    }

    #[test]
    fn routes_of_every_link_count_and_every_refusal_are_drawn() {
        let mut random = Random::new(1);
        let answers = (0..20_000).map(|_| Pair::any(&mut random));
        let answers: Vec<_> = answers.map(|at| route(at.hall, at.x, at.y)).collect();
        for links in 0..=15 {
            let met = |number| number == links;
            assert!(answers.iter().any(|answer| met(answer.links)), "{links}");
        }
        for refusal in [0, 1, 2] {
            assert!(answers.iter().any(|answer| answer.refusal == refusal));
        }
    }

    #[test]
    fn large_halls_have_more_servers_than_small_ones() {
        let mut random = Random::new(2);
        for _ in 0..1000 {
            assert!(servers(large_hall(&mut random)) > Some(SMALL));
        }
    }
}
