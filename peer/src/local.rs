//! Distances and next hops inside one DCell(b), over the links that are usable there.

use crate::hall::{self, partner, Hall, Scale};
use crate::plan::Filling;
use crate::ports::UP;
use crate::refusal;

/// The most servers of a DCell(b).
pub const CELL_ROOM: usize = 72;
/// The distance of a server that cannot be reached.
pub const NO_DISTANCE: u8 = 255;

/// The most switches of a DCell(b).
const SWITCH_ROOM: usize = hall::MOST_N as usize + 1;

/// The distances of the `count` servers of a DCell(b) from the server `origin`, in uid order.
#[derive(Debug, Clone, Copy, PartialEq, Eq)]
pub struct Distances {
    pub refusal: u32,
    pub origin: u32,
    pub count: u32,
    pub distance: [u8; CELL_ROOM],
}

/// The local next hop, if found is 1.
#[derive(Debug, Clone, Copy, PartialEq, Eq)]
pub struct NextHop {
    pub refusal: u32,
    pub found: u32,
    pub uid: u32,
}

/// The distances from a server to all of its DCell(b).
pub fn distances(h: Hall, uid: u32, table_of_cell: &[u8]) -> Distances {
    let refused = |refusal| Distances {
        refusal,
        origin: 0,
        count: 0,
        distance: [0; CELL_ROOM],
    };
    let Some(scale) = hall::scale(h) else {
        return refused(refusal::HALL);
    };
    if table_of_cell.len() != scale.table_length(h.b, h.k) {
        return refused(refusal::LENGTH);
    }
    if uid >= scale.size(h.k) {
        return refused(refusal::UID);
    }
    let first = scale.first(uid, h.b);
    let cell = LocalCell::new(h, scale, counted(h, scale, first, table_of_cell));
    Distances {
        refusal: refusal::NONE,
        origin: uid,
        count: scale.size(h.b),
        distance: cell.distances_from((uid - first) as usize),
    }
}

/// The local next hop from a server towards a target.
pub fn next_hop(h: Hall, uid: u32, target: u32, table_of_cell: &[u8]) -> NextHop {
    let without = |refusal| NextHop {
        refusal,
        found: 0,
        uid: 0,
    };
    let Some(scale) = hall::scale(h) else {
        return without(refusal::HALL);
    };
    if table_of_cell.len() != scale.table_length(h.b, h.k) {
        return without(refusal::LENGTH);
    }
    let count = scale.size(h.k);
    if uid >= count || target >= count {
        return without(refusal::UID);
    }
    let first = scale.first(uid, h.b);
    if scale.first(target, h.b) != first {
        return without(refusal::NONE);
    }
    let cell = LocalCell::new(h, scale, counted(h, scale, first, table_of_cell));
    match cell.next_hop((uid - first) as usize, (target - first) as usize) {
        Some(place) => NextHop {
            refusal: refusal::NONE,
            found: 1,
            uid: first + place as u32,
        },
        None => without(refusal::NONE),
    }
}

/// The codes of the DCell(b) that begins at server `first` that count: all where it is fitted, and else none.
#[inline]
fn counted<'a>(h: Hall, scale: &'static Scale, first: u32, table: &'a [u8]) -> &'a [u8] {
    Filling::of(h, scale).map_or(table, |filling| filling.counted(first, table))
}

/// One DCell(b) with its lent table; its servers go by their place in it, from 0 on. No port behind the table's end is up.
#[derive(Debug, Clone, Copy)]
pub(crate) struct LocalCell<'a> {
    scale: &'static Scale,
    n: usize,
    ports: usize,
    b: u32,
    table: &'a [u8],
}

impl<'a> LocalCell<'a> {
    /// The cell whose table is lent, of the right length or, where the cell is not fitted, empty.
    #[inline]
    pub(crate) fn new(h: Hall, scale: &'static Scale, table: &'a [u8]) -> LocalCell<'a> {
        LocalCell {
            scale,
            n: h.n as usize,
            ports: h.k as usize + 1,
            b: h.b,
            table,
        }
    }

    /// The servers of the cell.
    #[inline]
    pub(crate) fn count(&self) -> usize {
        self.scale.size(self.b) as usize
    }

    /// Whether the port of a server has code 1.
    #[inline]
    pub(crate) fn up(&self, place: usize, level: u32) -> bool {
        self.table.get(place * self.ports + level as usize) == Some(&UP)
    }

    /// The distances of all places from one. It is never inlined, so that it is the same code for full halls and for others.
    #[inline(never)]
    pub(crate) fn distances_from(&self, origin: usize) -> [u8; CELL_ROOM] {
        let mut search = Search::from(origin);
        let (mut head, mut tail) = (0, 1);
        while head < tail {
            tail = search.spread(self, search.queued(head), tail);
            head += 1;
        }
        search.distance
    }

    /// The next hop from one place towards another; none for the place itself or one out of reach.
    #[inline]
    pub(crate) fn next_hop(&self, from: usize, target: usize) -> Option<usize> {
        if self.joined(from, target) {
            return Some(target);
        }
        if self.b == 0 {
            return None;
        }
        self.searched_hop(from, target)
    }

    /// Whether a switch joins two places that are not the same, both with port 0 up.
    #[inline]
    fn joined(&self, from: usize, target: usize) -> bool {
        from != target
            && self.switch_of(from) == self.switch_of(target)
            && self.up(from, 0)
            && self.up(target, 0)
    }

    /// The next hop, found by a search from the target until it meets the place. It is never inlined, as `distances_from` is not.
    #[inline(never)]
    fn searched_hop(&self, from: usize, target: usize) -> Option<usize> {
        let mut search = Search::from(target);
        let (mut head, mut tail) = (0, 1);
        while head < tail && search.distance[from] == NO_DISTANCE {
            tail = search.spread(self, search.queued(head), tail);
            head += 1;
        }
        if search.distance[from] == NO_DISTANCE {
            return None;
        }
        let nearer = search.distance[from].checked_sub(1)?;
        self.lowest_neighbour(from, |place| search.distance[place] == nearer)
    }

    /// The lowest place among the usable neighbours of one that are wanted.
    #[inline]
    fn lowest_neighbour(&self, from: usize, wanted: impl Fn(usize) -> bool) -> Option<usize> {
        let switch = self.switch_of(from);
        let across = self.across(from, switch);
        let across = (wanted(across) && self.up(from, 1) && self.up(across, 1)).then_some(across);
        if !self.up(from, 0) {
            return across;
        }
        let start = switch * self.n;
        let beside = (start..start + self.n).find(|&place| wanted(place) && self.up(place, 0));
        match (beside, across) {
            (Some(beside), Some(across)) => Some(beside.min(across)),
            (beside, across) => beside.or(across),
        }
    }

    /// The level-1 neighbour of a place on a switch, in a cell of that level.
    #[inline]
    fn across(&self, place: usize, switch: usize) -> usize {
        let inside = place - switch * self.n;
        partner(self.n as u32, switch as u32, inside as u32) as usize
    }

    /// The number of the switch of a place.
    #[inline]
    fn switch_of(&self, place: usize) -> usize {
        self.scale.cells_below(place as u32, 0) as usize
    }
}

/// A queue search through a cell; a switch is crossed once only, as its servers are all reached by the first crossing.
/// The caller keeps the two ends of the queue.
struct Search {
    distance: [u8; CELL_ROOM],
    queue: [u8; CELL_ROOM + 1],
    crossed: [bool; SWITCH_ROOM],
}

impl Search {
    /// The search that has reached its origin only, which is alone in the queue.
    #[inline]
    fn from(origin: usize) -> Search {
        let mut search = Search {
            distance: [NO_DISTANCE; CELL_ROOM],
            queue: [0; CELL_ROOM + 1],
            crossed: [false; SWITCH_ROOM],
        };
        search.reach(origin, 0, true, 0);
        search
    }

    /// A place in the queue.
    #[inline]
    fn queued(&self, at: usize) -> usize {
        usize::from(self.queue[at])
    }

    /// Gives a place its distance and puts it in the queue, if the link is usable and it was not reached before; answers the new
    /// tail. There is no branch, as none could be foretold.
    #[inline]
    fn reach(&mut self, place: usize, distance: u8, usable: bool, tail: usize) -> usize {
        let before = self.distance[place];
        let new = usable & (before == NO_DISTANCE);
        self.distance[place] = if new { distance } else { before };
        self.queue[tail] = place as u8;
        tail + usize::from(new)
    }

    /// Reaches the places one usable link further on; answers the new tail of the queue.
    #[inline]
    fn spread(&mut self, cell: &LocalCell, place: usize, mut tail: usize) -> usize {
        let distance = self.distance[place] + 1;
        let switch = cell.switch_of(place);
        if !self.crossed[switch] && cell.up(place, 0) {
            self.crossed[switch] = true;
            let start = switch * cell.n;
            for beside in start..start + cell.n {
                tail = self.reach(beside, distance, cell.up(beside, 0), tail);
            }
        }
        if cell.b == 0 {
            return tail;
        }
        let across = cell.across(place, switch);
        let usable = cell.up(place, 1) & cell.up(across, 1);
        self.reach(across, distance, usable, tail)
    }
}

#[cfg(test)]
mod tests {
    use super::*;
    use crate::naive;
    use crate::random::Random;

    const CELL_HALL: Hall = Hall::full(4, 1, 1);

    fn sheet_codes() -> [u8; 40] {
        let mut table = [1; 40];
        table[7] = 2;
        table[33] = 2;
        table
    }

    #[test]
    fn of_two_servers_one_link_nearer_the_lower_is_taken() {
        let table = sheet_codes();
        let hop = |uid, target| next_hop(CELL_HALL, uid, target, &table);
        let found = |uid| NextHop {
            refusal: 0,
            found: 1,
            uid,
        };
        assert_eq!(hop(0, 19), found(2));
        assert_eq!(hop(2, 19), found(12));
        assert_eq!(hop(12, 19), found(15));
        assert_eq!(hop(15, 19), found(19));
        assert_eq!(hop(4, 19), found(7));
    }

    #[test]
    fn self_an_unreachable_server_and_one_outside_the_cell_are_not_found() {
        let nothing = NextHop {
            refusal: 0,
            found: 0,
            uid: 0,
        };
        assert_eq!(next_hop(CELL_HALL, 3, 3, &[1; 40]), nothing);
        assert_eq!(next_hop(CELL_HALL, 3, 4, &[0; 40]), nothing);
        let h = Hall::full(4, 1, 0);
        assert_eq!(next_hop(h, 3, 4, &[1; 8]), nothing);
    }

    #[test]
    fn a_server_is_at_distance_0_of_itself_whatever_its_codes() {
        let answer = distances(CELL_HALL, 7, &[0; 40]);
        let mut distance = [NO_DISTANCE; CELL_ROOM];
        distance[7] = 0;
        assert_eq!(
            answer,
            Distances {
                refusal: 0,
                origin: 7,
                count: 20,
                distance
            }
        );
    }

    #[test]
    fn a_crossing_needs_port_0_of_both_servers() {
        let h = Hall::full(4, 0, 0);
        let near = |table: &[u8]| distances(h, 1, table).distance[..4].to_vec();
        assert_eq!(near(&[1, 1, 1, 1]), [1, 0, 1, 1]);
        assert_eq!(near(&[1, 1, 2, 7]), [1, 0, 255, 255]);
        assert_eq!(near(&[1, 0, 1, 1]), [255, 0, 255, 255]);
    }

    #[test]
    fn the_origin_is_told_as_a_hall_uid_and_distances_by_place() {
        let h = Hall::full(2, 2, 1);
        let answer = distances(h, 13, &[1; 18]);
        assert_eq!((answer.origin, answer.count), (13, 6));
        assert_eq!(answer.distance[1], 0);
        assert_eq!(answer.distance[6..], [NO_DISTANCE; 66]);
    }

    #[test]
    fn refusals_come_in_order_with_zeros() {
        let refused = |refusal| Distances {
            refusal,
            origin: 0,
            count: 0,
            distance: [0; CELL_ROOM],
        };
        let bad = Hall::full(4, 0, 1);
        assert_eq!(distances(bad, 99, &[1; 3]), refused(1));
        assert_eq!(distances(CELL_HALL, 99, &[1; 3]), refused(4));
        assert_eq!(distances(CELL_HALL, 20, &[1; 40]), refused(2));
        let hop = |h, uid, target, table| next_hop(h, uid, target, table).refusal;
        assert_eq!(hop(bad, 99, 99, &[1; 3]), 1);
        assert_eq!(hop(CELL_HALL, 99, 99, &[1; 3]), 4);
        assert_eq!(hop(CELL_HALL, 99, 0, &[1; 40]), 2);
        assert_eq!(hop(CELL_HALL, 0, 99, &[1; 40]), 2);
    }

    #[test]
    fn in_a_cell_that_is_not_fitted_only_the_server_itself_is_at_a_distance() {
        for (b, length) in [(0, 6), (1, 18)] {
            let h = Hall {
                count: 3,
                ..Hall::full(2, 2, b)
            };
            let reached = |uid| {
                let answer = distances(h, uid, &vec![1; length]);
                assert_eq!(answer.refusal, 0);
                let near = answer.distance.iter().filter(|&&away| away < NO_DISTANCE);
                (answer.distance[..].contains(&0), near.count())
            };
            let cell = naive::size(2, b) as usize;
            assert_eq!(reached(17), (true, cell));
            assert_eq!(reached(18), (true, 1));
            assert_eq!(reached(41), (true, 1));
            let hop = |uid, target| next_hop(h, uid, target, &vec![1; length]).found;
            assert_eq!([hop(16, 17), hop(18, 19), hop(41, 40)], [1, 0, 0]);
        }
    }

    /// Asserts that the distances from a server and its next hop are those of relaxing every link of its cell, by the codes as they count.
    fn assert_relaxed(h: Hall, table: &[u8], counted: &[u8], uid: u32, target: u32) {
        let first = uid - uid % naive::size(h.n, h.b);
        let literal = naive::distances(h, first, counted, uid, h.b);
        let answer = distances(h, uid, table);
        for (place, &distance) in answer.distance.iter().enumerate() {
            let away = literal.get(place).copied().unwrap_or(naive::NEVER);
            assert_eq!(u32::from(distance), away.min(255));
        }
        let hop = next_hop(h, uid, target, table);
        let expected = naive::next_hop(h, first, counted, uid, target);
        assert_eq!((hop.found == 1).then_some(hop.uid), expected);
    }

    #[test]
    fn distances_and_hops_of_halls_that_are_not_full_are_those_of_the_codes_that_count() {
        let mut random = Random::new(73);
        for _ in 0..4 {
            for h in naive::part_halls(&mut random) {
                let t = naive::size(h.n, h.b);
                let table = naive::table(&mut random, (t * (h.k + 1)) as usize, 5);
                let first = random.below(naive::servers(h) / t) * t;
                let counted = naive::counted_cell(h, &table, first);
                let (uid, target) = (first + random.below(t), first + random.below(t));
                assert_relaxed(h, &table, &counted, uid, target);
            }
        }
    }

    #[test]
    fn distances_and_hops_are_those_of_relaxing_every_link() {
        let mut random = Random::new(72);
        for h in naive::small_halls() {
            let t = naive::size(h.n, h.b);
            let length = (t * (h.k + 1)) as usize;
            for faults in [0, 20, 5, 3, 2] {
                let table = naive::table(&mut random, length, faults);
                let first = random.below(naive::servers(h) / t) * t;
                for _ in 0..3 {
                    let (uid, target) = (first + random.below(t), first + random.below(t));
                    assert_relaxed(h, &table, &table, uid, target);
                }
            }
        }
    }
}
