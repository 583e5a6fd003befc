//! The rounds in which a broadcast reaches the servers of a DCell.

use crate::hall::{self, partner, Hall, Scale};
use crate::plan::Filling;
use crate::ports::{self, UP};
use crate::refusal;

/// The highest scope.
pub const MOST_SCOPE: u32 = 2;
/// The round of a server that is not reached.
pub const NO_ROUND: u16 = 65_535;

/// The most servers of a broadcast: t(2) for n = 8.
const CELL_ROOM: usize = 5256;
/// The most switches of a broadcast.
const SWITCH_ROOM: usize = CELL_ROOM / hall::MOST_N as usize;

/// The servers reached, source included, and the last round.
#[derive(Debug, Clone, Copy, PartialEq, Eq)]
pub struct Broadcast {
    pub refusal: u32,
    pub reached: u32,
    pub last: u32,
}

/// Writes the round of each server of the DCell(scope) around a source to the start of the room.
pub fn broadcast(h: Hall, source: u32, scope: u32, table: &[u8], room: &mut [u16]) -> Broadcast {
    let refused = |refusal| Broadcast {
        refusal,
        reached: 0,
        last: 0,
    };
    let Some(scale) = hall::scale(h) else {
        return refused(refusal::HALL);
    };
    if table.len() != scale.table_length(h.k, h.k) {
        return refused(refusal::LENGTH);
    }
    if source >= scale.size(h.k) {
        return refused(refusal::UID);
    }
    if scope > MOST_SCOPE || scope > h.k {
        return refused(refusal::SCOPE);
    }
    let Some(rounds) = room.get_mut(..scale.size(scope) as usize) else {
        return refused(refusal::ROOM);
    };
    let first = scale.first(source, scope);
    let mut table = ports::cell_part(scale, h.k, table, first, scope);
    if let Some(filling) = Filling::of(h, scale) {
        table = filling.counted(first, table);
    }
    let flood = Flood::new(h, scale, table, rounds);
    match scope {
        0 => flood.run::<0>(source - first),
        1 => flood.run::<1>(source - first),
        _ => flood.run::<2>(source - first),
    }
}

/// A queue search through one DCell(scope), whose servers go by their place in it. A switch is crossed once only, as its servers are
/// all reached by the first crossing. No port behind the table's end is up. Whoever runs it keeps the two ends of the queue.
struct Flood<'a> {
    scale: &'static Scale,
    n: u32,
    ports: usize,
    table: &'a [u8],
    rounds: &'a mut [u16],
    queue: Vec<u16>,
    crossed: [bool; SWITCH_ROOM],
}

impl<'a> Flood<'a> {
    /// The flood that has reached nobody.
    fn new(h: Hall, scale: &'static Scale, table: &'a [u8], rounds: &'a mut [u16]) -> Flood<'a> {
        rounds.fill(NO_ROUND);
        Flood {
            scale,
            n: h.n,
            ports: h.k as usize + 1,
            table,
            queue: vec![0; rounds.len() + 1],
            rounds,
            crossed: [false; SWITCH_ROOM],
        }
    }

    /// Floods the cell from a place.
    fn run<const SCOPE: u32>(mut self, source: u32) -> Broadcast {
        let mut tail = self.reach(source, 0, true, 0);
        let mut last = 0;
        let mut head = 0;
        while head < tail {
            let place = self.queue[head];
            last = self.rounds[usize::from(place)];
            tail = self.spread::<SCOPE>(u32::from(place), last + 1, tail);
            head += 1;
        }
        Broadcast {
            refusal: refusal::NONE,
            reached: head as u32,
            last: u32::from(last),
        }
    }

    /// Whether the port of a place has code 1.
    #[inline]
    fn up(&self, place: u32, level: u32) -> bool {
        self.table.get(place as usize * self.ports + level as usize) == Some(&UP)
    }

    /// Gives a place its round and puts it in the queue, if the link is usable and it was not reached before; answers the new tail.
    /// There is no branch, as none could be foretold.
    #[inline]
    fn reach(&mut self, place: u32, round: u16, usable: bool, tail: usize) -> usize {
        let before = self.rounds[place as usize];
        let new = usable & (before == NO_ROUND);
        self.rounds[place as usize] = if new { round } else { before };
        self.queue[tail] = place as u16;
        tail + usize::from(new)
    }

    /// Reaches the places one link further on; answers the new tail of the queue.
    #[inline]
    fn spread<const SCOPE: u32>(&mut self, place: u32, round: u16, mut tail: usize) -> usize {
        let switch = self.scale.cells_below(place, 0);
        if !self.crossed[switch as usize] && self.up(place, 0) {
            self.crossed[switch as usize] = true;
            let start = switch * self.n;
            for beside in start..start + self.n {
                tail = self.reach(beside, round, self.up(beside, 0), tail);
            }
        }
        if SCOPE == 0 {
            return tail;
        }
        let (cell, size) = (self.scale.cells_below(place, 1), self.scale.size(1));
        let first = cell * size;
        let across = first
            + partner(
                self.n,
                switch - cell * (self.n + 1),
                place - switch * self.n,
            );
        tail = self.cross(place, across, 1, round, tail);
        if SCOPE == 1 {
            return tail;
        }
        self.cross(place, partner(size, cell, place - first), 2, round, tail)
    }

    /// Reaches a place over the link of a level above 0.
    #[inline]
    fn cross(&mut self, place: u32, across: u32, level: u32, round: u16, tail: usize) -> usize {
        let usable = self.up(place, level) & self.up(across, level);
        self.reach(across, round, usable, tail)
    }
}

#[cfg(test)]
mod tests {
    use super::*;
    use crate::naive;
    use crate::random::Random;

    const HALL: Hall = Hall::full(4, 1, 0);

    #[test]
    fn from_0_server_4_is_reached_in_round_1_and_19_in_round_3() {
        let mut room = [7; 20];
        let answer = broadcast(HALL, 0, 1, &[1; 40], &mut room);
        assert_eq!(
            answer,
            Broadcast {
                refusal: 0,
                reached: 20,
                last: 3
            }
        );
        assert_eq!((room[0], room[4], room[19]), (0, 1, 3));
    }

    #[test]
    fn a_source_without_ports_is_reached_alone_in_round_0() {
        let mut room = [7; 20];
        let answer = broadcast(HALL, 5, 1, &[0; 40], &mut room);
        assert_eq!((answer.reached, answer.last), (1, 0));
        let mut expected = [NO_ROUND; 20];
        expected[5] = 0;
        assert_eq!(room, expected);
    }

    #[test]
    fn only_the_cell_of_the_scope_is_written_and_the_rest_stays() {
        let mut room = [7; 6];
        let answer = broadcast(HALL, 9, 0, &[1; 40], &mut room);
        assert_eq!((answer.reached, answer.last), (4, 1));
        assert_eq!(room, [1, 0, 1, 1, 7, 7]);
    }

    #[test]
    fn refusals_come_in_order_and_leave_the_room_as_lent() {
        let mut room = [7; 19];
        let mut ask = |h, source, scope, table| {
            let answer = broadcast(h, source, scope, table, &mut room);
            assert_eq!((answer.reached, answer.last), (0, 0));
            assert_eq!(room, [7; 19]);
            answer.refusal
        };
        assert_eq!(ask(Hall::full(4, 0, 1), 99, 9, &[]), 1);
        assert_eq!(ask(HALL, 99, 9, &[1; 39]), 4);
        assert_eq!(ask(HALL, 20, 9, &[1; 40]), 2);
        assert_eq!(ask(HALL, 0, 2, &[1; 40]), 11);
        assert_eq!(ask(HALL, 0, u32::MAX, &[1; 40]), 11);
        assert_eq!(ask(HALL, 0, 1, &[1; 40]), 6);
        let tall = Hall::full(2, 3, 0);
        assert_eq!(ask(tall, 0, 3, &[1; 7224]), 11);
    }

    #[test]
    fn b_plays_no_part() {
        let mut random = Random::new(10);
        for _ in 0..100 {
            let table = naive::table(&mut random, 60, 4);
            let ask = |b| {
                let mut room = [0; 20];
                let answer = broadcast(Hall::full(4, 1, b), 3, 1, &table[..40], &mut room);
                (answer, room)
            };
            assert_eq!(ask(0), ask(1));
        }
    }

    #[test]
    fn the_largest_broadcast_reaches_5256_servers() {
        let h = Hall::full(8, 2, 1);
        let mut room = vec![0; CELL_ROOM];
        let answer = broadcast(h, 17, 2, &[1; CELL_ROOM * 3], &mut room);
        assert_eq!(answer.reached as usize, CELL_ROOM);
        assert_eq!(room.iter().max().copied(), Some(answer.last as u16));
    }

    #[test]
    fn of_a_hall_that_is_not_full_the_fitted_servers_alone_are_reached() {
        let mut room = [7; 42];
        for count in 0..=7 {
            let h = Hall {
                count,
                ..Hall::full(2, 2, 0)
            };
            for source in 0..42 {
                let fitted = source < count * 6;
                let answer = broadcast(h, source, 2, &[1; 126], &mut room);
                let reached = if fitted { count * 6 } else { 1 };
                assert_eq!((answer.refusal, answer.reached), (0, reached));
                assert_eq!(answer.last == 0, !fitted);
                assert_eq!(room[source as usize], 0);
                let there = room.iter().filter(|&&round| round < NO_ROUND);
                assert_eq!(there.count() as u32, reached);
            }
        }
    }

    #[test]
    fn rounds_in_a_hall_that_is_not_full_are_those_of_the_codes_that_count() {
        let mut random = Random::new(43);
        for turn in 0..8 {
            let halls = naive::part_halls(&mut random).into_iter();
            for h in halls.filter(|h| h.b == turn % 2) {
                let codes = naive::servers(h) * (h.k + 1);
                let table = naive::table(&mut random, codes as usize, [0, 5][turn as usize % 2]);
                let counted = naive::counted(h, &table);
                let whole = Hall::full(h.n, h.k, h.b);
                for scope in 0..=2 {
                    let t = naive::size(h.n, scope) as usize;
                    let source = random.below(naive::servers(h));
                    let (mut room, mut expected) = (vec![7; t + 1], vec![7; t + 1]);
                    let answer = broadcast(h, source, scope, &table, &mut room);
                    let literal = broadcast(whole, source, scope, &counted, &mut expected);
                    assert_eq!(
                        (answer, room),
                        (literal, expected),
                        "{h:?} {source} {scope}"
                    );
                }
            }
        }
    }

    #[test]
    fn rounds_are_the_distances_of_relaxing_every_link() {
        let mut random = Random::new(42);
        for h in naive::small_halls().into_iter().filter(|h| h.b == 0) {
            let count = naive::servers(h);
            for faults in [0, 20, 5, 3] {
                let table = naive::table(&mut random, (count * (h.k + 1)) as usize, faults);
                for scope in 0..=h.k.min(2) {
                    let t = naive::size(h.n, scope);
                    let source = random.below(count);
                    let first = source / t * t;
                    let own = |uid: u32| (uid * (h.k + 1)) as usize;
                    let cell = &table[own(first)..own(first + t)];
                    let expected: Vec<u16> = naive::distances(h, first, cell, source, scope)
                        .into_iter()
                        .map(|away| away.min(65_535) as u16)
                        .collect();
                    let mut room = vec![7; t as usize + 3];
                    let answer = broadcast(h, source, scope, &table, &mut room);
                    assert_eq!(room[..t as usize], expected);
                    assert_eq!(room[t as usize..], [7; 3]);
                    let reached = expected.iter().filter(|&&round| round < NO_ROUND);
                    assert_eq!(answer.refusal, 0);
                    assert_eq!(answer.reached as usize, reached.clone().count());
                    assert_eq!(reached.max().copied(), Some(answer.last as u16));
                }
            }
        }
    }
}
