//! Halls in which one long chain of links is up and nothing else, so that a broadcast along it takes hundreds of rounds.

use peer::hall::{self, Hall};
use peer::ports::UP;
use peer::random::Random;

use super::inputs::servers;
use super::tables::{code_not_up, hall_codes};

/// A switch is crossed where a link could be taken once in so many times.
const EARLY: u32 = 64;

/// A walk through one DCell that meets no server twice and crosses no switch twice. As a port is up only where the walk uses it, each
/// server has no usable links but those to the one before it and the one behind it.
pub struct Chain {
    hall: Hall,
    scope: u32,
    /// The hall table.
    pub codes: Vec<u8>,
    /// The servers met, in order.
    pub walk: Vec<u32>,
    met: Vec<bool>,
    crossed: Vec<bool>,
}

impl Chain {
    /// A chain from a server on over links of no higher level than the scope.
    pub fn from(random: &mut Random, hall: Hall, scope: u32, start: u32) -> Chain {
        let count = servers(hall).unwrap_or(0);
        let mut chain = Chain {
            hall,
            scope,
            codes: vec![code_not_up(random); hall_codes(hall)],
            walk: vec![start],
            met: vec![false; count as usize],
            crossed: vec![false; (count / hall.n) as usize],
        };
        chain.met[start as usize] = true;
        let mut at = start;
        while let Some((level, to)) = chain.way(random, at) {
            chain.take(level, at, to);
            at = to;
        }
        chain
    }

    /// The level and the server of the next link, if there is one.
    fn way(&self, random: &mut Random, at: u32) -> Option<(u32, u32)> {
        let turn = random.below(self.scope.max(1));
        let levels = (0..self.scope).map(|i| 1 + (i + turn) % self.scope);
        let mut links = levels.map(|level| (level, hall::neighbour(self.hall, at, level).uid));
        let link = links.find(|&(_, to)| !self.met[to as usize]);
        if link.is_none() || random.once_in(EARLY) {
            return self.beside(random, at).or(link);
        }
        link
    }

    /// The crossing to a server on the same switch, if it was not crossed yet.
    fn beside(&self, random: &mut Random, at: u32) -> Option<(u32, u32)> {
        let n = self.hall.n;
        let (switch, turn) = (at / n, random.below(n));
        if self.crossed[switch as usize] {
            return None;
        }
        let mut others = (0..n).map(|i| switch * n + (i + turn) % n);
        let to = others.find(|&to| !self.met[to as usize])?;
        Some((0, to))
    }

    /// Takes a link: its two ports are up.
    fn take(&mut self, level: u32, from: u32, to: u32) {
        for end in [from, to] {
            self.codes[(end * (self.hall.k + 1) + level) as usize] = UP;
        }
        if level == 0 {
            self.crossed[(from / self.hall.n) as usize] = true;
        }
        self.met[to as usize] = true;
        self.walk.push(to);
    }
}

#[cfg(test)]
mod tests {
    use super::*;
    use peer::broadcast::broadcast;

    #[test]
    fn a_broadcast_takes_one_round_for_each_link_of_a_chain() {
        let mut random = Random::new(1);
        for (n, k) in [(2, 2), (2, 3), (3, 2), (4, 2), (5, 2)] {
            let hall = Hall::full(n, k, 0);
            let start = random.below(servers(hall).unwrap());
            let chain = Chain::from(&mut random, hall, 2, start);
            let mut rounds = vec![0; 5256];
            let answer = broadcast(hall, start, 2, &chain.codes, &mut rounds);
            let links = chain.walk.len() as u32 - 1;
            assert_eq!((answer.reached, answer.last), (links + 1, links));
        }
    }

    #[test]
    fn chains_of_the_larger_halls_take_hundreds_of_rounds() {
        let mut random = Random::new(2);
        let hall = Hall::full(8, 2, 0);
        let lengths = (0..50).map(|i| Chain::from(&mut random, hall, 2, i).walk.len());
        let lengths: Vec<usize> = lengths.collect();
        assert!(lengths.iter().any(|&length| length > 500), "{lengths:?}");
    }
}
