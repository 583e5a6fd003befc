//! What any routing could do at best: the least number of links between two servers over all that is left of a hall, and which servers
//! no routing can join.

use peer::ports::UP;

use super::cabling::Cabling;
use super::damage::Damage;

/// The mark of a server that was not met.
pub const NOT_MET: u32 = u32::MAX;

/// The cabling of a hall and its table.
pub struct Search<'a> {
    cabling: &'a Cabling,
    codes: &'a [u8],
}

impl<'a> Search<'a> {
    /// A search over what failures left.
    pub fn over(cabling: &'a Cabling, damage: &'a Damage) -> Search<'a> {
        let codes = &damage.codes;
        Search { cabling, codes }
    }

    /// The least number of links from a server to each; the mark of one not met where there is no way.
    pub fn distances(&self, from: u32) -> Vec<u32> {
        let mut marks = vec![NOT_MET; self.cabling.servers as usize];
        self.flood(from, 0, &mut marks, |distance| distance + 1);
        marks
    }

    /// For each server the lowest one that it is joined with by any number of links: two can be joined exactly where these are equal.
    pub fn parts(&self) -> Vec<u32> {
        let mut marks = vec![NOT_MET; self.cabling.servers as usize];
        for uid in 0..self.cabling.servers {
            if marks[uid as usize] == NOT_MET {
                self.flood(uid, uid, &mut marks, |part| part);
            }
        }
        marks
    }

    /// Whether a server has no usable link at all.
    pub fn cut_off(&self, uid: u32) -> bool {
        self.joined(uid).next().is_none()
    }

    /// Marks the servers that a server is joined with, the nearest first, each by the mark of the one it was met from.
    fn flood(&self, from: u32, first: u32, marks: &mut [u32], next: impl Fn(u32) -> u32) {
        let mut met = vec![from];
        marks[from as usize] = first;
        let mut turn = 0;
        while let Some(&uid) = met.get(turn) {
            let mark = next(marks[uid as usize]);
            for other in self.joined(uid) {
                if marks[other as usize] == NOT_MET {
                    marks[other as usize] = mark;
                    met.push(other);
                }
            }
            turn += 1;
        }
    }

    /// The servers at the other ends of a server's usable links.
    fn joined(&self, uid: u32) -> impl Iterator<Item = u32> + '_ {
        let beside = self.cabling.switch(uid).map(|other| (0, other));
        let above =
            (1..=self.cabling.hall.k).map(move |level| (level, self.cabling.neighbour(uid, level)));
        let links = beside.chain(above).filter(move |&(_, other)| other != uid);
        let usable =
            links.filter(move |&(level, other)| self.up(uid, level) && self.up(other, level));
        usable.map(|(_, other)| other)
    }

    /// Whether the port of a server is up.
    fn up(&self, uid: u32, level: u32) -> bool {
        self.codes[self.cabling.port(uid, level)] == UP
    }
}

#[cfg(test)]
mod tests {
    use super::super::damage::{damage, Kind};
    use super::*;
    use peer::broadcast::broadcast;
    use peer::hall::Hall;
    use peer::random::Random;

    /// A hall with a scope that holds all of it, so that a broadcast's rounds are distances.
    const HALL: Hall = Hall::full(4, 2, 1);

    #[test]
    fn distances_are_the_rounds_of_a_broadcast() {
        let cabling = Cabling::of(HALL);
        let mut random = Random::new(1);
        for kind in [Kind::Servers, Kind::Racks, Kind::Links] {
            let damage = damage(&cabling, kind, 40, &mut random);
            let search = Search::over(&cabling, &damage);
            for from in [0, 77, 419] {
                let mut rounds = vec![0; 420];
                broadcast(HALL, from, 2, &damage.codes, &mut rounds);
                let as_mark = |&round: &u16| {
                    if round == u16::MAX {
                        NOT_MET
                    } else {
                        u32::from(round)
                    }
                };
                let rounds: Vec<u32> = rounds.iter().map(as_mark).collect();
                assert_eq!(search.distances(from), rounds);
            }
        }
    }

    #[test]
    fn two_servers_are_of_one_part_where_there_is_a_distance() {
        let cabling = Cabling::of(HALL);
        let damage = damage(&cabling, Kind::Links, 60, &mut Random::new(2));
        let search = Search::over(&cabling, &damage);
        let parts = search.parts();
        let mut alone = 0;
        for from in 0..420 {
            let joined: Vec<bool> = search
                .distances(from)
                .iter()
                .map(|&distance| distance != NOT_MET)
                .collect();
            let same: Vec<bool> = parts
                .iter()
                .map(|&part| part == parts[from as usize])
                .collect();
            assert_eq!(joined, same);
            let count = same.iter().filter(|&&same| same).count();
            assert_eq!(search.cut_off(from), count == 1);
            alone += usize::from(count == 1);
        }
        assert!(alone > 0);
    }
}
