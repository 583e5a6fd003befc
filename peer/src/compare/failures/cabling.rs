//! The cabling of a hall, numbered by the proved calls: its servers, its racks, and who is joined to whom.

use peer::hall::{Hall, LEVELS};
use peer::refusal;

use crate::rattle;

/// The level of the DCells that are racks.
const RACK_LEVEL: u32 = 1;

/// A cable, named by a server at its end and its level. One of level 0 goes to the switch; of the two servers at the ends of any other
/// the lower names it.
pub type Cable = (u32, u32);

/// A hall with every server's neighbours.
pub struct Cabling {
    pub hall: Hall,
    pub servers: u32,
    /// The servers of a rack.
    pub rack: u32,
    /// The neighbours of each server from level 1 on, k a server.
    neighbours: Vec<u32>,
}

impl Cabling {
    /// The cabling of a sound hall of top level 1 at least.
    pub fn of(hall: Hall) -> Cabling {
        let mut t = [0; LEVELS];
        assert_eq!(rattle::sizes(hall, &mut t), refusal::NONE);
        let [servers, rack] = [hall.k, RACK_LEVEL].map(|level| t[level as usize]);
        let uids = 0..servers;
        let places = uids.flat_map(|uid| (1..=hall.k).map(move |level| (uid, level)));
        let neighbours = places.map(|(uid, level)| neighbour(hall, uid, level));
        Cabling {
            hall,
            servers,
            rack,
            neighbours: neighbours.collect(),
        }
    }

    /// The neighbour of a server at a level from 1 on.
    pub fn neighbour(&self, uid: u32, level: u32) -> u32 {
        self.neighbours[(uid * self.hall.k + level - 1) as usize]
    }

    /// The level of the link between two servers that are joined: 0 where no cable goes from the one to the other, but a switch joins them.
    pub fn level(&self, from: u32, to: u32) -> u32 {
        let mut levels = 1..=self.hall.k;
        let level = levels.find(|&level| self.neighbour(from, level) == to);
        level.unwrap_or(0)
    }

    /// The place in the hall table of a server's port.
    pub fn port(&self, uid: u32, level: u32) -> usize {
        (uid * (self.hall.k + 1) + level) as usize
    }

    /// The servers on the switch of one, itself among them.
    pub fn switch(&self, uid: u32) -> impl Iterator<Item = u32> {
        let first = uid - uid % self.hall.n;
        first..first + self.hall.n
    }

    /// Every cable once.
    pub fn cables(&self) -> Vec<Cable> {
        let ports = (0..self.servers).flat_map(|uid| (0..=self.hall.k).map(move |i| (uid, i)));
        let named = |&(uid, level): &Cable| level == 0 || uid < self.neighbour(uid, level);
        ports.filter(named).collect()
    }
}

/// The neighbour of a server, by the proved call.
fn neighbour(hall: Hall, uid: u32, level: u32) -> u32 {
    let mut room = [0];
    assert_eq!(
        rattle::neighbour(hall, uid, level, &mut room),
        refusal::NONE
    );
    room[0]
}

#[cfg(test)]
mod tests {
    use super::*;
    use peer::hall;

    #[test]
    fn the_cabling_is_that_of_the_rules() {
        let hall = Hall::full(3, 2, 1);
        let cabling = Cabling::of(hall);
        assert_eq!((cabling.servers, cabling.rack), (156, 12));
        for uid in 0..156 {
            for level in 1..=2 {
                let right = hall::neighbour(hall, uid, level).uid;
                assert_eq!(cabling.neighbour(uid, level), right);
                assert_eq!(cabling.level(uid, right), level);
            }
        }
        assert_eq!(cabling.level(7, 8), 0);
        assert!(cabling.switch(7).eq(6..9));
    }

    #[test]
    fn a_server_has_a_cable_to_its_switch_and_half_of_one_at_each_level_above() {
        let cabling = Cabling::of(Hall::full(4, 3, 1));
        let cables = cabling.cables();
        let of_level = |level| cables.iter().filter(|cable| cable.1 == level).count();
        assert_eq!(
            [0, 1, 2, 3].map(of_level),
            [176_820, 88_410, 88_410, 88_410]
        );
    }
}
