//! What is drawn at random for one hall table: what failed, between which servers packets are sent, and from where the least links are
//! counted.

use peer::random::Random;

use super::damage::Damage;

/// One draw.
pub struct Draw {
    pub damage: Damage,
    /// The source and the destination of each packet, two different live servers.
    pub packets: Vec<[u32; 2]>,
    /// The live servers from which the least links to all others are counted.
    pub sources: Vec<u32>,
}

impl Draw {
    /// So many packets and sources, drawn for a hall after failures.
    pub fn over(damage: Damage, packets: u32, sources: u32, random: &mut Random) -> Draw {
        let live = &damage.live;
        let packets = (0..packets).map(|_| two_of(live, random)).collect();
        let sources = (0..sources).map(|_| one_of(live, random)).collect();
        Draw {
            damage,
            packets,
            sources,
        }
    }
}

/// One of the servers.
fn one_of(live: &[u32], random: &mut Random) -> u32 {
    live[random.below(live.len() as u32) as usize]
}

/// Two different servers of at least two.
fn two_of(live: &[u32], random: &mut Random) -> [u32; 2] {
    let count = live.len() as u32;
    let first = random.below(count);
    let second = (first + 1 + random.below(count - 1)) % count;
    [first, second].map(|place| live[place as usize])
}

#[cfg(test)]
mod tests {
    use super::*;

    #[test]
    fn two_different_servers_are_drawn() {
        let mut random = Random::new(3);
        let pairs: Vec<[u32; 2]> = (0..100).map(|_| two_of(&[4, 7, 9], &mut random)).collect();
        assert!(pairs.iter().all(|[source, dst]| source != dst));
        assert!([4, 7, 9]
            .iter()
            .all(|uid| pairs.iter().any(|pair| pair[1] == *uid)));
    }

    #[test]
    fn as_many_are_drawn_as_are_asked() {
        let damage = Damage {
            codes: Vec::new(),
            live: vec![4, 7, 9],
        };
        let draw = Draw::over(damage, 20, 5, &mut Random::new(4));
        assert_eq!((draw.packets.len(), draw.sources.len()), (20, 5));
        assert!(draw.sources.iter().all(|uid| [4, 7, 9].contains(uid)));
    }
}
