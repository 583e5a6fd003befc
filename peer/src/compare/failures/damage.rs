//! Hall tables after failures: of servers, of racks, of cables, or of one strand of a cable, drawn at random.

use peer::ports::UP;
use peer::random::Random;

use super::cabling::{Cable, Cabling};

/// The code of a port that is not up. A step tells code 1 from all others and no more, so one of them stands for all.
const DOWN: u8 = 2;
/// The code of a port that hears nothing, as the strand towards it is broken.
const SILENT: u8 = 3;

/// What fails.
#[derive(Debug, Clone, Copy, PartialEq, Eq)]
pub enum Kind {
    Servers,
    Racks,
    Links,
}

/// A hall table and the servers that did not fail, in rising order.
pub struct Damage {
    pub codes: Vec<u8>,
    pub live: Vec<u32>,
}

/// The table of a hall in which so many in a hundred of a kind failed, no more and no fewer.
pub fn damage(cabling: &Cabling, kind: Kind, percent: u32, random: &mut Random) -> Damage {
    let mut codes = vec![UP; cabling.port(cabling.servers, 0)];
    let dead = match kind {
        Kind::Servers => drawn(random, (0..cabling.servers).collect(), percent),
        Kind::Racks => {
            let racks = (0..cabling.servers / cabling.rack).collect();
            servers_of(cabling, &drawn(random, racks, percent))
        }
        Kind::Links => Vec::new(),
    };
    for cable in dead.iter().flat_map(|&uid| cables_of(cabling, uid)) {
        cut(cabling, cable, &mut codes);
    }
    if kind == Kind::Links {
        for cable in drawn(random, cabling.cables(), percent) {
            cut(cabling, cable, &mut codes);
        }
    }
    let live = without(cabling.servers, &dead);
    Damage { codes, live }
}

/// The table of a hall in which one strand of so many in a hundred cables is broken. The cables are those that are cut where links fail,
/// by the same draws; the end that goes silent is drawn by the coin.
pub fn strands(cabling: &Cabling, percent: u32, random: &mut Random, coin: &mut Random) -> Damage {
    let mut codes = vec![UP; cabling.port(cabling.servers, 0)];
    for cable in drawn(random, cabling.cables(), percent) {
        codes[silent_end(cabling, cable, coin)] = SILENT;
    }
    let live = without(cabling.servers, &[]);
    Damage { codes, live }
}

/// The port at the silent end of a cable with a broken strand: that of a server, as a switch has no code, and at either end above level 0.
fn silent_end(cabling: &Cabling, (uid, level): Cable, coin: &mut Random) -> usize {
    let end = if level > 0 && coin.once_in(2) {
        cabling.neighbour(uid, level)
    } else {
        uid
    };
    cabling.port(end, level)
}

/// So many in a hundred of the things, rounded, each as likely as any other.
fn drawn<T>(random: &mut Random, mut things: Vec<T>, percent: u32) -> Vec<T> {
    let all = things.len() as u32;
    let count = (u64::from(all) * u64::from(percent) + 50) / 100;
    for place in 0..count as u32 {
        let other = place + random.below(all - place);
        things.swap(place as usize, other as usize);
    }
    things.truncate(count as usize);
    things
}

/// The servers of some racks.
fn servers_of(cabling: &Cabling, racks: &[u32]) -> Vec<u32> {
    let size = cabling.rack;
    let servers = racks.iter().flat_map(|rack| rack * size..(rack + 1) * size);
    servers.collect()
}

/// The cables that end at a server.
fn cables_of(cabling: &Cabling, uid: u32) -> impl Iterator<Item = Cable> {
    (0..=cabling.hall.k).map(move |level| (uid, level))
}

/// Cuts a cable: no port at an end of it is up. A switch has no port of its own, so a cable of level 0 has one end with a code.
fn cut(cabling: &Cabling, (uid, level): Cable, codes: &mut [u8]) {
    codes[cabling.port(uid, level)] = DOWN;
    if level > 0 {
        codes[cabling.port(cabling.neighbour(uid, level), level)] = DOWN;
    }
}

/// The servers that are not among the dead.
fn without(servers: u32, dead: &[u32]) -> Vec<u32> {
    let mut lives = vec![true; servers as usize];
    dead.iter().for_each(|&uid| lives[uid as usize] = false);
    (0..servers).filter(|&uid| lives[uid as usize]).collect()
}

#[cfg(test)]
mod tests {
    use super::*;
    use peer::hall::Hall;

    fn cabling() -> Cabling {
        Cabling::of(Hall::full(4, 2, 1))
    }

    /// Whether the port of a server is up.
    fn up(cabling: &Cabling, damage: &Damage, uid: u32, level: u32) -> bool {
        damage.codes[cabling.port(uid, level)] == UP
    }

    #[test]
    fn both_ends_of_every_cable_tell_the_same() {
        let cabling = cabling();
        for kind in [Kind::Servers, Kind::Racks, Kind::Links] {
            let damage = damage(&cabling, kind, 20, &mut Random::new(1));
            for uid in 0..cabling.servers {
                for level in 1..=2 {
                    let other = cabling.neighbour(uid, level);
                    let [near, far] = [uid, other].map(|uid| up(&cabling, &damage, uid, level));
                    assert_eq!(near, far);
                }
            }
        }
    }

    #[test]
    fn a_dead_server_takes_its_own_cables_and_no_others() {
        let cabling = cabling();
        let damage = damage(&cabling, Kind::Servers, 10, &mut Random::new(2));
        assert_eq!(damage.live.len(), 378);
        let lives = |uid: u32| damage.live.contains(&uid);
        for uid in 0..cabling.servers {
            assert_eq!(up(&cabling, &damage, uid, 0), lives(uid));
            for level in 1..=2 {
                let both = lives(uid) && lives(cabling.neighbour(uid, level));
                assert_eq!(up(&cabling, &damage, uid, level), both);
            }
        }
    }

    #[test]
    fn a_rack_fails_whole() {
        let cabling = cabling();
        let damage = damage(&cabling, Kind::Racks, 10, &mut Random::new(3));
        assert_eq!(damage.live.len(), 420 - 2 * 20);
        for rack in 0..21 {
            let live = damage.live.iter().filter(|&&uid| uid / 20 == rack);
            assert!([0, 20].contains(&live.count()));
        }
    }

    #[test]
    fn so_many_cables_in_a_hundred_are_cut_and_no_server_dies() {
        let cabling = cabling();
        let damage = damage(&cabling, Kind::Links, 20, &mut Random::new(4));
        assert_eq!(damage.live.len(), 420);
        let cables = cabling.cables();
        let whole = cables
            .iter()
            .filter(|&&(uid, level)| up(&cabling, &damage, uid, level));
        assert_eq!((cables.len(), whole.count()), (840, 672));
    }

    #[test]
    fn a_broken_strand_leaves_the_links_usable_that_a_cut_cable_does() {
        let cabling = cabling();
        for percent in [0, 2, 20, 60] {
            let [mut cut, mut broken] = [(); 2].map(|()| Random::new(6));
            let links = damage(&cabling, Kind::Links, percent, &mut cut);
            let strands = strands(&cabling, percent, &mut broken, &mut Random::new(7));
            assert_eq!(cut, broken);
            assert_eq!(links.live, strands.live);
            for uid in 0..cabling.servers {
                for level in 0..=2 {
                    let usable = |damage| {
                        let far = if level == 0 {
                            uid
                        } else {
                            cabling.neighbour(uid, level)
                        };
                        up(&cabling, damage, uid, level) && up(&cabling, damage, far, level)
                    };
                    assert_eq!(usable(&links), usable(&strands));
                }
            }
        }
    }

    #[test]
    fn a_broken_strand_is_silent_at_one_end_and_either_end_is_met() {
        let cabling = cabling();
        let damage = strands(&cabling, 20, &mut Random::new(8), &mut Random::new(9));
        let cables = cabling.cables();
        let (mut switch, mut ends) = (0, [0; 2]);
        for &(uid, level) in &cables {
            let near = damage.codes[cabling.port(uid, level)];
            if level == 0 {
                switch += u32::from(near == SILENT);
                continue;
            }
            let far = damage.codes[cabling.port(cabling.neighbour(uid, level), level)];
            assert!([(UP, UP), (SILENT, UP), (UP, SILENT)].contains(&(near, far)));
            ends[0] += u32::from(near == SILENT);
            ends[1] += u32::from(far == SILENT);
        }
        assert_eq!((cables.len(), switch + ends[0] + ends[1]), (840, 168));
        assert!(switch > 50 && ends[0] > 25 && ends[1] > 25, "{ends:?}");
    }

    #[test]
    fn without_failures_all_is_up() {
        let damage = damage(&cabling(), Kind::Links, 0, &mut Random::new(5));
        assert!(damage.codes.iter().all(|&code| code == UP));
    }
}
