//! What became of the packets between live servers: how their journeys ended, how long they were, and what any routing could have done.

use peer::forward::{self, Packet, DELIVERED, DROP_RETRY, JOURNEY_ROOM, MOST_RETRY};
use peer::refusal;

use super::cabling::Cabling;
use super::damage::Damage;
use super::draw::Draw;
use super::search::{Search, NOT_MET};
use crate::compare::sums::Sums;
use crate::rattle;

/// The retry and the TTL of a packet at its source.
pub const RETRY: u8 = 5;
const TTL: u8 = 255;
/// The endings of a journey, by their numbers.
const ENDINGS: usize = DELIVERED as usize + 1;

/// The journeys of some packets.
#[derive(Default)]
pub struct Trace {
    /// How many had each ending.
    pub endings: [u64; ENDINGS],
    /// The links of those delivered.
    pub links: Sums,
    /// The reroutes of those delivered.
    pub reroutes: Sums,
}

/// Whose journey it is.
#[derive(Debug, Default, Clone, Copy, PartialEq, Eq)]
pub enum Side {
    /// The proved call's.
    #[default]
    Rattle,
    /// The separate implementation's.
    Peer,
}

/// The journeys of some packets between live servers, and what any routing could have done.
#[derive(Default)]
pub struct Traces {
    side: Side,
    /// The journeys of the packets.
    pub trace: Trace,
    /// The same with the highest retry that a packet can have.
    pub patient: Trace,
    /// The packets that were lost after they had crossed a link and, at once, crossed it back.
    pub turned: u64,
    /// The packets for which there is no way over usable links.
    pub apart: u64,
    /// Of these, the packets to a server without any usable link.
    pub cut_off: u64,
    /// The least links between live servers.
    pub least: Sums,
    /// The pairs of different servers whose second has failed, of so many pairs with a live first one.
    dead: u64,
    pairs: u64,
}

/// The ending, the links and the reroutes of a journey.
pub type Answer = [u32; 3];

impl Trace {
    /// The packets that were not delivered.
    pub fn lost(&self) -> u64 {
        self.packets() - self.endings[DELIVERED as usize]
    }

    /// The packets.
    pub fn packets(&self) -> u64 {
        self.endings.iter().sum()
    }

    /// Adds a journey.
    pub fn add(&mut self, [ending, links, reroutes]: Answer) {
        self.endings[ending as usize] += 1;
        if ending == DELIVERED {
            self.links.add(links);
            self.reroutes.add(reroutes);
        }
    }
}

impl Traces {
    /// The traces of no packet yet, by one side.
    pub fn of(side: Side) -> Traces {
        Traces {
            side,
            ..Traces::default()
        }
    }

    /// Adds the packets of a draw, and the least links from its sources to all that can be reached.
    pub fn add(&mut self, cabling: &Cabling, draw: &Draw) {
        let damage = &draw.damage;
        let search = Search::over(cabling, damage);
        let parts = search.parts();
        for &[source, dst] in &draw.packets {
            self.add_packet(cabling, damage, source, dst);
            let apart = parts[source as usize] != parts[dst as usize];
            self.apart += u64::from(apart);
            self.cut_off += u64::from(apart && search.cut_off(dst));
        }
        self.dead += u64::from(cabling.servers) - damage.live.len() as u64;
        self.pairs += u64::from(cabling.servers) - 1;
        for &source in &draw.sources {
            let distances = search.distances(source).into_iter();
            let met = distances.filter(|&distance| distance != NOT_MET && distance > 0);
            met.for_each(|distance| self.least.add(distance));
        }
    }

    /// A count of packets as a share of all.
    pub fn share(&self, count: u64) -> f64 {
        count as f64 / self.trace.packets() as f64
    }

    /// The share of packets lost where a live server sends to each of the others, failed ones among them.
    pub fn path_failure(&self) -> f64 {
        let dead = self.dead as f64 / self.pairs as f64;
        dead + (1.0 - dead) * self.share(self.trace.lost())
    }

    /// Adds the journeys of one packet. One that does not run out of its retry is the same with a higher one.
    fn add_packet(&mut self, cabling: &Cabling, damage: &Damage, source: u32, dst: u32) {
        let way = Way {
            cabling,
            damage,
            source,
            dst,
        };
        let answer = way.journey(self.side, RETRY);
        self.trace.add(answer);
        self.patient.add(match answer {
            [DROP_RETRY, ..] => way.journey(self.side, MOST_RETRY),
            _ => answer,
        });
        self.turned += u64::from(answer[0] != DELIVERED && way.turns_back(self.side, answer[1]));
    }
}

/// A hall with failures, a packet's source and its destination.
pub struct Way<'a> {
    pub cabling: &'a Cabling,
    pub damage: &'a Damage,
    pub source: u32,
    pub dst: u32,
}

impl Way<'_> {
    /// The journey of the packet with a retry.
    pub fn journey(&self, side: Side, retry: u8) -> Answer {
        let (hall, codes) = (self.cabling.hall, &self.damage.codes);
        let packet = self.packet(retry);
        if side == Side::Peer {
            let answer = forward::journey(hall, self.source, packet, codes);
            return [answer.ending, answer.links, answer.reroutes];
        }
        let mut room = [0; 3];
        let number = rattle::journey_counts(hall, self.source, packet, 0, codes, &mut room);
        assert_eq!(number, refusal::NONE);
        room
    }

    /// The uids that the journey passes, zeros behind them.
    pub fn uids(&self, side: Side) -> [u32; JOURNEY_ROOM] {
        let (hall, codes) = (self.cabling.hall, &self.damage.codes);
        let packet = self.packet(RETRY);
        if side == Side::Peer {
            return forward::journey(hall, self.source, packet, codes).uids;
        }
        let mut uids = [0; JOURNEY_ROOM];
        let number = rattle::journey(hall, self.source, packet, 0, codes, &mut uids);
        assert_eq!(number, refusal::NONE);
        uids
    }

    /// The journey by the near port alone above level b, and the uids that it passes, by the separate implementation.
    pub fn journey_near_alone(&self) -> (Answer, [u32; JOURNEY_ROOM]) {
        let (hall, codes) = (self.cabling.hall, &self.damage.codes);
        let answer = forward::journey_near_alone(hall, self.source, self.packet(RETRY), codes);
        assert_eq!(answer.refusal, refusal::NONE);
        ([answer.ending, answer.links, answer.reroutes], answer.uids)
    }

    /// Whether the journey of so many links crosses one of them and, at once, crosses it back.
    fn turns_back(&self, side: Side, links: u32) -> bool {
        back_and_forth(&self.uids(side)[..=links as usize])
    }

    /// The packet at its source, without a proxy.
    fn packet(&self, retry: u8) -> Packet {
        Packet {
            dst: self.dst,
            has_proxy: false,
            proxy: 0,
            retry,
            ttl: TTL,
        }
    }
}

/// Whether one of the uids stands before and behind one other.
fn back_and_forth(uids: &[u32]) -> bool {
    uids.windows(3).any(|three| three[0] == three[2])
}

#[cfg(test)]
mod tests {
    use super::super::damage::{damage, Kind};
    use super::*;
    use peer::hall::Hall;
    use peer::random::Random;

    fn cabling() -> Cabling {
        Cabling::of(Hall::full(4, 2, 1))
    }

    /// The traces of so many packets after failures.
    fn traced(side: Side, kind: Kind, percent: u32, packets: u32) -> Traces {
        let mut random = Random::new(1);
        let cabling = cabling();
        let damage = damage(&cabling, kind, percent, &mut random);
        let mut traces = Traces::of(side);
        traces.add(&cabling, &Draw::over(damage, packets, 5, &mut random));
        traces
    }

    #[test]
    fn without_failures_every_packet_is_delivered_over_its_route() {
        let traces = traced(Side::Rattle, Kind::Servers, 0, 20_000);
        assert_eq!((traces.trace.lost(), traces.apart), (0, 0));
        assert_eq!(traces.trace.links.count, 20_000);
        assert_eq!(traces.trace.reroutes.mean(), 0.0);
        assert!((traces.trace.links.mean() - 5.16).abs() < 0.05);
        assert!((traces.least.mean() - 4.87).abs() < 0.1);
        assert_eq!(traces.path_failure(), 0.0);
    }

    #[test]
    fn a_packet_for_which_there_is_no_way_is_lost() {
        for kind in [Kind::Servers, Kind::Links] {
            let traces = traced(Side::Rattle, kind, 50, 5_000);
            let lost = traces.trace.lost();
            assert!(0 < traces.cut_off && traces.cut_off <= traces.apart);
            assert!(traces.apart < lost && lost < 5_000);
            assert!(traces.patient.lost() <= lost && traces.turned <= lost);
        }
    }

    #[test]
    fn no_journey_is_shorter_than_the_least_links() {
        let cabling = cabling();
        let damage = damage(&cabling, Kind::Links, 20, &mut Random::new(2));
        let search = Search::over(&cabling, &damage);
        for source in 0..20 {
            let distances = search.distances(source);
            for dst in 0..420 {
                let way = Way {
                    cabling: &cabling,
                    damage: &damage,
                    source,
                    dst,
                };
                let [ending, links, _] = way.journey(Side::Rattle, RETRY);
                let least = distances[dst as usize];
                assert!(ending != DELIVERED || least <= links, "{source} to {dst}");
            }
        }
    }

    #[test]
    fn both_sides_trace_the_same() {
        let [ours, other] =
            [Side::Rattle, Side::Peer].map(|side| traced(side, Kind::Links, 30, 2_000));
        assert_eq!(ours.trace.endings, other.trace.endings);
        assert_eq!(ours.trace.links, other.trace.links);
        assert_eq!(ours.turned, other.turned);
    }

    #[test]
    fn a_failed_destination_counts_where_the_paper_counts_it() {
        let traces = traced(Side::Rattle, Kind::Racks, 10, 5_000);
        let loss = traces.share(traces.trace.lost());
        let dead = 40.0 / 419.0;
        assert!((traces.path_failure() - dead - (1.0 - dead) * loss).abs() < 1e-9);
    }

    #[test]
    fn a_link_crossed_and_at_once_crossed_back_is_seen() {
        assert!(back_and_forth(&[1, 2, 3, 2, 4]));
        assert!(!back_and_forth(&[1, 2, 3, 1, 2]));
        assert!(!back_and_forth(&[1]));
    }
}
