//! Journeys of the most links: hall tables that are laid cell by cell before a packet, so that it goes a long way through each.

use peer::forward::{journey, step, Packet, DELIVERED, FORWARDED, MOST_RETRY, SPENT_RETRY};
use peer::hall::{self, Hall};
use peer::ports::{is_up, UP};
use peer::random::Random;
use peer::route::{first_link, route, FirstLink};

use super::events::MOST_LINKS;
use super::inputs::{servers, sizes};
use super::packets::Far;
use super::sheets::Sheet;
use super::tables::{code_not_up, hall_codes, lent_to_step, Table};

/// The halls of the trails, b = 1 and k = 3 in each, and how the journeys through them end.
///
/// A local way through a DCell(1) passes each of its n + 1 switches once, so it has 2n + 1 links at most. A reroute sends a packet back
/// where it stands at a usable port of the level that is looked at first; so a trail reroutes where it came in by a link of another level,
/// or by none. Outside the DCell(2) of its destination, a reroute brings it through two cells at most before the next one. Inside, it
/// takes two reroutes a cell: one by a port of level 3, over which it comes back at once, and one by a port of level 2 at the other end of
/// the cell. As a retry of 15 allows 14 reroutes, a packet with a proxy at its source crosses 44n + 43 links at most: 307 with n = 6.
const TRAILS: [(Hall, Last); 4] = [
    (hall_of(6), Last::Delivered),
    (hall_of(6), Last::Cut),
    (hall_of(7), Last::Delivered),
    (hall_of(7), Last::Cut),
];
/// Those of them that are drawn at random, the first ones; the table of the other hall has many millions of codes.
const DRAWN_TRAILS: u32 = 2;
/// The one hall of trails whose table a sheet has place for.
const SHEET_HALL: Hall = hall_of(2);
/// The links after which a packet is no longer followed.
const ENOUGH: usize = 2 * MOST_LINKS;
/// The tables that are laid for one journey, until one is long enough; also those of which a sheet gets the one with the longest trail.
const LAID: u32 = 100;
/// The orders of switches and the ways out of a cell that are tried.
const TRIES: u32 = 20;
/// The highest TTL.
const MOST_TTL: u8 = u8::MAX;

/// How a journey of the most links ends.
#[derive(Debug, Clone, Copy, PartialEq, Eq)]
pub enum Last {
    /// At its dst, where its TTL is 0.
    Delivered,
    /// By its TTL, before its dst.
    Cut,
}

/// Any journey of the most links.
pub fn any_longest(random: &mut Random) -> Option<Far> {
    let (hall, last) = TRAILS[random.below(DRAWN_TRAILS) as usize];
    longest(random, hall, last)
}

/// A journey of the most links through each hall of trails.
pub fn edge_longest() -> impl Iterator<Item = Far> {
    let mut random = Random::new(4);
    TRAILS
        .into_iter()
        .filter_map(move |(hall, last)| longest(&mut random, hall, last))
}

/// The sheet of one packet, which has no proxy and goes the longest of some trails through the hall that a sheet has place for.
pub fn longest_sheets() -> impl Iterator<Item = Sheet> {
    let mut random = Random::new(5);
    let trails = (0..LAID).filter_map(|_| Trail::laid(&mut random, SHEET_HALL, false));
    let longest = trails.max_by_key(|trail| trail.way.len());
    longest
        .into_iter()
        .map(|trail| Sheet::of_journey(&trail.journey_from(0)))
}

/// A journey of the most links through a hall, where one of the tables that are laid has one.
fn longest(random: &mut Random, hall: Hall, last: Last) -> Option<Far> {
    let mut laid = (0..LAID).filter_map(|_| Trail::laid(random, hall, true)?.part_of(last));
    laid.find(crosses_the_most)
}

/// Whether a journey crosses the most links.
fn crosses_the_most(at: &Far) -> bool {
    journey(at.hall, at.uid, at.packet, &at.table).links == MOST_LINKS as u32
}

/// The hall of trails with n servers on a switch.
const fn hall_of(n: u32) -> Hall {
    Hall::full(n, 3, 1)
}

/// A hall table with the way of one packet through it.
struct Trail {
    hall: Hall,
    /// The servers of a DCell(1) and of a DCell(2).
    sizes: [u32; 2],
    codes: Vec<u8>,
    /// The cells whose codes are laid; all other codes are not up.
    laid: Vec<bool>,
    /// The servers met, each with the packet as it came there.
    way: Vec<(u32, Packet)>,
    ending: u32,
}

impl Trail {
    /// The trail of a packet between any two servers of a hall, with a proxy or none; none where it goes round without an end. The proxy is
    /// where the packet comes into a cell, so that the cell is laid for its way on.
    fn laid(random: &mut Random, hall: Hall, has_proxy: bool) -> Option<Trail> {
        let count = servers(hall)?;
        let [_, cell, above, _] = sizes(hall)?;
        let [source, dst, beside] = [(); 3].map(|()| random.below(count));
        let mut entries = route(hall, source, beside).uids.into_iter();
        let entry = entries.find(|uid| uid / cell == beside / cell);
        let packet = Packet {
            dst,
            has_proxy,
            proxy: entry.filter(|_| has_proxy).unwrap_or(0),
            retry: MOST_RETRY,
            ttl: MOST_TTL,
        };
        let mut trail = Trail {
            hall,
            sizes: [cell, above],
            codes: vec![code_not_up(random); hall_codes(hall)],
            laid: vec![false; (count / cell) as usize],
            way: vec![(source, packet)],
            ending: FORWARDED,
        };
        while trail.ending == FORWARDED && trail.way.len() <= ENOUGH {
            trail.go_on(random)?;
        }
        (trail.ending != FORWARDED).then_some(trail)
    }

    /// Takes one step, as if the TTL never fell.
    fn go_on(&mut self, random: &mut Random) -> Option<()> {
        let (uid, packet) = *self.way.last()?;
        self.lay(random, uid, &packet)?;
        let lent = lent_to_step(self.hall, &self.codes, uid);
        let answer = step(self.hall, uid, packet, &lent);
        self.ending = answer.ending;
        if answer.ending == FORWARDED {
            let ttl = MOST_TTL;
            let packet = Packet {
                ttl,
                ..answer.packet
            };
            self.way.push((answer.next, packet));
        }
        Some(())
    }

    /// Lays the codes of a server's cell, unless they are: one chain of links is up, from the server to where the packet is to leave.
    fn lay(&mut self, random: &mut Random, uid: u32, packet: &Packet) -> Option<()> {
        if self.is_laid(uid) {
            return Some(());
        }
        self.laid[(uid / self.sizes[0]) as usize] = true;
        let arrived = packet.has_proxy && packet.proxy == uid;
        let goal = if packet.has_proxy && !arrived {
            packet.proxy
        } else {
            packet.dst
        };
        let link = first_link(self.hall, uid, goal);
        if link.level == 0 {
            self.chain(random, uid, goal);
            return Some(());
        }
        let level = self.hall.k.min(link.level + u32::from(arrived));
        let least = SPENT_RETRY + u8::from(self.takes_two(uid, link, level));
        if goal != packet.dst || packet.retry <= least || self.is_up(uid, level) {
            self.join(link.near, link.level);
            self.chain(random, uid, link.near);
            return Some(());
        }
        self.turn(random, uid, link, level, goal)
    }

    /// Lays the codes of a server's cell so that the packet is turned away from the first link on its way, by a port of a level.
    fn turn(
        &mut self,
        random: &mut Random,
        uid: u32,
        link: FirstLink,
        level: u32,
        goal: u32,
    ) -> Option<()> {
        let exit = self.exit(random, [uid, link.near, goal], level)?;
        self.join(exit, level);
        let chain = self.chain(random, uid, exit);
        if self.takes_two(uid, link, level) {
            let second = self.second_exit(&chain, link)?;
            self.join(second, link.level);
        }
        Some(())
    }

    /// Whether a packet that is turned away comes back at once and is turned away again: where its goal is in the DCell(2) that it leaves.
    fn takes_two(&self, uid: u32, link: FirstLink, level: u32) -> bool {
        level > link.level && self.beside(uid, self.way[0].1.dst)
    }

    /// Whether one DCell(2) holds two servers.
    fn beside(&self, one: u32, other: u32) -> bool {
        let [_, above] = self.sizes;
        one / above == other / above
    }

    /// Whether the codes of a server's cell are laid.
    fn is_laid(&self, uid: u32) -> bool {
        let [cell, _] = self.sizes;
        self.laid[(uid / cell) as usize]
    }

    /// Whether a port is up.
    fn is_up(&self, uid: u32, level: u32) -> bool {
        is_up(self.hall, &self.codes, uid, level)
    }

    /// The neighbour of a server at a level, where nothing is laid in its cell.
    fn unlaid(&self, uid: u32, level: u32) -> Option<u32> {
        let to = hall::neighbour(self.hall, uid, level).uid;
        (!self.is_laid(to)).then_some(to)
    }

    /// A server of the cell, on another switch, whose link of a level leads to a cell where nothing is laid, best to one that leads on. It is
    /// not the near end of the link that is not to be taken.
    fn exit(&self, random: &mut Random, [uid, near, goal]: [u32; 3], level: u32) -> Option<u32> {
        let n = self.hall.n;
        let [cell, _] = self.sizes;
        let servers = (0..TRIES).map(|_| uid / cell * cell + random.below(cell));
        let others = servers.filter(|&exit| exit / n != uid / n && exit != near);
        let exits = others.filter_map(|exit| Some((exit, self.unlaid(exit, level)?)));
        let exits: Vec<(u32, u32)> = exits.collect();
        let best = exits.iter().find(|&&(_, to)| self.leads_on(to, goal));
        best.or(exits.first()).map(|&(exit, _)| exit)
    }

    /// Whether a server's way to a goal in another DCell(2) leads on by a link below the top level to a cell where nothing is laid.
    fn leads_on(&self, uid: u32, goal: u32) -> bool {
        let link = first_link(self.hall, uid, goal);
        let below = (1..self.hall.k).contains(&link.level);
        below && !self.beside(uid, goal) && !self.is_laid(link.far)
    }

    /// The first server of a chain, behind its start, whose link of a level leads to a cell where nothing is laid and is not the link given.
    fn second_exit(&self, chain: &[u32], link: FirstLink) -> Option<u32> {
        let mut behind = chain.iter().copied().skip(1);
        behind.find(|&exit| exit != link.near && self.unlaid(exit, link.level).is_some())
    }

    /// Lays a chain of links from one server of a cell to another that passes every switch once; on one switch it is one crossing. Answers
    /// its servers in order.
    fn chain(&mut self, random: &mut Random, from: u32, to: u32) -> Vec<u32> {
        let mut servers = vec![from];
        for switch in self.order(random, from, to) {
            let at = servers[servers.len() - 1];
            let link = hall::link(self.hall, from, 1, self.switch(at), switch);
            self.cross(link.from, &mut servers);
            self.join(link.from, 1);
            servers.push(link.to);
        }
        self.cross(to, &mut servers);
        servers
    }

    /// The other switches of a cell, that of the second server last; none where both are on one switch. In most orders the chain crosses
    /// the first switch and the last as well.
    fn order(&self, random: &mut Random, from: u32, to: u32) -> Vec<u32> {
        let [start, end] = [from, to].map(|uid| self.switch(uid));
        if start == end {
            return Vec::new();
        }
        let between = (0..=self.hall.n).filter(|&switch| switch != start && switch != end);
        let mut order: Vec<u32> = between.collect();
        for _ in 0..TRIES {
            shuffle(random, &mut order);
            let [first, last] = [order.first(), order.last()];
            if !self.joins(from, first) && !self.joins(to, last) {
                break;
            }
        }
        order.push(end);
        order
    }

    /// Whether the link of level 1 of a server leads to a switch of its cell.
    fn joins(&self, uid: u32, switch: Option<&u32>) -> bool {
        let to = hall::neighbour(self.hall, uid, 1).uid;
        switch == Some(&self.switch(to))
    }

    /// The index of a server's switch in its DCell(1).
    fn switch(&self, uid: u32) -> u32 {
        let [cell, _] = self.sizes;
        uid % cell / self.hall.n
    }

    /// Has the last server of a chain joined with one on its switch, which becomes the last, unless they are one.
    fn cross(&mut self, to: u32, servers: &mut Vec<u32>) {
        let at = servers[servers.len() - 1];
        if at != to {
            self.raise(at, 0);
            self.raise(to, 0);
            servers.push(to);
        }
    }

    /// Has the link of a level above 0 at a server usable.
    fn join(&mut self, uid: u32, level: u32) {
        self.raise(uid, level);
        self.raise(hall::neighbour(self.hall, uid, level).uid, level);
    }

    /// Has a port up.
    fn raise(&mut self, uid: u32, level: u32) {
        self.codes[(uid * (self.hall.k + 1) + level) as usize] = UP;
    }

    /// The journey along the trail that crosses the most links and ends as asked, if the trail is long enough.
    fn part_of(self, last: Last) -> Option<Far> {
        let links = self.way.len() - 1;
        let start = match last {
            Last::Delivered if self.ending == DELIVERED => links.checked_sub(MOST_LINKS)?,
            Last::Cut if links > MOST_LINKS => 0,
            _ => return None,
        };
        Some(self.journey_from(start))
    }

    /// The journey along the trail from the server after so many links on.
    fn journey_from(self, start: usize) -> Far {
        let (uid, packet) = self.way[start];
        Far {
            hall: self.hall,
            uid,
            packet,
            flag: u32::from(packet.has_proxy),
            table: Table::Own(self.codes),
        }
    }
}

/// Brings numbers into any order.
fn shuffle(random: &mut Random, numbers: &mut [u32]) {
    for place in (1..numbers.len()).rev() {
        numbers.swap(place, random.below(place as u32 + 1) as usize);
    }
}

#[cfg(test)]
mod tests {
    use super::*;
    use peer::forward::DROP_TTL;
    use peer::report;

    #[test]
    fn journeys_of_the_most_links_are_delivered_or_cut() {
        let mut met = Vec::new();
        for at in edge_longest() {
            let answer = journey(at.hall, at.uid, at.packet, &at.table);
            assert_eq!(answer.links, MOST_LINKS as u32);
            met.push((at.hall.n, at.hall.k, answer.ending));
        }
        let ends = [
            (6, 3, DELIVERED),
            (6, 3, DROP_TTL),
            (7, 3, DELIVERED),
            (7, 3, DROP_TTL),
        ];
        assert_eq!(met, ends);
    }

    #[test]
    fn the_sheet_of_a_long_trail_has_a_line_of_more_than_80_uids() {
        let texts: Vec<Vec<u8>> = longest_sheets()
            .map(|sheet| report::trace(&sheet))
            .collect();
        for text in &texts {
            let text = String::from_utf8_lossy(text);
            let (told, uids) = text.split_once(" : ").unwrap();
            assert!(
                told.contains(" DELIVERED ") && told.ends_with(" 13"),
                "{told}"
            );
            let uids = uids.lines().next().unwrap().split(' ').count();
            assert!(uids > 80, "{uids}");
        }
        assert_eq!(texts.len(), 1);
    }

    #[test]
    fn every_trail_that_is_drawn_at_random_has_the_most_links() {
        let mut random = Random::new(2);
        for _ in 0..20 {
            let at = any_longest(&mut random).unwrap();
            assert!(crosses_the_most(&at));
        }
    }
}
