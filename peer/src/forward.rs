//! One forwarding step of a packet around failures, and the journey that repeats it through a hall.

use crate::hall::{self, Hall, Scale};
use crate::local::{LocalCell, NO_DISTANCE};
use crate::plan::Filling;
use crate::ports::{self, UP};
use crate::refusal;
use crate::route::Way;

/// The step sends the packet on.
pub const FORWARDED: u32 = 0;
/// Drop 1: TTL.
pub const DROP_TTL: u32 = 1;
/// Drop 2: no route.
pub const DROP_NO_ROUTE: u32 = 2;
/// Drop 3: retry spent.
pub const DROP_RETRY: u32 = 3;
/// Drop 4: no proxy.
pub const DROP_NO_PROXY: u32 = 4;
/// The packet is where it was to go.
pub const DELIVERED: u32 = 5;

/// The highest retry.
pub const MOST_RETRY: u8 = 15;
/// A reroute drops the packet at this retry and below.
pub const SPENT_RETRY: u8 = 1;
/// The most servers a journey passes, as its TTL is 255 at most.
pub const JOURNEY_ROOM: usize = 256;

/// What a packet carries for forwarding; the proxy counts only where there is one.
#[derive(Debug, Clone, Copy, PartialEq, Eq)]
pub struct Packet {
    pub dst: u32,
    pub has_proxy: bool,
    pub proxy: u32,
    pub retry: u8,
    pub ttl: u8,
}

/// The ending of a step or the next server, the packet to send on, and the reroutes of this step.
#[derive(Debug, Clone, Copy, PartialEq, Eq)]
pub struct Step {
    pub refusal: u32,
    pub ending: u32,
    pub next: u32,
    pub packet: Packet,
    pub reroutes: u32,
}

/// The ending of a journey, the links crossed, the reroutes, and the uids passed with zeros behind them.
#[derive(Debug, Clone, Copy, PartialEq, Eq)]
pub struct Journey {
    pub refusal: u32,
    pub ending: u32,
    pub links: u32,
    pub reroutes: u32,
    pub uids: [u32; JOURNEY_ROOM],
}

/// One step of a packet at a server that is lent the table of its DCell(b), with the codes of the far ports above b behind it.
pub fn step(h: Hall, uid: u32, packet: Packet, step_table: &[u8]) -> Step {
    let refused = |refusal| Step {
        refusal,
        ending: 0,
        next: 0,
        packet: Packet {
            dst: 0,
            has_proxy: false,
            proxy: 0,
            retry: 0,
            ttl: 0,
        },
        reroutes: 0,
    };
    let Some(scale) = hall::scale(h) else {
        return refused(refusal::HALL);
    };
    let Some((near, far)) = ports::step_parts(scale, h, step_table) else {
        return refused(refusal::LENGTH);
    };
    let fault = packet.fault(uid, scale.size(h.k));
    if fault != refusal::NONE {
        return refused(fault);
    }
    let first = scale.first(uid, h.b);
    let far = &LentCodes { h, codes: far };
    let Some(filling) = Filling::of(h, scale) else {
        return Site::new(h, scale, uid, first, near, far).step(packet.plain());
    };
    let near = filling.counted(first, near);
    let far = Fitted { filling, far };
    Site::new(h, scale, uid, first, near, &far).step(packet.plain())
}

/// The journey of a packet from a source through the hall table.
pub fn journey(h: Hall, source: u32, packet: Packet, hall_table: &[u8]) -> Journey {
    let far = HallCodes { h, hall_table };
    journey_by(h, source, packet, hall_table, &far)
}

/// The journey of a packet whose steps judge a link above level b by its near port alone.
pub fn journey_near_alone(h: Hall, source: u32, packet: Packet, hall_table: &[u8]) -> Journey {
    journey_by(h, source, packet, hall_table, &NearAlone)
}

/// The journey of a packet, with what its steps know of the far ports above level b.
#[inline]
fn journey_by(
    h: Hall,
    source: u32,
    packet: Packet,
    hall_table: &[u8],
    far: &impl FarPorts,
) -> Journey {
    let refused = |refusal| Journey {
        refusal,
        ending: 0,
        links: 0,
        reroutes: 0,
        uids: [0; JOURNEY_ROOM],
    };
    let Some(scale) = hall::scale(h) else {
        return refused(refusal::HALL);
    };
    if hall_table.len() != scale.table_length(h.k, h.k) {
        return refused(refusal::LENGTH);
    }
    let fault = packet.fault(source, scale.size(h.k));
    if fault != refusal::NONE {
        return refused(fault);
    }
    let packet = packet.plain();
    match Filling::of(h, scale) {
        None => travel(h, scale, source, packet, hall_table, far),
        Some(filling) => travel_part(
            h,
            scale,
            source,
            packet,
            hall_table,
            Fitted { filling, far },
        ),
    }
}

/// The journey of a sound packet through a hall that is not full; apart from that through a full one, which is then as quick as ever.
#[inline(never)]
fn travel_part(
    h: Hall,
    scale: &'static Scale,
    source: u32,
    packet: Packet,
    hall_table: &[u8],
    far: Fitted<impl FarPorts>,
) -> Journey {
    let counted = if far.filling.is_fitted(source) {
        hall_table
    } else {
        &[]
    };
    travel(h, scale, source, packet, counted, &far)
}

/// The journey of a sound packet through a table of the right length, or an empty one where no port of the source counts as up. From a
/// fitted server it comes to fitted ones only.
fn travel(
    h: Hall,
    scale: &'static Scale,
    source: u32,
    mut packet: Packet,
    hall_table: &[u8],
    far: &impl FarPorts,
) -> Journey {
    let mut answer = Journey {
        refusal: refusal::NONE,
        ending: FORWARDED,
        links: 0,
        reroutes: 0,
        uids: [0; JOURNEY_ROOM],
    };
    let mut uid = source;
    loop {
        answer.uids[answer.links as usize % JOURNEY_ROOM] = uid;
        let first = scale.first(uid, h.b);
        let table = ports::cell_part(scale, h.k, hall_table, first, h.b);
        let step = Site::new(h, scale, uid, first, table, far).step(packet);
        answer.reroutes += step.reroutes;
        if step.ending != FORWARDED {
            answer.ending = step.ending;
            return answer;
        }
        answer.links += 1;
        packet = step.packet;
        uid = step.next;
    }
}

impl Packet {
    /// The refusal of a packet at a server of a hall of so many servers.
    #[inline]
    fn fault(&self, uid: u32, count: u32) -> u32 {
        if uid >= count || self.dst >= count || (self.has_proxy && self.proxy >= count) {
            return refusal::UID;
        }
        if self.retry > MOST_RETRY {
            return refusal::RETRY;
        }
        refusal::NONE
    }

    /// The packet with proxy 0 where it has none.
    #[inline]
    fn plain(self) -> Packet {
        if self.has_proxy {
            self
        } else {
            self.without_proxy()
        }
    }

    /// The packet with its proxy cleared.
    #[inline]
    fn without_proxy(self) -> Packet {
        Packet {
            has_proxy: false,
            proxy: 0,
            ..self
        }
    }

    /// Where the packet is to go next: its proxy, else its destination.
    #[inline]
    fn goal(&self) -> u32 {
        if self.has_proxy {
            self.proxy
        } else {
            self.dst
        }
    }
}

/// What a step knows of the far ports of the links above level b.
trait FarPorts {
    /// Whether the far port of a link above b is up, as far as is known; the link goes from a place of the cell to the server `far`.
    fn up(&self, place: usize, level: u32, far: u32) -> bool;
}

/// The far codes lent to a step: server by server, and within a server from level b + 1 to k.
struct LentCodes<'a> {
    h: Hall,
    codes: &'a [u8],
}

impl FarPorts for LentCodes<'_> {
    #[inline]
    fn up(&self, place: usize, level: u32, _: u32) -> bool {
        let Hall { k, b, .. } = self.h;
        let code = place * (k - b) as usize + (level - b - 1) as usize;
        self.codes.get(code) == Some(&UP)
    }
}

/// The far codes where they stand in the hall table.
struct HallCodes<'a> {
    h: Hall,
    hall_table: &'a [u8],
}

impl FarPorts for HallCodes<'_> {
    #[inline]
    fn up(&self, _: usize, level: u32, far: u32) -> bool {
        ports::is_up(self.h, self.hall_table, far, level)
    }
}

/// The far ports of a hall that is not full. Where the far server is not fitted, both codes of the link count as 0; whether the near
/// server is fitted is not asked here, as the table of one that is not is empty.
struct Fitted<'a, F> {
    filling: Filling,
    far: &'a F,
}

impl<F: FarPorts> FarPorts for Fitted<'_, F> {
    #[inline]
    fn up(&self, place: usize, level: u32, far: u32) -> bool {
        self.far.up(place, level, far) && self.filling.is_fitted(far)
    }
}

/// No far code at all: the near port decides alone.
struct NearAlone;

impl FarPorts for NearAlone {
    #[inline]
    fn up(&self, _: usize, _: u32, _: u32) -> bool {
        true
    }
}

/// The server a step is at, with its DCell(b) and what is known of the far ports above b; places count from `first` on.
struct Site<'a, F> {
    h: Hall,
    scale: &'static Scale,
    uid: u32,
    first: u32,
    cell: LocalCell<'a>,
    far: &'a F,
}

/// A packet inside a step, with what the step remembers of it.
struct Work {
    packet: Packet,
    arrived: bool,
    reroutes: u32,
}

/// What a pass from sentence 4 on comes to.
enum Pass {
    Forward(u32),
    Drop(u32),
    Reroute(Way),
}

impl<'a, F: FarPorts> Site<'a, F> {
    /// The site of a server, with a table of its cell of the right length or, where it is not fitted, an empty one.
    #[inline]
    fn new(
        h: Hall,
        scale: &'static Scale,
        uid: u32,
        first: u32,
        table: &'a [u8],
        far: &'a F,
    ) -> Site<'a, F> {
        Site {
            h,
            scale,
            uid,
            first,
            cell: LocalCell::new(h, scale, table),
            far,
        }
    }

    /// The place of the server itself.
    #[inline]
    fn place(&self) -> usize {
        (self.uid - self.first) as usize
    }

    /// One step of a sound packet.
    fn step(&self, came: Packet) -> Step {
        let ended = |ending, reroutes| Step {
            refusal: refusal::NONE,
            ending,
            next: 0,
            packet: came,
            reroutes,
        };
        if self.uid == came.dst {
            return ended(DELIVERED, 0);
        }
        if came.ttl == 0 {
            return ended(DROP_TTL, 0);
        }
        let mut work = Work::begin(came, self.uid);
        loop {
            let way = match self.pass(&work.packet) {
                Pass::Forward(next) => return work.forwarded(next),
                Pass::Drop(drop) => return ended(drop, work.reroutes),
                Pass::Reroute(way) => way,
            };
            if let Err(drop) = self.reroute(&mut work, &way) {
                return ended(drop, work.reroutes);
            }
        }
    }

    /// Sentences 4 to 10 for a packet whose goal is another server.
    #[inline]
    fn pass(&self, packet: &Packet) -> Pass {
        let way = Way::between(self.h, self.scale, self.uid, packet.goal());
        if way.level > 0 {
            if !self.usable(way.near, way.level, way.far) {
                return Pass::Reroute(way);
            }
            if way.near == self.place() {
                return Pass::Forward(way.far);
            }
        }
        if let Some(next) = self.cell.next_hop(self.place(), way.near) {
            return Pass::Forward(self.first + next as u32);
        }
        if self.scale.first(packet.dst, self.h.b) == self.first {
            return Pass::Drop(DROP_NO_ROUTE);
        }
        Pass::Reroute(way)
    }

    /// Reroutes around a way that is of no use, or tells the drop.
    fn reroute(&self, work: &mut Work, way: &Way) -> Result<(), u32> {
        if work.packet.retry <= SPENT_RETRY {
            return Err(DROP_RETRY);
        }
        let retry = work.packet.retry - 1;
        if way.level == 0 {
            work.rerouted(Packet {
                retry,
                ..work.packet.without_proxy()
            });
            return Ok(());
        }
        let jump = u32::from(work.arrived && way.level < self.h.k);
        let proxy = self.proxy_from(way.level + jump).ok_or(DROP_NO_PROXY)?;
        work.rerouted(Packet {
            has_proxy: true,
            proxy,
            retry,
            ..work.packet
        });
        Ok(())
    }

    /// The proxy over the nearest usable port of the first level, from m on, that has one.
    fn proxy_from(&self, m: u32) -> Option<u32> {
        let distance = self.cell.distances_from(self.place());
        let distance = distance.get(..self.cell.count())?;
        for level in m..=self.h.k {
            let mut nearest = NO_DISTANCE;
            let mut proxy = None;
            for (place, &away) in (0..).zip(distance) {
                if away >= nearest {
                    continue;
                }
                if let Some(far) = self.usable_neighbour(place, level) {
                    (nearest, proxy) = (away, Some(far));
                }
            }
            if proxy.is_some() {
                return proxy;
            }
        }
        None
    }

    /// The neighbour of a place at a level above b, where the link to it is usable.
    #[inline]
    fn usable_neighbour(&self, place: usize, level: u32) -> Option<u32> {
        if !self.cell.up(place, level) {
            return None;
        }
        let far = self.scale.neighbour(self.first + place as u32, level);
        self.far.up(place, level, far).then_some(far)
    }

    /// Whether the link of a level above b from a place to a far server is usable.
    #[inline]
    fn usable(&self, place: usize, level: u32, far: u32) -> bool {
        self.cell.up(place, level) && self.far.up(place, level, far)
    }
}

impl Work {
    /// The work on a packet that came to a server: a proxy that is the server itself is cleared.
    #[inline]
    fn begin(came: Packet, uid: u32) -> Work {
        let arrived = came.has_proxy && came.proxy == uid;
        let packet = if arrived { came.without_proxy() } else { came };
        Work {
            packet,
            arrived,
            reroutes: 0,
        }
    }

    /// Goes on with the packet that a reroute made.
    #[inline]
    fn rerouted(&mut self, packet: Packet) {
        self.packet = packet;
        self.arrived = false;
        self.reroutes += 1;
    }

    /// The step that forwards the packet, whose TTL is not 0.
    #[inline]
    fn forwarded(&self, next: u32) -> Step {
        Step {
            refusal: refusal::NONE,
            ending: FORWARDED,
            next,
            packet: Packet {
                ttl: self.packet.ttl.wrapping_sub(1),
                ..self.packet
            },
            reroutes: self.reroutes,
        }
    }
}

#[cfg(test)]
mod tests {
    use super::*;
    use crate::naive;
    use crate::plan::is_fitted;
    use crate::ports::step_table;
    use crate::random::Random;

    const HALL: Hall = Hall::full(4, 1, 0);
    const WIDE: Hall = Hall::full(4, 1, 1);

    fn to(dst: u32, retry: u8, ttl: u8) -> Packet {
        Packet {
            dst,
            has_proxy: false,
            proxy: 0,
            retry,
            ttl,
        }
    }

    fn over(proxy: u32, packet: Packet) -> Packet {
        Packet {
            has_proxy: true,
            proxy,
            ..packet
        }
    }

    fn codes(code: u8) -> [u8; 40] {
        let mut table = [1; 40];
        table[7] = code;
        table[33] = code;
        table
    }

    fn told(ending: u32, reroutes: u32, passed: &[u32]) -> Journey {
        let mut uids = [0; 256];
        uids[..passed.len()].copy_from_slice(passed);
        Journey {
            refusal: 0,
            ending,
            links: passed.len() as u32 - 1,
            reroutes,
            uids,
        }
    }

    #[test]
    fn ttl_3_delivers_over_three_links_and_ttl_2_drops_at_16() {
        let table = [1; 40];
        assert_eq!(
            journey(HALL, 0, to(19, 5, 3), &table),
            told(5, 0, &[0, 3, 16, 19])
        );
        assert_eq!(
            journey(HALL, 0, to(19, 5, 2), &table),
            told(1, 0, &[0, 3, 16])
        );
    }

    #[test]
    fn the_sheet_journey_reroutes_once_over_4() {
        let arrived = told(5, 1, &[0, 4, 7, 17, 19]);
        assert_eq!(journey(HALL, 0, to(19, 5, 15), &codes(2)), arrived);
        assert_eq!(journey(HALL, 0, to(19, 2, 15), &codes(2)), arrived);
    }

    #[test]
    fn retry_1_and_retry_0_drop_3_at_the_first_reroute() {
        for retry in [0, 1] {
            assert_eq!(
                journey(HALL, 0, to(19, retry, 15), &codes(2)),
                told(3, 0, &[0])
            );
        }
    }

    #[test]
    fn with_b_1_the_same_codes_need_no_reroute() {
        assert_eq!(
            journey(WIDE, 0, to(19, 5, 15), &codes(2)),
            told(5, 0, &[0, 2, 12, 15, 19])
        );
    }

    #[test]
    fn an_unknown_code_is_not_usable_and_not_refused() {
        for h in [HALL, WIDE] {
            let packet = to(19, 5, 15);
            assert_eq!(
                journey(h, 0, packet, &codes(7)),
                journey(h, 0, packet, &codes(2))
            );
        }
    }

    #[test]
    fn with_nothing_fitted_0_to_1_is_drop_2_and_0_to_19_drop_4() {
        assert_eq!(journey(HALL, 0, to(1, 5, 15), &[0; 40]), told(2, 0, &[0]));
        assert_eq!(journey(HALL, 0, to(19, 5, 15), &[0; 40]), told(4, 0, &[0]));
    }

    #[test]
    fn delivery_comes_before_the_ttl_and_answers_the_packet_as_it_came() {
        for packet in [to(3, 0, 0), over(3, to(3, 5, 0)), over(19, to(3, 5, 9))] {
            let answer = Step {
                refusal: 0,
                ending: DELIVERED,
                next: 0,
                packet,
                reroutes: 0,
            };
            assert_eq!(step(HALL, 3, packet, &[0; 12]), answer);
        }
    }

    #[test]
    fn ttl_0_drops_the_packet_as_it_came() {
        let packet = over(0, to(19, 5, 0));
        let answer = step(HALL, 0, packet, &[1; 12]);
        assert_eq!((answer.ending, answer.packet), (DROP_TTL, packet));
    }

    #[test]
    fn forwarding_lowers_the_ttl_at_the_first_sender_too() {
        let answer = step(HALL, 0, to(19, 5, 255), &[1; 12]);
        assert_eq!(
            answer,
            Step {
                refusal: 0,
                ending: FORWARDED,
                next: 3,
                packet: to(19, 5, 254),
                reroutes: 0
            }
        );
    }

    #[test]
    fn a_proxy_number_without_a_proxy_is_ignored_and_answered_as_0() {
        let odd = |dst, ttl| Packet {
            proxy: u32::MAX,
            ..to(dst, 5, ttl)
        };
        assert_eq!(step(HALL, 0, odd(19, 9), &[1; 12]).packet, to(19, 5, 8));
        assert_eq!(step(HALL, 0, odd(0, 9), &[1; 12]).packet, to(0, 5, 9));
        assert_eq!(step(HALL, 0, odd(19, 0), &[1; 12]).packet, to(19, 5, 0));
        assert_eq!(step(HALL, 0, odd(19, 9), &[0; 12]).packet, to(19, 5, 9));
    }

    #[test]
    fn an_arrived_packet_loses_its_proxy() {
        let answer = step(HALL, 4, over(4, to(19, 4, 14)), &[1; 12]);
        assert_eq!((answer.next, answer.reroutes), (7, 0));
        assert_eq!(answer.packet, to(19, 4, 13));
    }

    #[test]
    fn an_unreachable_proxy_in_the_own_cell_is_cleared_by_a_reroute() {
        let mut table = [1; 12];
        table[2] = 2;
        let answer = step(HALL, 0, over(1, to(19, 5, 9)), &table);
        assert_eq!(
            answer,
            Step {
                refusal: 0,
                ending: FORWARDED,
                next: 3,
                packet: to(19, 4, 8),
                reroutes: 1
            }
        );
    }

    #[test]
    fn an_unreachable_proxy_with_dst_in_the_own_cell_is_drop_2_though_dst_is_in_reach() {
        let mut table = [1; 12];
        table[2] = 2;
        let packet = over(1, to(3, 5, 9));
        let answer = step(HALL, 0, packet, &table);
        assert_eq!(
            (answer.ending, answer.reroutes, answer.packet),
            (DROP_NO_ROUTE, 0, packet)
        );
    }

    #[test]
    fn a_clearing_and_a_setting_are_two_reroutes_of_one_step() {
        let mut table = [1; 12];
        table[2] = 2;
        table[7] = 2;
        let answer = step(HALL, 0, over(1, to(19, 5, 9)), &table);
        assert_eq!((answer.next, answer.reroutes), (4, 2));
        assert_eq!(answer.packet, over(4, to(19, 3, 8)));
        let packet = over(1, to(19, 2, 9));
        let dropped = step(HALL, 0, packet, &table);
        assert_eq!((dropped.ending, dropped.reroutes), (DROP_RETRY, 1));
        assert_eq!(dropped.packet, packet);
    }

    #[test]
    fn an_arrived_packet_looks_for_a_proxy_one_level_higher() {
        let h = Hall::full(2, 2, 0);
        let mut table = [1; 10];
        table[4] = 2;
        let plain = step(h, 0, to(4, 5, 9), &table);
        assert_eq!(plain.packet.proxy, 2);
        let arrived = step(h, 0, over(0, to(4, 5, 9)), &table);
        assert_eq!(arrived.packet.proxy, 6);
    }

    #[test]
    fn refusals_come_in_order_and_with_zeros() {
        let bad = Hall::full(4, 1, 2);
        let all_wrong = over(99, to(99, 16, 0));
        let refused = |refusal| Step {
            refusal,
            ending: 0,
            next: 0,
            packet: to(0, 0, 0),
            reroutes: 0,
        };
        let none = |refusal| Journey {
            refusal,
            ending: 0,
            links: 0,
            reroutes: 0,
            uids: [0; 256],
        };
        assert_eq!(step(bad, 99, all_wrong, &[]), refused(1));
        assert_eq!(step(HALL, 99, all_wrong, &[]), refused(4));
        assert_eq!(journey(bad, 99, all_wrong, &[]), none(1));
        assert_eq!(journey(HALL, 99, all_wrong, &[1; 12]), none(4));
        let cases = [
            (99, to(0, 16, 0), 2),
            (0, to(99, 16, 0), 2),
            (0, over(99, to(0, 16, 0)), 2),
            (0, to(0, 16, 0), 8),
            (0, to(1, 255, 0), 8),
        ];
        for (uid, packet, refusal) in cases {
            assert_eq!(step(HALL, uid, packet, &[1; 12]), refused(refusal));
            assert_eq!(journey(HALL, uid, packet, &[1; 40]), none(refusal));
        }
        assert_eq!(step(HALL, 0, to(0, 15, 0), &[1; 12]).ending, DELIVERED);
    }

    fn any_packet(random: &mut Random, count: u32) -> Packet {
        let packet = to(random.below(count), random.byte() % 16, random.byte() % 32);
        if random.once_in(2) {
            over(random.below(count), packet)
        } else {
            packet
        }
    }

    /// The table lent to a step of a server.
    fn own_table(h: Hall, table: &[u8], uid: u32) -> Vec<u8> {
        let mut room = vec![0; naive::step_length(h)];
        assert_eq!(step_table(h, table, uid, &mut room), 0);
        room
    }

    /// A hall table of a random small hall, of which one code in so many is not up, with a server and a packet.
    fn any_trip(random: &mut Random, one_fault_in: u32) -> (Hall, Vec<u8>, u32, Packet) {
        let halls = naive::small_halls();
        let h = halls[random.below(halls.len() as u32) as usize];
        let count = naive::servers(h);
        let table = naive::table(random, (count * (h.k + 1)) as usize, one_fault_in);
        (h, table, random.below(count), any_packet(random, count))
    }

    /// The level of the one link between two servers.
    fn level_of(h: Hall, x: u32, y: u32) -> u32 {
        let level = naive::joint_level(h, x, y);
        assert!(naive::linked(h, x, y, level), "{h:?} {x} {y}");
        level
    }

    /// A server of a random DCell around another.
    fn nearby(random: &mut Random, h: Hall, uid: u32) -> u32 {
        let t = naive::size(h.n, random.below(h.k + 1));
        uid / t * t + random.below(t)
    }

    /// Compares random steps of one hall with the literal ones; counts how often each ending came.
    fn compare_steps(random: &mut Random, h: Hall, turns: u32, endings: &mut [u32; 6]) {
        let length = naive::step_length(h);
        for faults in [0, 20, 5, 3, 2] {
            for _ in 0..turns {
                let table = naive::table(random, length, faults);
                let uid = random.below(naive::servers(h));
                let mut packet = any_packet(random, naive::servers(h));
                packet.dst = nearby(random, h, uid);
                packet.proxy = nearby(random, h, uid);
                let answer = step(h, uid, packet, &table);
                assert_eq!(answer, naive::step(h, uid, packet, &table));
                endings[answer.ending as usize] += 1;
            }
        }
    }

    #[test]
    fn every_step_is_that_of_the_numbered_sentences() {
        let mut random = Random::new(2008);
        let mut endings = [0; 6];
        for h in naive::small_halls() {
            let turns = if naive::size(h.n, h.b) > 20 { 40 } else { 400 };
            compare_steps(&mut random, h, turns, &mut endings);
        }
        assert!(endings.iter().all(|&times| times > 20), "{endings:?}");
    }

    #[test]
    fn every_step_in_the_large_halls_is_that_of_the_numbered_sentences() {
        let mut random = Random::new(27_630_792);
        let mut endings = [0; 6];
        for (n, b) in [(3, 0), (3, 1), (5, 0), (8, 0), (4, 1), (8, 1)] {
            let turns = if b == 1 && n == 8 { 40 } else { 400 };
            compare_steps(&mut random, Hall::full(n, 3, b), turns, &mut endings);
        }
        assert!(endings.iter().all(|&times| times > 5), "{endings:?}");
    }

    #[test]
    fn a_step_reroutes_at_most_twice_and_lowers_the_retry_as_often() {
        let mut random = Random::new(16);
        let mut most = 0;
        for h in naive::small_halls() {
            let count = naive::servers(h);
            let length = naive::step_length(h);
            for _ in 0..2000 {
                let table = naive::table(&mut random, length, 3);
                let uid = random.below(count);
                let packet = any_packet(&mut random, count);
                let answer = step(h, uid, packet, &table);
                assert!(answer.reroutes <= 2);
                most = most.max(answer.reroutes);
                if answer.ending == FORWARDED {
                    let fallen = u32::from(packet.retry - answer.packet.retry);
                    assert_eq!(fallen, answer.reroutes);
                }
            }
        }
        assert_eq!(most, 2);
    }

    #[test]
    fn a_journey_repeats_the_step_over_the_tables_of_its_servers() {
        let mut random = Random::new(256);
        for h in naive::small_halls() {
            let count = naive::servers(h);
            let length = (count * (h.k + 1)) as usize;
            for faults in [0, 20, 5, 3] {
                let table = naive::table(&mut random, length, faults);
                for _ in 0..20 {
                    let source = random.below(count);
                    let first = any_packet(&mut random, count);
                    let answer = journey(h, source, first, &table);
                    let (mut uid, mut packet) = (source, first);
                    let (mut passed, mut reroutes) = (vec![source], 0);
                    let ending = loop {
                        let turn = step(h, uid, packet, &own_table(h, &table, uid));
                        reroutes += turn.reroutes;
                        if turn.ending != FORWARDED {
                            break turn.ending;
                        }
                        (uid, packet) = (turn.next, turn.packet);
                        passed.push(uid);
                    };
                    assert_eq!(answer, told(ending, reroutes, &passed));
                    assert_eq!(answer, naive::journey(h, source, first, &table));
                }
            }
        }
    }

    #[test]
    fn retry_5_allows_4_reroutes_and_no_more() {
        let mut random = Random::new(5);
        let h = Hall::full(2, 3, 0);
        let count = naive::servers(h);
        let mut spent = 0;
        for _ in 0..3000 {
            let table = naive::table(&mut random, (count * 4) as usize, 3);
            let packet = to(random.below(count), 5, 255);
            let answer = journey(h, random.below(count), packet, &table);
            assert!(answer.reroutes <= 4);
            spent += u32::from(answer.ending == DROP_RETRY);
            assert!(answer.ending != DROP_RETRY || answer.reroutes == 4);
        }
        assert!(spent > 0);
    }

    #[test]
    fn with_all_ports_up_a_journey_delivers_without_reroutes() {
        let mut random = Random::new(1);
        for h in naive::small_halls() {
            let count = naive::servers(h);
            let table = vec![1; (count * (h.k + 1)) as usize];
            for _ in 0..50 {
                let (x, y) = (random.below(count), random.below(count));
                let answer = journey(h, x, to(y, 1, 15), &table);
                assert_eq!((answer.ending, answer.reroutes), (DELIVERED, 0));
                let links = crate::route::route(h, x, y).links;
                assert!(answer.links <= links);
                assert!(h.b > 0 || answer.links == links);
            }
        }
    }

    #[test]
    fn no_journey_crosses_more_links_than_its_ttl() {
        let mut random = Random::new(255);
        let h = Hall::full(2, 3, 1);
        let count = naive::servers(h);
        let mut spent = 0;
        for _ in 0..3000 {
            let table = naive::table(&mut random, (count * 4) as usize, 3);
            let ttl = random.byte() % 24;
            let packet = to(random.below(count), 15, ttl);
            let answer = journey(h, random.below(count), packet, &table);
            assert!(answer.links <= u32::from(ttl));
            if answer.ending == DROP_TTL {
                assert_eq!(answer.links, u32::from(ttl));
                spent += 1;
            }
        }
        assert!(spent > 0);
    }

    /// All codes up but that of port 1 of server 16, the far end of its link with server 3.
    fn broken_strand() -> [u8; 40] {
        let mut table = [1; 40];
        table[33] = 3;
        table
    }

    #[test]
    fn a_strand_broken_at_the_far_end_is_rerouted_around() {
        assert_eq!(
            journey(HALL, 0, to(19, 5, 15), &broken_strand()),
            told(5, 1, &[0, 4, 7, 17, 19])
        );
        assert_eq!(
            journey_near_alone(HALL, 0, to(19, 5, 15), &broken_strand()),
            told(5, 0, &[0, 3, 16, 19])
        );
    }

    #[test]
    fn a_far_code_has_its_place_behind_the_cell_and_only_1_is_up() {
        let forwarded = |table: &[u8]| step(HALL, 0, to(19, 5, 15), table).next;
        for code in 0..=255 {
            let mut table = [1; 12];
            table[8 + 3] = code;
            assert_eq!(forwarded(&table), if code == 1 { 3 } else { 4 });
            let mut table = [1; 12];
            (table[8 + 3], table[8]) = (2, code);
            let next = if code == 1 { 4 } else { 1 };
            assert_eq!(forwarded(&table), next);
        }
    }

    #[test]
    fn far_codes_of_two_levels_stand_server_by_server() {
        let h = Hall::full(2, 2, 0);
        let level_1_of_server_1 = 6 + 2;
        let mut table = [1; 10];
        table[level_1_of_server_1] = 3;
        assert_eq!(step(h, 0, to(4, 5, 9), &table).packet.proxy, 2);
        let level_2_of_server_0 = 6 + 1;
        table[level_2_of_server_0] = 0;
        let arrived = step(h, 0, over(0, to(4, 5, 9)), &table);
        assert_eq!((arrived.next, arrived.packet.proxy), (1, 12));
    }

    #[test]
    fn a_hall_of_top_level_b_has_no_far_codes() {
        let flat = Hall::full(4, 0, 0);
        assert_eq!(step(flat, 0, to(3, 5, 9), &[1; 4]).next, 3);
        assert_eq!(step(WIDE, 0, to(19, 5, 9), &codes(2)).next, 2);
        for (h, right) in [(flat, 4), (WIDE, 40)] {
            for length in [0, right - 1, right + 1, 2 * right] {
                let answer = step(h, 0, to(3, 5, 9), &vec![1; length]);
                assert_eq!(answer.refusal, 4);
            }
        }
    }

    #[test]
    fn a_step_asks_for_the_longer_length() {
        for h in naive::small_halls() {
            let right = naive::step_length(h);
            let short = (naive::size(h.n, h.b) * (h.k + 1)) as usize;
            let hall = (naive::servers(h) * (h.k + 1)) as usize;
            for length in [0, 1, short - 1, short, right - 1, right, right + 1, hall] {
                let refusal = step(h, 0, to(1, 5, 9), &vec![1; length]).refusal;
                assert_eq!(refusal, if length == right { 0 } else { 4 }, "{h:?}");
            }
        }
    }

    #[test]
    fn with_every_port_up_both_rules_give_the_same_journeys() {
        let mut random = Random::new(31);
        for _ in 0..5_000 {
            let (h, table, source, packet) = any_trip(&mut random, 0);
            assert_eq!(
                journey(h, source, packet, &table),
                journey_near_alone(h, source, packet, &table)
            );
        }
    }

    #[test]
    fn the_rule_of_the_near_port_takes_every_far_port_as_up() {
        let mut random = Random::new(32);
        let mut apart = 0;
        for turn in 0..5_000 {
            let (h, table, source, first) = any_trip(&mut random, [3, 5, 20][turn % 3]);
            let answer = journey_near_alone(h, source, first, &table);
            let cell = (naive::size(h.n, h.b) * (h.k + 1)) as usize;
            let (mut uid, mut packet) = (source, first);
            let (mut passed, mut reroutes) = (vec![source], 0);
            let ending = loop {
                let mut own = own_table(h, &table, uid);
                own[cell..].fill(1);
                let turn = naive::step(h, uid, packet, &own);
                reroutes += turn.reroutes;
                if turn.ending != FORWARDED {
                    break turn.ending;
                }
                (uid, packet) = (turn.next, turn.packet);
                passed.push(uid);
            };
            assert_eq!(answer, told(ending, reroutes, &passed));
            apart += u32::from(answer != journey(h, source, first, &table));
        }
        assert!(apart > 100, "{apart}");
    }

    #[test]
    fn a_step_over_the_table_of_a_server_is_the_first_of_the_journey() {
        let mut random = Random::new(33);
        let mut forwarded = 0;
        for turn in 0..10_000 {
            let (h, table, source, packet) = any_trip(&mut random, [2, 3, 5, 20][turn % 4]);
            let answer = journey(h, source, packet, &table);
            let first = step(h, source, packet, &own_table(h, &table, source));
            if first.ending != FORWARDED {
                assert_eq!(answer, told(first.ending, first.reroutes, &[source]));
                continue;
            }
            let rest = journey(h, first.next, first.packet, &table);
            let passed = &rest.uids[..=rest.links as usize];
            let reroutes = first.reroutes + rest.reroutes;
            assert_eq!(
                answer,
                told(rest.ending, reroutes, &[&[source], passed].concat())
            );
            forwarded += 1;
        }
        assert!(forwarded > 1_000, "{forwarded}");
    }

    #[test]
    fn no_journey_crosses_a_link_of_which_an_end_is_not_up() {
        let mut random = Random::new(34);
        let mut into_strands = 0;
        for turn in 0..20_000 {
            let (h, table, source, packet) = any_trip(&mut random, [3, 5, 20][turn % 3]);
            let up = |uid, level| table[(uid * (h.k + 1) + level) as usize] == 1;
            let broken = |answer: &Journey| {
                let passed = &answer.uids[..=answer.links as usize];
                let broken = |pair: &&[u32]| {
                    let level = level_of(h, pair[0], pair[1]);
                    !up(pair[0], level) || !up(pair[1], level)
                };
                passed.windows(2).filter(broken).count()
            };
            assert_eq!(broken(&journey(h, source, packet, &table)), 0);
            into_strands += broken(&journey_near_alone(h, source, packet, &table));
        }
        assert!(into_strands > 1_000, "{into_strands}");
    }

    #[test]
    fn two_hall_tables_with_the_same_step_table_give_the_same_step() {
        let mut random = Random::new(35);
        let mut met = [0; 6];
        for turn in 0..10_000 {
            let (h, table, uid, packet) = any_trip(&mut random, [2, 3, 5, 20][turn % 4]);
            let mut other = naive::table(&mut random, table.len(), [1, 2, 20][turn % 3]);
            for place in naive::step_places(h, uid) {
                other[place] = table[place];
            }
            // A packet of TTL 1 is sent on at most once, so its journey tells of no other table.
            let packet = Packet { ttl: 1, ..packet };
            let answer = journey(h, uid, packet, &table);
            assert_eq!(answer, journey(h, uid, packet, &other));
            let own = step(h, uid, packet, &own_table(h, &table, uid));
            assert_eq!(own, step(h, uid, packet, &own_table(h, &other, uid)));
            met[own.ending as usize] += 1;
        }
        assert!(
            met[0] > 1_000 && met[2..].iter().all(|&times| times > 20),
            "{met:?}"
        );
    }

    /// A random small hall that is not full as often as not, with a table of which one code in so many is not up.
    fn any_part(random: &mut Random, one_fault_in: u32) -> (Hall, Vec<u8>) {
        let halls = naive::part_halls(random);
        let h = halls[random.below(halls.len() as u32) as usize];
        let codes = (naive::servers(h) * (h.k + 1)) as usize;
        (h, naive::table(random, codes, one_fault_in))
    }

    /// A server of a hall, mostly a fitted one where there is any.
    fn any_fitted(random: &mut Random, h: Hall) -> u32 {
        let uid = random.below(naive::servers(h));
        let fitted = |uid: &u32| is_fitted(h, *uid);
        if random.once_in(4) {
            return uid;
        }
        (0..naive::servers(h))
            .map(|ahead| (uid + ahead * 31) % naive::servers(h))
            .find(fitted)
            .unwrap_or(uid)
    }

    #[test]
    fn a_step_in_a_hall_that_is_not_full_is_that_of_the_codes_that_count() {
        let mut random = Random::new(36);
        let mut endings = [0; 6];
        let mut apart = 0;
        for turn in 0..1_500 {
            let (h, table) = any_part(&mut random, [0, 20, 5][turn % 3]);
            let whole = Hall::full(h.n, h.k, h.b);
            let uid = any_fitted(&mut random, h);
            let mut packet = any_packet(&mut random, naive::servers(h));
            packet.dst = any_fitted(&mut random, h);
            let lent = naive::step_table(h, &table, uid);
            let answer = step(h, uid, packet, &lent);
            let counted = naive::counted_step(h, &lent, uid);
            assert_eq!(answer, naive::step(whole, uid, packet, &counted), "{h:?}");
            assert_eq!(answer, step(h, uid, packet, &own_table(h, &table, uid)));
            endings[answer.ending as usize] += 1;
            apart += u32::from(answer != step(whole, uid, packet, &lent));
        }
        assert!(endings.iter().all(|&times| times > 5), "{endings:?}");
        assert!(apart > 100, "{apart}");
    }

    #[test]
    fn a_journey_in_a_hall_that_is_not_full_is_that_of_the_codes_that_count() {
        let mut random = Random::new(37);
        let mut endings = [0; 6];
        for turn in 0..300 {
            let (h, table) = any_part(&mut random, [0, 20, 5][turn % 3]);
            let whole = Hall::full(h.n, h.k, h.b);
            let counted = naive::counted(h, &table);
            for _ in 0..4 {
                let source = any_fitted(&mut random, h);
                let mut packet = any_packet(&mut random, naive::servers(h));
                packet.dst = any_fitted(&mut random, h);
                let answer = journey(h, source, packet, &table);
                assert_eq!(answer, naive::journey(whole, source, packet, &counted));
                endings[answer.ending as usize] += 1;
                let near = journey_near_alone(h, source, packet, &table);
                if turn % 3 == 0 {
                    assert_eq!(near, answer);
                }
                let passed = &answer.uids[1..=answer.links as usize];
                assert!(passed.iter().all(|&uid| is_fitted(h, uid)));
            }
        }
        assert!(endings[1..].iter().all(|&times| times > 20), "{endings:?}");
    }

    #[test]
    fn a_server_that_is_not_fitted_delivers_to_itself_and_sends_nothing_on() {
        let h = Hall {
            count: 3,
            ..Hall::full(2, 2, 1)
        };
        let table = [1; 126];
        let ended = |source, packet| {
            let answer = journey(h, source, packet, &table);
            assert_eq!((answer.links, answer.uids[0]), (0, source));
            let lent = naive::step_table(h, &table, source);
            assert_eq!(step(h, source, packet, &lent).ending, answer.ending);
            (answer.ending, answer.reroutes)
        };
        assert_eq!(ended(20, to(20, 0, 0)), (DELIVERED, 0));
        assert_eq!(ended(20, to(19, 5, 0)), (DROP_TTL, 0));
        assert_eq!(ended(20, to(19, 5, 9)), (DROP_NO_ROUTE, 0));
        assert_eq!(ended(20, to(5, 1, 9)), (DROP_RETRY, 0));
        assert_eq!(ended(20, to(5, 2, 9)), (DROP_NO_PROXY, 0));
        assert_eq!(ended(20, over(19, to(5, 3, 9))), (DROP_NO_PROXY, 1));
        assert_eq!(ended(20, over(19, to(5, 2, 9))), (DROP_RETRY, 1));
    }

    #[test]
    fn a_full_hall_and_one_of_which_a_dcell_1_is_missing_go_apart_at_that_one() {
        let whole = Hall::full(2, 2, 0);
        let part = Hall { count: 6, ..whole };
        let table = [1; 126];
        for (x, y) in (0..36).flat_map(|x| (0..42).map(move |y| (x, y))) {
            let packet = to(y, 5, 64);
            let answer = journey(part, x, packet, &table);
            if y >= 36 {
                assert!([DROP_RETRY, DROP_NO_PROXY].contains(&answer.ending));
            } else {
                assert_eq!(answer, journey(whole, x, packet, &table));
            }
        }
    }

    #[test]
    fn a_count_outside_its_range_is_refused_by_steps_and_journeys_before_all_else() {
        for (h, count) in [(HALL, 0), (HALL, 2), (Hall::full(2, 2, 0), 8)] {
            let h = Hall { count, ..h };
            assert_eq!(step(h, 99, to(99, 99, 0), &[]).refusal, 1);
            assert_eq!(journey(h, 99, to(99, 99, 0), &[]).refusal, 1);
        }
    }
}
