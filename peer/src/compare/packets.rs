//! Packets to forward: at a server with the table lent to its step, or on a journey over the hall table.

use peer::forward::{Packet, Step, MOST_RETRY};
use peer::hall::{self, Hall};
use peer::random::Random;
use peer::refusal::NONE;

use super::counts::fitted_server;
use super::inputs::{any_hall, any_uid, sizes};
use super::tables::{any_hall_table, any_step_table, codes, sound_hall_table, step_codes, Table};
use super::trails::any_longest;

/// The bytes of a step's answer: eight words of four.
const STEP_BYTES: usize = 32;
/// A retry that is refused, among those drawn.
const RETRIES: u32 = MOST_RETRY as u32 + 2;
/// One proxy in so many is the server that the packet is at, besides those drawn so by chance.
const ARRIVED: u32 = 6;
/// One journey in so many crosses the most links.
const LONGEST: u32 = 2_000;

/// A packet at a server, with the table lent to its step.
#[derive(Debug, Clone)]
pub struct Near {
    pub hall: Hall,
    pub uid: u32,
    pub packet: Packet,
    /// The number that tells of a proxy.
    pub flag: u32,
    pub codes: Table,
}

/// A packet at its source, with the hall table.
#[derive(Debug, Clone)]
pub struct Far {
    pub hall: Hall,
    pub uid: u32,
    pub packet: Packet,
    /// The number that tells of a proxy.
    pub flag: u32,
    pub table: Table,
}

/// Any packet at any server, with any table for its step.
pub fn any_near(random: &mut Random) -> Near {
    let hall = any_hall(random);
    let uid = any_uid(random, hall);
    let (packet, flag) = any_packet(random, hall, uid);
    Near {
        hall,
        uid,
        packet,
        flag,
        codes: any_step_table(random, hall),
    }
}

/// Any packet on a journey from any server, with any hall table, or one that crosses the most links.
pub fn any_far(random: &mut Random) -> Far {
    let longest = random.once_in(LONGEST).then(|| any_longest(random));
    longest.flatten().unwrap_or_else(|| any_journey(random))
}

/// Any packet on a journey from any server, with any hall table.
fn any_journey(random: &mut Random) -> Far {
    let hall = any_hall(random);
    let uid = any_uid(random, hall);
    let (packet, flag) = any_packet(random, hall, uid);
    Far {
        hall,
        uid,
        packet,
        flag,
        table: any_hall_table(random, hall),
    }
}

/// A packet without a proxy at a fitted server of a sound hall, with so many in a hundred of the codes lent to it not up.
pub fn sound_near(random: &mut Random, hall: Hall, not_up: u32) -> Near {
    let uid = fitted_server(random, hall).unwrap_or(0);
    Near {
        hall,
        uid,
        packet: sound_packet(random, hall),
        flag: 0,
        codes: Table::Own(codes(random, step_codes(hall), not_up)),
    }
}

/// A packet without a proxy on a journey from a fitted server of a sound hall, with so many in a hundred codes not up.
pub fn sound_far(random: &mut Random, hall: Hall, not_up: u32) -> Far {
    let (table, uid) = sound_hall_table(random, hall, not_up);
    Far {
        hall,
        uid,
        packet: sound_packet(random, hall),
        flag: 0,
        table,
    }
}

/// The answer of a step as the driver's bytes.
pub fn words_of(answer: &Step) -> [u8; STEP_BYTES] {
    let packet = &answer.packet;
    let words = [
        answer.ending,
        answer.next,
        packet.dst,
        u32::from(packet.has_proxy),
        packet.proxy,
        u32::from(packet.retry),
        u32::from(packet.ttl),
        answer.reroutes,
    ];
    let mut bytes = [0; STEP_BYTES];
    for (place, word) in bytes.chunks_exact_mut(4).zip(words) {
        place.copy_from_slice(&word.to_be_bytes());
    }
    bytes
}

/// Any packet and the number that tells of its proxy: its servers mostly of the hall, often near the server it is at.
fn any_packet(random: &mut Random, hall: Hall, uid: u32) -> (Packet, u32) {
    let has_proxy = random.once_in(2);
    let flag = if has_proxy {
        1 + random.below(u32::MAX)
    } else {
        0
    };
    let packet = Packet {
        dst: any_server(random, hall, uid),
        has_proxy,
        proxy: any_proxy(random, hall, uid),
        retry: random.below(RETRIES) as u8,
        ttl: any_ttl(random),
    };
    (packet, flag)
}

/// A proxy for a packet at a server, often that one.
fn any_proxy(random: &mut Random, hall: Hall, uid: u32) -> u32 {
    if random.once_in(ARRIVED) {
        uid
    } else {
        any_server(random, hall, uid)
    }
}

/// A server for a packet at another: that one, one of its cell, one behind a link of its cell, or any.
fn any_server(random: &mut Random, hall: Hall, uid: u32) -> u32 {
    let cell = sizes(hall).map_or(1, |t| t[hall.b as usize]);
    let beside = (uid / cell * cell).saturating_add(random.below(cell));
    match random.below(8) {
        0 => uid,
        1 | 2 => beside,
        3 => behind(random, hall, beside),
        _ => any_uid(random, hall),
    }
}

/// A server of the sub-cell that a link above b of a server leads to, or any uid where there is no such link.
fn behind(random: &mut Random, hall: Hall, uid: u32) -> u32 {
    let above = hall.k.saturating_sub(hall.b);
    let level = hall.b.saturating_add(1 + random.below(above));
    let link = hall::neighbour(hall, uid, level);
    let Some(t) = sizes(hall).filter(|_| link.refusal == NONE) else {
        return any_uid(random, hall);
    };
    let size = t[level as usize - 1];
    link.uid / size * size + random.below(size)
}

/// A TTL: few, or any.
fn any_ttl(random: &mut Random) -> u8 {
    if random.once_in(3) {
        random.below(5) as u8
    } else {
        random.byte()
    }
}

/// A packet to any fitted server of a sound hall, with retry and TTL enough.
fn sound_packet(random: &mut Random, hall: Hall) -> Packet {
    Packet {
        dst: fitted_server(random, hall).unwrap_or(0),
        has_proxy: false,
        proxy: 0,
        retry: 5,
        ttl: 255,
    }
}
