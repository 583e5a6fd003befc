//! Calls every public function with any numbers and bytes at all, to show that each of them answers, and as docs/RULES.md shapes it.

use crate::forward::{journey, step, Packet};
use crate::hall::{
    b_fits, cell, k_fits, link, n_fits, neighbour, racks_of, servers_of, sizes, tuple_of, uid_of,
    Hall,
};
use crate::random::Random;
use crate::route::{first_link, route, route_words};
use crate::{broadcast, frame, local, naive, plan, ports, report, sheet};

/// A number that is small, near a bound, or any at all.
fn number(random: &mut Random) -> u32 {
    let bounds = [0u32, 1, 2, 4, 8, 20, 42, 72, 420, 1806, 5256, 27_630_792];
    match random.below(4) {
        0 => random.below(9),
        1 => bounds[random.below(12) as usize].wrapping_sub(random.below(3)),
        2 => random.below(30_000_000),
        _ => random.word() >> random.below(32),
    }
}

/// A hall, mostly a sound and small one.
fn hall(random: &mut Random) -> Hall {
    let halls = naive::small_halls();
    let mut h = halls[random.below(halls.len() as u32) as usize];
    if random.once_in(2) && h.k >= 2 {
        h.count = random.below(h.count + 1);
    }
    match random.below(12) {
        0 => h.n = number(random),
        1 => h.k = number(random),
        2 => h.b = number(random),
        3 => h.count = number(random),
        _ => {}
    }
    h
}

/// A uid, mostly one of the hall.
fn uid(random: &mut Random, h: Hall) -> u32 {
    match (random.once_in(12), sizes(h)) {
        (false, found) if found.refusal == 0 => random.below(naive::servers(h)),
        _ => number(random),
    }
}

/// The longest table made; a larger hall gets one of the wrong length.
const LONGEST_TABLE: u32 = 10_000;

/// A table for a DCell of the hall, mostly of the right length.
fn table(random: &mut Random, h: Hall, level: u32) -> Vec<u8> {
    let right = match sizes(h).refusal {
        0 => LONGEST_TABLE.min(naive::size(h.n, level) * (h.k + 1)),
        _ => random.below(100),
    };
    codes(random, right)
}

/// A table for a step in the hall, mostly of the right length.
fn step_table(random: &mut Random, h: Hall) -> Vec<u8> {
    let right = match sizes(h).refusal {
        0 => naive::step_length(h) as u32,
        _ => random.below(100),
    };
    codes(random, right)
}

/// Codes, mostly as many as is right, of any bytes or mostly code 1.
fn codes(random: &mut Random, right: u32) -> Vec<u8> {
    let length = if random.once_in(12) {
        random.below(right + 3)
    } else {
        right
    };
    let faults = [0, 20, 3, 1][random.below(4) as usize];
    naive::table(random, length as usize, faults)
}

fn packet(random: &mut Random, h: Hall) -> Packet {
    Packet {
        dst: uid(random, h),
        has_proxy: random.once_in(2),
        proxy: uid(random, h),
        retry: random.byte() % 18,
        ttl: random.byte(),
    }
}

#[test]
fn hall_and_route_calls_answer_any_numbers() {
    let mut random = Random::new(101);
    for _ in 0..50_000 {
        let h = hall(&mut random);
        let (x, y) = (uid(&mut random, h), uid(&mut random, h));
        let (level, p, q) = (
            number(&mut random),
            number(&mut random),
            number(&mut random),
        );
        let tuple = [(); 4].map(|()| number(&mut random));
        assert!([0, 1].contains(&sizes(h).refusal));
        assert!([0, 1, 3].contains(&uid_of(h, tuple).refusal));
        assert!([0, 1, 2].contains(&tuple_of(h, x).refusal));
        assert!([0, 1, 2, 3].contains(&cell(h, x, level).refusal));
        assert!([0, 1, 2, 3].contains(&neighbour(h, x, level).refusal));
        assert!([0, 1, 2, 3].contains(&link(h, x, level, p, q).refusal));
        let counts = if h.k < 2 {
            1..=1
        } else {
            0..=racks_of(h.n, h.k)
        };
        let fits = n_fits(h.n) && k_fits(h.n, h.k) && b_fits(h.k, h.b) && counts.contains(&h.count);
        assert_eq!(fits, sizes(h).refusal == 0);
        let next = plan::next_prefix(h);
        assert!([0, 1, 12].contains(&next.refusal));
        assert!(next.refusal == 0 || next.tuple == [0; 4]);
        let around = plan::fitted_servers(h, x);
        assert!(around == 0 || fits && h.k >= 2);
        assert!(!plan::is_fitted(h, x) || fits && (around > 0 || h.k < 2));
        assert_eq!(fits, servers_of(h) > 0);
        let answer = route(h, x, y);
        let first = first_link(h, x, y);
        assert_eq!(answer.refusal, first.refusal);
        let ends = [first.near, first.far];
        assert!(first.level > 0 || ends == [0, 0]);
        assert!(first.level == 0 || answer.uids.windows(2).any(|pair| pair == ends));
        let mut room = [0xEE; 64];
        let length = random.below(65) as usize;
        let refusal = route_words(h, x, y, &mut room[..length]);
        match answer.refusal {
            0 => assert_eq!(refusal == 6, length < 4 * (answer.links as usize + 1)),
            other => assert_eq!(refusal, other),
        }
        assert!(refusal == 0 || room == [0xEE; 64]);
    }
}

#[test]
fn table_calls_answer_any_numbers_and_bytes() {
    let mut random = Random::new(102);
    for _ in 0..20_000 {
        let h = hall(&mut random);
        let x = uid(&mut random, h);
        let whole = table(&mut random, h, h.k);
        let own = table(&mut random, h, h.b);
        let checked = ports::check(h, &whole);
        assert!([0, 1, 4, 5].contains(&checked.refusal));
        assert!(checked.refusal == 5 || checked.place == 0);
        let unknown = ports::first_unknown(&whole);
        assert!(whole
            .get(unknown)
            .is_none_or(|&code| !ports::is_known(code)));
        assert!(checked.refusal != 0 || unknown == whole.len());
        let port = number(&mut random);
        assert!(!ports::is_up(h, &whole, x, port) || port <= h.k);
        let (refusal, part) = ports::part(h, &whole, x);
        assert_eq!(refusal == 0, !part.is_empty());
        let mut lent = vec![0xEE; random.below(120) as usize];
        match ports::step_table(h, &whole, x, &mut lent) {
            0 => {
                assert!(lent.len() >= part.len() && refusal == 0);
                let written = lent.iter().zip(part);
                assert!(written.clone().all(|(&to, &from)| to == from || to == 0));
                assert!(
                    h.count < racks_of(h.n, h.k) || written.clone().all(|(to, from)| to == from)
                );
            }
            number => {
                assert!(number == refusal || (refusal, number) == (0, 6));
                assert!(lent.iter().all(|&byte| byte == 0xEE));
            }
        }
        let away = local::distances(h, x, &own);
        assert!(away.refusal == 0 || away.distance == [0; 72]);
        let hop = local::next_hop(h, x, uid(&mut random, h), &own);
        assert!(hop.found == 1 || hop.uid == 0);
        let lent = step_table(&mut random, h);
        let turn = step(h, x, packet(&mut random, h), &lent);
        assert!(turn.ending == 0 || turn.next == 0);
        let trip = journey(h, x, packet(&mut random, h), &whole);
        assert_eq!(trip.refusal == 0, (1..=5).contains(&trip.ending));
        let mut room = vec![7; random.below(1900) as usize];
        let scope = random.below(4);
        let told = broadcast::broadcast(h, x, scope, &whole, &mut room);
        assert_eq!(told.refusal == 0, told.reached > 0);
        assert!(told.refusal == 0 || room.iter().all(|&round| round == 7));
    }
}

#[test]
fn frame_calls_answer_any_bytes_and_fields() {
    let mut random = Random::new(103);
    for _ in 0..50_000 {
        let fields = frame::Fields {
            protocol: random.byte(),
            payload_length: random.word() as u16 >> random.below(16),
            identification: random.word(),
            retry: random.byte() % 18,
            ttl: random.byte(),
            source: random.word() >> random.below(3),
            destination: random.word() | 0x0FFF_FFFF >> random.below(2),
            has_proxy: random.once_in(2),
            proxy: random.word() >> random.below(3),
        };
        let mut bytes = vec![0xEE; random.below(80) as usize];
        let refusal = frame::write(fields, &mut bytes);
        assert!(refusal == 0 || bytes.iter().all(|&byte| byte == 0xEE));
        let [source, destination, proxy] = [fields.source, fields.destination, fields.proxy];
        let fit = frame::addresses_fit(source, destination, fields.has_proxy, proxy);
        assert!(fields.retry > 15 || fit == (refusal != 11));
        let sum = random.bits() >> random.below(64);
        let complement = u64::from(frame::complement(sum));
        assert_eq!((sum % 65_535 + complement) % 65_535, 0);
        assert_eq!(complement == 65_535, sum == 0);
        for _ in 0..random.below(2) {
            if let Some(byte) = bytes.get_mut(random.below(24) as usize) {
                *byte = random.byte();
            }
        }
        let header = frame::read(&bytes);
        assert!([0, 7, 9, 11, 13, 14, 15, 16].contains(&header.refusal));
        let place = if header.refusal > 14 { 8 } else { 0 };
        assert_eq!(header.place, place);
        let (refusal, payload) = frame::payload(&bytes);
        assert_eq!(refusal, header.refusal);
        assert_eq!(payload.len() as u32, header.payload_length);
    }
}

#[test]
fn sheet_calls_answer_any_bytes() {
    let mut random = Random::new(104);
    for _ in 0..5_000 {
        let h = hall(&mut random);
        let codes = table(&mut random, h, h.k);
        let section = if random.once_in(2) { 3 } else { 7 };
        let mut bytes = vec![0, 0, 0, section, h.n as u8, h.k as u8, h.b as u8];
        if section == 7 {
            bytes.extend(h.count.to_be_bytes());
        }
        bytes.extend((codes.len() as u32).to_be_bytes());
        bytes.extend(codes);
        let packets = random.below(5);
        bytes.extend(packets.to_be_bytes());
        for _ in 0..packets {
            bytes.extend(uid(&mut random, h).to_be_bytes());
            bytes.extend(uid(&mut random, h).to_be_bytes());
            bytes.extend([random.byte() % 17, random.byte()]);
        }
        let read = sheet::read(&bytes);
        let first = sheet::packet(&bytes, 0);
        let fields = sheet::packet_fields(&bytes, number(&mut random));
        assert!([0, 3].contains(&fields.refusal) && fields.place == 0);
        let at = number(&mut random) as usize;
        assert!(at + 4 <= bytes.len() || sheet::word_at(&bytes, at) == 0);
        assert_eq!(sheet::word_at(&bytes, 0), u32::from(section));
        assert!(read.refusal != 0 || (read.count == racks_of(read.n, read.k)) == (section == 3));
        let part = sheet::codes_part(&bytes);
        assert!(part == sheet::codes(&bytes) || read.refusal != 0);
        let text = report::trace(&bytes);
        if read.refusal != 0 {
            assert_eq!((first.refusal, first.place), (read.refusal, read.place));
            assert!(sheet::codes(&bytes).is_empty());
            let line = format!("REFUSED {} {}\n", read.refusal, read.place);
            assert_eq!(text, line.into_bytes());
            continue;
        }
        assert_eq!(first.refusal, if read.packets == 0 { 3 } else { 0 });
        let lines = text.iter().filter(|&&byte| byte == b'\n').count();
        assert_eq!(lines, read.packets as usize + 2);
        assert_eq!(text.last(), Some(&b'\n'));
    }
}

#[test]
fn line_calls_answer_any_numbers() {
    let mut random = Random::new(106);
    for _ in 0..5_000 {
        let [n, k, b, count, ending, links] = [(); 6].map(|()| number(&mut random));
        let uids = vec![random.word(); random.below(20) as usize];
        let mut text = Vec::new();
        report::hall_line(&mut text, Hall { n, k, b, count });
        report::refused_line(&mut text, n, k);
        report::packet_line(&mut text, n, k, ending, links, b, &uids);
        let text = String::from_utf8(text).unwrap();
        assert_eq!(text.lines().count(), 3);
        assert!(text.ends_with('\n') && !text.contains(" \n"));
    }
}
