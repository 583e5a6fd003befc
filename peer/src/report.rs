//! The text of the trace program: every journey of a night sheet, or the sheet's refusal.

use crate::forward::{self, Packet};
use crate::hall::Hall;
use crate::refusal;
use crate::sheet::{self, Fault, Parts, SheetPacket, PACKET_BYTES};

/// The room set aside for each packet's line.
const LINE_ROOM: usize = 64;
/// The lines of a trace besides those of its packets: the first and the last.
const AROUND_PACKETS: u32 = 2;
/// The most digits of a number.
const DIGITS: usize = 10;
/// The most uids that a packet's line tells: those of the longest journey.
const MOST_UIDS: usize = 256;

/// The whole text of the trace program for a sheet.
pub fn trace(sheet: &[u8]) -> Vec<u8> {
    match sheet::parse(sheet) {
        Ok(parts) => report(&parts),
        Err(fault) => refused(fault),
    }
}

/// Adds the line of a hall.
pub fn hall_line(text: &mut Vec<u8>, h: Hall) {
    put_line(text, b"HALL", &[h.n, h.k, h.b]);
}

/// Adds the line of a refused sheet.
pub fn refused_line(text: &mut Vec<u8>, number: u32, place: u32) {
    put_line(text, b"REFUSED", &[number, place]);
}

/// Adds the last line of a trace of so many packets.
pub fn end_line(text: &mut Vec<u8>, packets: u32) {
    put_line(text, b"END", &[packets]);
}

/// Adds the line of a packet, with the first links + 1 of the uids, at most `MOST_UIDS`, or all that there are.
pub fn packet_line(
    text: &mut Vec<u8>,
    source: u32,
    dst: u32,
    ending: u32,
    links: u32,
    reroutes: u32,
    uids: &[u32],
) {
    put_number(text, source);
    put_spaced(text, dst);
    put_ending(text, ending);
    put_spaced(text, links);
    put_spaced(text, reroutes);
    text.extend_from_slice(b" :");
    let told = (links as usize).saturating_add(1).min(MOST_UIDS);
    for &uid in uids.iter().take(told) {
        put_spaced(text, uid);
    }
    text.push(b'\n');
}

/// A piece of a trace: the first line behind it, and the place behind its text.
#[derive(Debug, Clone, Copy, PartialEq, Eq)]
pub struct Piece {
    pub refusal: u32,
    pub next: u32,
    pub end: usize,
}

/// Writes as many whole lines of a sheet's trace, from one on, as fit from the room's start.
pub fn trace_piece(sheet: &[u8], from: u32, room: &mut [u8]) -> Piece {
    let refused = |refusal| Piece {
        refusal,
        next: 0,
        end: 0,
    };
    let read = sheet::parse(sheet);
    let lines = match &read {
        Ok(parts) => parts.packets.len() as u32 + AROUND_PACKETS,
        Err(_) => 1,
    };
    if from >= lines {
        return refused(refusal::RANGE);
    }
    let (mut line, mut next, mut end) = (Vec::new(), from, 0);
    while next < lines {
        line.clear();
        put_numbered(&mut line, &read, next);
        let Some(place) = room.get_mut(end..end + line.len()) else {
            break;
        };
        place.copy_from_slice(&line);
        next += 1;
        end += line.len();
    }
    if next == from {
        return refused(refusal::ROOM);
    }
    Piece {
        refusal: refusal::NONE,
        next,
        end,
    }
}

/// Adds a line of a trace by its number, from 0 on.
fn put_numbered(text: &mut Vec<u8>, read: &Result<Parts, Fault>, number: u32) {
    let parts = match read {
        Ok(parts) => parts,
        Err(fault) => return refused_line(text, fault.refusal, fault.place),
    };
    let Some(i) = number.checked_sub(1) else {
        return hall_line(text, parts.hall);
    };
    match parts.packets.get(i as usize) {
        Some(bytes) => put_journey(text, parts, bytes),
        None => end_line(text, parts.packets.len() as u32),
    }
}

/// The text of a refused sheet.
fn refused(fault: Fault) -> Vec<u8> {
    let mut text = Vec::with_capacity(LINE_ROOM);
    refused_line(&mut text, fault.refusal, fault.place);
    text
}

/// The lines of a sound sheet.
fn report(parts: &Parts) -> Vec<u8> {
    let mut text = Vec::with_capacity((parts.packets.len() + 2) * LINE_ROOM);
    hall_line(&mut text, parts.hall);
    for bytes in parts.packets {
        put_journey(&mut text, parts, bytes);
    }
    end_line(&mut text, parts.packets.len() as u32);
    text
}

/// Adds the line of one packet's journey.
fn put_journey(text: &mut Vec<u8>, parts: &Parts, bytes: &[u8; PACKET_BYTES]) {
    let told = sheet::packet_of(bytes);
    let journey = forward::journey(parts.hall, told.source, packet(&told), parts.codes);
    packet_line(
        text,
        told.source,
        told.dst,
        journey.ending,
        journey.links,
        journey.reroutes,
        &journey.uids,
    );
}

/// The packet to send, which has no proxy.
fn packet(told: &SheetPacket) -> Packet {
    Packet {
        dst: told.dst,
        has_proxy: false,
        proxy: 0,
        retry: told.retry as u8,
        ttl: told.ttl as u8,
    }
}

/// Adds a space and an ending: delivered by its word, any other as a drop with its number.
fn put_ending(text: &mut Vec<u8>, ending: u32) {
    if ending == forward::DELIVERED {
        text.extend_from_slice(b" DELIVERED");
        return;
    }
    text.extend_from_slice(b" DROP");
    put_number(text, ending);
}

/// Adds a line of a word and numbers.
fn put_line(text: &mut Vec<u8>, word: &[u8], numbers: &[u32]) {
    text.extend_from_slice(word);
    for &number in numbers {
        put_spaced(text, number);
    }
    text.push(b'\n');
}

/// Adds a space and a number.
#[inline]
fn put_spaced(text: &mut Vec<u8>, number: u32) {
    text.push(b' ');
    put_number(text, number);
}

/// Adds a number in decimal digits.
#[inline]
fn put_number(text: &mut Vec<u8>, number: u32) {
    let mut digits = [b'0'; DIGITS];
    let mut start = DIGITS - 1;
    let mut rest = number;
    digits[start] += (rest % 10) as u8;
    while rest >= 10 && start > 0 {
        rest /= 10;
        start -= 1;
        digits[start] += (rest % 10) as u8;
    }
    text.extend_from_slice(&digits[start..]);
}

#[cfg(test)]
mod tests {
    use super::*;
    use crate::random::Random;

    fn sheet(hall: [u8; 3], codes: &[u8], packets: &[[u32; 4]]) -> Vec<u8> {
        let mut bytes = vec![0, 0, 0, 3];
        bytes.extend(hall);
        bytes.extend((codes.len() as u32).to_be_bytes());
        bytes.extend(codes);
        bytes.extend((packets.len() as u32).to_be_bytes());
        for packet in packets {
            bytes.extend(packet[0].to_be_bytes());
            bytes.extend(packet[1].to_be_bytes());
            bytes.extend([packet[2] as u8, packet[3] as u8]);
        }
        bytes
    }

    fn codes(code: u8) -> [u8; 40] {
        let mut codes = [1; 40];
        codes[7] = code;
        codes[33] = code;
        codes
    }

    fn text(sheet: &[u8]) -> String {
        String::from_utf8(trace(sheet)).unwrap()
    }

    #[test]
    fn the_sample_sheet_prints_its_three_lines() {
        let bytes = sheet([4, 1, 0], &codes(2), &[[0, 19, 5, 15]]);
        let expected = "HALL 4 1 0\n0 19 DELIVERED 4 1 : 0 4 7 17 19\nEND 1\n";
        assert_eq!(text(&bytes), expected);
    }

    #[test]
    fn the_sample_sheet_with_b_1_passes_2_12_and_15() {
        let bytes = sheet([4, 1, 1], &codes(2), &[[0, 19, 5, 15]]);
        let expected = "HALL 4 1 1\n0 19 DELIVERED 4 0 : 0 2 12 15 19\nEND 1\n";
        assert_eq!(text(&bytes), expected);
    }

    #[test]
    fn each_drop_is_printed_with_the_servers_passed() {
        let packets = [[0, 19, 2, 15], [0, 19, 1, 15], [19, 19, 0, 0], [0, 1, 5, 0]];
        let expected = "HALL 4 1 0\n0 19 DELIVERED 4 1 : 0 4 7 17 19\n0 19 DROP3 0 0 : 0\n\
                        19 19 DELIVERED 0 0 : 19\n0 1 DROP1 0 0 : 0\nEND 4\n";
        assert_eq!(text(&sheet([4, 1, 0], &codes(2), &packets)), expected);
        let packets = [[0, 1, 5, 15], [0, 19, 5, 15]];
        let expected = "HALL 4 1 0\n0 1 DROP2 0 0 : 0\n0 19 DROP4 0 0 : 0\nEND 2\n";
        assert_eq!(text(&sheet([4, 1, 0], &[0; 40], &packets)), expected);
    }

    #[test]
    fn ttl_2_is_dropped_at_16() {
        let bytes = sheet([4, 1, 0], &[1; 40], &[[0, 19, 5, 3], [0, 19, 5, 2]]);
        let expected =
            "HALL 4 1 0\n0 19 DELIVERED 3 0 : 0 3 16 19\n0 19 DROP1 2 0 : 0 3 16\nEND 2\n";
        assert_eq!(text(&bytes), expected);
    }

    #[test]
    fn a_refused_sheet_prints_only_its_refusal() {
        assert_eq!(text(&[]), "REFUSED 10 0\n");
        let bytes = sheet([4, 1, 0], &codes(7), &[[0, 19, 5, 15]]);
        assert_eq!(text(&bytes), "REFUSED 5 18\n");
        let bytes = sheet([4, 1, 0], &codes(2), &[[0, 19, 5, 15], [0, 20, 5, 15]]);
        assert_eq!(text(&bytes), "REFUSED 2 69\n");
        assert_eq!(text(&[0; 65_537]), "REFUSED 10 65536\n");
    }

    #[test]
    fn a_hall_that_is_not_full_is_traced_by_the_codes_that_count_and_keeps_its_three_numbers() {
        let packets = [
            [0, 17, 5, 15],
            [0, 18, 5, 15],
            [18, 19, 5, 15],
            [18, 18, 5, 15],
        ];
        let mut bytes = sheet([2, 2, 0], &[1; 126], &packets);
        let full = "HALL 2 2 0\n0 17 DELIVERED 5 0 : 0 1 12 13 16 17\n\
                    0 18 DELIVERED 2 0 : 0 2 18\n18 19 DELIVERED 1 0 : 18 19\n\
                    18 18 DELIVERED 0 0 : 18\nEND 4\n";
        assert_eq!(text(&bytes), full);
        bytes[3] = 7;
        bytes.splice(7..7, [0, 0, 0, 3]);
        let part = "HALL 2 2 0\n0 17 DELIVERED 5 0 : 0 1 12 13 16 17\n\
                    0 18 DROP4 1 0 : 0 2\n18 19 DROP2 0 0 : 18\n\
                    18 18 DELIVERED 0 0 : 18\nEND 4\n";
        assert_eq!(text(&bytes), part);
        bytes[10] = 7;
        assert_eq!(text(&bytes), "REFUSED 1 7\n");
    }

    #[test]
    fn a_sheet_of_no_packets_prints_hall_and_end() {
        let bytes = sheet([2, 0, 0], &[1, 1], &[]);
        assert_eq!(text(&bytes), "HALL 2 0 0\nEND 0\n");
    }

    #[test]
    fn numbers_are_printed_in_plain_decimal() {
        let mut random = Random::new(10);
        let mut numbers = vec![0, 9, 10, 99, 100, 999_999_999, 1_000_000_000, u32::MAX];
        numbers.extend((0..1000).map(|i| random.word() >> (i % 32)));
        for number in numbers {
            let mut text = Vec::new();
            put_number(&mut text, number);
            assert_eq!(text, number.to_string().into_bytes());
        }
    }

    /// The text that a writer of lines adds behind a text that is there.
    fn added(write: impl Fn(&mut Vec<u8>)) -> String {
        let mut text = b"there".to_vec();
        write(&mut text);
        String::from_utf8(text.split_off(5)).unwrap()
    }

    #[test]
    fn lines_of_halls_and_refusals_take_any_numbers() {
        let (n, k, b) = (0, 77, u32::MAX);
        let count = u32::MAX;
        let line = added(|text| hall_line(text, Hall { n, k, b, count }));
        assert_eq!(line, "HALL 0 77 4294967295\n");
        let line = added(|text| refused_line(text, 10, 65_536));
        assert_eq!(line, "REFUSED 10 65536\n");
        let line = added(|text| refused_line(text, u32::MAX, 0));
        assert_eq!(line, "REFUSED 4294967295 0\n");
    }

    #[test]
    fn a_packet_line_has_links_and_one_more_uids_or_all_that_there_are() {
        let line = |links, uids: &[u32]| added(|text| packet_line(text, 0, 19, 5, links, 1, uids));
        let uids = [0, 4, 7, 17, 19];
        assert_eq!(line(4, &uids), "0 19 DELIVERED 4 1 : 0 4 7 17 19\n");
        assert_eq!(line(1, &uids), "0 19 DELIVERED 1 1 : 0 4\n");
        assert_eq!(line(0, &uids), "0 19 DELIVERED 0 1 : 0\n");
        assert_eq!(line(5, &uids), "0 19 DELIVERED 5 1 : 0 4 7 17 19\n");
        let all = "0 19 DELIVERED 4294967295 1 : 0 4 7 17 19\n";
        assert_eq!(line(u32::MAX, &uids), all);
        assert_eq!(line(0, &[]), "0 19 DELIVERED 0 1 :\n");
    }

    #[test]
    fn a_packet_line_tells_at_most_256_uids() {
        let line = added(|text| packet_line(text, 0, 1, 5, u32::MAX, 0, &[7; 300]));
        assert_eq!(
            line.split_once(" : ").unwrap().1.split(' ').count(),
            MOST_UIDS
        );
    }

    #[test]
    fn delivered_has_its_word_and_any_other_ending_is_a_drop_with_its_number() {
        for ending in [0, 1, 2, 3, 4, 5, 6, 255, u32::MAX] {
            let word = match ending {
                5 => "DELIVERED".to_string(),
                other => format!("DROP{other}"),
            };
            let line = added(|text| packet_line(text, 1, 2, ending, 0, 3, &[9]));
            assert_eq!(line, format!("1 2 {word} 0 3 : 9\n"));
        }
    }

    /// The sample sheet with three packets.
    fn three() -> Vec<u8> {
        let packets = [[0, 19, 5, 15], [0, 1, 5, 0], [3, 3, 5, 1]];
        sheet([4, 1, 0], &codes(2), &packets)
    }

    /// The pieces of a trace in rooms of a length, joined.
    fn joined(sheet: &[u8], length: usize) -> Vec<u8> {
        let mut text = Vec::new();
        let mut from = 0;
        loop {
            let mut room = vec![9; length];
            let piece = trace_piece(sheet, from, &mut room);
            if piece.refusal != 0 {
                assert_eq!((piece.refusal, piece.next, piece.end), (3, 0, 0));
                assert_eq!(room, vec![9; length]);
                return text;
            }
            assert!(room[piece.end..].iter().all(|&byte| byte == 9));
            text.extend_from_slice(&room[..piece.end]);
            from = piece.next;
        }
    }

    #[test]
    fn the_pieces_of_a_trace_join_to_the_whole_in_every_room_of_its_longest_line() {
        let sheets = [three(), sheet([2, 0, 0], &[1, 1], &[]), Vec::new()];
        for sheet in sheets {
            let whole = trace(&sheet);
            let lines = whole.split_inclusive(|&byte| byte == b'\n');
            let longest = lines.map(<[u8]>::len).max().unwrap();
            for length in longest..whole.len() + 2 {
                assert_eq!(joined(&sheet, length), whole);
            }
        }
    }

    #[test]
    fn a_piece_has_as_many_whole_lines_as_fit() {
        let line_ends = [11, 44, 62, 84, 90];
        let mut room = [9; 90];
        for length in 0..=90 {
            let piece = trace_piece(&three(), 0, &mut room[..length]);
            let lines = line_ends.iter().filter(|&&end| end <= length).count();
            let expected = match lines {
                0 => (6, 0, 0),
                _ => (0, lines as u32, line_ends[lines - 1]),
            };
            assert_eq!((piece.refusal, piece.next, piece.end), expected);
        }
        let last = trace_piece(&three(), 4, &mut room);
        assert_eq!((last.refusal, last.next, last.end), (0, 5, 6));
        assert_eq!(&room[..6], b"END 3\n");
    }

    #[test]
    fn a_line_that_is_not_there_gets_3_before_6_and_the_room_stays() {
        let mut room = [9; 4];
        for (bytes, lines) in [(three(), 5), (Vec::new(), 1)] {
            for from in [lines, lines + 1, u32::MAX] {
                assert_eq!(trace_piece(&bytes, from, &mut room).refusal, 3);
                assert_eq!(trace_piece(&bytes, from, &mut []).refusal, 3);
            }
            assert_eq!(trace_piece(&bytes, lines - 1, &mut room).refusal, 6);
        }
        assert_eq!(room, [9; 4]);
    }
}
