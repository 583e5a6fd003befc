//! The night sheet: a hall, its table and its packets, checked field by field in byte order.

use crate::forward::MOST_RETRY;
use crate::hall::{self, Hall, LEAST_FILLED_K};
use crate::ports;
use crate::refusal;

/// The most bytes of a sheet.
pub const SHEET_ROOM: usize = 65_536;
/// The bytes of a packet.
pub const PACKET_BYTES: usize = 10;

/// The first count of a full hall: the bytes n, k and b.
const FULL_BYTES: u32 = 3;
/// The first count of a hall that is not full: these bytes and the number of DCell(1)s fitted.
const PART_BYTES: u32 = FULL_BYTES + COUNT_BYTES as u32;
/// The bytes of a count.
const COUNT_BYTES: usize = 4;
/// The offset of dst in a packet.
const DST_OFFSET: usize = 4;
/// The offset of the retry in a packet.
const RETRY_OFFSET: usize = 8;

/// The hall of a sheet and the number of its packets, or the refusal and the place of the first fault.
#[derive(Debug, Clone, Copy, PartialEq, Eq)]
pub struct Sheet {
    pub refusal: u32,
    pub place: u32,
    pub n: u32,
    pub k: u32,
    pub b: u32,
    pub count: u32,
    pub packets: u32,
}

/// One packet of a sheet.
#[derive(Debug, Clone, Copy, PartialEq, Eq)]
pub struct SheetPacket {
    pub refusal: u32,
    pub place: u32,
    pub source: u32,
    pub dst: u32,
    pub retry: u32,
    pub ttl: u32,
}

impl SheetPacket {
    /// A packet that is refused at a place.
    fn refused(refusal: u32, place: u32) -> SheetPacket {
        SheetPacket {
            refusal,
            place,
            source: 0,
            dst: 0,
            retry: 0,
            ttl: 0,
        }
    }
}

/// Reads a sheet.
pub fn read(sheet: &[u8]) -> Sheet {
    match parse(sheet) {
        Ok(parts) => Sheet {
            refusal: refusal::NONE,
            place: 0,
            n: parts.hall.n,
            k: parts.hall.k,
            b: parts.hall.b,
            count: parts.hall.count,
            packets: parts.packets.len() as u32,
        },
        Err(fault) => Sheet {
            refusal: fault.refusal,
            place: fault.place,
            n: 0,
            k: 0,
            b: 0,
            count: 0,
            packets: 0,
        },
    }
}

/// The hall table of a sheet; empty for a refused one.
pub fn codes(sheet: &[u8]) -> &[u8] {
    match parse(sheet) {
        Ok(parts) => parts.codes,
        Err(_) => &[],
    }
}

/// The packet of an index, from 0 on.
pub fn packet(sheet: &[u8], i: u32) -> SheetPacket {
    let parts = match parse(sheet) {
        Ok(parts) => parts,
        Err(fault) => return SheetPacket::refused(fault.refusal, fault.place),
    };
    let bytes = parts.packets.get(i as usize);
    bytes.map_or(SheetPacket::refused(refusal::RANGE, 0), packet_of)
}

/// As many bytes behind the second count as it says, whatever else the sheet holds; none where they are not all there.
pub fn codes_part(sheet: &[u8]) -> &[u8] {
    split_behind_codes(sheet).map_or(&[], |(codes, _)| codes)
}

/// The fields of the packet of an index by their place alone, whatever else the sheet holds; refused where they are not all there.
pub fn packet_fields(sheet: &[u8], i: u32) -> SheetPacket {
    let behind = split_behind_codes(sheet).and_then(|(_, behind)| behind.get(COUNT_BYTES..));
    let (packets, _) = behind.unwrap_or(&[]).as_chunks();
    let bytes = packets.get(i as usize);
    bytes.map_or(SheetPacket::refused(refusal::RANGE, 0), packet_of)
}

/// The big-endian number in the four bytes at a place; 0 where they are not all there.
#[inline]
pub fn word_at(sheet: &[u8], at: usize) -> u32 {
    whole_word(sheet, at).unwrap_or(0)
}

/// The word at a place; none where its bytes are not all there.
#[inline]
fn whole_word(sheet: &[u8], at: usize) -> Option<u32> {
    let bytes = sheet.get(at..)?.first_chunk()?;
    Some(u32::from_be_bytes(*bytes))
}

/// The bytes that the second count says and those behind them; none where they are not all there.
fn split_behind_codes(sheet: &[u8]) -> Option<(&[u8], &[u8])> {
    let (count, behind) = sheet
        .get(second_count_offset(sheet)..)?
        .split_first_chunk()?;
    behind.split_at_checked(u32::from_be_bytes(*count) as usize)
}

/// The offset of the second count, that of the codes: behind the longer first section where the first count says so, else behind the
/// shorter one.
fn second_count_offset(sheet: &[u8]) -> usize {
    let long = word_at(sheet, 0) == PART_BYTES;
    COUNT_BYTES + if long { PART_BYTES } else { FULL_BYTES } as usize
}

/// The packet of its bytes.
#[inline]
pub(crate) fn packet_of(bytes: &[u8; PACKET_BYTES]) -> SheetPacket {
    let [s0, s1, s2, s3, d0, d1, d2, d3, retry, ttl] = *bytes;
    SheetPacket {
        refusal: refusal::NONE,
        place: 0,
        source: u32::from_be_bytes([s0, s1, s2, s3]),
        dst: u32::from_be_bytes([d0, d1, d2, d3]),
        retry: u32::from(retry),
        ttl: u32::from(ttl),
    }
}

/// The parts of a sound sheet.
pub(crate) struct Parts<'a> {
    pub(crate) hall: Hall,
    pub(crate) codes: &'a [u8],
    pub(crate) packets: &'a [[u8; PACKET_BYTES]],
}

/// A refusal with its place.
#[derive(Debug, Clone, Copy, PartialEq, Eq)]
pub(crate) struct Fault {
    pub(crate) refusal: u32,
    pub(crate) place: u32,
}

impl Fault {
    /// The refusal at an offset of a sheet, which is 65,536 at most.
    fn at(refusal: u32, offset: usize) -> Fault {
        Fault {
            refusal,
            place: offset as u32,
        }
    }
}

/// The parts of a sheet, or its first fault.
pub(crate) fn parse(sheet: &[u8]) -> Result<Parts<'_>, Fault> {
    if sheet.len() > SHEET_ROOM {
        return Err(Fault::at(refusal::SHEET, SHEET_ROOM));
    }
    let mut reader = Reader { sheet, at: 0 };
    let hall = reader.hall()?;
    let scale = hall::scale(hall).ok_or(Fault::at(refusal::HALL, 0))?;
    let length = scale.table_length(hall.k, hall.k);
    reader.count(length as u32)?;
    let codes = reader.codes(length)?;
    let packets = reader.packets(scale.size(hall.k))?;
    if reader.at < sheet.len() {
        return Err(Fault::at(refusal::SHEET, reader.at));
    }
    Ok(Parts {
        hall,
        codes,
        packets,
    })
}

/// Takes one field of a sheet after the other.
struct Reader<'a> {
    sheet: &'a [u8],
    at: usize,
}

impl<'a> Reader<'a> {
    /// The cut, told at the sheet's length.
    fn cut(&self) -> Fault {
        Fault::at(refusal::SHEET, self.sheet.len())
    }

    /// The bytes that are not taken yet.
    fn rest(&self) -> &'a [u8] {
        self.sheet.get(self.at..).unwrap_or(&[])
    }

    /// A byte of the hall, which fits.
    fn byte(&mut self, fits: impl Fn(u32) -> bool) -> Result<u32, Fault> {
        let byte = u32::from(*self.rest().first().ok_or(self.cut())?);
        if !fits(byte) {
            return Err(Fault::at(refusal::HALL, self.at));
        }
        self.at += 1;
        Ok(byte)
    }

    /// A word.
    fn word(&mut self) -> Result<u32, Fault> {
        let word = whole_word(self.sheet, self.at).ok_or(self.cut())?;
        self.at += COUNT_BYTES;
        Ok(word)
    }

    /// A count that can only be one number.
    fn count(&mut self, right: u32) -> Result<(), Fault> {
        let place = self.at;
        if self.word()? != right {
            return Err(Fault::at(refusal::LENGTH, place));
        }
        Ok(())
    }

    /// The first section with its count: n, k and b, and in the longer form how many DCell(1)s are fitted.
    fn hall(&mut self) -> Result<Hall, Fault> {
        let place = self.at;
        let bytes = self.word()?;
        if bytes != FULL_BYTES && bytes != PART_BYTES {
            return Err(Fault::at(refusal::LENGTH, place));
        }
        let n = self.byte(hall::n_fits)?;
        let k = self.byte(|k| hall::k_fits(n, k))?;
        let b = self.byte(|b| hall::b_fits(k, b))?;
        let full = Hall::full(n, k, b);
        if bytes == FULL_BYTES {
            return Ok(full);
        }
        let count = self.part_count(full)?;
        Ok(Hall { count, ..full })
    }

    /// The number of DCell(1)s fitted in a hall that is not full, of which the full one is told.
    fn part_count(&mut self, full: Hall) -> Result<u32, Fault> {
        let place = self.at;
        let count = self.word()?;
        if full.k < LEAST_FILLED_K || count >= full.count {
            return Err(Fault::at(refusal::HALL, place));
        }
        Ok(count)
    }

    /// So many codes.
    fn codes(&mut self, length: usize) -> Result<&'a [u8], Fault> {
        let rest = self.rest();
        let codes = rest.get(..length).unwrap_or(rest);
        let bad = ports::first_unknown(codes);
        if bad < codes.len() {
            return Err(Fault::at(refusal::CODE, self.at + bad));
        }
        if codes.len() < length {
            return Err(self.cut());
        }
        self.at += length;
        Ok(codes)
    }

    /// The count of packets and the packets, in a hall of so many servers.
    fn packets(&mut self, servers: u32) -> Result<&'a [[u8; PACKET_BYTES]], Fault> {
        let count = self.word()? as usize;
        let (whole, partial) = self.rest().as_chunks::<PACKET_BYTES>();
        let there = whole.get(..count).unwrap_or(whole);
        for bytes in there {
            self.check(packet_of(bytes), servers)?;
            self.at += PACKET_BYTES;
        }
        if there.len() == count {
            return Ok(there);
        }
        self.check(filled(partial), servers)?;
        Err(self.cut())
    }

    /// Refuses a packet, which begins here, at its first field that is wrong.
    #[inline]
    fn check(&self, packet: SheetPacket, servers: u32) -> Result<(), Fault> {
        if packet.source >= servers {
            return Err(Fault::at(refusal::UID, self.at));
        }
        if packet.dst >= servers {
            return Err(Fault::at(refusal::UID, self.at + DST_OFFSET));
        }
        if packet.retry > u32::from(MOST_RETRY) {
            return Err(Fault::at(refusal::RETRY, self.at + RETRY_OFFSET));
        }
        Ok(())
    }
}

/// The packet of the whole fields at the start of a cut one; the others are 0, which is sound.
fn filled(partial: &[u8]) -> SheetPacket {
    let whole = match partial.len() {
        RETRY_OFFSET.. => partial.len(),
        DST_OFFSET.. => DST_OFFSET,
        _ => 0,
    };
    let mut bytes = [0; PACKET_BYTES];
    for (byte, &there) in bytes.iter_mut().zip(&partial[..whole]) {
        *byte = there;
    }
    packet_of(&bytes)
}

#[cfg(test)]
mod tests {
    use super::*;
    use crate::random::Random;

    const CODES: usize = 11;
    const COUNT_3: usize = 51;
    const PACKETS: usize = 55;

    /// The sheet of docs/RULES.md with so many copies of its packet.
    fn sample(packets: usize) -> Vec<u8> {
        let mut sheet = vec![0, 0, 0, 3, 4, 1, 0, 0, 0, 0, 40];
        sheet.extend([1; 40]);
        sheet[CODES + 7] = 2;
        sheet[CODES + 33] = 2;
        sheet.extend((packets as u32).to_be_bytes());
        for _ in 0..packets {
            sheet.extend([0, 0, 0, 0, 0, 0, 0, 19, 5, 15]);
        }
        sheet
    }

    fn refused(refusal: u32, place: usize) -> Sheet {
        Sheet {
            refusal,
            place: place as u32,
            n: 0,
            k: 0,
            b: 0,
            count: 0,
            packets: 0,
        }
    }

    /// The sheet of a hall of n = 2, k = 2, b = 1 with so many of its seven DCell(1)s fitted, all up, with so many packets.
    fn part_sample(count: u32, packets: usize) -> Vec<u8> {
        let mut sheet = vec![0, 0, 0, 7, 2, 2, 1];
        sheet.extend(count.to_be_bytes());
        sheet.extend([0, 0, 0, 126]);
        sheet.extend([1; 126]);
        sheet.extend((packets as u32).to_be_bytes());
        for _ in 0..packets {
            sheet.extend([0, 0, 0, 0, 0, 0, 0, 17, 5, 15]);
        }
        sheet
    }

    fn with(mut sheet: Vec<u8>, at: usize, byte: u8) -> Vec<u8> {
        sheet[at] = byte;
        sheet
    }

    /// The one sheet or the other, with a few packets.
    fn any_sample(random: &mut Random) -> Vec<u8> {
        let packets = random.below(4) as usize;
        if random.once_in(2) {
            sample(packets)
        } else {
            part_sample(random.below(9), packets)
        }
    }

    /// Reads a sheet one byte-order sentence after the other, with no slices of whole parts.
    fn literal(sheet: &[u8]) -> (u32, usize) {
        let length = sheet.len();
        if length > 65_536 {
            return (10, 65_536);
        }
        let word = |at: usize| -> Option<u32> {
            let bytes: Option<Vec<u8>> = (at..at + 4).map(|i| sheet.get(i).copied()).collect();
            bytes.map(|b| b.iter().fold(0, |sum, &byte| sum << 8 | u32::from(byte)))
        };
        let section = match word(0) {
            None => return (10, length),
            Some(section @ (3 | 7)) => section as usize,
            Some(_) => return (4, 0),
        };
        let mut hall = [0; 3];
        for i in 0..3 {
            let Some(&byte) = sheet.get(4 + i) else {
                return (10, length);
            };
            let sound = match i {
                0 => (2..=8).contains(&byte),
                1 => byte <= 3,
                _ => byte <= hall[1].min(1),
            };
            if !sound {
                return (1, 4 + i);
            }
            hall[i] = byte;
        }
        let mut t = u32::from(hall[0]);
        for _ in 0..hall[1] {
            t *= t + 1;
        }
        if section == 7 {
            let rack = u32::from(hall[0]) * (u32::from(hall[0]) + 1);
            match word(7) {
                None => return (10, length),
                Some(count) if hall[1] >= 2 && count < t / rack => {}
                Some(_) => return (1, 7),
            }
        }
        let codes = (t * u32::from(hall[1] + 1)) as usize;
        match word(4 + section) {
            None => return (10, length),
            Some(count) if count as usize == codes => {}
            Some(_) => return (4, 4 + section),
        }
        for at in 8 + section..8 + section + codes {
            match sheet.get(at) {
                None => return (10, length),
                Some(0..=4) => {}
                Some(_) => return (5, at),
            }
        }
        let mut at = 8 + section + codes;
        let Some(count) = word(at) else {
            return (10, length);
        };
        at += 4;
        for _ in 0..count {
            for _ in 0..2 {
                match word(at) {
                    None => return (10, length),
                    Some(uid) if uid < t => {}
                    Some(_) => return (2, at),
                }
                at += 4;
            }
            match sheet.get(at) {
                None => return (10, length),
                Some(0..=15) => {}
                Some(_) => return (8, at),
            }
            if sheet.get(at + 1).is_none() {
                return (10, length);
            }
            at += 2;
        }
        if at < length {
            return (10, at);
        }
        (0, 0)
    }

    #[test]
    fn the_sample_sheet_reads_to_its_hall_codes_and_packet() {
        let sheet = sample(1);
        let expected = Sheet {
            refusal: 0,
            place: 0,
            n: 4,
            k: 1,
            b: 0,
            count: 1,
            packets: 1,
        };
        assert_eq!(read(&sheet), expected);
        assert_eq!(codes(&sheet), &sheet[CODES..COUNT_3]);
        let expected = SheetPacket {
            refusal: 0,
            place: 0,
            source: 0,
            dst: 19,
            retry: 5,
            ttl: 15,
        };
        assert_eq!(packet(&sheet, 0), expected);
    }

    #[test]
    fn a_packet_that_is_not_there_gets_3_and_a_refused_sheet_its_own_refusal() {
        let refused = SheetPacket::refused;
        assert_eq!(packet(&sample(1), 1), refused(3, 0));
        assert_eq!(packet(&sample(0), u32::MAX), refused(3, 0));
        assert_eq!(packet(&with(sample(1), 18, 7), 0), refused(5, 18));
    }

    #[test]
    fn the_empty_sheet_gets_10_at_0() {
        assert_eq!(read(&[]), refused(10, 0));
    }

    #[test]
    fn every_cut_is_told_at_the_length_of_the_sheet() {
        let sheet = sample(2);
        for length in 0..sheet.len() {
            assert_eq!(read(&sheet[..length]), refused(10, length));
            assert!(codes(&sheet[..length]).is_empty());
        }
        assert_eq!(read(&sheet).packets, 2);
    }

    #[test]
    fn a_surplus_is_told_at_its_first_byte() {
        let mut sheet = sample(1);
        let length = sheet.len();
        for extra in 1..30 {
            sheet.push(extra);
            assert_eq!(read(&sheet), refused(10, length));
        }
    }

    #[test]
    fn a_sheet_over_65536_bytes_gets_10_at_65536_before_anything_else() {
        let length = |length| {
            let mut sheet = sample(6548);
            sheet.resize(length, 0);
            sheet
        };
        let whole = PACKETS + 65_480;
        assert_eq!(whole, 65_535);
        assert_eq!(read(&length(whole)).packets, 6548);
        assert_eq!(read(&length(65_536)), refused(10, 65_535));
        assert_eq!(read(&length(65_537)), refused(10, 65_536));
        assert_eq!(read(&[9; 70_000]), refused(10, 65_536));
    }

    #[test]
    fn each_wrong_field_is_told_at_its_first_byte() {
        let cases = [
            (0, 1, 4, 0),
            (3, 4, 4, 0),
            (4, 1, 1, 4),
            (4, 9, 1, 4),
            (5, 4, 1, 5),
            (6, 2, 1, 6),
            (10, 41, 4, 7),
            (7, 1, 4, 7),
            (CODES, 5, 5, CODES),
            (CODES + 39, 255, 5, CODES + 39),
            (PACKETS, 1, 2, PACKETS),
            (PACKETS + 3, 20, 2, PACKETS),
            (PACKETS + 4, 1, 2, PACKETS + 4),
            (PACKETS + 7, 20, 2, PACKETS + 4),
            (PACKETS + 8, 16, 8, PACKETS + 8),
            (PACKETS + 18, 255, 8, PACKETS + 18),
        ];
        for (at, byte, refusal, place) in cases {
            assert_eq!(read(&with(sample(2), at, byte)), refused(refusal, place));
        }
        assert_eq!(read(&with(sample(1), PACKETS + 9, 255)).refusal, 0);
    }

    #[test]
    fn b_may_not_be_above_k() {
        let sheet = [0, 0, 0, 3, 4, 0, 1];
        assert_eq!(read(&sheet), refused(1, 6));
    }

    #[test]
    fn code_7_in_place_of_both_2s_gets_5_at_the_first() {
        let sheet = with(with(sample(1), CODES + 7, 7), CODES + 33, 7);
        assert_eq!(read(&sheet), refused(5, CODES + 7));
    }

    #[test]
    fn a_whole_wrong_field_comes_before_a_later_cut() {
        let sheet = with(sample(1), PACKETS + 7, 20);
        assert_eq!(read(&sheet[..PACKETS + 8]), refused(2, PACKETS + 4));
        assert_eq!(read(&sheet[..PACKETS + 7]), refused(10, PACKETS + 7));
        let sheet = with(sample(1), PACKETS + 8, 16);
        assert_eq!(read(&sheet[..PACKETS + 9]), refused(8, PACKETS + 8));
        assert_eq!(read(&sheet[..PACKETS + 8]), refused(10, PACKETS + 8));
    }

    #[test]
    fn a_third_count_too_large_is_a_cut_behind_the_packets_there() {
        let mut sheet = sample(2);
        sheet[COUNT_3..PACKETS].copy_from_slice(&[255; 4]);
        let length = sheet.len();
        assert_eq!(read(&sheet), refused(10, length));
        sheet[PACKETS + 18] = 16;
        assert_eq!(read(&sheet), refused(8, PACKETS + 18));
    }

    #[test]
    fn a_hall_too_large_for_a_sheet_is_a_cut_or_an_unknown_code() {
        let mut sheet = vec![0, 0, 0, 3, 8, 3, 1];
        sheet.extend((27_630_792u32 * 4).to_be_bytes());
        sheet.resize(65_536, 1);
        assert_eq!(read(&sheet), refused(10, 65_536));
        sheet[65_535] = 5;
        assert_eq!(read(&sheet), refused(5, 65_535));
    }

    #[test]
    fn every_single_wrong_byte_is_told_as_by_the_literal_reader() {
        for whole in [sample(2), part_sample(3, 2), part_sample(0, 1)] {
            for at in 0..whole.len() {
                for byte in 0..=255 {
                    let sheet = with(whole.clone(), at, byte);
                    let answer = read(&sheet);
                    assert_eq!((answer.refusal, answer.place as usize), literal(&sheet));
                }
            }
        }
    }

    #[test]
    fn a_section_of_7_bytes_tells_how_many_dcell_1s_are_fitted() {
        for count in 0..7 {
            let sheet = part_sample(count, 2);
            let expected = Sheet {
                refusal: 0,
                place: 0,
                n: 2,
                k: 2,
                b: 1,
                count,
                packets: 2,
            };
            assert_eq!(read(&sheet), expected);
            assert_eq!(codes(&sheet), [1; 126]);
            assert_eq!(codes_part(&sheet), [1; 126]);
            assert_eq!(packet(&sheet, 1).dst, 17);
            assert_eq!(packet_fields(&sheet, 1), packet(&sheet, 1));
        }
    }

    #[test]
    fn a_section_of_7_bytes_with_a_full_count_or_one_too_high_gets_1_at_7() {
        for count in [7, 8, 255, 256, 1 << 24, u32::MAX] {
            assert_eq!(read(&part_sample(count, 1)), refused(1, 7));
        }
    }

    #[test]
    fn a_section_of_7_bytes_with_k_below_2_gets_1_at_7_whatever_its_count() {
        for k in [0, 1] {
            for count in [0u32, 1, 2, u32::MAX] {
                let mut sheet = vec![0, 0, 0, 7, 4, k, 0];
                sheet.extend(count.to_be_bytes());
                assert_eq!(read(&sheet), refused(1, 7));
                sheet.pop();
                assert_eq!(read(&sheet), refused(10, 10));
            }
        }
    }

    #[test]
    fn a_first_count_other_than_3_and_7_gets_4_at_0() {
        for count in (0..=255).filter(|count| ![3, 7].contains(count)) {
            assert_eq!(read(&with(sample(1), 3, count)), refused(4, 0));
            assert_eq!(read(&with(part_sample(3, 1), 3, count)), refused(4, 0));
        }
        for place in 0..3 {
            assert_eq!(read(&with(sample(1), place, 1)), refused(4, 0));
            assert_eq!(read(&with(part_sample(3, 1), place, 1)), refused(4, 0));
        }
    }

    #[test]
    fn a_cut_within_the_count_of_dcell_1s_is_told_at_the_length() {
        let sheet = part_sample(u32::MAX, 1);
        for length in 0..11 {
            assert_eq!(read(&sheet[..length]), refused(10, length));
        }
        assert_eq!(read(&sheet[..11]), refused(1, 7));
        let sheet = part_sample(3, 2);
        for length in 0..sheet.len() {
            assert_eq!(read(&sheet[..length]), refused(10, length));
        }
    }

    #[test]
    fn n_k_and_b_are_asked_before_the_count_of_dcell_1s() {
        let sheet = part_sample(u32::MAX, 1);
        for (at, byte) in [(4, 9), (5, 4), (6, 2)] {
            assert_eq!(read(&with(sheet.clone(), at, byte)), refused(1, at));
        }
    }

    #[test]
    fn behind_a_section_of_7_bytes_every_field_stands_4_bytes_farther_on() {
        let cases = [
            (14, 127, 4, 11),
            (15, 5, 5, 15),
            (140, 9, 5, 140),
            (148, 42, 2, 145),
            (152, 42, 2, 149),
            (153, 16, 8, 153),
        ];
        for (at, byte, refusal, place) in cases {
            let sheet = with(part_sample(3, 1), at, byte);
            assert_eq!(read(&sheet), refused(refusal, place));
        }
        let mut sheet = part_sample(3, 1);
        let length = sheet.len();
        sheet.push(1);
        assert_eq!(read(&sheet), refused(10, length));
    }

    #[test]
    fn a_section_of_3_bytes_names_a_full_hall() {
        for (n, k, codes) in [(2, 0, 2), (4, 1, 40), (2, 2, 126), (2, 3, 7_224)] {
            let mut sheet = vec![0, 0, 0, 3, n, k, 0];
            sheet.extend((codes as u32).to_be_bytes());
            sheet.resize(11 + codes, 1);
            sheet.extend([0; 4]);
            let count = hall::racks_of(u32::from(n), u32::from(k));
            assert_eq!((read(&sheet).refusal, read(&sheet).count), (0, count));
        }
    }

    #[test]
    fn damaged_sheets_are_told_as_by_the_literal_reader() {
        let mut random = Random::new(65_536);
        let mut sound = 0;
        for _ in 0..20_000 {
            let mut sheet = any_sample(&mut random);
            for _ in 0..random.below(3) {
                let at = random.below(sheet.len() as u32) as usize;
                sheet[at] = random.byte() >> random.below(8);
            }
            if random.once_in(2) {
                sheet.truncate(random.below(sheet.len() as u32 + 1) as usize);
            }
            let answer = read(&sheet);
            assert_eq!((answer.refusal, answer.place as usize), literal(&sheet));
            sound += u32::from(answer.refusal == 0);
        }
        assert!(sound > 100);
    }

    #[test]
    fn a_word_is_told_where_its_four_bytes_are_and_0_elsewhere() {
        let sheet = [1, 2, 3, 4, 255, 254];
        let words = [0x0102_0304, 0x0203_04FF, 0x0304_FFFE];
        for (at, word) in words.into_iter().enumerate() {
            assert_eq!(word_at(&sheet, at), word);
            assert_eq!(word_at(&sheet[..at + 3], at), 0);
        }
        for at in (3..20).chain(usize::MAX - 9..=usize::MAX) {
            assert_eq!(word_at(&sheet, at), 0);
        }
        assert_eq!(word_at(&[], 0), 0);
        assert_eq!(word_at(&[255; 4], 0), u32::MAX);
    }

    #[test]
    fn the_words_of_the_sample_sheet_are_its_counts_and_uids() {
        let sheet = sample(2);
        let places = [0, 7, COUNT_3, PACKETS, PACKETS + 4];
        assert_eq!(places.map(|at| word_at(&sheet, at)), [3, 40, 2, 0, 19]);
    }

    /// The codes and the fields of a packet by their place, one byte after the other.
    fn literal_parts(sheet: &[u8], i: u32) -> (&[u8], Option<[u32; 4]>) {
        let length = sheet.len() as u64;
        let word = |at: u64| (at..at + 4).fold(0, |sum, i| sum << 8 | u32::from(sheet[i as usize]));
        let start = if length >= 4 && word(0) == 7 { 15 } else { 11 };
        if length < start {
            return (&[], None);
        }
        let end = start + u64::from(word(start - 4));
        if length < end {
            return (&[], None);
        }
        let codes = &sheet[start as usize..end as usize];
        let at = end + 4 + u64::from(i) * 10;
        if length < at + 10 {
            return (codes, None);
        }
        let byte = |at: u64| u32::from(sheet[at as usize]);
        let fields = [word(at), word(at + 4), byte(at + 8), byte(at + 9)];
        (codes, Some(fields))
    }

    /// The packet of some fields, or the one that is not there.
    fn told(fields: Option<[u32; 4]>) -> SheetPacket {
        let [source, dst, retry, ttl] = fields.unwrap_or_default();
        SheetPacket {
            refusal: if fields.is_some() { 0 } else { 3 },
            place: 0,
            source,
            dst,
            retry,
            ttl,
        }
    }

    #[test]
    fn the_parts_of_a_sound_sheet_are_its_codes_and_packets() {
        let sheet = with(sample(3), PACKETS + 13, 7);
        assert_eq!(read(&sheet).packets, 3);
        assert_eq!(codes_part(&sheet), codes(&sheet));
        for i in 0..3 {
            assert_eq!(packet_fields(&sheet, i), packet(&sheet, i));
        }
        assert_eq!(packet_fields(&sheet, 1), told(Some([7, 19, 5, 15])));
    }

    #[test]
    fn the_parts_are_told_whatever_else_the_sheet_holds() {
        let mut sheet = vec![9; 7];
        sheet.extend([0, 0, 0, 2, 77, 88, 0, 0, 0, 0]);
        sheet.extend([1, 2, 3, 4, 5, 6, 7, 8, 99, 255]);
        assert_eq!(codes_part(&sheet), [77, 88]);
        assert_eq!(
            packet_fields(&sheet, 0),
            told(Some([0x0102_0304, 0x0506_0708, 99, 255]))
        );
        assert_eq!(packet_fields(&sheet, 1), told(None));
    }

    #[test]
    fn the_packet_of_an_index_that_wraps_as_an_offset_is_not_there() {
        let sheet = sample(3);
        for i in [3, 429_496_730, 1 << 31, u32::MAX] {
            assert_eq!(packet_fields(&sheet, i), told(None));
        }
    }

    #[test]
    fn the_parts_of_a_cut_sheet_are_those_that_are_all_there() {
        let sheet = sample(2);
        for length in 0..=sheet.len() {
            let cut = &sheet[..length];
            assert_eq!(codes_part(cut).len(), if length < COUNT_3 { 0 } else { 40 });
            for (i, end) in [(0, PACKETS + 10), (1, PACKETS + 20)] {
                let there = (length >= end).then_some([0, 19, 5, 15]);
                assert_eq!(packet_fields(cut, i), told(there));
            }
        }
    }

    #[test]
    fn the_parts_of_damaged_sheets_are_told_as_by_the_literal_reader() {
        let mut random = Random::new(40);
        for _ in 0..20_000 {
            let mut sheet = any_sample(&mut random);
            for _ in 0..random.below(3) {
                let at = random.below(sheet.len() as u32) as usize;
                sheet[at] = random.byte() >> random.below(8);
            }
            if random.once_in(2) {
                let low = second_count_offset(&sheet) + 3;
                sheet[low] = random.byte() >> random.below(8);
            }
            if random.once_in(2) {
                sheet.truncate(random.below(sheet.len() as u32 + 1) as usize);
            }
            let i = random.below(4);
            let (codes, fields) = literal_parts(&sheet, i);
            assert_eq!(codes_part(&sheet), codes);
            assert_eq!(packet_fields(&sheet, i), told(fields));
        }
    }
}
