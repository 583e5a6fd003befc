//! The header of a frame: reading it, finding the payload behind it, and writing it.

use crate::forward::MOST_RETRY;
use crate::refusal;

/// The one version.
pub const VERSION: u8 = 1;
/// The header words without a proxy.
pub const PLAIN_WORDS: u8 = 5;
/// The header words with a proxy.
pub const PROXY_WORDS: u8 = 6;
/// The header bytes without a proxy.
pub const PLAIN_BYTES: usize = PLAIN_WORDS as usize * WORD;
/// The header bytes with a proxy.
pub const PROXY_BYTES: usize = PROXY_WORDS as usize * WORD;
/// The flag PF.
pub const PROXY_FLAG: u8 = 1;

/// The bytes of a word.
const WORD: usize = 4;
/// The top bit of an address: 0 for a server.
const GROUP_BIT: u32 = 1 << 31;
/// The last 28 bits of an address: all ones in a broadcast.
const BROADCAST_BITS: u32 = (1 << 28) - 1;
/// The bits of the first word that hold the payload length.
const LENGTH_BITS: u32 = 0xFFFF;
/// The bits of the third word that hold the checksum.
const CHECKSUM_BITS: u32 = 0xFFFF;
/// The offset of the byte that holds version and DHL.
const VERSION_AT: usize = 0;
/// The bits of that byte that hold DHL.
const WORDS_BITS: u8 = 0xF;
/// The offset of the byte that holds retry and flags.
const RETRY_AT: usize = 8;
/// The bits of that byte that hold the flags.
const FLAG_BITS: u8 = 0xF;
/// The bits by which version and retry stand above what shares their byte.
const NIBBLE: u32 = 4;

/// The fields of a frame's header as read; the place is that of a refusal which tells one.
#[derive(Debug, Clone, Copy, PartialEq, Eq)]
pub struct Header {
    pub refusal: u32,
    pub place: u32,
    pub protocol: u32,
    pub payload_length: u32,
    pub identification: u32,
    pub retry: u32,
    pub ttl: u32,
    pub source: u32,
    pub destination: u32,
    pub has_proxy: bool,
    pub proxy: u32,
    pub header_length: u32,
}

/// The fields of a header to write; the proxy counts only where there is one.
#[derive(Debug, Clone, Copy, PartialEq, Eq)]
pub struct Fields {
    pub protocol: u8,
    pub payload_length: u16,
    pub identification: u32,
    pub retry: u8,
    pub ttl: u8,
    pub source: u32,
    pub destination: u32,
    pub has_proxy: bool,
    pub proxy: u32,
}

/// Reads the header of a frame.
pub fn read(frame: &[u8]) -> Header {
    match parse(frame) {
        Ok(header) => header,
        Err(refusal) => Header {
            refusal,
            place: place_of(refusal),
            protocol: 0,
            payload_length: 0,
            identification: 0,
            retry: 0,
            ttl: 0,
            source: 0,
            destination: 0,
            has_proxy: false,
            proxy: 0,
            header_length: 0,
        },
    }
}

/// The refusal, or the payload of a frame; empty for a refused one.
pub fn payload(frame: &[u8]) -> (u32, &[u8]) {
    let header = match parse(frame) {
        Ok(header) => header,
        Err(refusal) => return (refusal, &[]),
    };
    let start = header.header_length as usize;
    let end = start + header.payload_length as usize;
    (refusal::NONE, frame.get(start..end).unwrap_or(&[]))
}

/// Writes a header to the start of the room; answers the refusal.
pub fn write(fields: Fields, room: &mut [u8]) -> u32 {
    if fields.retry > MOST_RETRY {
        return refusal::RETRY;
    }
    if !addresses_fit(
        fields.source,
        fields.destination,
        fields.has_proxy,
        fields.proxy,
    ) {
        return refusal::ADDRESS;
    }
    let words = header_words(&fields);
    let length = if fields.has_proxy {
        PROXY_BYTES
    } else {
        PLAIN_BYTES
    };
    let Some(written) = room.get_mut(..length) else {
        return refusal::ROOM;
    };
    for (bytes, word) in written.chunks_exact_mut(WORD).zip(words) {
        bytes.copy_from_slice(&word.to_be_bytes());
    }
    refusal::NONE
}

/// The identification after one; 0 after the last.
pub fn next_identification(identification: u32) -> u32 {
    identification.wrapping_add(1)
}

/// Whether source and proxy are servers and the destination is a server, or a broadcast without a proxy.
#[inline]
pub fn addresses_fit(source: u32, destination: u32, has_proxy: bool, proxy: u32) -> bool {
    let server = |address: u32| address & GROUP_BIT == 0;
    let broadcast = !server(destination) && destination & BROADCAST_BITS == BROADCAST_BITS;
    if has_proxy {
        server(source) && server(destination) && server(proxy)
    } else {
        server(source) && (server(destination) || broadcast)
    }
}

/// The ones' complement of a plain sum of 16-bit or 32-bit words, its carries brought in; 65,535 for a sum of 0 alone.
#[inline]
pub fn complement(sum: u64) -> u32 {
    let (word, carry) = (sum as u32).overflowing_add((sum >> u32::BITS) as u32);
    let word = word + u32::from(carry);
    let (half, carry) = (word as u16).overflowing_add((word >> u16::BITS) as u16);
    u32::from(!(half + u16::from(carry)))
}

/// The header of a sound frame, else the refusal; always inlined, as the header is then never laid down in memory for its caller.
#[inline(always)]
fn parse(frame: &[u8]) -> Result<Header, u32> {
    let plain: &[u8; PLAIN_BYTES] = frame.first_chunk().ok_or(refusal::SHORT_FRAME)?;
    let flags = plain[RETRY_AT] & FLAG_BITS;
    let has_proxy = proxy_told(plain[VERSION_AT], flags)?;
    let (proxy, header_length) = if has_proxy {
        (sixth_word(frame)?, PROXY_BYTES)
    } else {
        (0, PLAIN_BYTES)
    };
    let word_at = |place| word(plain, place * WORD);
    let (first, identification, third) = (word_at(0), word_at(1), word_at(2));
    let (source, destination) = (word_at(3), word_at(4));
    let given = third & CHECKSUM_BITS;
    let blank = third & !CHECKSUM_BITS;
    if checksum([first, identification, blank, source, destination, proxy]) != given {
        return Err(refusal::CHECKSUM);
    }
    if !addresses_fit(source, destination, has_proxy, proxy) {
        return Err(refusal::ADDRESS);
    }
    let payload_length = first & LENGTH_BITS;
    if frame.len() - header_length < payload_length as usize {
        return Err(refusal::SHORT_FRAME);
    }
    let [_, protocol, ..] = first.to_be_bytes();
    let [retry_and_flags, ttl, ..] = third.to_be_bytes();
    Ok(Header {
        refusal: refusal::NONE,
        place: 0,
        protocol: u32::from(protocol),
        payload_length,
        identification,
        retry: u32::from(retry_and_flags >> NIBBLE),
        ttl: u32::from(ttl),
        source,
        destination,
        has_proxy,
        proxy,
        header_length: header_length as u32,
    })
}

/// Whether the version and DHL byte and the flags tell of a proxy; the refusal where they break the rule.
#[inline]
fn proxy_told(version_and_words: u8, flags: u8) -> Result<bool, u32> {
    const PLAIN: (u8, u8) = (VERSION << NIBBLE | PLAIN_WORDS, 0);
    const PROXY: (u8, u8) = (VERSION << NIBBLE | PROXY_WORDS, PROXY_FLAG);
    match (version_and_words, flags) {
        PLAIN => Ok(false),
        PROXY => Ok(true),
        _ => Err(field_refusal(version_and_words, flags)),
    }
}

/// The refusal of a version and DHL byte and flags that break the rule: that of the version, DHL, the flags, else PF.
#[cold]
fn field_refusal(version_and_words: u8, flags: u8) -> u32 {
    let words = version_and_words & WORDS_BITS;
    if version_and_words >> NIBBLE != VERSION {
        refusal::VERSION
    } else if words != PLAIN_WORDS && words != PROXY_WORDS {
        refusal::DHL
    } else if flags & !PROXY_FLAG != 0 {
        refusal::FLAGS
    } else {
        refusal::PF
    }
}

/// The place of a frame's refusal: the byte that holds the field, or 0 where the refusal tells no place.
#[inline]
fn place_of(refusal: u32) -> u32 {
    match refusal {
        refusal::VERSION | refusal::DHL => VERSION_AT as u32,
        refusal::FLAGS | refusal::PF => RETRY_AT as u32,
        _ => 0,
    }
}

/// The word behind the five that every header has.
#[inline]
fn sixth_word(frame: &[u8]) -> Result<u32, u32> {
    let long: &[u8; PROXY_BYTES] = frame.first_chunk().ok_or(refusal::SHORT_FRAME)?;
    Ok(word(long, PLAIN_BYTES))
}

/// The big-endian word at an offset that the bytes hold.
#[inline]
fn word<const LENGTH: usize>(bytes: &[u8; LENGTH], at: usize) -> u32 {
    u32::from_be_bytes([bytes[at], bytes[at + 1], bytes[at + 2], bytes[at + 3]])
}

/// The checksum of RFC 791 over header words whose checksum field is zero; a proxy of 0 adds nothing.
#[inline]
fn checksum(words: [u32; 6]) -> u32 {
    complement(words.iter().map(|&word| u64::from(word)).sum())
}

/// The words of a sound header, checksum included; the sixth is 0 without a proxy.
#[inline]
fn header_words(fields: &Fields) -> [u32; 6] {
    let (words, flags, proxy) = if fields.has_proxy {
        (PROXY_WORDS, PROXY_FLAG, fields.proxy)
    } else {
        (PLAIN_WORDS, 0, 0)
    };
    let [length_high, length_low] = fields.payload_length.to_be_bytes();
    let first = [
        VERSION << NIBBLE | words,
        fields.protocol,
        length_high,
        length_low,
    ];
    let third = [fields.retry << NIBBLE | flags, fields.ttl, 0, 0];
    let mut header = [
        u32::from_be_bytes(first),
        fields.identification,
        u32::from_be_bytes(third),
        fields.source,
        fields.destination,
        proxy,
    ];
    header[2] |= checksum(header);
    header
}

#[cfg(test)]
mod tests {
    use super::*;
    use crate::random::Random;

    const SAMPLE: [u8; 20] = [
        0x15, 0x06, 0, 0, 0, 0, 0, 1, 0x50, 0x0F, 0x9A, 0xD6, 0, 0, 0, 0, 0, 0, 0, 0x13,
    ];

    const SAMPLE_FIELDS: Fields = Fields {
        protocol: 6,
        payload_length: 0,
        identification: 1,
        retry: 5,
        ttl: 15,
        source: 0,
        destination: 19,
        has_proxy: false,
        proxy: 0,
    };

    const NOTHING: Header = Header {
        refusal: 0,
        place: 0,
        protocol: 0,
        payload_length: 0,
        identification: 0,
        retry: 0,
        ttl: 0,
        source: 0,
        destination: 0,
        has_proxy: false,
        proxy: 0,
        header_length: 0,
    };

    /// A refusal that tells no place.
    fn refused(refusal: u32) -> Header {
        refused_at(refusal, 0)
    }

    fn refused_at(refusal: u32, place: u32) -> Header {
        Header {
            refusal,
            place,
            ..NOTHING
        }
    }

    /// The header that fields read back to.
    fn expected(fields: &Fields) -> Header {
        Header {
            refusal: 0,
            place: 0,
            protocol: fields.protocol.into(),
            payload_length: fields.payload_length.into(),
            identification: fields.identification,
            retry: fields.retry.into(),
            ttl: fields.ttl.into(),
            source: fields.source,
            destination: fields.destination,
            has_proxy: fields.has_proxy,
            proxy: if fields.has_proxy { fields.proxy } else { 0 },
            header_length: if fields.has_proxy { 24 } else { 20 },
        }
    }

    /// Sums 16-bit words one by one with end-around carry.
    fn literal_checksum(header: &[u8]) -> u16 {
        let mut sum = 0u16;
        for (i, pair) in header.chunks(2).enumerate() {
            let word = if i == 5 {
                0
            } else {
                u16::from_be_bytes([pair[0], pair[1]])
            };
            let (added, carry) = sum.overflowing_add(word);
            sum = added + u16::from(carry);
        }
        !sum
    }

    /// Puts the right checksum into a header.
    fn sealed(mut frame: Vec<u8>, header_length: usize) -> Vec<u8> {
        let sum = literal_checksum(&frame[..header_length]);
        frame[10..12].copy_from_slice(&sum.to_be_bytes());
        frame
    }

    fn any_fields(random: &mut Random) -> Fields {
        let has_proxy = random.once_in(2);
        let destination = if random.once_in(3) && !has_proxy {
            0x8FFF_FFFF | random.word()
        } else {
            random.word() >> 1
        };
        Fields {
            protocol: random.byte(),
            payload_length: random.word() as u16,
            identification: random.word(),
            retry: random.byte() % 16,
            ttl: random.byte(),
            source: random.word() >> 1,
            destination,
            has_proxy,
            proxy: random.word() >> 1,
        }
    }

    #[test]
    fn the_sample_header_reads_to_its_fields_and_they_write_it() {
        assert_eq!(read(&SAMPLE), expected(&SAMPLE_FIELDS));
        let mut room = [0xEE; 22];
        assert_eq!(write(SAMPLE_FIELDS, &mut room), 0);
        assert_eq!(room[..20], SAMPLE);
        assert_eq!(room[20..], [0xEE; 2]);
    }

    #[test]
    fn the_identification_after_the_last_is_0() {
        assert_eq!(next_identification(0), 1);
        assert_eq!(next_identification(4_294_967_295), 0);
    }

    #[test]
    fn addresses_fit_by_their_kinds_alone() {
        let servers = [0, 19, 0x0FFF_FFFF, 0x7FFF_FFFF];
        let broadcasts = [0x8FFF_FFFF, 0x9FFF_FFFF, 0xCFFF_FFFF, u32::MAX];
        let multicasts = [0x8000_0000, 0x87FF_FFFF, 0x8FFF_FFFE, 0xFFFF_FFFE];
        let kinds = [('s', servers), ('b', broadcasts), ('m', multicasts)];
        let any = kinds.map(|(kind, all)| all.map(|address| (kind, address)));
        let any = any.as_flattened();
        for &(source_kind, source) in any {
            for &(destination_kind, destination) in any {
                for &(proxy_kind, proxy) in any {
                    let plain = matches!((source_kind, destination_kind), ('s', 's' | 'b'));
                    let proxied = (source_kind, destination_kind, proxy_kind) == ('s', 's', 's');
                    assert_eq!(addresses_fit(source, destination, false, proxy), plain);
                    assert_eq!(addresses_fit(source, destination, true, proxy), proxied);
                }
            }
        }
    }

    /// 65535 less the number from 1 to 65535 of the same rest, or less 0 for 0.
    fn literal_complement(sum: u64) -> u32 {
        let folded = match sum {
            0 => 0,
            other => (other - 1) % 65_535 + 1,
        };
        65_535 - folded as u32
    }

    #[test]
    fn the_complement_of_any_sum_is_that_of_its_rest() {
        assert_eq!(complement(0), 65_535);
        assert_eq!(complement(1), 65_534);
        assert_eq!(complement(65_535), 0);
        assert_eq!(complement(65_536), 65_534);
        assert_eq!(complement(u64::MAX), 0);
        let mut random = Random::new(768);
        for near in 0..200_000 {
            let power = 1u64 << (near % 64);
            let sums = [
                near,
                u64::MAX - near,
                power.wrapping_sub(near / 64),
                power.wrapping_add(near / 64),
                65_535 * (random.bits() >> (16 + near % 48)),
                random.bits() >> (near % 64),
            ];
            for sum in sums {
                assert_eq!(complement(sum), literal_complement(sum));
            }
        }
    }

    #[test]
    fn the_complement_is_the_checksum_by_halves_and_by_words() {
        let mut header = SAMPLE;
        header[10..12].fill(0);
        let (halves, _) = header.as_chunks();
        let (words, _) = header.as_chunks();
        let halves = halves.iter().copied().map(u16::from_be_bytes);
        let words = words.iter().copied().map(u32::from_be_bytes);
        assert_eq!(complement(halves.map(u64::from).sum()), 0x9AD6);
        assert_eq!(complement(words.map(u64::from).sum()), 0x9AD6);
    }

    #[test]
    fn frames_under_20_bytes_get_7() {
        for length in 0..20 {
            assert_eq!(read(&SAMPLE[..length]), refused(7));
        }
        assert_eq!(read(&[0xFF; 19]), refused(7));
    }

    /// The sample with a first byte and flags, four bytes behind it, and the checksum that is due.
    fn sample_with(first: u8, flags: u8) -> Vec<u8> {
        let mut frame = SAMPLE.to_vec();
        frame.extend([0; 4]);
        frame[0] = first;
        frame[8] = 0x50 | flags;
        sealed(frame, if first % 16 == 6 { 24 } else { 20 })
    }

    /// First bytes and flags with one fault or with two, and the number and the place of the first.
    const FIELD_FAULTS: [(u8, u8, u32, u32); 14] = [
        // The version alone, and with a wrong DHL, a flag too many, and PF against DHL.
        (0x05, 0, 13, 0),
        (0x26, 1, 13, 0),
        (0x27, 0, 13, 0),
        (0x25, 4, 13, 0),
        (0x25, 1, 13, 0),
        // DHL alone, and with a flag too many, and PF set.
        (0x14, 0, 14, 0),
        (0x17, 0, 14, 0),
        (0x17, 8, 14, 0),
        (0x17, 1, 14, 0),
        // A flag too many alone, and with PF against DHL.
        (0x15, 2, 15, 8),
        (0x16, 2, 15, 8),
        (0x15, 5, 15, 8),
        // PF against DHL.
        (0x15, 1, 16, 8),
        (0x16, 0, 16, 8),
    ];

    #[test]
    fn version_dhl_flags_and_pf_get_their_numbers_and_places_in_that_order() {
        for (first, flags, number, place) in FIELD_FAULTS {
            let frame = sample_with(first, flags);
            assert_eq!(read(&frame), refused_at(number, place), "{first:x} {flags}");
            assert_eq!(payload(&frame), (number, &[][..]));
        }
    }

    #[test]
    fn every_first_byte_and_flag_gets_the_number_and_the_place_of_its_first_fault() {
        for first in 0..=255u8 {
            for flags in 0..16 {
                let told = match (first / 16, first % 16, flags) {
                    (0 | 2.., _, _) => (13, 0),
                    (_, 0..=4 | 7.., _) => (14, 0),
                    (_, _, 2..) => (15, 8),
                    (_, 5, 1) | (_, 6, 0) => (16, 8),
                    _ => (0, 0),
                };
                let header = read(&sample_with(first, flags));
                assert_eq!((header.refusal, header.place), told, "{first:x} {flags}");
            }
        }
    }

    #[test]
    fn version_dhl_flags_and_pf_come_after_20_bytes_and_before_all_else() {
        for (first, flags, number, place) in FIELD_FAULTS {
            let mut frame = sample_with(first, flags);
            frame[3] = 9;
            frame[10] ^= 1;
            frame[12] = 0x80;
            for length in 20..=24 {
                assert_eq!(read(&frame[..length]), refused_at(number, place));
            }
            for length in 0..20 {
                assert_eq!(read(&frame[..length]), refused(7));
            }
        }
    }

    #[test]
    fn an_accepted_frame_and_the_refusals_7_9_and_11_tell_place_0() {
        let told = |frame: &[u8]| {
            let header = read(frame);
            (header.refusal, header.place)
        };
        let with = |place: usize, byte: u8| {
            let mut frame = SAMPLE.to_vec();
            frame[place] = byte;
            frame
        };
        assert_eq!(told(&SAMPLE), (0, 0));
        assert_eq!(told(&sample_with(0x16, 1)), (0, 0));
        assert_eq!(told(&SAMPLE[..19]), (7, 0));
        assert_eq!(told(&sample_with(0x16, 1)[..23]), (7, 0));
        assert_eq!(told(&sealed(with(3, 1), 20)), (7, 0));
        assert_eq!(told(&with(11, 0xD7)), (9, 0));
        assert_eq!(told(&sealed(with(12, 0x80), 20)), (11, 0));
        assert_eq!(told(&sealed(with(16, 0x80), 20)), (11, 0));
    }

    #[test]
    fn a_header_of_six_words_in_under_24_bytes_gets_7_before_the_checksum() {
        let mut frame = [0; 23];
        frame[0] = 0x16;
        frame[8] = 0x01;
        assert_eq!(read(&frame), refused(7));
        assert_eq!(read(&[&frame[..], &[9]].concat()), refused(9));
    }

    #[test]
    fn every_other_checksum_gets_9() {
        let mut frame = SAMPLE;
        for sum in 0..=0xFFFFu16 {
            frame[10..12].copy_from_slice(&sum.to_be_bytes());
            let refusal = if sum == 0x9AD6 { 0 } else { 9 };
            assert_eq!(read(&frame).refusal, refusal);
        }
    }

    #[test]
    fn a_checksum_of_ffff_where_0000_is_due_gets_9() {
        let fields = Fields {
            identification: 0x9AD6 + 1,
            ..SAMPLE_FIELDS
        };
        let mut frame = [0; 20];
        assert_eq!(write(fields, &mut frame), 0);
        assert_eq!(frame[10..12], [0, 0]);
        assert_eq!(read(&frame).refusal, 0);
        frame[10..12].copy_from_slice(&[0xFF, 0xFF]);
        assert_eq!(read(&frame), refused(9));
    }

    #[test]
    fn a_sum_that_carries_twice_has_the_literal_checksum() {
        let fields = Fields {
            identification: u32::MAX,
            source: 0x4D75_8000,
            destination: 0x4D75_8000,
            ..SAMPLE_FIELDS
        };
        let mut frame = [0; 20];
        assert_eq!(write(fields, &mut frame), 0);
        assert_eq!(frame[10..12], literal_checksum(&frame).to_be_bytes());
        assert_eq!(read(&frame), expected(&fields));
    }

    #[test]
    fn address_kinds_outside_the_rule_get_11_in_reading_and_writing() {
        let server = 0x7FFF_FFFF;
        let broadcast = 0x9FFF_FFFF;
        let multicast = 0x9FFF_FFFE;
        let cases = [
            (server, server, None, 0),
            (server, broadcast, None, 0),
            (server, multicast, None, 11),
            (server, 0x8000_0000, None, 11),
            (broadcast, server, None, 11),
            (multicast, server, None, 11),
            (server, server, Some(server), 0),
            (server, server, Some(broadcast), 11),
            (server, broadcast, Some(server), 11),
            (broadcast, server, Some(server), 11),
        ];
        for (source, destination, proxy, refusal) in cases {
            let fields = Fields {
                source,
                destination,
                has_proxy: proxy.is_some(),
                proxy: proxy.unwrap_or(multicast),
                ..SAMPLE_FIELDS
            };
            let mut room = [0xEE; 24];
            assert_eq!(write(fields, &mut room), refusal);
            assert_eq!(room == [0xEE; 24], refusal != 0);
            let mut frame = vec![0x15, 6, 0, 0, 0, 0, 0, 1, 0x50, 15, 0, 0];
            frame.extend(source.to_be_bytes());
            frame.extend(destination.to_be_bytes());
            if let Some(proxy) = proxy {
                frame[0] = 0x16;
                frame[8] = 0x51;
                frame.extend(proxy.to_be_bytes());
            }
            let length = frame.len();
            let frame = sealed(frame, length);
            assert_eq!(read(&frame).refusal, refusal);
            if refusal == 0 {
                assert_eq!(frame, room[..length]);
            }
        }
    }

    #[test]
    fn a_broadcast_of_each_of_the_eight_scopes_is_sound() {
        for scope in 0..8 {
            let fields = Fields {
                destination: 0x8FFF_FFFF | scope << 28,
                ..SAMPLE_FIELDS
            };
            let mut room = [0; 20];
            assert_eq!(write(fields, &mut room), 0);
            assert_eq!(read(&room), expected(&fields));
        }
    }

    #[test]
    fn a_payload_shorter_than_told_gets_7_and_later_bytes_are_padding() {
        let fields = Fields {
            payload_length: 3,
            ..SAMPLE_FIELDS
        };
        let mut frame = [0; 26];
        assert_eq!(write(fields, &mut frame), 0);
        frame[20..].copy_from_slice(&[1, 2, 3, 4, 5, 6]);
        for length in 20..23 {
            assert_eq!(read(&frame[..length]), refused(7));
            assert_eq!(payload(&frame[..length]), (7, &[][..]));
        }
        for length in 23..=26 {
            assert_eq!(read(&frame[..length]), expected(&fields));
            assert_eq!(payload(&frame[..length]), (0, &[1, 2, 3][..]));
        }
    }

    #[test]
    fn address_kinds_come_before_a_short_payload_and_after_the_checksum() {
        let mut frame = SAMPLE.to_vec();
        frame[3] = 9;
        frame[12] = 0x80;
        assert_eq!(read(&frame), refused(9));
        assert_eq!(read(&sealed(frame, 20)), refused(11));
    }

    #[test]
    fn writing_refuses_in_order_and_leaves_the_room_as_lent() {
        let mut room = [0xEE; 19];
        let wrong = Fields {
            retry: 16,
            source: u32::MAX,
            ..SAMPLE_FIELDS
        };
        assert_eq!(write(wrong, &mut room), 8);
        assert_eq!(write(Fields { retry: 15, ..wrong }, &mut room), 11);
        assert_eq!(write(SAMPLE_FIELDS, &mut room), 6);
        assert_eq!(room, [0xEE; 19]);
        let proxied = Fields {
            has_proxy: true,
            ..SAMPLE_FIELDS
        };
        let mut room = [0xEE; 23];
        assert_eq!(write(proxied, &mut room), 6);
        assert_eq!(room, [0xEE; 23]);
    }

    #[test]
    fn what_is_written_reads_back_and_has_the_literal_checksum() {
        let mut random = Random::new(791);
        for _ in 0..20_000 {
            let fields = any_fields(&mut random);
            let mut frame = vec![0xEE; 24 + usize::from(fields.payload_length)];
            assert_eq!(write(fields, &mut frame), 0);
            let header = read(&frame);
            assert_eq!(header, expected(&fields));
            let length = header.header_length as usize;
            let sum = literal_checksum(&frame[..length]);
            assert_eq!(frame[10..12], sum.to_be_bytes());
            assert!(frame[length..].iter().all(|&byte| byte == 0xEE));
            assert_eq!(payload(&frame).1.len(), usize::from(fields.payload_length));
            assert_ne!(sum, 0xFFFF);
        }
    }

    #[test]
    fn a_damaged_bit_is_always_refused() {
        let mut random = Random::new(1071);
        for _ in 0..500 {
            let mut frame = [0; 24];
            let fields = Fields {
                payload_length: 0,
                ..any_fields(&mut random)
            };
            assert_eq!(write(fields, &mut frame), 0);
            let length = if fields.has_proxy { 24 } else { 20 };
            for bit in 0..length * 8 {
                frame[bit / 8] ^= 1 << (bit % 8);
                assert_ne!(read(&frame[..length]).refusal, 0);
                frame[bit / 8] ^= 1 << (bit % 8);
            }
        }
    }
}
