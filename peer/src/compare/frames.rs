//! Frames and header fields to call with: sound ones, those at the edges of their fields, and damaged ones.

use std::ops::Range;

use peer::frame::{
    Fields, PLAIN_BYTES, PLAIN_WORDS, PROXY_BYTES, PROXY_FLAG, PROXY_WORDS, VERSION,
};
use peer::random::Random;

use super::faults::{
    due, header_end, Fault, Faults, CHECKSUM_AT, DESTINATION_AT, FAULTS, FRAME_FAULTS, RETRY_AT,
    SOURCE_AT, WORD,
};
use super::inputs::within;

/// The first byte of a header without a proxy: version 1 and five words.
const PLAIN_FIRST: u8 = 0x15;
/// The first byte of a header with a proxy: version 1 and six words.
const PROXY_FIRST: u8 = 0x16;
/// The highest DHL, and the highest version.
const MOST_NIBBLE: u8 = 15;
/// The bytes of the longest header that a DHL tells of.
const LONGEST_HEADER: usize = MOST_NIBBLE as usize * WORD;
/// The most padding behind a payload.
const MOST_PADDING: u32 = 12;
/// The highest retry.
const MOST_RETRY: u32 = 15;
/// One address in so many is of any kind.
const ANY_KIND: u32 = 12;
/// The longest payload of most frames.
const SMALL_PAYLOAD: u32 = 40;
/// One frame in so many may have a payload of any length.
const ANY_PAYLOAD: u32 = 64;
/// A random choice of faults has fewer than this.
const CHOSEN: u32 = 4;
/// So many frames with each choice of faults are tried by every comparison.
const TRIED: usize = 32;

/// Addresses of every kind, at the edges of each: servers, broadcasts and neither.
pub const ADDRESSES: [u32; 10] = [
    0,
    1,
    0x0FFF_FFFF,
    0x7FFF_FFFF,
    0x8000_0000,
    0x8FFF_FFFE,
    0x8FFF_FFFF,
    0xBFFF_FFFF,
    0xFFFF_FFFE,
    0xFFFF_FFFF,
];
/// Fields of a sound header without a proxy.
pub const PLAIN: Fields = Fields {
    protocol: 6,
    payload_length: 0,
    identification: 1,
    retry: 5,
    ttl: 15,
    source: 0,
    destination: 19,
    has_proxy: false,
    proxy: 0,
};
/// Fields of a sound header with a proxy.
pub const PROXIED: Fields = Fields {
    has_proxy: true,
    proxy: 4,
    ..PLAIN
};

/// The bytes of the header of these fields, whatever they are, with the checksum that is due.
pub fn header(fields: &Fields) -> Vec<u8> {
    let (first, flag) = if fields.has_proxy {
        (PROXY_FIRST, PROXY_FLAG)
    } else {
        (PLAIN_FIRST, 0)
    };
    let mut bytes = vec![first, fields.protocol];
    bytes.extend(fields.payload_length.to_be_bytes());
    bytes.extend(fields.identification.to_be_bytes());
    bytes.extend([fields.retry << 4 | flag, fields.ttl, 0, 0]);
    bytes.extend(fields.source.to_be_bytes());
    bytes.extend(fields.destination.to_be_bytes());
    if fields.has_proxy {
        bytes.extend(fields.proxy.to_be_bytes());
    }
    mend(&mut bytes);
    bytes
}

/// Puts the checksum that is due into a frame; one too short for it stays as it is.
pub fn mend(frame: &mut [u8]) {
    let sum = due(frame);
    if let Some(field) = frame.get_mut(CHECKSUM_AT..SOURCE_AT) {
        field.copy_from_slice(&sum.to_be_bytes());
    }
}

/// Fields at their edges or anywhere; mostly sound for a frame, as retry is never above its range here.
pub fn any_fields(random: &mut Random) -> Fields {
    let has_proxy = random.once_in(2);
    Fields {
        protocol: byte(random),
        payload_length: payload_length(random),
        identification: word(random),
        retry: random.below(MOST_RETRY + 1) as u8,
        ttl: byte(random),
        source: address(random),
        destination: destination(random, has_proxy),
        has_proxy,
        proxy: address(random),
    }
}

/// Fields of a sound header.
pub fn sound_fields(random: &mut Random, has_proxy: bool, payload_length: u16) -> Fields {
    Fields {
        protocol: random.byte(),
        payload_length,
        identification: random.word(),
        retry: random.below(MOST_RETRY + 1) as u8,
        ttl: random.byte(),
        source: random.word() >> 1,
        destination: random.word() >> 1,
        has_proxy,
        proxy: random.word() >> 1,
    }
}

/// A header with a payload of the told length behind it.
pub fn frame(random: &mut Random, fields: &Fields) -> Vec<u8> {
    let mut frame = header(fields);
    extend(random, &mut frame, u32::from(fields.payload_length));
    frame
}

/// Any frame: sound, padded, cut, or damaged in one of many ways.
pub fn any_frame(random: &mut Random) -> Vec<u8> {
    let fields = any_fields(random);
    let mut frame = frame(random, &fields);
    match random.below(12) {
        0 => flip(random, &mut frame),
        1 => {
            flip(random, &mut frame);
            mend(&mut frame);
        }
        2 => cut(random, &mut frame),
        3 => pad(random, &mut frame),
        4 => turn_checksum(&mut frame),
        5 => other_kind(random, &mut frame),
        6 => frame.fill_with(|| random.byte()),
        7 | 8 => {
            let chosen = any_choice(random);
            frame = faulty(random, chosen);
        }
        _ => {}
    }
    frame
}

/// The frames that every comparison tries.
pub fn edge_frames() -> impl Iterator<Item = Vec<u8>> {
    cuts()
        .chain(kinds())
        .chain(flips())
        .chain(checksums())
        .chain(choices())
        .chain(edge_fields().map(|fields| header(&fields)))
}

/// Header fields at their edges, each alone, and addresses of every kind in every place.
pub fn edge_fields() -> impl Iterator<Item = Fields> {
    [PLAIN, PROXIED]
        .into_iter()
        .flat_map(|fields| numbers(fields).chain(addresses(fields)))
}

/// Fields with each number at its edges, a payload length above 0 among them.
fn numbers(fields: Fields) -> impl Iterator<Item = Fields> {
    let bytes = [0, 1, 127, 128, 254, 255];
    let protocols = bytes.map(|protocol| Fields { protocol, ..fields });
    let ttls = bytes.map(|ttl| Fields { ttl, ..fields });
    let retries = (0..=15).map(move |retry| Fields { retry, ..fields });
    let lengths = [0, 1, 255, 256, 0x7FFF, 0x8000, 0xFFFE, 0xFFFF].map(|payload_length| Fields {
        payload_length,
        ..fields
    });
    let identifications = edge_words().map(move |identification| Fields {
        identification,
        ..fields
    });
    let bytes = protocols.into_iter().chain(ttls);
    bytes.chain(lengths).chain(retries).chain(identifications)
}

/// Fields with addresses of every kind in every place.
fn addresses(fields: Fields) -> impl Iterator<Item = Fields> {
    let triples = ADDRESSES.into_iter().flat_map(|source| {
        let pairs = ADDRESSES.into_iter();
        pairs.flat_map(move |destination| ADDRESSES.map(|proxy| (source, destination, proxy)))
    });
    triples.map(move |(source, destination, proxy)| Fields {
        source,
        destination,
        proxy,
        ..fields
    })
}

/// 0, the words of one bit, those of all lower bits, and those above: every edge a word has.
pub fn edge_words() -> impl Iterator<Item = u32> {
    (0..u32::BITS).flat_map(|bit| {
        let word = 1u32 << bit;
        [
            word - 1,
            word,
            word + 1,
            u32::MAX - word,
            u32::MAX - (word - 1),
        ]
    })
}

/// Two frames with payload and padding, cut at every length.
fn cuts() -> impl Iterator<Item = Vec<u8>> {
    const PAYLOAD: u8 = 9;
    const PADDING: u8 = 3;
    [PLAIN, PROXIED].into_iter().flat_map(|fields| {
        let mut frame = header(&Fields {
            payload_length: u16::from(PAYLOAD),
            ..fields
        });
        frame.extend(1..=PAYLOAD + PADDING);
        (0..=frame.len()).map(move |length| frame[..length].to_vec())
    })
}

/// Every first byte with all flags, in frames of 20 to 24 bytes and in one that holds every header, each with the checksum that is due.
fn kinds() -> impl Iterator<Item = Vec<u8>> {
    let pairs = (0..=u8::MAX).flat_map(|first| (0..16).map(move |flags| (first, flags)));
    pairs.flat_map(|(first, flags)| {
        let lengths = (PLAIN_BYTES..=PROXY_BYTES).chain([LONGEST_HEADER]);
        lengths.map(move |length| {
            let mut frame = header(&PROXIED);
            frame.resize(length, 0);
            frame[0] = first;
            frame[RETRY_AT] = 0x50 | flags;
            mend(&mut frame);
            frame
        })
    })
}

/// Frames with every choice of faults, of one seed, for every comparison.
fn choices() -> impl Iterator<Item = Vec<u8>> {
    let mut random = Random::new(4);
    let choices = Faults::choices().flat_map(|chosen| [chosen; TRIED]);
    choices.map(move |chosen| faulty(&mut random, chosen))
}

/// Two headers with every one of their bits turned, the checksum mended and not.
fn flips() -> impl Iterator<Item = Vec<u8>> {
    [PLAIN, PROXIED].into_iter().flat_map(|fields| {
        let frame = header(&fields);
        (0..16 * frame.len()).map(move |turn| {
            let mut frame = frame.clone();
            frame[turn / 16] ^= 1 << (turn % 8);
            if turn % 16 < 8 {
                mend(&mut frame);
            }
            frame
        })
    })
}

/// One header with every checksum, and one to which 0000 is due with FFFF too.
fn checksums() -> impl Iterator<Item = Vec<u8>> {
    let with = |mut frame: Vec<u8>, sum: u16| {
        frame[CHECKSUM_AT..SOURCE_AT].copy_from_slice(&sum.to_be_bytes());
        frame
    };
    let all = (0..=u16::MAX).map(move |sum| with(header(&PLAIN), sum));
    let due = [PLAIN, PROXIED].map(|fields| zero_due(header(&fields)));
    let turned = due
        .into_iter()
        .flat_map(move |frame| [0, 1, 0xFFFE, 0xFFFF].map(|sum| with(frame.clone(), sum)));
    all.chain(turned)
}

/// A frame whose identification is such that the checksum 0000 is due, and that has it.
fn zero_due(mut frame: Vec<u8>) -> Vec<u8> {
    frame[6..8].fill(0);
    mend(&mut frame);
    let sum = [frame[CHECKSUM_AT], frame[CHECKSUM_AT + 1]];
    frame[6..8].copy_from_slice(&sum);
    mend(&mut frame);
    frame
}

/// So many random bytes behind the frame.
fn extend(random: &mut Random, frame: &mut Vec<u8>, count: u32) {
    frame.extend((0..count).map(|_| random.byte()));
}

/// Turns one to three bits, mostly in the header.
fn flip(random: &mut Random, frame: &mut [u8]) {
    for _ in 0..=random.below(3) {
        let bytes = if random.once_in(8) {
            frame.len()
        } else {
            PLAIN_BYTES
        };
        frame[random.below(bytes as u32) as usize] ^= 1 << random.below(8);
    }
}

/// Cuts a frame to any length.
fn cut(random: &mut Random, frame: &mut Vec<u8>) {
    frame.truncate(random.below(frame.len() as u32) as usize);
}

/// Puts padding behind a frame.
fn pad(random: &mut Random, frame: &mut Vec<u8>) {
    let count = 1 + random.below(MOST_PADDING);
    extend(random, frame, count);
}

/// Makes 0000 the checksum that is due, and FFFF the one that is there.
fn turn_checksum(frame: &mut Vec<u8>) {
    let mut turned = zero_due(std::mem::take(frame));
    turned[CHECKSUM_AT..SOURCE_AT].fill(0xFF);
    *frame = turned;
}

/// Another version, DHL or flags, with the checksum that is due.
fn other_kind(random: &mut Random, frame: &mut [u8]) {
    match random.below(3) {
        0 => frame[0] = random.byte(),
        1 => frame[0] ^= PLAIN_FIRST ^ PROXY_FIRST,
        _ => frame[RETRY_AT] = random.byte(),
    }
    mend(frame);
}

/// No fault or a few that a frame can have together.
fn any_choice(random: &mut Random) -> Faults {
    let mut chosen = Faults::NONE;
    for _ in 0..random.below(CHOSEN) {
        let fault = FAULTS[random.below(FRAME_FAULTS as u32) as usize];
        if chosen.can_meet(fault) {
            chosen = chosen.and(fault);
        }
    }
    chosen
}

/// A frame that has the chosen faults and no other; they are some that it can have together.
fn faulty(random: &mut Random, chosen: Faults) -> Vec<u8> {
    let payload = within(random, SMALL_PAYLOAD) + u32::from(chosen.has(Fault::Payload));
    let mut frame = header(&sound_fields(random, true, payload as u16));
    let words = chosen_words(random, chosen);
    frame[0] = chosen_version(random, chosen) << 4 | words;
    frame[RETRY_AT] = frame[RETRY_AT] & 0xF0 | chosen_flags(random, chosen, words);
    if chosen.has(Fault::Address) {
        spoil_address(random, chosen, &mut frame);
    }
    let behind = LONGEST_HEADER as u32 + payload + MOST_PADDING;
    extend(random, &mut frame, behind);
    let end = chosen_end(random, chosen, header_end(&frame), payload as usize);
    frame.truncate(end);
    mend(&mut frame);
    if chosen.has(Fault::Checksum) {
        spoil_checksum(random, &mut frame);
    }
    frame
}

/// The version, or another number where it is to be wrong.
fn chosen_version(random: &mut Random, chosen: Faults) -> u8 {
    if chosen.has(Fault::Version) {
        nibble_but(random, VERSION..VERSION + 1)
    } else {
        VERSION
    }
}

/// A DHL, right or wrong, and above 5 where the frame is to end before its header does.
fn chosen_words(random: &mut Random, chosen: Faults) -> u8 {
    match (chosen.has(Fault::Dhl), chosen.has(Fault::UnderDhl)) {
        (false, false) => PLAIN_WORDS + random.below(2) as u8,
        (false, true) => PROXY_WORDS,
        (true, false) => nibble_but(random, PLAIN_WORDS..PROXY_WORDS + 1),
        (true, true) => nibble_but(random, 0..PROXY_WORDS + 1),
    }
}

/// The flags beside a DHL: PF, which agrees with it or not, and others where such are to be set.
fn chosen_flags(random: &mut Random, chosen: Faults, words: u8) -> u8 {
    let set = (words == PROXY_WORDS) != chosen.has(Fault::Pf);
    let pf = if set { PROXY_FLAG } else { 0 };
    if chosen.has(Fault::Flags) {
        nibble_but(random, 0..PROXY_FLAG + 1) & !PROXY_FLAG | pf
    } else {
        pf
    }
}

/// Any number of four bits but those of a range.
fn nibble_but(random: &mut Random, range: Range<u8>) -> u8 {
    let others = MOST_NIBBLE + 1 - range.len() as u8;
    let number = within(random, u32::from(others)) as u8;
    if number < range.start {
        number
    } else {
        number + range.len() as u8
    }
}

/// Puts an address of a wrong kind where the frame will still show it.
fn spoil_address(random: &mut Random, chosen: Faults, frame: &mut [u8]) {
    let proxied = header_end(frame) == PROXY_BYTES;
    let shown = if chosen.has(Fault::Under20) {
        1
    } else if proxied && !chosen.has(Fault::UnderDhl) {
        3
    } else {
        2
    };
    let at = SOURCE_AT + random.below(shown) as usize * WORD;
    let broadcast = 0x8FFF_FFFF | random.word();
    let wrong = if random.once_in(2) || at == DESTINATION_AT && !proxied {
        broadcast ^ 1 << random.below(28)
    } else {
        broadcast
    };
    frame[at..at + WORD].copy_from_slice(&wrong.to_be_bytes());
}

/// Puts another checksum in the place of the one that is there.
fn spoil_checksum(random: &mut Random, frame: &mut [u8]) {
    let more = 1 + within(random, u32::from(u16::MAX)) as u16;
    let field = [frame[CHECKSUM_AT], frame[CHECKSUM_AT + 1]];
    let wrong = u16::from_be_bytes(field).wrapping_add(more);
    frame[CHECKSUM_AT..SOURCE_AT].copy_from_slice(&wrong.to_be_bytes());
}

/// Where the frame ends, by the end of its header and the length of its payload.
fn chosen_end(random: &mut Random, chosen: Faults, header: usize, payload: usize) -> usize {
    let ends = if chosen.has(Fault::Under20) {
        fewest_bytes(chosen)..PLAIN_BYTES
    } else if chosen.has(Fault::UnderDhl) {
        PLAIN_BYTES..header
    } else if chosen.has(Fault::Payload) {
        header..header + payload
    } else {
        header + payload..header + payload + MOST_PADDING as usize
    };
    ends.start + within(random, ends.len() as u32) as usize
}

/// The fewest bytes that still show the chosen faults.
fn fewest_bytes(chosen: Faults) -> usize {
    let bytes = chosen.each().map(|fault| match fault {
        Fault::Version | Fault::Dhl => 1,
        Fault::Flags | Fault::Pf => RETRY_AT + 1,
        Fault::Checksum => SOURCE_AT,
        Fault::Address => DESTINATION_AT,
        _ => 0,
    });
    bytes.max().unwrap_or(0)
}

/// A byte, often at an edge.
fn byte(random: &mut Random) -> u8 {
    match random.below(8) {
        0 => 0,
        1 => u8::MAX,
        _ => random.byte(),
    }
}

/// A word, often at an edge.
fn word(random: &mut Random) -> u32 {
    match random.below(8) {
        0 => 0,
        1 => u32::MAX,
        2 => random.word() >> random.below(u32::BITS),
        _ => random.word(),
    }
}

/// A payload length, mostly a small one.
fn payload_length(random: &mut Random) -> u16 {
    if !random.once_in(ANY_PAYLOAD) {
        return random.below(SMALL_PAYLOAD) as u16;
    }
    match random.below(8) {
        0 => u16::MAX,
        1 => random.word() as u16,
        _ => 1_500,
    }
}

/// An address that is mostly a server.
fn address(random: &mut Random) -> u32 {
    match random.below(ANY_KIND) {
        0 => ADDRESSES[random.below(ADDRESSES.len() as u32) as usize],
        _ => random.word() >> 1,
    }
}

/// A destination: a server, or a broadcast, mostly where there is no proxy.
fn destination(random: &mut Random, has_proxy: bool) -> u32 {
    if random.once_in(if has_proxy { ANY_KIND } else { 3 }) {
        return 0x8FFF_FFFF | random.below(8) << 28;
    }
    address(random)
}

#[cfg(test)]
mod tests {
    use super::*;
    use crate::compare::faults::PAIRS;
    use peer::frame::{read, write};
    use std::collections::BTreeMap;

    #[test]
    fn the_header_of_sound_fields_is_the_one_written() {
        let mut random = Random::new(1);
        for _ in 0..1000 {
            let has_proxy = random.once_in(2);
            let fields = sound_fields(&mut random, has_proxy, 0);
            let mut room = vec![0; if has_proxy { 24 } else { 20 }];
            assert_eq!(write(fields, &mut room), 0);
            assert_eq!(header(&fields), room);
        }
    }

    #[test]
    fn every_refusal_of_reading_is_met_by_the_edges_and_at_random() {
        let mut random = Random::new(2);
        let edges: Vec<Vec<u8>> = edge_frames().collect();
        let any: Vec<Vec<u8>> = (0..10_000).map(|_| any_frame(&mut random)).collect();
        for frames in [edges, any] {
            for number in [0, 7, 9, 11, 13, 14, 15, 16] {
                let met = |frame: &Vec<u8>| read(frame).refusal == number;
                assert!(frames.iter().filter(|frame| met(frame)).count() > 30);
            }
        }
    }

    #[test]
    fn a_frame_of_chosen_faults_has_these_alone_and_is_refused_by_the_first() {
        let told = [
            (7, 0),
            (13, 0),
            (14, 0),
            (15, 8),
            (16, 8),
            (7, 0),
            (9, 0),
            (11, 0),
            (7, 0),
        ];
        let mut random = Random::new(3);
        for chosen in Faults::choices() {
            let first = chosen.each().next();
            let told = first.map_or((0, 0), |fault| told[fault as usize]);
            for _ in 0..200 {
                let frame = faulty(&mut random, chosen);
                assert_eq!(Faults::of(&frame), chosen, "{frame:?}");
                let header = read(&frame);
                assert_eq!((header.refusal, header.place), told, "{frame:?}");
            }
        }
    }

    #[test]
    fn every_pair_of_faults_is_met_by_the_edges_and_at_random() {
        let mut random = Random::new(5);
        let edges: Vec<Vec<u8>> = edge_frames().collect();
        let any: Vec<Vec<u8>> = (0..100_000).map(|_| any_frame(&mut random)).collect();
        for frames in [edges, any] {
            let mut met = BTreeMap::new();
            for pair in frames.iter().filter_map(|frame| Faults::of(frame).pair()) {
                *met.entry(pair).or_insert(0) += 1;
            }
            for pair in &PAIRS[..33] {
                let count = met.get(pair).copied().unwrap_or(0);
                assert!(count >= 30, "{pair:?}: {count}");
            }
            assert_eq!(met.len(), 33);
        }
    }

    #[test]
    fn every_first_byte_and_flag_is_among_the_edges_with_no_other_fault() {
        let mut met = [[false; 16]; 256];
        for frame in kinds() {
            let mut each = Faults::of(&frame).each();
            if each.all(|fault| (Fault::Version..=Fault::Pf).contains(&fault)) {
                met[usize::from(frame[0])][usize::from(frame[8] & 0xF)] = true;
            }
        }
        assert_eq!(met, [[true; 16]; 256]);
    }

    #[test]
    fn ffff_in_place_of_0000_is_among_the_edges() {
        let turned = |frame: &Vec<u8>| {
            let mut mended = frame.clone();
            mend(&mut mended);
            frame.len() > 12 && frame[10..12] == [0xFF; 2] && mended[10..12] == [0; 2]
        };
        assert_eq!(edge_frames().filter(turned).count(), 2);
    }
}
