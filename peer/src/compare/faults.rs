//! The faults of a frame that is read, each looked for by itself and in no order, and the pairs of them that can stand together.

use std::fmt::{self, Display, Formatter};

use peer::frame::{PLAIN_BYTES, PLAIN_WORDS, PROXY_FLAG, PROXY_WORDS, VERSION};

/// The bytes of a word.
pub const WORD: usize = 4;
/// Where the payload length stands.
const LENGTH_AT: usize = 2;
/// Where retry and flags stand.
pub const RETRY_AT: usize = 8;
/// Where the checksum stands.
pub const CHECKSUM_AT: usize = 10;
/// Where the source stands.
pub const SOURCE_AT: usize = 12;
/// Where the destination stands.
pub const DESTINATION_AT: usize = 16;
/// Where the proxy stands.
const PROXY_AT: usize = 20;
/// The lower half of a byte.
const LOW: u8 = 0xF;
/// The lowest address that is no server.
const GROUP: u32 = 1 << 31;
/// The scope of a broadcast; all its other bits are ones.
const SCOPE_BITS: u32 = 0x7000_0000;

/// A fault of a frame, or of the room that its fields are to be written to.
#[derive(Debug, Clone, Copy, PartialEq, Eq, PartialOrd, Ord)]
pub enum Fault {
    /// The frame has under 20 bytes.
    Under20,
    /// The version is not 1.
    Version,
    /// DHL is neither 5 nor 6.
    Dhl,
    /// A flag other than PF is set.
    Flags,
    /// PF is set and DHL is not 6, or DHL is 6 and PF is not set.
    Pf,
    /// The frame has 20 bytes, but not the words that DHL tells of.
    UnderDhl,
    /// The checksum is not the one that is due.
    Checksum,
    /// An address is of a kind that may not stand where it stands.
    Address,
    /// The frame has its header, but not the payload that this tells of.
    Payload,
    /// The room is shorter than what would be written.
    Room,
}

/// Every fault, in the order in which they are told.
pub const FAULTS: [Fault; 10] = [
    Fault::Under20,
    Fault::Version,
    Fault::Dhl,
    Fault::Flags,
    Fault::Pf,
    Fault::UnderDhl,
    Fault::Checksum,
    Fault::Address,
    Fault::Payload,
    Fault::Room,
];
/// The faults of a frame, which are all but that of the room.
pub const FRAME_FAULTS: usize = FAULTS.len() - 1;

/// Every two faults that can stand together, first the one that is told; the pairs with a short room are the last.
pub const PAIRS: [[Fault; 2]; 42] = pairs();

/// A choice of faults: of each, whether it is among them.
#[derive(Debug, Clone, Copy, PartialEq, Eq)]
pub struct Faults([bool; FAULTS.len()]);

impl Fault {
    /// Whether the fault is that the frame ends too early.
    ///
    /// A frame ends in one place alone, so that no two of these three stand together; nor could they be told apart, as each gets 7 and
    /// tells place 0:
    /// - under 20 bytes and under DHL: a header has 20 bytes at least, so the first is the second, whatever DHL tells;
    /// - under 20 bytes and a short payload: the frame ends before its payload begins;
    /// - under DHL and a short payload: the frame ends before its payload begins.
    ///
    /// All other faults can stand together. A frame under 20 bytes shows the fields that it holds whole, and its checksum the sum of the
    /// words that are there. DHL and PF are both wrong where DHL is neither 5 nor 6 and PF is set. PF disagrees in a frame under DHL where
    /// DHL is 6 and PF is not set.
    const fn is_end(self) -> bool {
        matches!(self, Fault::Under20 | Fault::UnderDhl | Fault::Payload)
    }

    /// Whether a frame has the fault; one in a field that the frame does not hold whole is not there.
    fn is_in(self, frame: &[u8]) -> bool {
        match self {
            Fault::Under20 => frame.len() < PLAIN_BYTES,
            Fault::Version => version(frame).is_some_and(|version| version != VERSION),
            Fault::Dhl => {
                words(frame).is_some_and(|words| words != PLAIN_WORDS && words != PROXY_WORDS)
            }
            Fault::Flags => flags(frame).is_some_and(|flags| flags > PROXY_FLAG),
            Fault::Pf => flags(frame).is_some_and(|flags| (flags % 2 == 1) != proxied(frame)),
            Fault::UnderDhl => (PLAIN_BYTES..header_end(frame)).contains(&frame.len()),
            Fault::Checksum => checksum(frame).is_some_and(|sum| sum != due(frame)),
            Fault::Address => has_wrong_address(frame),
            Fault::Payload => has_short_payload(frame),
            Fault::Room => false,
        }
    }
}

impl Display for Fault {
    /// The fault in a few words.
    fn fmt(&self, f: &mut Formatter<'_>) -> fmt::Result {
        f.write_str(match self {
            Fault::Under20 => "under 20 bytes",
            Fault::Version => "version",
            Fault::Dhl => "DHL",
            Fault::Flags => "flags",
            Fault::Pf => "PF",
            Fault::UnderDhl => "under DHL",
            Fault::Checksum => "checksum",
            Fault::Address => "address",
            Fault::Payload => "short payload",
            Fault::Room => "short room",
        })
    }
}

impl Faults {
    /// No fault.
    pub const NONE: Faults = Faults([false; FAULTS.len()]);

    /// The faults of a frame.
    pub fn of(frame: &[u8]) -> Faults {
        Faults(FAULTS.map(|fault| fault.is_in(frame)))
    }

    /// Every choice of faults that a frame can have, the choice of none included.
    pub fn choices() -> impl Iterator<Item = Faults> {
        let bit = |bits: u32, fault| bits >> fault as u32 & 1 == 1;
        let choices = (0..1 << FRAME_FAULTS).map(move |bits| FAULTS.map(|fault| bit(bits, fault)));
        let ends = |choice: &Faults| choice.each().filter(|fault| fault.is_end()).count();
        choices.map(Faults).filter(move |choice| ends(choice) <= 1)
    }

    /// These faults and one more.
    pub fn and(mut self, fault: Fault) -> Faults {
        self.0[fault as usize] = true;
        self
    }

    /// Whether a fault is among these.
    pub fn has(self, fault: Fault) -> bool {
        self.0[fault as usize]
    }

    /// These faults in the order in which they are told.
    pub fn each(self) -> impl Iterator<Item = Fault> {
        FAULTS.into_iter().filter(move |&fault| self.has(fault))
    }

    /// Whether a fault can stand together with each of these.
    pub fn can_meet(self, fault: Fault) -> bool {
        self.each().all(|other| can_meet(other, fault))
    }

    /// The faults where they are two.
    pub fn pair(self) -> Option<[Fault; 2]> {
        let mut each = self.each();
        match [each.next(), each.next(), each.next()] {
            [Some(first), Some(second), None] => Some([first, second]),
            _ => None,
        }
    }
}

/// Whether two faults can stand together.
const fn can_meet(one: Fault, other: Fault) -> bool {
    !(one.is_end() && other.is_end())
}

/// Every pair of faults that can stand together, by the second one.
const fn pairs() -> [[Fault; 2]; 42] {
    let mut pairs = [[Fault::Under20; 2]; 42];
    let mut count = 0;
    let mut second = 1;
    while second < FAULTS.len() {
        let mut first = 0;
        while first < second {
            if can_meet(FAULTS[first], FAULTS[second]) {
                pairs[count] = [FAULTS[first], FAULTS[second]];
                count += 1;
            }
            first += 1;
        }
        second += 1;
    }
    assert!(count == pairs.len());
    pairs
}

/// The place behind the header that the first byte of a frame tells of, which has 20 bytes at least.
pub fn header_end(frame: &[u8]) -> usize {
    PLAIN_BYTES.max(words(frame).map_or(0, usize::from) * WORD)
}

/// The checksum that is due to a frame: the 16-bit words of its header that are there, added one by one, with every carry brought around.
pub fn due(frame: &[u8]) -> u16 {
    let header = &frame[..header_end(frame).min(frame.len())];
    let mut sum = 0u16;
    for (place, pair) in header.chunks_exact(2).enumerate() {
        if 2 * place == CHECKSUM_AT {
            continue;
        }
        let (added, carry) = sum.overflowing_add(u16::from_be_bytes([pair[0], pair[1]]));
        sum = added + u16::from(carry);
    }
    !sum
}

/// The version.
fn version(frame: &[u8]) -> Option<u8> {
    frame.first().map(|byte| byte >> 4)
}

/// The header words that DHL tells of.
fn words(frame: &[u8]) -> Option<u8> {
    frame.first().map(|byte| byte & LOW)
}

/// Whether DHL tells of a proxy.
fn proxied(frame: &[u8]) -> bool {
    words(frame) == Some(PROXY_WORDS)
}

/// The flags.
fn flags(frame: &[u8]) -> Option<u8> {
    frame.get(RETRY_AT).map(|byte| byte & LOW)
}

/// The half of a word that stands at a place.
fn half_at(frame: &[u8], at: usize) -> Option<u16> {
    let bytes = frame.get(at..)?.first_chunk();
    bytes.copied().map(u16::from_be_bytes)
}

/// The checksum that is there.
fn checksum(frame: &[u8]) -> Option<u16> {
    half_at(frame, CHECKSUM_AT)
}

/// The address that stands at a place.
fn address_at(frame: &[u8], at: usize) -> Option<u32> {
    let bytes = frame.get(at..)?.first_chunk();
    bytes.copied().map(u32::from_be_bytes)
}

/// Whether source or proxy is no server, or the destination is neither a server nor a broadcast without a proxy.
fn has_wrong_address(frame: &[u8]) -> bool {
    let group = |at| address_at(frame, at).filter(|&address| address >= GROUP);
    let destination = group(DESTINATION_AT);
    let broadcast = |address| address | SCOPE_BITS == u32::MAX;
    group(SOURCE_AT).is_some()
        || destination.is_some_and(|address| !broadcast(address))
        || proxied(frame) && (destination.is_some() || group(PROXY_AT).is_some())
}

/// Whether there are fewer bytes behind the header than it tells of.
fn has_short_payload(frame: &[u8]) -> bool {
    let behind = frame.len().checked_sub(header_end(frame));
    let told = half_at(frame, LENGTH_AT).map(usize::from);
    behind.zip(told).is_some_and(|(behind, told)| behind < told)
}

#[cfg(test)]
mod tests {
    use super::*;

    /// A sound frame without a proxy, three bytes behind its header.
    const PLAIN: [u8; 23] = [
        0x15, 6, 0, 3, 0, 0, 0, 1, 0x50, 0x0F, 0x9A, 0xD3, 0, 0, 0, 0, 0, 0, 0, 0x13, 1, 2, 3,
    ];

    /// The names of the faults of the frame with some bytes changed, its checksum due again, and cut to a length.
    fn names(changed: &[(usize, u8)], length: usize) -> String {
        let mut frame = PLAIN;
        for &(at, byte) in changed {
            frame[at] = byte;
        }
        let sum = due(&frame[..length]);
        frame[CHECKSUM_AT..SOURCE_AT].copy_from_slice(&sum.to_be_bytes());
        told(&frame[..length])
    }

    /// The names of the faults of a frame.
    fn told(frame: &[u8]) -> String {
        let each = Faults::of(frame).each().map(|fault| fault.to_string());
        each.collect::<Vec<String>>().join(", ")
    }

    #[test]
    fn a_sound_frame_has_no_fault() {
        assert_eq!(Faults::of(&PLAIN), Faults::NONE);
        let mut proxied = [0; 24];
        (proxied[0], proxied[8]) = (0x16, 0x01);
        let sum = due(&proxied);
        proxied[CHECKSUM_AT..SOURCE_AT].copy_from_slice(&sum.to_be_bytes());
        assert_eq!(sum, !0x1700);
        assert_eq!(Faults::of(&proxied), Faults::NONE);
    }

    #[test]
    fn each_field_is_looked_at_by_itself() {
        assert_eq!(names(&[(0, 0x25)], 23), "version");
        assert_eq!(names(&[(0, 0x14)], 23), "DHL");
        assert_eq!(names(&[(8, 0x52)], 23), "flags");
        assert_eq!(names(&[(8, 0x51)], 23), "PF");
        assert_eq!(names(&[(0, 0x14), (8, 0x53)], 23), "DHL, flags, PF");
        assert_eq!(names(&[(12, 0x80)], 23), "address");
        assert_eq!(names(&[(16, 0x80)], 23), "address");
        let broadcast = [(16, 0xBF), (17, 255), (18, 255), (19, 255)];
        assert_eq!(names(&broadcast, 23), "");
        assert_eq!(names(&[(3, 4)], 23), "short payload");
        assert_eq!(names(&[], 22), "short payload");
        let mut frame = PLAIN;
        frame[CHECKSUM_AT] ^= 1;
        assert_eq!(told(&frame), "checksum");
    }

    #[test]
    fn dhl_tells_of_a_proxy_and_of_the_end_of_the_header() {
        let proxied = [(0, 0x16), (8, 0x51)];
        assert_eq!(names(&proxied, 23), "under DHL");
        assert_eq!(names(&proxied[..1], 20), "PF, under DHL");
        assert_eq!(names(&[(0, 0x17)], 23), "DHL, under DHL");
        let broadcast = [(16, 255), (17, 255), (18, 255), (19, 255)];
        let both = [proxied.as_slice(), &broadcast].concat();
        assert_eq!(names(&both, 23), "under DHL, address");
        let mut frame = [PLAIN.as_slice(), &[0; 4]].concat();
        (frame[0], frame[8], frame[20]) = (0x16, 0x51, 0x80);
        assert_eq!(told(&frame), "checksum, address");
        frame[3] = 4;
        assert_eq!(told(&frame), "checksum, address, short payload");
    }

    #[test]
    fn under_20_bytes_a_field_counts_only_where_it_is_there() {
        let wrong = [(0, 0x27), (8, 0x53), (12, 0x80)];
        let fields = "under 20 bytes, version, DHL, flags, PF";
        for length in 9..20 {
            let address = if length < 16 { "" } else { ", address" };
            assert_eq!(names(&wrong, length), format!("{fields}{address}"));
        }
        assert_eq!(names(&wrong, 8), "under 20 bytes, version, DHL");
        assert_eq!(names(&wrong, 0), "under 20 bytes");
        assert_eq!(told(&PLAIN[..12]), "under 20 bytes, checksum");
        assert_eq!(told(&PLAIN[..11]), "under 20 bytes");
    }

    #[test]
    fn every_two_faults_but_two_ends_are_a_pair() {
        let mut pairs = PAIRS.to_vec();
        assert!(pairs.iter().all(|[first, second]| first < second));
        pairs.sort();
        pairs.dedup();
        assert_eq!(pairs.len(), 10 * 9 / 2 - 3);
        let room = |pair: &[Fault; 2]| pair[1] == Fault::Room;
        assert!(PAIRS[33..].iter().all(room));
        assert_eq!(PAIRS.iter().filter(|pair| room(pair)).count(), FRAME_FAULTS);
    }

    #[test]
    fn the_choices_of_a_frame_have_one_end_or_none_and_every_pair_among_them() {
        assert_eq!(Faults::choices().count(), 64 * 4);
        let mut met: Vec<[Fault; 2]> = Faults::choices().filter_map(Faults::pair).collect();
        let mut pairs = PAIRS[..33].to_vec();
        met.sort();
        pairs.sort();
        assert_eq!(met, pairs);
    }
}
