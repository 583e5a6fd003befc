//! Night sheets to call with: sound ones of every size, and damaged ones, often in more than one place.

use std::fmt::{self, Debug, Formatter};
use std::iter;
use std::ops::{Deref, RangeInclusive};

use peer::forward::MOST_RETRY;
use peer::hall::{racks_of, Hall, LEAST_FILLED_K, LEAST_N, MOST_N};
use peer::ports::UP;
use peer::random::Random;
use peer::sheet::{word_at, PACKET_BYTES, SHEET_ROOM};

use super::counts::{edge_counts, is_full, part_server};
use super::inputs::{beyond, servers, sound_hall, within};
use super::packets::Far;
use super::tables::{codes, hall_codes, unknown_code};

/// The first count of a full hall's sheet, and of a sheet whose hall is not full.
const FIRST_COUNTS: [u32; 2] = [3, 7];
/// The offset of n, k and b.
const HALL_AT: usize = 4;
/// The offset of the number of DCell(1)s fitted, which a full hall's sheet has not, and its bytes.
const RACKS_AT: usize = 7;
const RACKS: usize = 4;
/// The offset of the second count in the sheet of a full hall; all that follows is four bytes farther on where the hall is not full.
const COUNT_TWO_AT: usize = 7;
/// The offset of the codes there.
const CODES_AT: usize = 11;
/// The bytes of a sheet without its codes and packets there.
const HEAD: usize = 15;
/// The offset of dst in a packet.
const DST: usize = 4;
/// The offset of the retry in a packet.
const RETRY: usize = 8;
/// The known codes, from 0 on.
const KNOWN: u8 = 5;
/// A known code that is not up.
const DOWN: u8 = 2;
/// The highest share of codes that are not up, of a hundred.
const MOST_NOT_UP: u32 = 60;
/// So many sheets of a hundred are damaged.
const DAMAGED: u32 = 45;
/// One sheet in so many is of any bytes.
const ANY_BYTES: u32 = 50;
/// One sheet in so many has few packets or none.
const LEAN: u32 = 3;
/// The packets of such a sheet, and one more.
const FEW: u32 = 8;
/// The most surplus bytes.
const SURPLUS: u32 = 25;
/// A sheet of at most so many bytes is shown whole.
const SHOWN: usize = 400;
/// So many sheets are drawn for each kind of damage at an edge of a class.
const TRIED: usize = 4;
/// The sheets that are tried with every second count have at most so many bytes.
const COUNTED: u32 = 50;
/// The largest hall that a sheet has room for.
pub const LARGEST_HALL: Hall = Hall::full(8, 2, 0);
/// The smallest hall.
const SMALLEST: Hall = Hall::full(2, 0, 0);
/// The sheet of docs/RULES.md: its hall, the places of its codes 2, and its packet.
const SAMPLE_HALL: Hall = Hall::full(4, 1, 0);
const SAMPLE_DOWN: [usize; 2] = [7, 33];
const SAMPLE_PACKET: [u8; PACKET_BYTES] = [0, 0, 0, 0, 0, 0, 0, 19, 5, 15];
/// The sheet that is tried of a hall that is not full: its hall and its packet.
const PART_HALL: Hall = Hall {
    n: 2,
    k: 2,
    b: 1,
    count: 3,
};
const PART_PACKET: [u8; PACKET_BYTES] = [0, 0, 0, 0, 0, 0, 0, 17, 5, 15];
/// The bytes that are tried in each place of its codes and packets.
const TRIED_BYTES: [u8; 9] = [0, 1, 2, 4, 5, 7, 16, 42, 255];

/// A sheet, sound or not.
#[derive(Clone, PartialEq)]
pub struct Sheet(Vec<u8>);

/// The sheets whose lengths are in a range.
pub struct Class {
    least: usize,
    most: usize,
}

/// Sheets of up to 100 bytes: halls of a few servers.
pub const TINY: Class = Class::new(0, 100);
/// Sheets of up to 1,000 bytes.
pub const SMALL: Class = Class::new(101, 1_000);
/// Sheets of up to 10,000 bytes.
pub const MIDDLE: Class = Class::new(1_001, 10_000);
/// Sheets up to the largest sound ones, which have 65,535 bytes.
pub const LARGE: Class = Class::new(10_001, SHEET_ROOM - 1);
/// Sheets of the most bytes that are read; no sound sheet has as many, as no hall's table has a count that ends in 1 or 7.
pub const FULL: Class = Class::new(SHEET_ROOM, SHEET_ROOM);
/// Sheets that are too long.
pub const OVER: Class = Class::new(SHEET_ROOM + 1, SHEET_ROOM + 4_000);

/// One way of damaging a sheet; some bytes that are changed do no harm.
#[derive(Debug, Clone, Copy)]
enum Damage {
    Head,
    Border,
    Anywhere,
    Hall,
    Racks,
    RacksCut,
    CountOne,
    CountTwo,
    CountThree,
    Code,
    Uid,
    Retry,
    Cut,
    EndCut,
    LastPacket,
    Surplus,
}

/// Every way of damaging a sheet.
const DAMAGES: [Damage; 16] = [
    Damage::Head,
    Damage::Border,
    Damage::Anywhere,
    Damage::Hall,
    Damage::Racks,
    Damage::RacksCut,
    Damage::CountOne,
    Damage::CountTwo,
    Damage::CountThree,
    Damage::Code,
    Damage::Uid,
    Damage::Retry,
    Damage::Cut,
    Damage::EndCut,
    Damage::LastPacket,
    Damage::Surplus,
];

impl Deref for Sheet {
    type Target = [u8];

    #[inline]
    fn deref(&self) -> &[u8] {
        &self.0
    }
}

impl Sheet {
    /// The sheet of a journey without a proxy, with one code for all that are not up.
    pub fn of_journey(at: &Far) -> Sheet {
        let codes = at.table.iter();
        let codes = codes.map(|&code| if code == UP { UP } else { DOWN });
        let mut bytes = opening(at.hall, at.table.len());
        bytes.extend(codes);
        bytes.extend(1u32.to_be_bytes());
        bytes.extend(at.uid.to_be_bytes());
        bytes.extend(at.packet.dst.to_be_bytes());
        bytes.extend([at.packet.retry, at.packet.ttl]);
        Sheet(bytes)
    }
}

impl From<Vec<u8>> for Sheet {
    fn from(bytes: Vec<u8>) -> Sheet {
        Sheet(bytes)
    }
}

impl Debug for Sheet {
    /// The length and the first bytes.
    fn fmt(&self, f: &mut Formatter<'_>) -> fmt::Result {
        let shown = &self.0[..self.0.len().min(SHOWN)];
        write!(f, "{} bytes {shown:?}", self.0.len())?;
        if shown.len() < self.0.len() {
            write!(f, " ..")?;
        }
        Ok(())
    }
}

impl Class {
    /// The class of a range of lengths, both ends included.
    const fn new(least: usize, most: usize) -> Class {
        Class { least, most }
    }

    /// The lengths of the class.
    fn lengths(&self) -> RangeInclusive<usize> {
        self.least..=self.most
    }

    /// Whether a sheet is of the class.
    pub fn holds(&self, sheet: &Sheet) -> bool {
        self.lengths().contains(&sheet.len())
    }

    /// Any sheet of the class; nearly half of them are damaged.
    pub fn any(&self, random: &mut Random) -> Sheet {
        loop {
            let length = self.any_length(random);
            let bytes = if random.once_in(ANY_BYTES) {
                any_bytes(random, length)
            } else {
                self.drawn(random, length, any_damages)
            };
            if self.lengths().contains(&bytes.len()) {
                return Sheet(bytes);
            }
        }
    }

    /// Sheets of one seed: sound ones, and each way of damage alone.
    pub fn edges(&'static self) -> impl Iterator<Item = Sheet> {
        let mut random = Random::new(2);
        let ways = iter::once(None).chain(DAMAGES.into_iter().map(Some));
        let sheets = ways.flat_map(|way| [way; TRIED]).map(move |way| {
            let length = self.any_length(&mut random);
            Sheet(self.drawn(&mut random, length, |_| way.into_iter().collect()))
        });
        sheets.filter(|sheet| self.lengths().contains(&sheet.len()))
    }

    /// A length of the class, often the least or the most.
    fn any_length(&self, random: &mut Random) -> usize {
        self.least + within(random, (self.most - self.least) as u32 + 1) as usize
    }

    /// A sheet of about a length, or of that length where no sound sheet has as many bytes, with damages.
    fn drawn(
        &self,
        random: &mut Random,
        length: usize,
        damages: impl Fn(&mut Random) -> Vec<Damage>,
    ) -> Vec<u8> {
        let mut draft = Draft::any(random, length.min(SHEET_ROOM));
        for damage in damages(random) {
            draft.damage(random, damage);
        }
        if self.least >= SHEET_ROOM {
            draft.stretch(random, length);
        }
        draft.bytes
    }
}

/// A sheet of any class, mostly of a small one.
pub fn any_sheet(random: &mut Random) -> Sheet {
    let class = match random.below(100) {
        0..=39 => TINY,
        40..=79 => SMALL,
        80..=95 => MIDDLE,
        96 | 97 => LARGE,
        98 => FULL,
        _ => OVER,
    };
    class.any(random)
}

/// The sheet of docs/RULES.md, each of its cuts, the same with each byte in each place, one of a hall that is not full in the same way, and
/// a sheet of each hall, sound or not, with each count that is tried.
pub fn edge_sheets() -> impl Iterator<Item = Sheet> {
    let whole = cuts(sample()).chain(changed(sample(), usize::MAX));
    let part = cuts(part_sample()).chain(changed(part_sample(), HEAD));
    whole.chain(part).chain(hall_sheets())
}

/// A sheet cut to each length.
fn cuts(sheet: Vec<u8>) -> impl Iterator<Item = Sheet> {
    (0..=sheet.len()).map(move |length| Sheet(sheet[..length].to_vec()))
}

/// A sheet with each byte in each place before one, and with the tried ones in each place from there on.
fn changed(sheet: Vec<u8>, few_from: usize) -> impl Iterator<Item = Sheet> {
    let bytes = move |place| -> Vec<u8> {
        if place < few_from {
            (0..=u8::MAX).collect()
        } else {
            TRIED_BYTES.to_vec()
        }
    };
    let with_bytes = move |place| bytes(place).into_iter().map(move |byte| (place, byte));
    let places = (0..sheet.len()).flat_map(with_bytes);
    places.map(move |(place, byte)| {
        let mut bytes = sheet.clone();
        bytes[place] = byte;
        Sheet(bytes)
    })
}

/// Sheets of every short length with every second count up to a little past it and some that are huge, at both places where it can stand;
/// each other byte is its place, or the first count is the right one for the place of the second.
pub fn counted_sheets() -> impl Iterator<Item = Sheet> {
    let lengths = (0..=COUNTED).flat_map(|length| {
        let counts = (0..=length + 1).chain([256, 65_536, 1 << 31, u32::MAX - 1, u32::MAX]);
        counts.map(move |count| (length, count))
    });
    lengths.flat_map(|(length, count)| {
        let places: Vec<u8> = (0..length as u8).collect();
        let plain = with_word(places.clone(), COUNT_TWO_AT, count);
        let right = FIRST_COUNTS.map(|first| {
            let sheet = with_word(places.clone(), 0, first);
            with_word(sheet, HALL_AT + first as usize, count)
        });
        [vec![plain], right.into()].concat().into_iter().map(Sheet)
    })
}

/// A sheet with a number at a place, as far as the sheet goes.
fn with_word(mut sheet: Vec<u8>, at: usize, word: u32) -> Vec<u8> {
    let behind = sheet.iter_mut().skip(at);
    behind
        .zip(word.to_be_bytes())
        .for_each(|(to, byte)| *to = byte);
    sheet
}

/// A sound sheet of a hall with as many packets as there is room for, and so many in a hundred codes not up.
pub fn largest(random: &mut Random, hall: Hall, not_up: u32) -> Sheet {
    let packets = most_packets(hall, SHEET_ROOM);
    Sheet(Draft::sound(random, hall, not_up, packets).bytes)
}

/// A sound sheet with one of its packets alone, which has to be there.
pub fn alone(sheet: &[u8], codes: usize, i: u32) -> Vec<u8> {
    let codes = codes + racks_in(sheet);
    let packet = HEAD + codes + PACKET_BYTES * i as usize;
    let mut bytes = sheet[..CODES_AT + codes].to_vec();
    bytes.extend(1u32.to_be_bytes());
    bytes.extend_from_slice(&sheet[packet..packet + PACKET_BYTES]);
    bytes
}

/// A sound sheet without its packets.
pub fn without_packets(sheet: &[u8], codes: usize) -> Vec<u8> {
    let mut bytes = sheet[..CODES_AT + racks_in(sheet) + codes].to_vec();
    bytes.extend(0u32.to_be_bytes());
    bytes
}

/// The bytes of the number of DCell(1)s in a sound sheet.
fn racks_in(sheet: &[u8]) -> usize {
    let [_, part] = FIRST_COUNTS;
    if word_at(sheet, 0) == part {
        RACKS
    } else {
        0
    }
}

/// The bytes of the number of DCell(1)s in the sheet of a hall.
fn racks_of_sheet(hall: Hall) -> usize {
    if is_full(hall) {
        0
    } else {
        RACKS
    }
}

/// A sheet while it is drawn, with what is known of it.
struct Draft {
    bytes: Vec<u8>,
    hall: Hall,
    servers: u32,
    /// The bytes of the number of DCell(1)s.
    racks: usize,
    codes: usize,
    packets: u32,
}

impl Draft {
    /// A sound sheet of at most so many bytes, or the smallest one.
    fn any(random: &mut Random, most: usize) -> Draft {
        let hall = fitting_hall(random, most);
        let room = most_packets(hall, most);
        let packets = if random.once_in(LEAN) {
            random.below(FEW).min(room)
        } else {
            room
        };
        let not_up = within(random, MOST_NOT_UP + 1);
        Draft::sound(random, hall, not_up, packets)
    }

    /// A sound sheet of a hall, with so many in a hundred codes not up and so many packets.
    fn sound(random: &mut Random, hall: Hall, not_up: u32, packets: u32) -> Draft {
        let count = hall_codes(hall);
        let servers = servers(hall).unwrap_or(1);
        let mut bytes = opening(hall, count);
        let codes = codes(random, count, not_up).into_iter();
        bytes.extend(codes.map(|code| code % KNOWN));
        bytes.extend(packets.to_be_bytes());
        for _ in 0..packets {
            bytes.extend(any_packet(random, hall, servers));
        }
        Draft {
            bytes,
            hall,
            servers,
            racks: racks_of_sheet(hall),
            codes: count,
            packets,
        }
    }

    /// The offset of the second count.
    fn count_two_at(&self) -> usize {
        COUNT_TWO_AT + self.racks
    }

    /// The offset of the codes.
    fn codes_at(&self) -> usize {
        CODES_AT + self.racks
    }

    /// The offset of the third count.
    fn count_three_at(&self) -> usize {
        self.codes_at() + self.codes
    }

    /// The offset of one of the packets, often the first or the last; behind the sheet where it has none.
    fn packet_at(&self, random: &mut Random) -> usize {
        HEAD + self.racks + self.codes + PACKET_BYTES * within(random, self.packets) as usize
    }

    /// The sheet with one damage more.
    fn damage(&mut self, random: &mut Random, damage: Damage) {
        let length = self.bytes.len() as u32;
        match damage {
            Damage::Head => self.change(random.below((HEAD + self.racks) as u32) as usize, random),
            Damage::Border => self.change_border(random),
            Damage::Anywhere => self.change(random.below(length) as usize, random),
            Damage::Hall => self.change(HALL_AT + random.below(3) as usize, random),
            Damage::Racks => self.spoil_racks(random),
            Damage::RacksCut => {
                self.spoil_racks(random);
                let left = 1 + random.below(RACKS as u32 - 1) as usize;
                self.bytes.truncate(RACKS_AT + left);
            }
            Damage::CountOne => self.count_one(random),
            Damage::CountTwo => self.count(random, self.count_two_at(), self.codes as u32),
            Damage::CountThree => self.count(random, self.count_three_at(), self.packets),
            Damage::Code => {
                let place = self.codes_at() + within(random, self.codes as u32) as usize;
                self.put(place, &[unknown_code(random)]);
            }
            Damage::Uid => {
                let place = self.packet_at(random) + if random.once_in(2) { 0 } else { DST };
                self.put(place, &beyond(random, self.servers).to_be_bytes());
            }
            Damage::Retry => {
                let place = self.packet_at(random) + RETRY;
                let retry = beyond(random, u32::from(MOST_RETRY) + 1).min(u32::from(u8::MAX));
                self.put(place, &[retry as u8]);
            }
            Damage::Cut => self.bytes.truncate(random.below(length) as usize),
            Damage::EndCut => {
                let cut = 1 + random.below(PACKET_BYTES as u32 + 5);
                self.bytes.truncate(length.saturating_sub(cut) as usize);
            }
            Damage::LastPacket => self.spoil_last(random),
            Damage::Surplus => {
                let surplus = 1 + random.below(SURPLUS) as usize;
                self.bytes.extend(any_bytes(random, surplus));
            }
        }
    }

    /// Has a number of DCell(1)s stand in the sheet that may not stand there: that of a full hall, one too high, the highest, or, with k
    /// below 2, any.
    fn spoil_racks(&mut self, random: &mut Random) {
        let Hall { n, k, .. } = self.hall;
        let racks = racks_of(n, k);
        let count = match random.below(6) {
            0 | 1 => racks,
            2 => racks + 1,
            3 => u32::MAX,
            4 if k < LEAST_FILLED_K => random.below(3),
            _ => beyond(random, racks),
        };
        if self.racks == 0 && self.bytes.len() >= RACKS_AT {
            let [_, part] = FIRST_COUNTS;
            self.put(0, &part.to_be_bytes());
            self.bytes.splice(RACKS_AT..RACKS_AT, [0; RACKS]);
            self.racks = RACKS;
        }
        self.put(RACKS_AT, &count.to_be_bytes());
    }

    /// Makes the first count wrong: that of a section of another length, another small one, or any wrong one.
    fn count_one(&mut self, random: &mut Random) {
        let [full, part] = FIRST_COUNTS;
        let (right, other) = if self.racks == 0 {
            (full, part)
        } else {
            (part, full)
        };
        match random.below(4) {
            0 => self.put(0, &other.to_be_bytes()),
            1 => self.put(0, &random.below(part + 3).to_be_bytes()),
            _ => self.count(random, 0, right),
        }
    }

    /// Makes a field of the last packet wrong, and cuts the sheet before, in or behind that field.
    fn spoil_last(&mut self, random: &mut Random) {
        let last = self.bytes.len().saturating_sub(PACKET_BYTES);
        let uid = beyond(random, self.servers).to_be_bytes();
        match random.below(3) {
            0 => self.put(last, &uid),
            1 => self.put(last + DST, &uid),
            _ => self.put(last + RETRY, &[u8::MAX]),
        }
        let left = 1 + random.below(PACKET_BYTES as u32 - 1) as usize;
        self.bytes.truncate(last + left);
    }

    /// Writes bytes at a place, as far as the sheet goes.
    fn put(&mut self, place: usize, bytes: &[u8]) {
        let behind = self.bytes.get_mut(place..).unwrap_or(&mut []);
        behind
            .iter_mut()
            .zip(bytes)
            .for_each(|(to, &byte)| *to = byte);
    }

    /// Changes the byte of a place: to a near one, a small one, or any.
    fn change(&mut self, place: usize, random: &mut Random) {
        let old = self.bytes.get(place).copied().unwrap_or(0);
        let new = match random.below(4) {
            0 => old.wrapping_add(1),
            1 => old.wrapping_sub(1),
            2 => random.byte() >> 4,
            _ => random.byte(),
        };
        self.put(place, &[new]);
    }

    /// Changes a byte within two of where a section begins or the sheet ends.
    fn change_border(&mut self, random: &mut Random) {
        let third = self.count_three_at();
        let borders = [
            HALL_AT,
            RACKS_AT,
            self.count_two_at(),
            self.codes_at(),
            third,
            third + 4,
            self.bytes.len(),
        ];
        let border = borders[random.below(borders.len() as u32) as usize];
        self.change(
            (border + random.below(5) as usize).saturating_sub(2),
            random,
        );
    }

    /// Makes a count wrong: one more or less, none, huge, or any.
    fn count(&mut self, random: &mut Random, place: usize, right: u32) {
        let wrong = match random.below(5) {
            0 => right.wrapping_add(1),
            1 => right.wrapping_sub(1),
            2 => 0,
            3 => u32::MAX,
            _ => random.word() >> random.below(u32::BITS),
        };
        self.put(place, &wrong.to_be_bytes());
    }

    /// Brings the sheet to a length, by a cut or by surplus bytes, which the third count takes for a packet once in two times.
    fn stretch(&mut self, random: &mut Random, length: usize) {
        if random.once_in(2) {
            self.put(self.count_three_at(), &(self.packets + 1).to_be_bytes());
        }
        let missing = length.saturating_sub(self.bytes.len());
        self.bytes.extend(any_bytes(random, missing));
        self.bytes.truncate(length);
    }
}

/// No damage, or one and often more.
fn any_damages(random: &mut Random) -> Vec<Damage> {
    if random.below(100) >= DAMAGED {
        return Vec::new();
    }
    let count = 1 + random.below(2) * random.below(4);
    let any = |_| DAMAGES[random.below(DAMAGES.len() as u32) as usize];
    (0..count).map(any).collect()
}

/// Bytes that are small in one sheet and of any size in another.
fn any_bytes(random: &mut Random, count: usize) -> Vec<u8> {
    let shift = random.below(u8::BITS);
    let bytes = iter::repeat_with(|| random.byte() >> shift);
    bytes.take(count).collect()
}

/// A packet of a hall of so many servers, mostly between fitted ones, with any retry; its TTL is the highest, low, or any.
fn any_packet(random: &mut Random, hall: Hall, servers: u32) -> [u8; PACKET_BYTES] {
    let mut server = || match part_server(random, hall) {
        Some(uid) => uid.to_be_bytes(),
        None => within(random, servers).to_be_bytes(),
    };
    let [[s0, s1, s2, s3], [d0, d1, d2, d3]] = [server(), server()];
    let retry = random.below(u32::from(MOST_RETRY) + 1) as u8;
    let ttl = match random.below(3) {
        0 => u8::MAX,
        1 => random.below(8) as u8,
        _ => random.byte(),
    };
    [s0, s1, s2, s3, d0, d1, d2, d3, retry, ttl]
}

/// A hall whose sheet without packets has at most so many bytes, or the smallest.
fn fitting_hall(random: &mut Random, most: usize) -> Hall {
    if most < HEAD + hall_codes(SMALLEST) {
        return SMALLEST;
    }
    loop {
        let hall = sound_hall(random, 0);
        if head(hall) + hall_codes(hall) <= most {
            return hall;
        }
    }
}

/// The most packets of a hall's sheet of at most so many bytes.
fn most_packets(hall: Hall, most: usize) -> u32 {
    (most.saturating_sub(head(hall) + hall_codes(hall)) / PACKET_BYTES) as u32
}

/// The bytes of a hall's sheet without its codes and packets.
fn head(hall: Hall) -> usize {
    HEAD + racks_of_sheet(hall)
}

/// The bytes of a sheet up to its codes.
fn opening(hall: Hall, codes: usize) -> Vec<u8> {
    let racks = (!is_full(hall)).then_some(hall.count);
    opening_with(hall, racks, codes)
}

/// The bytes of a sheet up to its codes, with a number of DCell(1)s or none.
fn opening_with(hall: Hall, racks: Option<u32>, codes: usize) -> Vec<u8> {
    let [full, part] = FIRST_COUNTS;
    let first = if racks.is_some() { part } else { full };
    let mut bytes = first.to_be_bytes().to_vec();
    bytes.extend([hall.n, hall.k, hall.b].map(|number| number as u8));
    bytes.extend(racks.into_iter().flat_map(u32::to_be_bytes));
    bytes.extend((codes as u32).to_be_bytes());
    bytes
}

/// The sheet of docs/RULES.md.
pub fn sample() -> Vec<u8> {
    let mut bytes = opening(SAMPLE_HALL, hall_codes(SAMPLE_HALL));
    bytes.extend(vec![UP; hall_codes(SAMPLE_HALL)]);
    for place in SAMPLE_DOWN {
        bytes[CODES_AT + place] = 2;
    }
    bytes.extend(1u32.to_be_bytes());
    bytes.extend(SAMPLE_PACKET);
    bytes
}

/// The sheet that is tried of a hall that is not full: all up, with a packet.
fn part_sample() -> Vec<u8> {
    let mut bytes = opening(PART_HALL, hall_codes(PART_HALL));
    bytes.extend(vec![UP; hall_codes(PART_HALL)]);
    bytes.extend(1u32.to_be_bytes());
    bytes.extend(PART_PACKET);
    bytes
}

/// A sheet of each hall and of some that are none, all up, with a packet; cut at the most bytes where the hall is too large. Each is tried
/// without a number of DCell(1)s, and with every number to try, that of a full hall among them.
fn hall_sheets() -> impl Iterator<Item = Sheet> {
    let ns = LEAST_N - 1..=MOST_N + 1;
    let halls =
        ns.flat_map(|n| (0..=4).flat_map(move |k| (0..=2).map(move |b| Hall::full(n, k, b))));
    halls.flat_map(|hall| {
        let counts = edge_counts(hall).into_iter().chain([hall.count]);
        let racks = iter::once(None).chain(counts.map(Some));
        racks.flat_map(move |racks| hall_sheet(hall, racks))
    })
}

/// The sheet of a hall with a number of DCell(1)s or none, and the same with its last code unknown.
fn hall_sheet(hall: Hall, racks: Option<u32>) -> [Sheet; 2] {
    let count = hall_codes(hall);
    let mut bytes = opening_with(hall, racks, count);
    let end = (bytes.len() + count).min(SHEET_ROOM);
    bytes.resize(end, UP);
    bytes.extend(1u32.to_be_bytes());
    bytes.extend([0; PACKET_BYTES]);
    bytes.truncate(SHEET_ROOM);
    let mut unknown = bytes.clone();
    unknown[end - 1] = KNOWN;
    [Sheet(bytes), Sheet(unknown)]
}

#[cfg(test)]
mod tests {
    use std::collections::BTreeSet;

    use super::*;
    use crate::compare::events::{Met, SECTIONS};
    use peer::sheet;

    /// So many sheets of a class.
    fn drawn(class: &Class, count: usize) -> Vec<Sheet> {
        let mut random = Random::new(4);
        iter::repeat_with(|| class.any(&mut random))
            .take(count)
            .collect()
    }

    /// The numbers that sheets are refused by, 0 for none.
    fn numbers<'a>(sheets: impl Iterator<Item = &'a Sheet>) -> Vec<u32> {
        let met: BTreeSet<u32> = sheets.map(|sheet| sheet::read(sheet).refusal).collect();
        met.into_iter().collect()
    }

    #[test]
    fn every_class_keeps_to_its_lengths_and_meets_both_ends() {
        for class in [&TINY, &SMALL, &MIDDLE, &FULL, &OVER] {
            let lengths: Vec<usize> = drawn(class, 400).iter().map(|sheet| sheet.len()).collect();
            assert!(lengths
                .iter()
                .all(|length| class.lengths().contains(length)));
            assert!(lengths.iter().any(|&length| length < class.least + 10));
            assert!(lengths.iter().any(|&length| length + 10 > class.most));
        }
    }

    #[test]
    fn nearly_half_of_the_sheets_are_refused_by_every_number() {
        let sheets = drawn(&SMALL, 4_000);
        let refused = sheets
            .iter()
            .filter(|sheet| sheet::read(sheet).refusal != 0);
        let share = refused.count() * 100 / sheets.len();
        assert!((35..50).contains(&share), "{share}");
        assert_eq!(numbers(sheets.iter()), [0, 1, 2, 4, 5, 8, 10]);
    }

    #[test]
    fn sheets_of_halls_that_are_not_full_are_drawn_sound_and_with_every_fault_of_their_count() {
        let mut met = Met::default();
        let mut random = Random::new(8);
        (0..12_000).for_each(|_| met.add_section(&any_sheet(&mut random)));
        let told: Vec<String> = met.texts().collect();
        let missing = met.unmet(SECTIONS);
        assert!(missing.is_empty(), "{missing:?} {told:?}");
    }

    #[test]
    fn the_edges_hold_sheets_with_every_fault_of_the_first_section() {
        let mut met = Met::default();
        edge_sheets().for_each(|sheet| met.add_section(&sheet));
        assert_eq!(met.unmet(SECTIONS), []);
    }

    #[test]
    fn the_parts_of_a_sheet_of_a_hall_that_is_not_full_are_sound() {
        let mut random = Random::new(7);
        let hall = Hall {
            count: 5,
            ..Hall::full(3, 2, 1)
        };
        let whole = largest(&mut random, hall, 5);
        assert_eq!(
            (sheet::read(&whole).refusal, sheet::read(&whole).count),
            (0, 5)
        );
        assert!(whole.len() + PACKET_BYTES > SHEET_ROOM);
        let one = alone(&whole, hall_codes(hall), 77);
        assert_eq!(sheet::packet(&one, 0), sheet::packet(&whole, 77));
        assert_eq!(sheet::read(&one).packets, 1);
        let none = without_packets(&whole, hall_codes(hall));
        assert_eq!(
            (sheet::read(&none).refusal, sheet::read(&none).count),
            (0, 5)
        );
    }

    #[test]
    fn the_edges_of_each_class_meet_every_number_it_can_give() {
        let met = |class: &'static Class| numbers(class.edges().collect::<Vec<Sheet>>().iter());
        for class in [&SMALL, &MIDDLE, &LARGE] {
            assert_eq!(met(class), [0, 1, 2, 4, 5, 8, 10]);
        }
        assert_eq!(met(&FULL), [1, 2, 4, 5, 8, 10]);
        assert_eq!(met(&OVER), [10]);
    }

    #[test]
    fn the_largest_sheets_are_sound_and_less_than_a_packet_short_of_the_most() {
        let mut random = Random::new(5);
        for hall in [SAMPLE_HALL, Hall::full(8, 2, 1), Hall::full(2, 3, 0)] {
            let sheet = largest(&mut random, hall, 5);
            assert_eq!(sheet::read(&sheet).refusal, 0);
            assert!(sheet.len() + PACKET_BYTES > SHEET_ROOM);
        }
    }

    #[test]
    fn a_packet_alone_is_the_packet_of_the_whole_sheet() {
        let mut random = Random::new(6);
        let whole = largest(&mut random, SAMPLE_HALL, 5);
        let one = alone(&whole, hall_codes(SAMPLE_HALL), 77);
        assert_eq!(sheet::packet(&one, 0), sheet::packet(&whole, 77));
        assert_eq!(sheet::read(&one).packets, 1);
    }

    #[test]
    fn a_long_sheet_is_shown_by_its_length_and_first_bytes() {
        assert_eq!(format!("{:?}", Sheet(vec![1, 2])), "2 bytes [1, 2]");
        let shown = format!("{:?}", Sheet(vec![7; 1000]));
        assert!(shown.starts_with("1000 bytes [7, 7") && shown.ends_with("] .."));
    }
}
