//! The header of a frame, written.

use peer::frame::{self, Fields, PROXY_BYTES};
use peer::random::Random;
use peer::refusal::{ADDRESS, NONE, RETRY, ROOM};

use crate::compare::call::Call;
use crate::compare::cases::Case;
use crate::compare::frames::{any_fields, edge_fields, sound_fields, PLAIN, PROXIED};
use crate::compare::room::Room;
use crate::rattle;

/// The longest room.
const LONGEST: usize = 30;
/// One retry in so many may be above its range.
const ANY_RETRY: u32 = 8;

/// The call `tbexlum_write_header`.
pub struct WriteHeader;

/// The fields, the number that tells of a proxy, and the length of the room.
#[derive(Debug)]
pub struct Input {
    fields: Fields,
    has_proxy: u32,
    length: usize,
}

impl Call for WriteHeader {
    type Input = Input;
    type Rooms = Room<u8>;

    const NAME: &'static str = "write header";
    const NUMBERS: &'static [u32] = &[NONE, ROOM, RETRY, ADDRESS];
    const INPUTS: u32 = 600_000;

    fn any(random: &mut Random) -> Input {
        let mut fields = any_fields(random);
        if random.once_in(ANY_RETRY) {
            fields.retry = random.byte();
        }
        let has_proxy = any_proxy(random, fields.has_proxy);
        let length = random.below(LONGEST as u32 + 1) as usize;
        Input {
            fields,
            has_proxy,
            length,
        }
    }

    fn edges() -> impl Iterator<Item = Input> {
        let in_all_rooms = |(fields, has_proxy)| {
            (0..=LONGEST).map(move |length| Input {
                fields,
                has_proxy,
                length,
            })
        };
        let edges = edge_fields().map(|fields| (fields, u32::from(fields.has_proxy)));
        retries()
            .chain(proxies())
            .chain(edges)
            .flat_map(in_all_rooms)
    }

    fn rooms(input: &Input, random: &mut Random) -> Room<u8> {
        Room::filled(random, input.length)
    }

    fn cases() -> Vec<Case<Input>> {
        vec![case("no proxy", false), case("proxy", true)]
    }

    fn ample_rooms() -> Room<u8> {
        Room::new(PROXY_BYTES)
    }

    fn rattle(input: &Input, room: &mut Room<u8>) -> u32 {
        rattle::write_header(&input.fields, input.has_proxy, room.lent())
    }

    fn peer(input: &Input, room: &mut Room<u8>) -> u32 {
        frame::write(input.fields, room.lent())
    }
}

/// A number that tells of a proxy or of none; any but 0 tells of one.
fn any_proxy(random: &mut Random, has_proxy: bool) -> u32 {
    match (has_proxy, random.below(4)) {
        (false, _) => 0,
        (true, 0) => 1 << random.below(u32::BITS),
        (true, 1) => random.word().max(1),
        (true, _) => 1,
    }
}

/// Fields with each retry that a byte holds.
fn retries() -> impl Iterator<Item = (Fields, u32)> {
    let pairs = [(PLAIN, 0), (PROXIED, 1)].into_iter();
    pairs.flat_map(|(fields, proxy)| {
        (0..=u8::MAX).map(move |retry| (Fields { retry, ..fields }, proxy))
    })
}

/// Fields with each bit that can tell of a proxy.
fn proxies() -> impl Iterator<Item = (Fields, u32)> {
    let numbers = (0..u32::BITS).map(|bit| 1 << bit);
    numbers.chain([u32::MAX]).map(|number| (PROXIED, number))
}

/// A line of the benchmark: sound headers with a proxy or without.
fn case(name: &str, proxy: bool) -> Case<Input> {
    Case::named(name, move |random| Input {
        fields: sound_fields(random, proxy, 0),
        has_proxy: u32::from(proxy),
        length: PROXY_BYTES,
    })
}
