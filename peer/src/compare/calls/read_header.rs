//! The header of a frame, read in the driver's form.

use peer::frame::{self, Header};
use peer::random::Random;
use peer::refusal::{ADDRESS, CHECKSUM, DHL, FLAGS, NONE, PF, ROOM, SHORT_FRAME, VERSION};

use crate::compare::call::Call;
use crate::compare::cases::Case;
use crate::compare::events::{self, Event, Met};
use crate::compare::faults::{Fault, Faults};
use crate::compare::frames::{any_frame, edge_frames, frame, sound_fields};
use crate::compare::room::{told, Room};
use crate::rattle;

/// The random frames of a short comparison of each of the two calls that read a header.
pub const FRAMES: u32 = 1_000_000;
/// The numbers that a call can return which reads a frame and writes what it read to lent room.
pub const READ_NUMBERS: &[u32] = &[
    NONE,
    ROOM,
    SHORT_FRAME,
    CHECKSUM,
    ADDRESS,
    VERSION,
    DHL,
    FLAGS,
    PF,
];
/// The bytes of the answer: ten words.
const BYTES: usize = 40;

/// The call `tbexlum_read_header`.
pub struct ReadHeader;

impl Call for ReadHeader {
    type Input = Vec<u8>;
    type Rooms = Room<u8>;

    const NAME: &'static str = "read header";
    const NUMBERS: &'static [u32] = READ_NUMBERS;
    const EVENTS: &'static [Event] = events::READ_HEADER;
    const INPUTS: u32 = FRAMES;

    fn any(random: &mut Random) -> Vec<u8> {
        any_frame(random)
    }

    fn edges() -> impl Iterator<Item = Vec<u8>> {
        edge_frames()
    }

    fn count(frame: &Vec<u8>, _: u32, room: &Room<u8>, met: &mut Met) {
        let mut faults = Faults::of(frame);
        if room.length() < BYTES {
            faults = faults.and(Fault::Room);
        }
        met.add_faults(faults);
    }

    fn rooms(_: &Vec<u8>, random: &mut Random) -> Room<u8> {
        Room::any(random, BYTES, BYTES + 4)
    }

    fn cases() -> Vec<Case<Vec<u8>>> {
        vec![
            case("no proxy", false, 0),
            case("proxy", true, 0),
            case("1,500 bytes behind", false, 1500),
        ]
    }

    fn ample_rooms() -> Room<u8> {
        Room::new(BYTES)
    }

    fn rattle(frame: &Vec<u8>, room: &mut Room<u8>) -> u32 {
        rattle::read_header(frame, room.lent())
    }

    fn peer(frame: &Vec<u8>, room: &mut Room<u8>) -> u32 {
        let header = frame::read(frame);
        let words = words(&header).map(u32::to_be_bytes);
        told(header.refusal, words.as_flattened(), room.lent())
    }
}

/// The words of the driver's form.
fn words(header: &Header) -> [u32; BYTES / 4] {
    [
        header.header_length,
        header.protocol,
        header.payload_length,
        header.identification,
        header.retry,
        header.ttl,
        header.source,
        header.destination,
        u32::from(header.has_proxy),
        header.proxy,
    ]
}

/// A line of the benchmark: sound frames with a proxy or without, and so many bytes behind the header.
fn case(name: &str, proxy: bool, behind: u16) -> Case<Vec<u8>> {
    Case::named(name, move |random| {
        let fields = sound_fields(random, proxy, behind);
        frame(random, &fields)
    })
}
