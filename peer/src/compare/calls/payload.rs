//! The payload of a frame.

use peer::frame::payload;
use peer::random::Random;

use super::read_header::READ_NUMBERS;
use crate::compare::call::Call;
use crate::compare::cases::Case;
use crate::compare::events::{self, Event, Met};
use crate::compare::faults::Faults;
use crate::compare::frames::{any_frame, edge_frames, frame, sound_fields};
use crate::compare::room::{told, Room};
use crate::rattle;

/// The longest payload of the benchmark.
const MEASURED_BYTES: usize = 1_500;

/// The call `calls_payload`.
pub struct Payload;

impl Call for Payload {
    type Input = Vec<u8>;
    type Rooms = Room<u8>;

    const NAME: &'static str = "payload";
    const NUMBERS: &'static [u32] = READ_NUMBERS;
    const EVENTS: &'static [Event] = events::PAYLOAD;
    const INPUTS: u32 = 300_000;

    fn any(random: &mut Random) -> Vec<u8> {
        any_frame(random)
    }

    fn edges() -> impl Iterator<Item = Vec<u8>> {
        edge_frames()
    }

    fn count(frame: &Vec<u8>, _: u32, _: &Room<u8>, met: &mut Met) {
        met.add_faults(Faults::of(frame));
    }

    fn rooms(frame: &Vec<u8>, random: &mut Random) -> Room<u8> {
        let needed = payload(frame).1.len();
        Room::any(random, needed, needed + 4)
    }

    fn cases() -> Vec<Case<Vec<u8>>> {
        vec![
            case("no byte", false, 0),
            case("64 bytes, proxy", true, 64),
            case("1,500 bytes", false, 1500),
        ]
    }

    fn ample_rooms() -> Room<u8> {
        Room::new(MEASURED_BYTES)
    }

    fn rattle(frame: &Vec<u8>, room: &mut Room<u8>) -> u32 {
        rattle::payload(frame, room.lent())
    }

    fn peer(frame: &Vec<u8>, room: &mut Room<u8>) -> u32 {
        let (refusal, payload) = payload(frame);
        told(refusal, payload, room.lent())
    }
}

/// A line of the benchmark: sound frames with so long a payload.
fn case(name: &str, proxy: bool, bytes: u16) -> Case<Vec<u8>> {
    Case::named(name, move |random| {
        let fields = sound_fields(random, proxy, bytes);
        frame(random, &fields)
    })
}
