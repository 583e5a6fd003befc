//! The header of a frame: the place that its refusal is told at.

use peer::frame;
use peer::random::Random;

use super::read_header::FRAMES;
use crate::compare::call::Value;
use crate::compare::events::{self, Event, Met};
use crate::compare::faults::Faults;
use crate::compare::frames::{any_frame, edge_frames};
use crate::rattle;

/// The call `tbexlum_header_place`, which returns the place.
pub struct HeaderPlace;

impl Value for HeaderPlace {
    type Input = Vec<u8>;
    type Told = u32;

    const NAME: &'static str = "header place";
    const EVENTS: &'static [Event] = events::HEADER_PLACE;
    const INPUTS: u32 = FRAMES;

    fn any(random: &mut Random) -> Vec<u8> {
        any_frame(random)
    }

    fn edges() -> impl Iterator<Item = Vec<u8>> {
        edge_frames()
    }

    fn count(frame: &Vec<u8>, met: &mut Met) {
        let header = frame::read(frame);
        met.add(Event::Told {
            number: header.refusal,
            place: header.place,
        });
        met.add_faults(Faults::of(frame));
    }

    fn rattle(frame: &Vec<u8>) -> u32 {
        rattle::header_place(frame)
    }

    fn peer(frame: &Vec<u8>) -> u32 {
        frame::read(frame).place
    }
}
