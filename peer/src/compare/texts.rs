//! Lines of a trace written to lent room, and the text that they make.

use std::fmt::{self, Debug, Formatter};

use peer::random::Random;
use peer::refusal::{NONE, ROOM};

use super::events::{Event, Met};
use super::room::Room;

/// The bytes of the longest line.
pub const LONGEST_LINE: usize = 2_877;
/// A line is written before this place, unless it is refused.
const PLACES: u32 = 4_000;

/// What every comparison of a call that writes a line or a table has to meet: a room that is a byte too short, the exact one, and one byte
/// more.
pub const FITS: &[Event] = &[
    Event::Spare {
        number: ROOM,
        bytes: -1,
    },
    Event::Spare {
        number: NONE,
        bytes: 0,
    },
    Event::Spare {
        number: NONE,
        bytes: 1,
    },
];

/// A place to write a line at, and the room there.
#[derive(Debug, Clone, Copy)]
pub struct Spot {
    pub at: usize,
    space: Space,
}

/// How long the room of a line is.
#[derive(Debug, Clone, Copy)]
enum Space {
    /// Up to the line's end, and so many bytes more or fewer.
    Line(isize),
    /// So many bytes, wherever the line ends.
    Whole(usize),
}

/// What a call that writes one line is lent: the room of the line, and the number that tells its end.
#[derive(Debug, Clone, PartialEq)]
pub struct LineRooms {
    pub line_room: Room<u8>,
    pub end: usize,
    /// The bytes that the rooms have behind the line, or lack, where it is not far behind them.
    spare: Option<isize>,
    /// The peer's line before it is told; empty behind that.
    line: Vec<u8>,
}

/// Text that is made of pieces.
#[derive(Clone, Default)]
pub struct Text {
    bytes: Vec<u8>,
    /// The length of the room that the pieces are written to.
    room: usize,
}

impl Spot {
    /// The start of room for one line.
    pub const START: Spot = Spot {
        at: 0,
        space: Space::Line(0),
    };

    /// Any place, with exactly the room for a line behind it, a byte more or less, or more or less by any number; or one behind the room.
    pub fn any(random: &mut Random) -> Spot {
        if random.once_in(32) {
            let at = usize::MAX - random.below(2 * LONGEST_LINE as u32) as usize;
            let space = Space::Whole(random.below(LONGEST_LINE as u32) as usize);
            return Spot { at, space };
        }
        let at = match random.below(4) {
            0 => 0,
            1 => random.below(100) as usize,
            _ => random.below(PLACES) as usize,
        };
        let space = match random.below(8) {
            0 | 1 => Space::Line(-1),
            2 => Space::Line(1),
            3 => Space::Line(random.below(100) as isize),
            4 => Space::Line(-(random.below(100) as isize)),
            5 => Space::Whole(random.below(at as u32 + 1) as usize),
            _ => Space::Line(0),
        };
        Spot { at, space }
    }

    /// The places that every comparison tries.
    pub fn edges() -> impl Iterator<Item = Spot> {
        let just = [0, 1, 50, LONGEST_LINE].into_iter().flat_map(|at| {
            let whole = [0, at].map(Space::Whole);
            let line = [-1, 0, 1].map(Space::Line);
            let spaces = whole.into_iter().chain(line);
            spaces.map(move |space| Spot { at, space })
        });
        let far = [
            usize::MAX,
            usize::MAX - LONGEST_LINE,
            usize::MAX - LONGEST_LINE + 1,
        ];
        let far = far.into_iter().flat_map(|at| {
            let spaces = [0, LONGEST_LINE].map(Space::Whole);
            spaces.map(|space| Spot { at, space })
        });
        just.chain(far)
    }

    /// Rooms for a line of so many bytes, filled at random.
    pub fn rooms(&self, random: &mut Random, line: usize) -> LineRooms {
        let end = self.at.checked_add(line);
        let length = match self.space {
            Space::Line(more) => end.map_or(0, |end| end.saturating_add_signed(more)),
            Space::Whole(length) => length,
        };
        LineRooms {
            line_room: Room::filled(random, length),
            end: random.word() as usize,
            spare: end.and_then(|end| length.checked_signed_diff(end)),
            line: Vec::new(),
        }
    }
}

impl LineRooms {
    /// Counts a room that just held the line or just did not, by the number returned.
    pub fn count(&self, number: u32, met: &mut Met) {
        if let (NONE | ROOM, Some(bytes @ -1..=1)) = (number, self.spare) {
            met.add(Event::Spare { number, bytes });
        }
    }

    /// Rooms for any line at place 0.
    pub fn ample() -> LineRooms {
        LineRooms {
            line_room: Room::new(LONGEST_LINE),
            end: 0,
            spare: None,
            line: Vec::new(),
        }
    }

    /// The room, and the number that tells the end, as they are lent to a call.
    pub fn lent(&mut self) -> (&mut [u8], &mut usize) {
        (self.line_room.lent(), &mut self.end)
    }

    /// Tells a line: returns its refusal, or writes it and tells its end.
    pub fn tell(&mut self, refusal: u32, line: &[u8], at: usize) -> u32 {
        let number = put(refusal, line, at, self.line_room.lent());
        if number == NONE {
            self.end = at + line.len();
        }
        number
    }

    /// The same for a line that a function adds to a text, and that is never refused but for the room.
    pub fn tell_added(&mut self, at: usize, add: impl Fn(&mut Vec<u8>)) -> u32 {
        let mut line = std::mem::take(&mut self.line);
        add(&mut line);
        let number = self.tell(NONE, &line, at);
        line.clear();
        self.line = line;
        number
    }
}

/// The bytes of a line that a function adds to a text.
pub fn line_length(add: impl Fn(&mut Vec<u8>)) -> usize {
    let mut line = Vec::new();
    add(&mut line);
    line.len()
}

/// Writes a line at a place where there is no refusal and room for it; returns the refusal.
fn put(refusal: u32, line: &[u8], at: usize, room: &mut [u8]) -> u32 {
    if refusal != NONE {
        return refusal;
    }
    let behind = room.get_mut(at..).unwrap_or(&mut []);
    let Some(written) = behind.get_mut(..line.len()) else {
        return ROOM;
    };
    written.copy_from_slice(line);
    NONE
}

impl Text {
    /// The text of bytes.
    pub fn of(bytes: Vec<u8>) -> Text {
        Text { bytes, room: 0 }
    }

    /// No text, to be made of pieces in a room of a length.
    pub fn in_pieces(room: usize) -> Text {
        let bytes = Vec::new();
        Text { bytes, room }
    }

    /// Joins the pieces that a call writes to the room from each line on, until it is refused.
    pub fn join(&mut self, piece: impl Fn(u32, &mut [u8], &mut u32, &mut usize) -> u32) {
        self.bytes.clear();
        let mut room = vec![0; self.room];
        let (mut from, mut next, mut end) = (0, 0, 0);
        while piece(from, &mut room, &mut next, &mut end) == NONE && next > from {
            self.bytes
                .extend_from_slice(room.get(..end).unwrap_or(&room));
            from = next;
        }
    }

    /// The bytes of the text.
    pub fn bytes(&self) -> &[u8] {
        &self.bytes
    }
}

impl PartialEq for Text {
    /// Two texts are equal by their bytes.
    fn eq(&self, other: &Text) -> bool {
        self.bytes() == other.bytes()
    }
}

impl Debug for Text {
    /// The text as it reads.
    fn fmt(&self, f: &mut Formatter<'_>) -> fmt::Result {
        write!(f, "{:?}", String::from_utf8_lossy(self.bytes()))
    }
}

#[cfg(test)]
mod tests {
    use super::*;

    #[test]
    fn a_line_is_written_at_its_place_and_the_rest_stays() {
        let mut room = [9; 7];
        assert_eq!(put(0, b"END", 2, &mut room), 0);
        assert_eq!(room, [9, 9, b'E', b'N', b'D', 9, 9]);
        assert_eq!(put(0, b"END", 4, &mut room), 0);
        assert_eq!(room[4..], *b"END");
    }

    #[test]
    fn a_refused_line_and_a_byte_too_few_leave_the_room_as_lent() {
        let mut room = [9; 4];
        assert_eq!(put(5, b"END", 0, &mut room), 5);
        for at in [2, 3, 4, 5, usize::MAX] {
            assert_eq!(put(0, b"END", at, &mut room), ROOM);
        }
        assert_eq!(room, [9; 4]);
    }

    #[test]
    fn a_line_that_is_added_is_told_as_one_that_is_given() {
        let mut random = Random::new(2);
        for spot in Spot::edges() {
            let mut given = spot.rooms(&mut random, 6);
            let mut added = given.clone();
            let number = given.tell(NONE, b"END 7\n", spot.at);
            let again = added.tell_added(spot.at, |text| text.extend_from_slice(b"END 7\n"));
            assert_eq!((number, given), (again, added));
        }
    }

    #[test]
    fn a_text_is_its_pieces_one_behind_the_other() {
        let pieces: [&[u8]; 3] = [b"ab\n", b"cd\nef\n", b"g\n"];
        let mut text = Text::in_pieces(6);
        text.join(|from, room, next, end| {
            let Some(piece) = pieces.get(from as usize) else {
                return 3;
            };
            room[..piece.len()].copy_from_slice(piece);
            (*next, *end) = (from + 1, piece.len());
            0
        });
        assert_eq!(text, Text::of(b"ab\ncd\nef\ng\n".to_vec()));
    }

    #[test]
    fn a_call_that_does_not_go_on_ends_the_text() {
        let mut text = Text::in_pieces(1);
        text.join(|_, _, next, end| {
            (*next, *end) = (1, 1);
            0
        });
        assert_eq!(text, Text::of(vec![0]));
    }

    #[test]
    fn spots_meet_the_exact_room_a_byte_less_and_one_more() {
        let mut random = Random::new(1);
        let mut met = Met::default();
        for _ in 0..1000 {
            let mut rooms = Spot::any(&mut random).rooms(&mut random, 6);
            let spot = Spot::any(&mut random);
            rooms.spare = spot.rooms(&mut random, 6).spare;
            rooms.count(if rooms.spare < Some(0) { ROOM } else { NONE }, &mut met);
        }
        assert!(met.unmet(FITS).is_empty());
    }
}
