//! A piece of a sheet's trace: as many whole lines, from one on, as the room has place for.

use peer::random::Random;
use peer::refusal::{NONE, RANGE, ROOM};
use peer::{report, sheet};

use crate::compare::call::Call;
use crate::compare::events::{Event, Met};
use crate::compare::inputs::around;
use crate::compare::room::Room;
use crate::compare::sheets::{any_sheet, edge_sheets, Sheet};
use crate::compare::texts::FITS;
use crate::compare::trails::longest_sheets;
use crate::rattle;

/// The random pieces of a short comparison.
const PIECES: u32 = 30_000;
/// The lines whose ends a room is measured by stand in so many bytes.
const LOOKED_AT: usize = 4_096;
/// The longest room.
const MOST_ROOM: u32 = 65_536;
/// One room in so many is of any length up to the longest.
const ANY_ROOM: u32 = 16;

/// The call `calls_trace_piece`.
pub struct TracePiece;

/// A sheet, and the line that the piece is to start from.
#[derive(Debug)]
pub struct Input {
    sheet: Sheet,
    from: u32,
}

/// The room, and the places for the first line that is not written and the end of the text.
#[derive(Debug, Clone, PartialEq)]
pub struct Rooms {
    room: Room<u8>,
    next: u32,
    end: usize,
    /// The bytes of the first line; 0 where there is none.
    line: usize,
}

impl Call for TracePiece {
    type Input = Input;
    type Rooms = Rooms;

    const NAME: &'static str = "trace piece";
    const NUMBERS: &'static [u32] = &[NONE, RANGE, ROOM];
    const EVENTS: &'static [Event] = FITS;
    const INPUTS: u32 = PIECES;

    fn any(random: &mut Random) -> Input {
        let sheet = any_sheet(random);
        let from = around(random, lines(&sheet));
        Input { sheet, from }
    }

    fn edges() -> impl Iterator<Item = Input> {
        let froms = [0, 1, 2, 3, u32::MAX].into_iter().cycle();
        let inputs = edge_sheets().zip(froms);
        let long = longest_sheets().flat_map(|sheet| [(sheet.clone(), 0), (sheet, 1)]);
        let inputs = inputs.chain(long);
        inputs.map(|(sheet, from)| Input { sheet, from })
    }

    fn count(_: &Input, number: u32, rooms: &Rooms, met: &mut Met) {
        let needed = if number == NONE {
            rooms.end
        } else {
            rooms.line
        };
        let spare = rooms.room.length().checked_signed_diff(needed);
        if let (NONE | ROOM, Some(bytes @ -1..=1)) = (number, spare) {
            met.add(Event::Spare { number, bytes });
        }
    }

    fn rooms(input: &Input, random: &mut Random) -> Rooms {
        let ends = line_ends(input);
        let end = ends.get(random.below(ends.len() as u32) as usize);
        let length = match (random.once_in(ANY_ROOM), random.below(4)) {
            (true, _) => random.below(MOST_ROOM + 1) as usize,
            (false, 0) => end.map_or(0, |end| end - 1),
            (false, 1) => end.map_or(1, |end| end + 1),
            (false, 2) => random.below(LOOKED_AT as u32) as usize,
            (false, _) => end.map_or(0, |&end| end),
        };
        Rooms {
            room: Room::filled(random, length),
            next: random.word(),
            end: random.bits() as usize,
            line: ends.first().map_or(0, |&end| end),
        }
    }

    fn ample_rooms() -> Rooms {
        Rooms {
            room: Room::new(MOST_ROOM as usize),
            next: 0,
            end: 0,
            line: 0,
        }
    }

    fn rattle(input: &Input, rooms: &mut Rooms) -> u32 {
        let Rooms {
            room, next, end, ..
        } = rooms;
        rattle::trace_piece(&input.sheet, input.from, room.lent(), next, end)
    }

    fn peer(input: &Input, rooms: &mut Rooms) -> u32 {
        let piece = report::trace_piece(&input.sheet, input.from, rooms.room.lent());
        if piece.refusal == NONE {
            (rooms.next, rooms.end) = (piece.next, piece.end);
        }
        piece.refusal
    }
}

/// The lines of a sheet's trace.
fn lines(sheet: &[u8]) -> u32 {
    let read = sheet::read(sheet);
    match read.refusal {
        NONE => read.packets + 2,
        _ => 1,
    }
}

/// Where the first lines of a piece end in a room that is long enough for all of them.
fn line_ends(input: &Input) -> Vec<usize> {
    let mut room = [0; LOOKED_AT];
    let end = report::trace_piece(&input.sheet, input.from, &mut room).end;
    let text = room[..end].iter().enumerate();
    let ends = text.filter(|(_, &byte)| byte == b'\n');
    ends.map(|(place, _)| place + 1).collect()
}
