//! The trace of a whole sheet, joined of pieces in rooms of several lengths, a row of the table for each range of lengths of sheets.

use peer::random::Random;
use peer::refusal::{CODE, HALL, LENGTH, NONE, RETRY, SHEET, UID};
use peer::{report, sheet};

use super::sheet::VALUES;
use crate::compare::call::Call;
use crate::compare::events::{Event, Met, PART_SHEET};
use crate::compare::sheets::{self, Class, Sheet};
use crate::compare::texts::Text;
use crate::compare::trails::longest_sheets;
use crate::rattle;

/// Every number that a sheet of any but the greatest lengths can be refused by, and 0.
const ALL: &[u32] = &[NONE, HALL, UID, LENGTH, CODE, RETRY, SHEET];
/// The same for a length that no sound sheet has.
const ALL_REFUSED: &[u32] = &[HALL, UID, LENGTH, CODE, RETRY, SHEET];

/// What sets one row apart: its name, the sheets, their numbers, what has to be met besides, and how many are drawn.
struct Row {
    name: &'static str,
    class: &'static Class,
    numbers: &'static [u32],
    events: &'static [Event],
    inputs: u32,
}

/// The longest room that a piece is written to.
const MOST_ROOM: u32 = 65_536;

/// The rows, by the most bytes of their sheets. Each piece of a trace reads the whole sheet again, so in short rooms the time grows with
/// the square of the length, and few large sheets are drawn.
const ROWS: [Row; 6] = [
    row("trace 100", &sheets::TINY, ALL, &[], 12_000),
    row("trace 1000", &sheets::SMALL, ALL, PART_SHEET, 10_000),
    row("trace 10000", &sheets::MIDDLE, ALL, PART_SHEET, 3_000),
    row("trace 65535", &sheets::LARGE, ALL, PART_SHEET, 150),
    row("trace 65536", &sheets::FULL, ALL_REFUSED, &[], 400),
    row("trace longer", &sheets::OVER, &[SHEET], &[], 400),
];

/// The call `calls_trace_piece` from each line that the one before did not write, and `calls_sheet`.
pub struct Trace<const ROW: usize>;

impl<const ROW: usize> Call for Trace<ROW> {
    type Input = Sheet;
    type Rooms = Text;

    const NAME: &'static str = ROWS[ROW].name;
    const NUMBERS: &'static [u32] = ROWS[ROW].numbers;
    const EVENTS: &'static [Event] = ROWS[ROW].events;
    const INPUTS: u32 = ROWS[ROW].inputs;
    const MEASURED: usize = 1;

    fn any(random: &mut Random) -> Sheet {
        ROWS[ROW].class.any(random)
    }

    fn edges() -> impl Iterator<Item = Sheet> {
        let class: &'static Class = ROWS[ROW].class;
        let long = longest_sheets().filter(|sheet| class.holds(sheet));
        class.edges().chain(long)
    }

    fn count(input: &Sheet, _: u32, _: &Text, met: &mut Met) {
        met.add_part_sheet(input);
    }

    fn rooms(input: &Sheet, random: &mut Random) -> Text {
        let longest = longest_line(&report::trace(input));
        let most = MOST_ROOM - longest as u32;
        let more = match random.below(8) {
            0 => 0,
            1 => 1,
            2 => most,
            _ => random.below(most) >> random.below(u16::BITS),
        };
        Text::in_pieces(longest + more as usize)
    }

    fn ample_rooms() -> Text {
        Text::default()
    }

    fn rattle(input: &Sheet, text: &mut Text) -> u32 {
        text.join(|from, room, next, end| rattle::trace_piece(input, from, room, next, end));
        rattle::sheet(input, &mut [0; VALUES])
    }

    fn peer(input: &Sheet, text: &mut Text) -> u32 {
        *text = Text::of(report::trace(input));
        sheet::read(input).refusal
    }
}

/// The bytes of the longest line of a text.
fn longest_line(text: &[u8]) -> usize {
    let lines = text.split_inclusive(|&byte| byte == b'\n');
    lines.map(<[u8]>::len).max().unwrap_or(0)
}

/// A row of the table.
const fn row(
    name: &'static str,
    class: &'static Class,
    numbers: &'static [u32],
    events: &'static [Event],
    inputs: u32,
) -> Row {
    Row {
        name,
        class,
        numbers,
        events,
        inputs,
    }
}
