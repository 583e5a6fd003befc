//! The reading of a sheet: its hall and the number of its packets.

use peer::random::Random;
use peer::refusal::{CODE, HALL, LENGTH, NONE, RETRY, ROOM, SHEET, UID};
use peer::sheet;

use crate::compare::call::Call;
use crate::compare::cases::{by_b_and_share, Case};
use crate::compare::events::{Event, Met, SECTIONS};
use crate::compare::room::{told, Room};
use crate::compare::sheets::{any_sheet, edge_sheets, largest, Sheet as Bytes};
use crate::rattle;

/// The random sheets of a short comparison of each call that reads one.
pub const SHEETS: u32 = 60_000;
/// The highest k of the halls that are measured: with k = 3 the codes alone are more than a sheet may have.
const MOST_LEVEL: u32 = 2;
/// The values of the answer: n, k, b, the count of DCell(1)s fitted, and the packets.
pub const VALUES: usize = 5;

/// The call `calls_sheet`.
pub struct Sheet;

impl Call for Sheet {
    type Input = Bytes;
    type Rooms = Room<u32>;

    const NAME: &'static str = "sheet";
    const NUMBERS: &'static [u32] = &[NONE, HALL, UID, LENGTH, CODE, ROOM, RETRY, SHEET];
    const EVENTS: &'static [Event] = SECTIONS;
    const INPUTS: u32 = SHEETS;
    const MEASURED: usize = 1;

    fn any(random: &mut Random) -> Bytes {
        any_sheet(random)
    }

    fn edges() -> impl Iterator<Item = Bytes> {
        edge_sheets()
    }

    fn count(input: &Bytes, _: u32, _: &Room<u32>, met: &mut Met) {
        met.add_section(input);
    }

    fn rooms(_: &Bytes, random: &mut Random) -> Room<u32> {
        Room::any(random, VALUES, VALUES + 2)
    }

    fn cases() -> Vec<Case<Bytes>> {
        largest_cases()
    }

    fn ample_rooms() -> Room<u32> {
        Room::new(VALUES)
    }

    fn rattle(input: &Bytes, room: &mut Room<u32>) -> u32 {
        rattle::sheet(input, room.lent())
    }

    fn peer(input: &Bytes, room: &mut Room<u32>) -> u32 {
        let answer = sheet::read(input);
        let values = [answer.n, answer.k, answer.b, answer.count, answer.packets];
        told(answer.refusal, &values, room.lent())
    }
}

/// The lines of the benchmark for whoever reads a whole sheet: the largest ones, of each hall that a sheet has room for.
pub fn largest_cases() -> Vec<Case<Bytes>> {
    let cases = by_b_and_share(largest).into_iter();
    let fits = |case: &Case<Bytes>| case.size.is_some_and(|[_, k]| k <= MOST_LEVEL);
    cases.filter(fits).collect()
}
