//! The rounds of a broadcast.

use peer::broadcast::{self, MOST_SCOPE};
use peer::hall::Hall;
use peer::random::Random;
use peer::refusal::{HALL, LENGTH, NONE, ROOM, SCOPE, UID};

use super::HALL_ROOM;
use crate::compare::call::Call;
use crate::compare::cases::{by_share, Case};
use crate::compare::chains::Chain;
use crate::compare::events::{Event, Met};
use crate::compare::inputs::{any_hall, any_uid, around, edge_halls, servers, sizes};
use crate::compare::room::{told, Room};
use crate::compare::tables::{any_hall_table, sound_hall_table, Table};
use crate::rattle;

/// The values of the answer: the servers reached and the last round.
const VALUES: usize = 2;
/// The most servers of a broadcast.
const MOST_SERVERS: usize = 5_256;
/// The servers that a scope which is none is called as if it had.
const SUPPOSED_SERVERS: usize = 20;
/// Whose server shuts a port is looked for in tables of at most so many codes.
const LOOKED_AT: usize = 2_000;
/// One input in so many is a chain.
const CHAIN: u32 = 64;
/// The chains of each hall that every comparison tries.
const CHAINS: usize = 2;
/// The halls of the chains, n and k of each.
const CHAIN_HALLS: [(u32, u32); 10] = [
    (2, 2),
    (2, 3),
    (3, 2),
    (3, 3),
    (4, 2),
    (5, 2),
    (6, 2),
    (7, 2),
    (8, 2),
    (4, 1),
];
/// The chains drawn at random are of so many of these halls, the first and least ones.
const LIGHT_CHAINS: u32 = 6;

/// What a comparison has to meet: the first room short, the second, and both, on sound input and beside each other refusal; and a port that
/// is shut for its own server, or for its far one.
const MET: &[Event] = &[
    Event::OwnServer,
    Event::FarServer,
    short(ROOM, [true, false]),
    short(ROOM, [false, true]),
    short(ROOM, [true, true]),
    short(HALL, [true, true]),
    short(LENGTH, [true, false]),
    short(LENGTH, [false, true]),
    short(LENGTH, [true, true]),
    short(UID, [true, false]),
    short(UID, [false, true]),
    short(UID, [true, true]),
    short(SCOPE, [false, true]),
];

/// The call `calls_broadcast`.
pub struct Broadcast;

/// A hall with its table, a source and a scope.
#[derive(Debug)]
pub struct Input {
    hall: Hall,
    table: Table,
    source: u32,
    scope: u32,
}

impl Call for Broadcast {
    type Input = Input;
    type Rooms = (Room<u16>, Room<u32>);

    const NAME: &'static str = "broadcast";
    const NUMBERS: &'static [u32] = &[NONE, HALL, UID, LENGTH, ROOM, SCOPE];
    const EVENTS: &'static [Event] = MET;
    const INPUTS: u32 = 200_000;
    const MEASURED: usize = 4;

    fn any(random: &mut Random) -> Input {
        if random.once_in(CHAIN) {
            let (n, k) = CHAIN_HALLS[random.below(LIGHT_CHAINS) as usize];
            return chain(random, n, k);
        }
        let hall = any_hall(random);
        let scope = around(random, hall.k.min(MOST_SCOPE) + 1);
        Input {
            hall,
            table: any_hall_table(random, hall),
            source: any_uid(random, hall),
            scope,
        }
    }

    fn edges() -> impl Iterator<Item = Input> {
        let mut random = Random::new(0);
        let halls = edge_halls().filter(|h| h.b == 0 || h.k < 2);
        let ends = halls.flat_map(move |hall| edge_inputs(&mut random, hall));
        let mut random = Random::new(1);
        let halls = CHAIN_HALLS.into_iter().flat_map(|hall| [hall; CHAINS]);
        ends.chain(halls.map(move |(n, k)| chain(&mut random, n, k)))
    }

    fn count(input: &Input, number: u32, (rounds, room): &Self::Rooms, met: &mut Met) {
        let needed = servers_of(input.hall, input.scope).unwrap_or(SUPPOSED_SERVERS);
        let short = [rounds.length() < needed, room.length() < VALUES];
        if short != [false; 2] {
            met.add(Event::Short { number, short });
        }
        if number == NONE && input.table.len() <= LOOKED_AT {
            input.count_fitted(met);
        }
    }

    fn rooms(input: &Input, random: &mut Random) -> Self::Rooms {
        let needed = servers_of(input.hall, input.scope).unwrap_or(SUPPOSED_SERVERS);
        let rounds = Room::any(random, needed, needed + needed / 8 + 2);
        (rounds, Room::any(random, VALUES, HALL_ROOM))
    }

    fn cases() -> Vec<Case<Input>> {
        (0..=MOST_SCOPE).flat_map(cases_of).collect()
    }

    fn ample_rooms() -> Self::Rooms {
        (Room::new(MOST_SERVERS), Room::new(VALUES))
    }

    fn rattle(at: &Input, (rounds, room): &mut Self::Rooms) -> u32 {
        let (rounds, room) = (rounds.lent(), room.lent());
        rattle::broadcast(at.hall, &at.table, at.source, at.scope, rounds, room)
    }

    fn peer(at: &Input, (rounds, room): &mut Self::Rooms) -> u32 {
        let rounds = match room.lent().len() {
            VALUES.. => rounds.lent(),
            _ => &mut [],
        };
        let answer = broadcast::broadcast(at.hall, at.source, at.scope, &at.table, rounds);
        told(answer.refusal, &[answer.reached, answer.last], room.lent())
    }
}

impl Input {
    /// Counts whose server shuts a port that decides a sound broadcast.
    fn count_fitted(&self, met: &mut Met) {
        let told = |hall: Hall, table: &[u8]| {
            let mut rounds = vec![0; servers_of(hall, self.scope).unwrap_or(0)];
            let answer = broadcast::broadcast(hall, self.source, self.scope, table, &mut rounds);
            (answer, rounds)
        };
        let own = told(self.hall, &self.table);
        met.add_fitted(self.hall, self.source, 0, &self.table, |hall, table| {
            own != told(hall, table)
        });
    }
}

/// The event of a call with one of its rooms or both short that returned a number.
const fn short(number: u32, short: [bool; 2]) -> Event {
    Event::Short { number, short }
}

/// The servers of a scope of a sound hall.
fn servers_of(h: Hall, scope: u32) -> Option<usize> {
    let in_hall = scope <= h.k.min(MOST_SCOPE);
    let t = sizes(h).filter(|_| in_hall)?;
    Some(t[scope as usize] as usize)
}

/// A hall in which one chain is up, with a source on the chain, mostly its first server.
fn chain(random: &mut Random, n: u32, k: u32) -> Input {
    let hall = Hall::full(n, k, 0);
    let scope = k.min(MOST_SCOPE);
    let start = random.below(servers(hall).unwrap_or(1));
    let chain = Chain::from(random, hall, scope, start);
    let place = if random.once_in(4) {
        random.below(chain.walk.len() as u32)
    } else {
        0
    };
    Input {
        hall,
        table: Table::Own(chain.codes),
        source: chain.walk[place as usize],
        scope,
    }
}

/// Every scope of a hall and some that are none, with sources at its ends and past them.
fn edge_inputs(random: &mut Random, hall: Hall) -> Vec<Input> {
    let count = servers(hall).unwrap_or(1);
    let sources = [0, count / 2, count - 1, count, u32::MAX];
    let scopes = [0, 1, 2, 3, 4, u32::MAX];
    let pairs = sources
        .into_iter()
        .flat_map(|source| scopes.map(|scope| (source, scope)));
    let with_table = |(source, scope)| Input {
        hall,
        table: any_hall_table(random, hall),
        source,
        scope,
    };
    pairs.map(with_table).collect()
}

/// The lines of the benchmark for a scope: the halls that have it.
fn cases_of(scope: u32) -> impl Iterator<Item = Case<Input>> {
    let cases = by_share(move |random, hall, not_up| sound(random, hall, not_up, scope));
    let cases = cases
        .into_iter()
        .filter(move |case| case.size.is_some_and(|[_, k]| scope <= k));
    cases.map(move |case| case.also(&format!("scope={scope}")))
}

/// Any source of a sound hall in a scope, with so many in a hundred codes not up.
fn sound(random: &mut Random, hall: Hall, not_up: u32, scope: u32) -> Input {
    let (table, source) = sound_hall_table(random, hall, not_up);
    Input {
        hall,
        table,
        source,
        scope,
    }
}

#[cfg(test)]
mod tests {
    use super::*;

    /// The number that the peer's side returns with rooms of these lengths, and whether it left both as lent.
    fn lent(source: u32, rounds: usize, counts: usize) -> (u32, bool) {
        let input = Input {
            hall: Hall::full(4, 1, 0),
            table: Table::Own(vec![1; 40]),
            source,
            scope: 1,
        };
        let lent = (Room::new(rounds), Room::new(counts));
        let mut rooms = lent.clone();
        (Broadcast::peer(&input, &mut rooms), rooms == lent)
    }

    #[test]
    fn a_short_room_of_either_kind_leaves_both_as_lent() {
        assert_eq!(lent(0, 20, 2), (NONE, false));
        for (rounds, counts) in [(19, 2), (20, 1), (20, 0), (19, 1), (0, 0)] {
            assert_eq!(lent(0, rounds, counts), (ROOM, true));
            assert_eq!(lent(20, rounds, counts), (UID, true));
        }
    }
}
