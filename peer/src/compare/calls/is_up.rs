//! Whether a port of a server is up.

use peer::hall::{Hall, LEVELS};
use peer::ports::{self, UP};
use peer::random::Random;

use crate::compare::call::Value;
use crate::compare::cases::{by_share, Case};
use crate::compare::inputs::{any_uid, around};
use crate::compare::numbers::{any_number, any_numbers_hall};
use crate::compare::tables::{any_codes, any_hall_table, light_hall, sound_hall_table, Table};
use crate::rattle;

/// A table that is no hall's has fewer codes than this.
const SHORT: u32 = 64;
/// The lengths of the tables that are tried with every code in every place.
const TRIED: usize = 9;
/// The k of the halls that these tables are tried with; with the highest no server but the first has a code there.
const KS: [u32; 4] = [0, 1, 3, u32::MAX];
/// One port in so many is a little above k, where the table has the codes of the next server.
const ABOVE: u32 = 8;
/// A code that is not up.
const DOWN: u8 = 2;

/// The call `calls_is_up`, which returns a bool.
pub struct IsUp;

/// A hall, a table, its own or not, and a port of a server, which may have a code there or not.
#[derive(Debug)]
pub struct Input {
    hall: Hall,
    table: Table,
    server: u32,
    port: u32,
}

impl Value for IsUp {
    type Input = Input;
    type Told = bool;

    const NAME: &'static str = "is up";
    const INPUTS: u32 = 60_000;
    const MEASURED: usize = 64;

    fn any(random: &mut Random) -> Input {
        if random.once_in(2) {
            in_hall(random)
        } else {
            anywhere(random)
        }
    }

    fn edges() -> impl Iterator<Item = Input> {
        let places = (0..=TRIED).flat_map(|length| (0..=length).map(move |place| (length, place)));
        let codes = places.flat_map(|at| (0..=u8::MAX).map(move |code| (at, code)));
        let own =
            codes.flat_map(|((length, place), code)| KS.map(|k| tried(length, place, code, k)));
        own.flat_map(|input| [above(&input), Some(input)]).flatten()
    }

    fn cases() -> Vec<Case<Input>> {
        by_share(sound)
    }

    fn rattle(input: &Input) -> bool {
        rattle::is_up(input.hall, &input.table, input.server, input.port)
    }

    fn peer(input: &Input) -> bool {
        ports::is_up(input.hall, &input.table, input.server, input.port)
    }
}

/// A port of a light hall, or one beyond, with a table of any length.
fn in_hall(random: &mut Random) -> Input {
    let hall = light_hall(random);
    let table = any_hall_table(random, hall);
    let server = any_uid(random, hall);
    let port = if random.once_in(ABOVE) {
        hall.k.saturating_add(1 + random.below(LEVELS as u32))
    } else {
        around(random, hall.k.saturating_add(1))
    };
    Input {
        hall,
        table,
        server,
        port,
    }
}

/// Any numbers, with a table of any few codes.
fn anywhere(random: &mut Random) -> Input {
    let count = random.below(SHORT);
    let table = Table::Own(any_codes(random, count as usize));
    let [server, port] = [(); 2].map(|()| {
        if random.once_in(4) {
            any_number(random)
        } else {
            random.below(SHORT / 4)
        }
    });
    Input {
        hall: any_numbers_hall(random),
        table,
        server,
        port,
    }
}

/// The port of a place in a short table that has a code there and others elsewhere; the place may be that behind the table.
fn tried(length: usize, place: usize, code: u8, k: u32) -> Input {
    let other = if code == UP { DOWN } else { UP };
    let mut codes = vec![other; length];
    if let Some(at) = codes.get_mut(place) {
        *at = code;
    }
    let ports = u64::from(k) + 1;
    Input {
        hall: Hall::full(4, k, 0),
        table: Table::Own(codes),
        server: (place as u64 / ports) as u32,
        port: (place as u64 % ports) as u32,
    }
}

/// The same place as a port above k of the server before, where there is one.
fn above(input: &Input) -> Option<Input> {
    Some(Input {
        hall: input.hall,
        table: Table::Own(input.table.to_vec()),
        server: input.server.checked_sub(1)?,
        port: input.port.checked_add(input.hall.k)?.checked_add(1)?,
    })
}

/// A port of a server of a sound hall, with so many in a hundred codes not up.
fn sound(random: &mut Random, hall: Hall, not_up: u32) -> Input {
    let (table, server) = sound_hall_table(random, hall, not_up);
    let port = random.below(hall.k + 1);
    Input {
        hall,
        table,
        server,
        port,
    }
}

#[cfg(test)]
mod tests {
    use super::*;

    #[test]
    fn ports_that_are_up_that_are_not_those_behind_a_table_and_above_k_are_drawn() {
        let mut random = Random::new(1);
        let mut met = [0; 4];
        for _ in 0..2000 {
            let input = IsUp::any(&mut random);
            let place = u64::from(input.server) * (u64::from(input.hall.k) + 1);
            let code = input.table.get((place + u64::from(input.port)) as usize);
            let kind = match code {
                Some(&UP) if input.port > input.hall.k => 3,
                Some(&UP) => 1,
                Some(_) => 0,
                None => 2,
            };
            met[kind] += 1;
        }
        assert!(met.iter().all(|&count| count > 100), "{met:?}");
    }
}
