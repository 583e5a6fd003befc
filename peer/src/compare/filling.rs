//! Halls that are filled one DCell(1) after the other by the proved calls: whether each step of the filling is as it should be, and how
//! packets fare in a hall that is not full.

use peer::broadcast::NO_ROUND;
use peer::forward::{Packet, DELIVERED};
use peer::hall::{Hall, LEAST_FILLED_K, LEVELS};
use peer::ports::UP;
use peer::random::Random;
use peer::refusal::{FULL, NONE};

use super::ratios::Form;
use super::sums::Sums;
use super::tables::hall_codes;
use crate::rattle;

/// The halls that are filled, n and k of each.
const FILLED: [(u32, u32); 5] = [(2, 2), (3, 2), (4, 2), (2, 3), (3, 3)];
/// Every count is looked at of a hall with at most so many DCell(1)s.
const FEW: u32 = 400;
/// One count in so many is looked at of another hall, besides those at which something turns.
const STEP: usize = 97;
/// The halls that packets are sent through, n and k of each, with each b.
const MEASURED: [(u32, u32); 4] = [(4, 2), (2, 3), (3, 3), (4, 3)];
const BS: [u32; 2] = [0, 1];
/// The packets that are sent through each hall and count that is measured, and through each count of a filled hall with k = 2.
const MEASURED_PACKETS: u32 = 20_000;
const PACKETS: u32 = 40;
/// The retry and the TTL of a packet at its source.
const RETRY: u8 = 5;
const TTL: u8 = 255;
/// The scope of the broadcasts: a DCell(2).
const SCOPE: u32 = 2;
/// The seed of the packets, so that each run sends the same.
const SEED: u64 = 5;
/// The top of the table for a document.
const HEAD: [&str; 2] = [
    "| n | k | b | DCell(1)s fitted | of | servers fitted | delivered | links, mean | reroutes, mean |",
    "|---|---|---|---|---|---|---|---|---|",
];

/// A hall with the DCell(1)s that the planner gives it.
struct Filled {
    /// The hall when it is full.
    whole: Hall,
    servers: u32,
    /// The servers of a DCell(1).
    rack: u32,
    /// The first server of each DCell(1), in the order in which they are fitted.
    firsts: Vec<u32>,
}

/// How packets fare in a hall of a count.
#[derive(Debug, Default)]
struct Fared {
    sent: u32,
    links: Sums,
    reroutes: Sums,
}

/// Prints what the filling of each hall comes to, or the table of how packets fare; answers whether all is as it should be.
pub fn run(form: Form) -> bool {
    match form {
        Form::Lines => filled(),
        Form::Markdown => {
            table().iter().for_each(|line| println!("{line}"));
            true
        }
    }
}

/// Fills the halls and prints a line for each; answers whether every one is filled as it should be.
fn filled() -> bool {
    println!("halls filled rack by rack: prefixes given once each, what becomes fitted, and whether all that is fitted is joined");
    let (mut passed, mut failed) = (0, 0);
    for (n, k) in FILLED {
        let answer = Filled::of(Hall::full(n, k, 0)).and_then(|filled| filled.check());
        println!("{}", row(n, k, &answer));
        passed += usize::from(answer.is_ok());
        failed += usize::from(answer.is_err());
    }
    println!("{passed} passed, {failed} failed");
    failed == 0
}

/// The line of a hall: the DCell(1)s given and the counts looked at, or what is wrong.
fn row(n: u32, k: u32, answer: &Result<(usize, usize), String>) -> String {
    match answer {
        Ok((given, counts)) => {
            format!(
                "n {n}, k {k} | {given:>5} DCell(1)s given | {counts:>4} counts | as it should be"
            )
        }
        Err(text) => format!("n {n}, k {k} | WRONG: {text}"),
    }
}

impl Filled {
    /// A hall with all the prefixes that it is given, up to the one that it is refused as it is full.
    fn of(whole: Hall) -> Result<Filled, String> {
        let racks = rattle::racks(whole.n, whole.k);
        let firsts = (0..racks).map(|count| next_first(Hall { count, ..whole }));
        let firsts = firsts.collect::<Result<Vec<u32>, String>>()?;
        let mut room = [0; LEVELS];
        match rattle::next_prefix(whole, &mut room) {
            FULL => Ok(Filled {
                whole,
                servers: rattle::servers(whole),
                rack: rattle::size_of(whole, 1),
                firsts,
            }),
            number => Err(format!("the planner gives {number} in a full hall")),
        }
    }

    /// Checks the prefixes, and each count that is looked at; answers how many there are of both.
    fn check(&self) -> Result<(usize, usize), String> {
        self.check_prefixes()?;
        let mut random = Random::new(SEED);
        let counts = self.counts();
        for &count in &counts {
            let named = |text| format!("{count} DCell(1)s: {text}");
            self.check_count(count, &mut random).map_err(named)?;
        }
        Ok((self.firsts.len(), counts.len()))
    }

    /// Whether each DCell(1) of the hall is given, and so none twice.
    fn check_prefixes(&self) -> Result<(), String> {
        let mut given = self.firsts.clone();
        given.sort_unstable();
        let all: Vec<u32> = (0..self.servers).step_by(self.rack as usize).collect();
        if given == all {
            Ok(())
        } else {
            Err("a DCell(1) is given twice or never".to_owned())
        }
    }

    /// The counts that are looked at: all of a hall of few, else some, with those at which something turns.
    fn counts(&self) -> Vec<u32> {
        let racks = self.firsts.len() as u32;
        if racks <= FEW {
            return (0..=racks).collect();
        }
        let turn = self.rack + 1;
        let turns = [0, 1, turn, turn * turn, racks / 2, racks - 1];
        let mut counts: Vec<u32> = turns.into_iter().flat_map(|at| [at, at + 1]).collect();
        counts.extend((0..racks).step_by(STEP));
        counts.sort_unstable();
        counts.dedup();
        counts
    }

    /// Whether exactly the DCell(1)s given so far are fitted, all of them joined, and broadcasts and packets reach them.
    fn check_count(&self, count: u32, random: &mut Random) -> Result<(), String> {
        let h = Hall {
            count,
            ..self.whole
        };
        let fitted = self.fitted(count);
        for (uid, &there) in (0..).zip(&fitted) {
            if rattle::is_fitted(h, uid) != there {
                return Err(format!("server {uid} is fitted or not as it should not be"));
            }
        }
        self.check_joined(h, &fitted)?;
        let ends = [Some(0), count.checked_sub(1), Some(count)];
        let firsts = ends.into_iter().flatten();
        for &source in firsts.filter_map(|number| self.firsts.get(number as usize)) {
            self.check_broadcast(h, source, &fitted)?;
        }
        if h.k == LEAST_FILLED_K && count > 0 {
            self.check_packets(h, random)?;
        }
        Ok(())
    }

    /// Whether each server is fitted when so many DCell(1)s are, by the prefixes that were given.
    fn fitted(&self, count: u32) -> Vec<bool> {
        let mut fitted = vec![false; self.servers as usize];
        for &first in &self.firsts[..count as usize] {
            fitted[first as usize..][..self.rack as usize].fill(true);
        }
        fitted
    }

    /// Whether all fitted servers reach each other over links both of whose servers are fitted.
    fn check_joined(&self, h: Hall, fitted: &[bool]) -> Result<(), String> {
        let Some(start) = fitted.iter().position(|&there| there) else {
            return Ok(());
        };
        let mut reached = vec![false; fitted.len()];
        reached[start] = true;
        let mut waiting = vec![start as u32];
        while let Some(uid) = waiting.pop() {
            for other in linked(h, uid)? {
                let place = other as usize;
                if fitted[place] && !reached[place] {
                    reached[place] = true;
                    waiting.push(other);
                }
            }
        }
        if reached == fitted {
            Ok(())
        } else {
            Err("not all that is fitted is joined".to_owned())
        }
    }

    /// Whether a broadcast over codes that are all up reaches exactly the fitted servers of its DCell(2), or, from a server that is not
    /// fitted, that server alone.
    fn check_broadcast(&self, h: Hall, source: u32, fitted: &[bool]) -> Result<(), String> {
        let table = vec![UP; hall_codes(h)];
        let cell = rattle::size_of(h, SCOPE);
        let mut rounds = vec![0; cell as usize];
        let mut room = [0; 2];
        let number = rattle::broadcast(h, &table, source, SCOPE, &mut rounds, &mut room);
        if number != NONE {
            return Err(format!("the broadcast from {source} is refused: {number}"));
        }
        let first = source / cell * cell;
        let around = (first..).zip(&fitted[first as usize..][..cell as usize]);
        let alone = !fitted[source as usize];
        let right = around.map(|(uid, &there)| uid == source || there && !alone);
        let right: Vec<bool> = right.collect();
        let reached: Vec<bool> = rounds.iter().map(|&round| round != NO_ROUND).collect();
        let [told, _] = room;
        let servers = right.iter().filter(|&&there| there).count();
        if reached == right && told as usize == servers {
            Ok(())
        } else {
            Err(format!("the broadcast from {source} reaches other servers"))
        }
    }

    /// Whether packets between fitted servers of a DCell(2) are all delivered without a reroute, as every two of its DCell(1)s that are
    /// fitted have a link.
    fn check_packets(&self, h: Hall, random: &mut Random) -> Result<(), String> {
        let fared = self.fare(h, PACKETS, random)?;
        if fared.links.count == u64::from(fared.sent) && fared.reroutes.mean() == 0.0 {
            Ok(())
        } else {
            Err("a packet is rerouted or not delivered".to_owned())
        }
    }

    /// How so many packets between random fitted servers fare in a hall of which something is fitted, with every port up.
    fn fare(&self, h: Hall, packets: u32, random: &mut Random) -> Result<Fared, String> {
        let table = vec![UP; hall_codes(h)];
        let mut fared = Fared::default();
        for _ in 0..packets {
            let [source, dst] = [(); 2].map(|()| self.any_fitted(h.count, random));
            let packet = Packet {
                dst,
                has_proxy: false,
                proxy: 0,
                retry: RETRY,
                ttl: TTL,
            };
            let mut room = [0; 3];
            let number = rattle::journey_counts(h, source, packet, 0, &table, &mut room);
            if number != NONE {
                return Err(format!("the journey from {source} is refused: {number}"));
            }
            fared.add(room);
        }
        Ok(fared)
    }

    /// A random server of the first so many DCell(1)s.
    fn any_fitted(&self, count: u32, random: &mut Random) -> u32 {
        self.firsts[random.below(count) as usize] + random.below(self.rack)
    }
}

impl Fared {
    /// Adds a journey by its ending, its links and its reroutes.
    fn add(&mut self, [ending, links, reroutes]: [u32; 3]) {
        self.sent += 1;
        if ending == DELIVERED {
            self.links.add(links);
            self.reroutes.add(reroutes);
        }
    }
}

/// The first server of the DCell(1) that the planner gives a hall next.
fn next_first(h: Hall) -> Result<u32, String> {
    let mut tuple = [0; LEVELS];
    let mut room = [0];
    let number = rattle::next_prefix(h, &mut tuple);
    if number != NONE {
        return Err(format!("{} DCell(1)s: the planner gives {number}", h.count));
    }
    match rattle::uid(h, tuple, &mut room) {
        NONE => Ok(room[0]),
        number => Err(format!("the prefix {tuple:?} gets {number}")),
    }
}

/// The servers that a link of any level joins with one.
fn linked(h: Hall, uid: u32) -> Result<Vec<u32>, String> {
    let switch = uid - uid % h.n;
    let mut others: Vec<u32> = (switch..switch + h.n).collect();
    for level in 1..=h.k {
        let mut room = [0];
        match rattle::neighbour(h, uid, level, &mut room) {
            NONE => others.extend(room),
            number => return Err(format!("the neighbour of {uid} is refused: {number}")),
        }
    }
    Ok(others)
}

/// The lines of the table for a document.
fn table() -> Vec<String> {
    let mut lines = HEAD.map(str::to_owned).to_vec();
    for (n, k) in MEASURED {
        match Filled::of(Hall::full(n, k, 0)) {
            Ok(filled) => lines.extend(filled.measured()),
            Err(text) => lines.push(format!("n {n}, k {k}: {text}")),
        }
    }
    lines
}

impl Filled {
    /// The rows of the hall in the table for a document, for each b and some counts.
    fn measured(&self) -> Vec<String> {
        let counts = self.measured_counts();
        let halls = BS
            .into_iter()
            .flat_map(|b| counts.iter().map(move |&count| (b, count)));
        let mut random = Random::new(SEED);
        halls
            .map(|(b, count)| {
                let h = Hall {
                    b,
                    count,
                    ..self.whole
                };
                match self.fare(h, MEASURED_PACKETS, &mut random) {
                    Ok(fared) => self.markdown_row(h, &fared),
                    Err(text) => text,
                }
            })
            .collect()
    }

    /// The counts that are measured: two DCell(1)s, then with k above 2 one in each DCell(2) that is begun first, half of what fills these,
    /// all of it and one more, which begins another; then half of the hall, and all.
    fn measured_counts(&self) -> Vec<u32> {
        let racks = self.whole.count;
        let turn = self.rack + 1;
        let begun = [turn, turn * turn / 2, turn * turn, turn * turn + 1];
        let mut counts = [&[2], &begun[..], &[racks / 2, racks]].concat();
        counts.retain(|&count| count <= racks);
        counts.sort_unstable();
        counts.dedup();
        counts
    }

    /// The row of a count.
    fn markdown_row(&self, h: Hall, fared: &Fared) -> String {
        let delivered = 100.0 * fared.links.count as f64 / f64::from(fared.sent);
        let columns = [
            h.n.to_string(),
            h.k.to_string(),
            h.b.to_string(),
            h.count.to_string(),
            self.whole.count.to_string(),
            (h.count * self.rack).to_string(),
            format!("{delivered:.2} %"),
            format!("{:.2}", fared.links.mean()),
            format!("{:.3}", fared.reroutes.mean()),
        ];
        format!("| {} |", columns.join(" | "))
    }
}

#[cfg(test)]
mod tests {
    use super::*;

    /// A small hall, filled.
    fn small() -> Filled {
        Filled::of(Hall::full(2, 2, 0)).unwrap()
    }

    #[test]
    fn small_halls_are_filled_as_they_should_be() {
        assert_eq!(small().check(), Ok((7, 8)));
        let tall = Filled::of(Hall::full(2, 3, 0)).unwrap();
        assert_eq!(tall.check_prefixes(), Ok(()));
        let mut random = Random::new(1);
        for count in [0, 1, 7, 8, 49, 50, 300, 301] {
            assert_eq!(tall.check_count(count, &mut random), Ok(()));
        }
    }

    #[test]
    fn a_prefix_that_is_given_twice_and_one_out_of_its_turn_are_told() {
        let mut filled = small();
        filled.firsts[3] = filled.firsts[2];
        assert!(filled.check_prefixes().is_err());
        let mut filled = small();
        filled.firsts.swap(2, 3);
        assert_eq!(filled.check_prefixes(), Ok(()));
        assert!(filled.check().is_err());
    }

    #[test]
    fn servers_that_are_not_joined_are_told() {
        let filled = small();
        let h = Hall {
            count: 2,
            ..filled.whole
        };
        assert_eq!(filled.check_joined(h, &[false; 42]), Ok(()));
        assert_eq!(filled.check_joined(h, &filled.fitted(2)), Ok(()));
        // The one link between the first two DCell(1)s is that of servers 0 and 6.
        for (uid, joined) in [(0, false), (6, false), (4, true), (7, true)] {
            let mut fitted = filled.fitted(2);
            fitted[uid] = false;
            assert_eq!(filled.check_joined(h, &fitted).is_ok(), joined, "{uid}");
        }
    }

    #[test]
    fn a_broadcast_that_should_reach_others_is_told() {
        let filled = small();
        let h = Hall {
            count: 3,
            ..filled.whole
        };
        assert_eq!(filled.check_broadcast(h, 0, &filled.fitted(3)), Ok(()));
        assert_eq!(filled.check_broadcast(h, 20, &filled.fitted(3)), Ok(()));
        assert!(filled.check_broadcast(h, 0, &filled.fitted(4)).is_err());
        assert!(filled.check_broadcast(h, 20, &filled.fitted(4)).is_err());
    }

    #[test]
    fn of_a_hall_of_many_the_turns_and_some_others_are_looked_at() {
        let counts = Filled::of(Hall::full(3, 3, 0)).unwrap().counts();
        for count in [0, 1, 13, 14, 169, 170, 1_020, 2_040, 2_041] {
            assert!(counts.contains(&count), "{count}");
        }
        assert!(counts.len() < 40);
        assert_eq!(small().counts(), [0, 1, 2, 3, 4, 5, 6, 7]);
    }

    #[test]
    fn a_row_tells_what_was_delivered_of_what_was_sent() {
        let mut fared = Fared::default();
        fared.add([DELIVERED, 3, 1]);
        fared.add([DELIVERED, 6, 0]);
        fared.add([DELIVERED, 9, 0]);
        fared.add([4, 99, 99]);
        let h = Hall {
            count: 3,
            ..Hall::full(2, 2, 1)
        };
        let row = small().markdown_row(h, &fared);
        assert_eq!(row, "| 2 | 2 | 1 | 3 | 7 | 18 | 75.00 % | 6.00 | 0.333 |");
        assert_eq!(HEAD[0].matches('|').count(), row.matches('|').count());
    }

    #[test]
    fn counts_that_are_measured_begin_with_two_and_end_with_all() {
        assert_eq!(small().measured_counts(), [2, 3, 7]);
        let tall = Filled::of(Hall::full(2, 3, 0)).unwrap();
        assert_eq!(tall.measured_counts(), [2, 7, 24, 49, 50, 150, 301]);
    }
}
