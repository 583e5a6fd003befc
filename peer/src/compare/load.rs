//! How many routes each link of a hall carries and each port of a server begins, counted by the proved call, beside what is proved of it.

use peer::hall::{self, Hall, LEAST_N, LEVELS, MOST_K, MOST_N};
use peer::refusal;
use peer::route::ROUTE_ROOM;

use super::ratios::Form;
use crate::rattle;

/// All routes are counted of a hall of at most so many servers.
const MOST_COUNTED: u32 = 6_000;
/// The top of the table for a document.
const HEAD: [&str; 2] = [
    "| n | k | servers | link: level 0 | level 1 | level 2 | level 3 | port: level 0 | level 1 | level 2 | level 3 |",
    "|---|---|---|---|---|---|---|---|---|---|---|",
];

/// What is proved of a hall, by its sizes t(0) to t(k).
struct Proved {
    k: usize,
    t: [u64; LEVELS],
}

/// What is counted at one server by level, where its link of level 0 is the cable to its switch.
#[derive(Debug, Clone, Copy, Default, PartialEq, Eq)]
struct Counts {
    leaving: [u64; LEVELS],
    arriving: [u64; LEVELS],
    begun: [u64; LEVELS],
    /// What leaves over the cable to each server of its switch.
    across: [u64; MOST_N as usize],
}

/// Where a server stands: the number of its DCell of each level, and its neighbour at each level above 0.
struct Place {
    cells: [u32; LEVELS],
    neighbours: [u32; LEVELS],
}

/// The routes of a hall, counted at each of its servers.
struct Load {
    hall: Hall,
    places: Vec<Place>,
    counts: Vec<Counts>,
}

/// Prints what is counted, or the table of what is proved; answers whether every count is as proved.
pub fn run(form: Form) -> bool {
    match form {
        Form::Lines => counted(),
        Form::Markdown => {
            table().iter().for_each(|line| println!("{line}"));
            true
        }
    }
}

/// Counts the routes of the halls that are not too large and prints a line for each; answers whether every count is as proved.
fn counted() -> bool {
    println!("routes of all ordered pairs of servers, counted at every server, levels from 0 on; those of server 0 are shown");
    let (mut passed, mut failed) = (0, 0);
    for h in counted_halls() {
        let mut load = Load::of(h);
        let fault = load.count().and_then(|()| load.compare()).err();
        println!("{}", load.row(fault.as_deref()));
        passed += usize::from(fault.is_none());
        failed += usize::from(fault.is_some());
    }
    println!("{passed} passed, {failed} failed");
    failed == 0
}

/// The halls of which all routes are counted.
fn counted_halls() -> impl Iterator<Item = Hall> {
    halls(1).filter(|&h| hall::servers_of(h) <= MOST_COUNTED)
}

/// The halls of every n and of every top level from the least one on.
fn halls(least_k: u32) -> impl Iterator<Item = Hall> {
    let ks = least_k..=MOST_K;
    ks.flat_map(|k| (LEAST_N..=MOST_N).map(move |n| Hall::full(n, k, 0)))
}

impl Proved {
    /// What is proved of a sound hall.
    fn of(h: Hall) -> Proved {
        Proved {
            k: h.k as usize,
            t: hall::sizes(h).t.map(u64::from),
        }
    }

    /// The servers of the hall.
    fn servers(&self) -> u64 {
        self.t[self.k]
    }

    /// The routes over a server's link of a level, each way.
    fn carried(&self, level: usize) -> u64 {
        match level {
            0 => (self.t[0] - 1) * self.carried_across(),
            _ => self.t[level - 1].pow(2) * self.widened(level),
        }
    }

    /// The routes from one server of a switch to another of it, each way.
    fn carried_across(&self) -> u64 {
        self.widened(0)
    }

    /// The routes of a server whose first link is that of a level.
    fn begun(&self, level: usize) -> u64 {
        let sub_cells = self.t[level..self.k].iter().map(|t| t + 1);
        let nearest = match level {
            0 => self.t[0] - 1,
            _ => self.t[level - 1],
        };
        nearest * sub_cells.product::<u64>()
    }

    /// (2 t(level) + 1) × .. × (2 t(k - 1) + 1).
    fn widened(&self, level: usize) -> u64 {
        self.t[level..self.k].iter().map(|t| 2 * t + 1).product()
    }

    /// What a server's links carry, from level 0 to k.
    fn links(&self) -> Vec<u64> {
        (0..=self.k).map(|level| self.carried(level)).collect()
    }

    /// What a server's ports begin, from level 0 to k.
    fn ports(&self) -> Vec<u64> {
        (0..=self.k).map(|level| self.begun(level)).collect()
    }
}

impl Place {
    /// Where a server of a sound hall of these sizes stands.
    fn of(h: Hall, t: [u32; LEVELS], uid: u32) -> Place {
        let mut neighbours = [uid; LEVELS];
        for (level, neighbour) in (0..=h.k).zip(&mut neighbours).skip(1) {
            *neighbour = hall::neighbour(h, uid, level).uid;
        }
        let cells = t.map(|size| uid.checked_div(size).unwrap_or(0));
        Place { cells, neighbours }
    }

    /// The level of the link to another server; none where there is no such link.
    fn level_to(&self, other: &Place, uid: u32) -> Option<usize> {
        let mut cells = self.cells.iter().zip(&other.cells);
        let level = cells.position(|(own, theirs)| own == theirs);
        level.filter(|&level| level == 0 || self.neighbours[level] == uid)
    }
}

impl Load {
    /// A sound hall with nothing counted.
    fn of(hall: Hall) -> Load {
        let t = hall::sizes(hall).t;
        let servers = t[hall.k as usize];
        Load {
            hall,
            places: (0..servers).map(|uid| Place::of(hall, t, uid)).collect(),
            counts: vec![Counts::default(); servers as usize],
        }
    }

    /// Counts the routes of all ordered pairs of servers, up to the first that is refused or leaves the links of the hall.
    fn count(&mut self) -> Result<(), String> {
        let servers = self.counts.len() as u32;
        (0..servers).try_for_each(|x| (0..servers).try_for_each(|y| self.add(x, y)))
    }

    /// Counts the route from x to y.
    fn add(&mut self, x: u32, y: u32) -> Result<(), String> {
        let mut room = [0; ROUTE_ROOM];
        let refusal = rattle::route(self.hall, x, y, &mut room);
        if refusal != refusal::NONE {
            return Err(format!("the route from {x} to {y} is refused: {refusal}"));
        }
        self.follow(x, y, &room)
    }

    /// Counts the links of the route from x to y, which ends where it first meets y and has zeros behind it.
    fn follow(&mut self, x: u32, y: u32, uids: &[u32; ROUTE_ROOM]) -> Result<(), String> {
        let end = uids.iter().position(|&uid| uid == y);
        let whole = |&end: &usize| uids[0] == x && uids[end + 1..].iter().all(|&uid| uid == 0);
        let Some(end) = end.filter(whole) else {
            return Err(format!("the route from {x} to {y} has other ends"));
        };
        let mut first = None;
        for link in uids[..=end].windows(2) {
            let level = self.cross(link[0], link[1])?;
            first.get_or_insert(level);
        }
        if let Some(level) = first {
            self.counts[x as usize].begun[level] += 1;
        }
        Ok(())
    }

    /// Counts a route that goes from one server straight to another; answers the level of the link.
    fn cross(&mut self, from: u32, to: u32) -> Result<usize, String> {
        let [near, far] = [from, to].map(|uid| self.places.get(uid as usize));
        let level = near.zip(far).and_then(|(near, far)| near.level_to(far, to));
        let Some(level) = level else {
            return Err(format!("a route goes from {from} to {to}: no such link"));
        };
        let across = to - self.places[to as usize].cells[0] * self.hall.n;
        let near = &mut self.counts[from as usize];
        near.leaving[level] += 1;
        if level == 0 {
            near.across[across as usize] += 1;
        }
        self.counts[to as usize].arriving[level] += 1;
        Ok(level)
    }

    /// Compares every count with what is proved of it, up to the first that differs.
    fn compare(&self) -> Result<(), String> {
        let proved = Proved::of(self.hall);
        let mut each = (0..).zip(&self.counts);
        each.try_for_each(|(uid, counts)| counts.compare(&proved, uid))
    }

    /// The line of the hall.
    fn row(&self, fault: Option<&str>) -> String {
        let Hall { n, k, .. } = self.hall;
        let pairs = self.counts.len().pow(2);
        let shown = self.counts[0];
        let [links, ports] = [shown.leaving, shown.begun].map(|counts| {
            let counts = counts.iter().take(k as usize + 1).map(u64::to_string);
            counts.collect::<Vec<_>>().join(" ")
        });
        let verdict = match fault {
            None => "as proved".to_owned(),
            Some(text) => format!("DIFFERS: {text}"),
        };
        format!(
            "n {n}, k {k}, {pairs:>8} pairs | over links {links:<19} | on the switch {:>4} each | begun {ports:<14} | {verdict}",
            shown.across[1]
        )
    }
}

impl Counts {
    /// Compares every count at a server with what is proved of it, up to the first that differs.
    fn compare(&self, proved: &Proved, uid: u32) -> Result<(), String> {
        let by_level = (0..=proved.k).flat_map(|level| {
            let [carried, begun] = [proved.carried(level), proved.begun(level)];
            let at_level = |what, count, figure| (what, level as u32, count, figure);
            [
                at_level("leave over level", self.leaving[level], carried),
                at_level("arrive over level", self.arriving[level], carried),
                at_level("begin at level", self.begun[level], begun),
            ]
        });
        let n = proved.t[0] as u32;
        let switch = (uid - uid % n..).zip(&self.across[..n as usize]);
        let across = switch.map(|(other, &count)| {
            let figure = u64::from(other != uid) * proved.carried_across();
            ("go straight to server", other, count, figure)
        });
        let mut all = by_level.chain(across);
        let differs = all.find(|(_, _, count, figure)| count != figure);
        differs.map_or(Ok(()), |(what, which, count, figure)| {
            Err(format!(
                "server {uid}: {count} {what} {which}, not {figure}"
            ))
        })
    }
}

/// The lines of the table for a document.
fn table() -> Vec<String> {
    let rows = halls(1).map(markdown_row);
    HEAD.map(str::to_owned).into_iter().chain(rows).collect()
}

/// The row of a hall in the table for a document, with empty cells for the levels above its top.
fn markdown_row(h: Hall) -> String {
    let proved = Proved::of(h);
    let mut columns = vec![h.n.to_string(), h.k.to_string(), grouped(proved.servers())];
    for figures in [proved.links(), proved.ports()] {
        let mut cells = [const { String::new() }; LEVELS];
        for (cell, figure) in cells.iter_mut().zip(figures) {
            *cell = grouped(figure);
        }
        columns.extend(cells);
    }
    format!("| {} |", columns.join(" | "))
}

/// A number with a comma before each three of its last digits.
fn grouped(number: u64) -> String {
    match number {
        0..1_000 => number.to_string(),
        _ => format!("{},{:03}", grouped(number / 1_000), number % 1_000),
    }
}

#[cfg(test)]
mod tests {
    use super::*;
    use crate::compare::table1::{ROWS, TOLERANCE};

    /// The document that shows the table.
    const DOCUMENT: &str = include_str!("../../../docs/EVALUATION.md");
    /// The figures that are worked out from the definitions.
    const WORKED: &str = include_str!("../../../crates/load/specs/Worked.antt");

    /// Six servers in a ring, 0 2 3 5 4 1: every second link is a switch, and the others are of level 1.
    const RING: Hall = Hall::full(2, 1, 0);

    /// The ring with all its routes counted.
    fn ring() -> Load {
        let mut load = Load::of(RING);
        assert_eq!(load.count(), Ok(()));
        load
    }

    /// What the comparison says of the ring after a change of its counts.
    fn told(change: fn(&mut [Counts])) -> String {
        let mut load = ring();
        assert_eq!(load.compare(), Ok(()));
        change(&mut load.counts);
        load.compare().unwrap_err()
    }

    /// Some figures in the form of the definitions.
    fn listed(figures: &[u64]) -> String {
        let each = figures.iter().map(|figure| format!("{figure} ∷ "));
        each.collect::<String>() + "[]"
    }

    #[test]
    fn the_counts_of_six_servers_are_those_by_hand() {
        let load = ring();
        // From 0 to 2 go the routes from 0 and 1 to 2 and 3; from 0 to 1 go those to 1, 4 and 5, and those from 2 and 3 to 1.
        let over = [5, 4, 0, 0];
        // From 0 over the switch to 1, 4 and 5 (0 1, 0 1 4, 0 1 4 5), over level 1 to 2 and 3 (0 2, 0 2 3).
        let begun = [3, 2, 0, 0];
        for (uid, counts) in load.counts.iter().enumerate() {
            let mut across = [0; 8];
            across[1 - uid % 2] = 5;
            let right = Counts {
                leaving: over,
                arriving: over,
                begun,
                across,
            };
            assert_eq!(*counts, right, "{uid}");
        }
        assert_eq!(load.compare(), Ok(()));
    }

    #[test]
    fn a_count_that_is_one_off_is_told() {
        assert_eq!(
            told(|counts| counts[2].leaving[1] += 1),
            "server 2: 5 leave over level 1, not 4"
        );
        assert_eq!(
            told(|counts| counts[5].arriving[1] -= 1),
            "server 5: 3 arrive over level 1, not 4"
        );
        assert_eq!(
            told(|counts| counts[0].leaving[0] -= 1),
            "server 0: 4 leave over level 0, not 5"
        );
        assert_eq!(
            told(|counts| counts[3].across[0] += 1),
            "server 3: 6 go straight to server 2, not 5"
        );
        assert_eq!(
            told(|counts| counts[3].across[1] += 1),
            "server 3: 1 go straight to server 3, not 0"
        );
        assert_eq!(
            told(|counts| counts[4].begun[0] -= 1),
            "server 4: 2 begin at level 0, not 3"
        );
        assert_eq!(
            told(|counts| counts[1].begun[1] += 1),
            "server 1: 3 begin at level 1, not 2"
        );
    }

    #[test]
    fn a_link_that_goes_elsewhere_is_told() {
        let mut load = Load::of(RING);
        let mut followed = |x, y, uids: &[u32]| {
            let mut room = [0; ROUTE_ROOM];
            room[..uids.len()].copy_from_slice(uids);
            load.follow(x, y, &room)
        };
        assert_eq!(followed(0, 3, &[0, 2, 3]), Ok(()));
        assert_eq!(followed(3, 0, &[3, 2, 0]), Ok(()));
        let none = |from, to| Err(format!("a route goes from {from} to {to}: no such link"));
        assert_eq!(followed(0, 3, &[0, 3]), none(0, 3));
        assert_eq!(followed(0, 3, &[0, 2, 6, 3]), none(2, 6));
        let ends = |x, y| Err(format!("the route from {x} to {y} has other ends"));
        assert_eq!(followed(1, 3, &[0, 2, 3]), ends(1, 3));
        assert_eq!(followed(0, 5, &[0, 2, 3]), ends(0, 5));
        assert_eq!(followed(0, 2, &[0, 2, 3]), ends(0, 2));
    }

    #[test]
    fn a_refusal_is_told() {
        let refused = Err("the route from 0 to 6 is refused: 2".to_owned());
        assert_eq!(Load::of(RING).add(0, 6), refused);
    }

    #[test]
    fn the_line_of_a_hall_has_its_verdict() {
        let load = ring();
        let line = load.row(None);
        assert!(line.starts_with("n 2, k 1,       36 pairs | over links 5 4 "));
        assert!(line.ends_with(" each | begun 3 2            | as proved"));
        assert!(load.row(Some("this")).ends_with(" | DIFFERS: this"));
    }

    #[test]
    fn the_routes_of_every_hall_up_to_level_2_and_of_the_least_of_level_3_are_counted() {
        let counted: Vec<Hall> = counted_halls().collect();
        assert_eq!(counted.len(), 15);
        let (last, below) = counted.split_last().unwrap();
        assert_eq!((last.n, last.k), (2, 3));
        assert!(below.iter().all(|h| h.k < 3));
    }

    #[test]
    fn all_ports_together_begin_a_route_to_every_other_server() {
        for h in halls(0) {
            let proved = Proved::of(h);
            let begun: u64 = proved.ports().iter().sum();
            assert_eq!(begun, proved.servers() - 1, "{h:?}");
        }
    }

    #[test]
    fn the_load_of_all_levels_gives_the_printed_mean_of_route_lengths() {
        for (n, k, [mean, _]) in ROWS {
            let proved = Proved::of(Hall::full(n, k, 0));
            let carried: u64 = proved.links().iter().sum();
            let links = carried as f64 / (proved.servers() - 1) as f64;
            assert!((links - mean).abs() <= TOLERANCE, "{n} {k}: {links}");
        }
    }

    #[test]
    fn numbers_have_a_comma_before_each_three_digits() {
        let numbers = [0, 999, 1_000, 20_045, 27_630_792].map(grouped);
        assert_eq!(numbers, ["0", "999", "1,000", "20,045", "27,630,792"]);
    }

    #[test]
    fn each_line_of_the_table_stands_in_the_document() {
        for line in table() {
            assert!(DOCUMENT.lines().any(|written| written == line), "{line}");
        }
    }

    #[test]
    fn the_figures_of_each_hall_are_those_of_the_definitions() {
        for h in halls(1) {
            let proved = Proved::of(h);
            let [links, ports] = [proved.links(), proved.ports()].map(|figures| listed(&figures));
            let row = format!("({}, {}, {}, {links}, {ports})", h.n, h.k, proved.servers());
            assert!(WORKED.contains(&row), "{row}");
        }
    }
}
