//! Packets through halls in which servers, racks, cables or strands of cables failed: the proved journey beside the paper's figures,
//! beside what any routing could do at best, and beside the journey by a near port alone.

mod cabling;
mod damage;
mod draw;
mod search;
mod strands;
mod traces;

use peer::hall::Hall;
use peer::random::Random;

use cabling::Cabling;
use damage::{damage, strands, Damage, Kind};
use draw::Draw;
use strands::Strands;
pub use traces::Side;
use traces::Traces;

/// A hall, and how each of its lines is worked out.
struct Plan {
    hall: Hall,
    /// The shares that fail, of a hundred.
    shares: &'static [u32],
    tables: u32,
    /// The packets of a line, divided among its tables.
    packets: u32,
    /// The servers of each table from which the least links to all others are counted.
    sources: u32,
}

/// The hall of the paper's Table 2, with its local level, its shares and as many tables as it had runs.
const PLAN: Plan = Plan {
    hall: Hall::full(4, 3, 1),
    shares: &[2, 4, 6, 8, 10, 12, 14, 16, 18, 20],
    tables: 20,
    packets: 100_000,
    sources: 5,
};
/// The hall of the paper's Figure 9, all of it deployed.
const LARGER: Plan = Plan {
    hall: Hall::full(6, 3, 1),
    shares: &[5],
    tables: 4,
    packets: 100_000,
    sources: 1,
};
/// What fails, with the words for it.
const KINDS: [(Kind, &str); 3] = [
    (Kind::Servers, "server failures"),
    (Kind::Racks, "rack failures"),
    (Kind::Links, "link failures"),
];
/// The names of the columns that tell shares of the packets.
const SHARES: [&str; 10] = [
    "lost %",
    "no way %",
    "cut off %",
    "drop 1 %",
    "drop 2 %",
    "drop 3 %",
    "drop 4 %",
    "turned back %",
    "lost at retry 15 %",
    "lost as the paper counts %",
];
/// The names of the columns that tell lengths.
const LENGTHS: [&str; 7] = [
    "links",
    "deviation",
    "reroutes",
    "links at retry 15",
    "least links",
    "paper: links",
    "paper: least links",
];

/// A line of the paper's Table 2: the share, then its links and the least links for failures of servers, racks and links.
type Printed = (u32, [[f64; 2]; 3]);

/// The paper's Table 2.
const TABLE_2: [Printed; 5] = [
    (2, [[11.60, 10.00], [11.37, 10.00], [11.72, 10.14]]),
    (4, [[12.00, 10.16], [11.55, 10.01], [12.40, 10.26]]),
    (8, [[12.78, 10.32], [11.74, 10.09], [13.73, 10.55]]),
    (12, [[13.60, 10.50], [11.96, 10.14], [14.97, 10.91]]),
    (20, [[16.05, 11.01], [12.50, 10.32], [17.90, 11.55]]),
];

/// What sets the coin that tells which end of a broken strand is silent apart from all else that is drawn of a seed.
const COIN: u64 = 0x5EED_0F7E_57A4_D5ED;

/// Which tables are printed.
#[derive(Debug, Clone, Copy, PartialEq, Eq)]
pub enum Tables {
    All,
    /// That of broken strands alone.
    Strands,
}

/// Traces packets through halls with failures and prints what became of them; answers whether no packet went into a broken strand where
/// both ends of each link are looked at.
pub fn run(seed: u64, side: Side, tables: Tables) -> bool {
    println!("seed {seed}");
    if tables == Tables::Strands {
        return strand_table(&PLAN, seed, side);
    }
    let mut random = Random::new(seed);
    kind_tables(&PLAN, side, &mut random);
    let held = strand_table(&PLAN, seed, side);
    kind_tables(&LARGER, side, &mut random);
    held
}

/// Prints a table for each kind of failure but that of strands.
fn kind_tables(plan: &Plan, side: Side, random: &mut Random) {
    let cabling = Cabling::of(plan.hall);
    for (kind, name) in KINDS {
        head(plan, name, &[&["failed %"][..], &SHARES, &LENGTHS].concat());
        for &percent in plan.shares {
            let mut traces = Traces::of(side);
            for _ in 0..plan.tables {
                traces.add(&cabling, &plan.draw(&cabling, kind, percent, random));
            }
            println!(
                "{}",
                row(percent, &traces, printed(plan.hall, kind, percent))
            );
        }
    }
}

/// Prints the table of broken strands; answers whether no packet went into one where both ends are looked at.
fn strand_table(plan: &Plan, seed: u64, side: Side) -> bool {
    let cabling = Cabling::of(plan.hall);
    let mut random = before_links(plan, &cabling, seed);
    let mut coin = Random::new(seed ^ COIN);
    head(plan, "broken strands", &strands::COLUMNS);
    let mut held = true;
    for &percent in plan.shares {
        let mut fates = Strands::of(side);
        for _ in 0..plan.tables {
            let damage = strands(&cabling, percent, &mut random, &mut coin);
            fates.add(&cabling, &plan.draw_over(damage, &mut random));
        }
        println!("{}", fates.row(percent));
        if !fates.hold() {
            eprintln!("{percent} % of strands: a packet went into a broken strand though both ends are looked at");
            held = false;
        }
    }
    held
}

/// The generator of a seed as it is before the first table of link failures, so that the same cables are drawn for broken strands.
fn before_links(plan: &Plan, cabling: &Cabling, seed: u64) -> Random {
    let mut random = Random::new(seed);
    let kinds = KINDS.iter().map(|&(kind, _)| kind);
    for kind in kinds.take_while(|&kind| kind != Kind::Links) {
        for &percent in plan.shares {
            for _ in 0..plan.tables {
                plan.draw(cabling, kind, percent, &mut random);
            }
        }
    }
    random
}

impl Plan {
    /// What is drawn for one table of a line.
    fn draw(&self, cabling: &Cabling, kind: Kind, percent: u32, random: &mut Random) -> Draw {
        let damage = damage(cabling, kind, percent, random);
        self.draw_over(damage, random)
    }

    /// What is drawn besides for a table of a line.
    fn draw_over(&self, damage: Damage, random: &mut Random) -> Draw {
        let packets = self.packets / self.tables;
        Draw::over(damage, packets, self.sources, random)
    }
}

/// The paper's links and least links, where it prints them.
fn printed(h: Hall, kind: Kind, percent: u32) -> Option<[f64; 2]> {
    let place = KINDS.iter().position(|&(other, _)| other == kind)?;
    let line = TABLE_2
        .iter()
        .find(|line| line.0 == percent && h == PLAN.hall)?;
    Some(line.1[place])
}

/// Prints what the lines below are of, and the names of the columns.
fn head(plan: &Plan, name: &str, columns: &[&str]) {
    let Hall { n, k, b, .. } = plan.hall;
    let (tables, packets) = (plan.tables, plan.packets);
    println!("\n{name}, n={n} k={k} b={b}, a line: {tables} tables, {packets} packets\n");
    println!("| {} |", columns.join(" | "));
    println!("|{}", "---|".repeat(columns.len()));
}

/// A line of the table.
fn row(percent: u32, traces: &Traces, printed: Option<[f64; 2]>) -> String {
    let shares = shares(traces).map(|share| format!("{:.2}", 100.0 * share));
    let lengths = lengths(traces).map(|length| format!("{length:.2}"));
    let printed = match printed {
        Some(printed) => printed.map(|length| format!("{length:.2}")),
        None => [(); 2].map(|()| String::new()),
    };
    let columns = [&[percent.to_string()][..], &shares, &lengths, &printed].concat();
    format!("| {} |", columns.join(" | "))
}

/// The shares of a line, in the order of their columns.
fn shares(traces: &Traces) -> [f64; SHARES.len()] {
    let [_, ttl, no_route, retry, no_proxy, _] = traces.trace.endings;
    let share = |count| traces.share(count);
    [
        share(traces.trace.lost()),
        share(traces.apart),
        share(traces.cut_off),
        share(ttl),
        share(no_route),
        share(retry),
        share(no_proxy),
        share(traces.turned),
        share(traces.patient.lost()),
        traces.path_failure(),
    ]
}

/// Our lengths of a line, in the order of their columns.
fn lengths(traces: &Traces) -> [f64; 5] {
    let [links, deviation] = traces.trace.links.figures();
    let reroutes = traces.trace.reroutes.mean();
    let patient = traces.patient.links.mean();
    [links, deviation, reroutes, patient, traces.least.mean()]
}

#[cfg(test)]
mod tests {
    use super::*;

    #[test]
    fn a_line_has_a_value_for_each_column() {
        let mut traces = Traces::default();
        let cabling = Cabling::of(Hall::full(4, 2, 1));
        let mut random = Random::new(1);
        let damage = damage(&cabling, Kind::Links, 10, &mut random);
        traces.add(&cabling, &Draw::over(damage, 100, 1, &mut random));
        let line = row(10, &traces, Some([1.5, 2.25]));
        let columns: Vec<&str> = line.trim_matches('|').split('|').map(str::trim).collect();
        assert_eq!(columns.len(), 1 + SHARES.len() + LENGTHS.len());
        assert_eq!((columns[0], &columns[16..]), ("10", &["1.50", "2.25"][..]));
    }

    #[test]
    fn the_papers_figures_stand_beside_their_own_lines() {
        assert_eq!(printed(PLAN.hall, Kind::Racks, 12), Some([11.96, 10.14]));
        assert_eq!(printed(PLAN.hall, Kind::Links, 20), Some([17.90, 11.55]));
        assert_eq!(printed(PLAN.hall, Kind::Links, 6), None);
        assert_eq!(printed(LARGER.hall, Kind::Links, 4), None);
    }

    /// A plan of few draws.
    const SMALL: Plan = Plan {
        hall: Hall::full(2, 3, 1),
        shares: &[2, 20],
        tables: 3,
        packets: 60,
        sources: 2,
    };

    #[test]
    fn strands_are_broken_of_the_cables_that_are_cut_where_links_fail() {
        let cabling = Cabling::of(SMALL.hall);
        let mut random = Random::new(7);
        for kind in [Kind::Servers, Kind::Racks] {
            for percent in [2, 20] {
                (0..3).for_each(|_| drop(SMALL.draw(&cabling, kind, percent, &mut random)));
            }
        }
        let mut other = before_links(&SMALL, &cabling, 7);
        assert_eq!(random, other);
        let mut coin = Random::new(7 ^ COIN);
        for &percent in SMALL.shares {
            let cut = SMALL.draw(&cabling, Kind::Links, percent, &mut random);
            let broken = strands(&cabling, percent, &mut other, &mut coin);
            let broken = SMALL.draw_over(broken, &mut other);
            assert_eq!(cut.packets, broken.packets);
            assert_eq!(random, other);
        }
    }

    #[test]
    fn the_table_of_broken_strands_holds_for_both_sides() {
        for side in [Side::Rattle, Side::Peer] {
            assert!(strand_table(&SMALL, 7, side));
        }
    }
}
