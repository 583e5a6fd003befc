//! What became of packets around broken strands: by the rule that judges a link above level b by its near port alone, and by the rule
//! that looks at both ends.

use peer::ports::UP;

use super::cabling::Cabling;
use super::draw::Draw;
use super::traces::{Answer, Side, Trace, Way, RETRY};

/// The names of the columns.
pub const COLUMNS: [&str; 13] = [
    "broken %",
    "before: lost %",
    "before: stalled %",
    "before: drop 2 %",
    "before: drop 3 %",
    "before: drop 4 %",
    "after: lost %",
    "after: stalled %",
    "after: drop 2 %",
    "after: drop 3 %",
    "after: drop 4 %",
    "before: links",
    "after: links",
];

/// What became of some packets by one rule.
#[derive(Default)]
struct Fates {
    /// The journeys that no broken strand ended.
    trace: Trace,
    /// The packets that went into a broken strand.
    stalled: u64,
}

impl Fates {
    /// Adds a journey over the uids of a hall. One that stalls counts as nothing else, as the packet never comes out of the strand.
    fn add(&mut self, cabling: &Cabling, codes: &[u8], answer: Answer, uids: &[u32]) {
        if stalls(cabling, codes, uids) {
            self.stalled += 1;
        } else {
            self.trace.add(answer);
        }
    }

    /// The shares of the packets lost, stalled, and dropped by 2, 3 and 4.
    fn shares(&self) -> [f64; 5] {
        let [_, _, no_route, retry, no_proxy, _] = self.trace.endings;
        let lost = self.trace.lost() + self.stalled;
        let packets = self.trace.packets() + self.stalled;
        let counts = [lost, self.stalled, no_route, retry, no_proxy];
        counts.map(|count| count as f64 / packets as f64)
    }
}

/// What became of the same packets by both rules.
#[derive(Default)]
pub struct Strands {
    side: Side,
    /// By the near port alone above level b.
    before: Fates,
    /// By both ends of each link.
    after: Fates,
}

impl Strands {
    /// The fates of no packet yet, those by both ends from one side.
    pub fn of(side: Side) -> Strands {
        Strands {
            side,
            ..Strands::default()
        }
    }

    /// Adds the packets of a draw.
    pub fn add(&mut self, cabling: &Cabling, draw: &Draw) {
        let damage = &draw.damage;
        for &[source, dst] in &draw.packets {
            let way = Way {
                cabling,
                damage,
                source,
                dst,
            };
            let (answer, uids) = way.journey_near_alone();
            let passed = &uids[..=answer[1] as usize];
            self.before.add(cabling, &damage.codes, answer, passed);
            let (answer, uids) = (way.journey(self.side, RETRY), way.uids(self.side));
            let passed = &uids[..=answer[1] as usize];
            self.after.add(cabling, &damage.codes, answer, passed);
        }
    }

    /// Whether no packet went into a broken strand by the rule that looks at both ends.
    pub fn hold(&self) -> bool {
        self.after.stalled == 0
    }

    /// The line of the table for a share of cables.
    pub fn row(&self, percent: u32) -> String {
        let rules = [&self.before, &self.after];
        let shares = rules.iter().flat_map(|fates| fates.shares());
        let links = rules.iter().map(|fates| fates.trace.links.mean());
        let figures = shares.map(|share| 100.0 * share).chain(links);
        let figures = figures.map(|figure| format!("{figure:.2}"));
        let columns: Vec<String> = [percent.to_string()].into_iter().chain(figures).collect();
        format!("| {} |", columns.join(" | "))
    }
}

/// Whether one of the links between servers in order ends at a port that is not up.
fn stalls(cabling: &Cabling, codes: &[u8], uids: &[u32]) -> bool {
    uids.windows(2).any(|pair| {
        let level = cabling.level(pair[0], pair[1]);
        codes[cabling.port(pair[1], level)] != UP
    })
}

#[cfg(test)]
mod tests {
    use super::super::damage::{damage, strands, Damage, Kind};
    use super::super::traces::Traces;
    use super::*;
    use peer::forward::DELIVERED;
    use peer::hall::Hall;
    use peer::random::Random;

    fn cabling() -> Cabling {
        Cabling::of(Hall::full(4, 2, 1))
    }

    /// A draw of 5,000 packets around broken strands.
    fn drawn(cabling: &Cabling, percent: u32) -> Draw {
        let mut random = Random::new(1);
        let damage = strands(cabling, percent, &mut random, &mut Random::new(2));
        Draw::over(damage, 5_000, 5, &mut random)
    }

    /// The fates of these packets.
    fn traced(side: Side, percent: u32) -> Strands {
        let cabling = cabling();
        let mut fates = Strands::of(side);
        fates.add(&cabling, &drawn(&cabling, percent));
        fates
    }

    /// The fates of one packet where the port of level 2 of server 20, which is joined to server 0, is silent.
    fn around_20(source: u32, dst: u32) -> Strands {
        let cabling = cabling();
        let mut codes = vec![UP; 420 * 3];
        codes[cabling.port(20, 2)] = 3;
        let live = (0..420).collect();
        let mut fates = Strands::default();
        let draw = Draw {
            damage: Damage { codes, live },
            packets: vec![[source, dst]],
            sources: Vec::new(),
        };
        fates.add(&cabling, &draw);
        fates
    }

    #[test]
    fn a_packet_stalls_where_it_goes_into_the_broken_strand_by_the_near_port() {
        let fates = around_20(0, 25);
        assert_eq!((fates.before.stalled, fates.before.trace.packets()), (1, 0));
        assert_eq!(fates.before.shares(), [1.0, 1.0, 0.0, 0.0, 0.0]);
        assert_eq!((fates.after.stalled, fates.after.trace.lost()), (0, 0));
        assert_eq!(fates.after.trace.reroutes.mean(), 1.0);
        assert!(fates.hold());
    }

    #[test]
    fn a_packet_from_the_silent_end_is_rerouted_by_both_rules() {
        let fates = around_20(25, 0);
        for fates in [&fates.before, &fates.after] {
            assert_eq!((fates.stalled, fates.trace.lost()), (0, 0));
            assert_eq!(fates.trace.reroutes.mean(), 1.0);
        }
    }

    #[test]
    fn without_broken_strands_both_rules_deliver_alike() {
        let fates = traced(Side::Peer, 0);
        for fates in [&fates.before, &fates.after] {
            assert_eq!(fates.shares(), [0.0; 5]);
            assert_eq!(fates.trace.endings[DELIVERED as usize], 5_000);
        }
        assert_eq!(fates.before.trace.links, fates.after.trace.links);
    }

    #[test]
    fn packets_stall_by_the_near_port_alone_and_never_by_both_ends() {
        for percent in [10, 20] {
            let fates = traced(Side::Rattle, percent);
            let [lost, stalled, no_route, retry, no_proxy] = fates.before.shares();
            assert!(0.0 < stalled && stalled < lost);
            assert!((stalled + no_route + retry + no_proxy - lost).abs() < 1e-9);
            assert!(fates.hold());
            assert!(lost > fates.after.shares()[0]);
        }
    }

    #[test]
    fn by_both_ends_a_broken_strand_counts_as_a_cut_cable() {
        let cabling = cabling();
        for side in [Side::Rattle, Side::Peer] {
            let mut random = Random::new(1);
            let damage = damage(&cabling, Kind::Links, 20, &mut random);
            let draw = Draw::over(damage, 5_000, 5, &mut random);
            let mut cut = Traces::of(side);
            cut.add(&cabling, &draw);
            let broken = drawn(&cabling, 20);
            assert_eq!(
                (draw.packets, draw.sources),
                (broken.packets, broken.sources)
            );
            let after = traced(side, 20).after.trace;
            assert_eq!(after.endings, cut.trace.endings);
            assert_eq!(after.links, cut.trace.links);
            assert_eq!(after.reroutes, cut.trace.reroutes);
        }
    }

    #[test]
    fn both_sides_trace_the_same() {
        let [ours, other] = [Side::Rattle, Side::Peer].map(|side| traced(side, 10));
        assert_eq!(ours.row(10), other.row(10));
    }

    #[test]
    fn a_packet_that_stalls_by_both_ends_is_told() {
        let mut fates = Strands::default();
        assert!(fates.hold());
        fates.after.stalled = 1;
        assert!(!fates.hold());
    }

    #[test]
    fn a_line_has_a_value_for_each_column() {
        let line = traced(Side::Peer, 10).row(10);
        let columns: Vec<&str> = line.trim_matches('|').split('|').map(str::trim).collect();
        assert_eq!(columns.len(), COLUMNS.len());
        assert_eq!((columns[0], columns[7]), ("10", "0.00"));
    }
}
