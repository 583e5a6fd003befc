//! The mean and the standard deviation of the links of a route, worked out by the proved call, beside those of the paper's Table 1.

use peer::hall::Hall;
use peer::random::Random;

use super::inputs::servers;
use super::sums::{Figures, Sums};
use crate::rattle;

/// A figure that differs from the paper's by more than this is a failure.
pub const TOLERANCE: f64 = 0.02;
/// The random pairs of a hall that has too many for all of them.
const SAMPLE: u32 = 1_000_000;
/// The highest top level of which all pairs are taken.
const ALL_PAIRS: u32 = 2;

/// The rows of the paper's table for its routing: n, k, mean and standard deviation.
pub const ROWS: [(u32, u32, Figures); 6] = [
    (4, 2, [5.16, 1.42]),
    (5, 2, [5.50, 1.33]),
    (6, 2, [5.73, 1.25]),
    (4, 3, [11.29, 2.05]),
    (5, 3, [11.98, 1.91]),
    (6, 3, [12.46, 1.79]),
];

/// Prints the table; answers whether every figure is near enough to the paper's.
pub fn run(seed: u64) -> bool {
    println!("seed {seed}");
    println!("links of a route between two different servers: mean and standard deviation");
    let mut random = Random::new(seed);
    let mut failed = 0;
    for (n, k, paper) in ROWS {
        let hall = Hall::full(n, k, 0);
        let count = servers(hall).unwrap_or(0);
        let sums = sums(hall, count, &mut random);
        let figures = sums.figures();
        let near = near(figures, paper);
        println!("{}", row(hall, &sums, paper, near));
        failed += usize::from(!near);
    }
    println!("{} passed, {failed} failed", ROWS.len() - failed);
    failed == 0
}

/// Whether no figure is too far from the paper's.
fn near(figures: Figures, paper: Figures) -> bool {
    let differences = figures
        .iter()
        .zip(paper)
        .map(|(ours, theirs)| (ours - theirs).abs());
    differences
        .into_iter()
        .all(|difference| difference <= TOLERANCE)
}

/// The line of one hall.
fn row(h: Hall, sums: &Sums, [paper_mean, paper_deviation]: Figures, near: bool) -> String {
    let [mean, deviation] = sums.figures();
    let verdict = if near { "as printed" } else { "DIFFERS" };
    format!(
        "n {}, k {}, {:>7} pairs | {mean:>7.4} {deviation:.4} | paper {paper_mean:>5.2} {paper_deviation:.2} | {verdict}",
        h.n, h.k, sums.count
    )
}

/// The sums over all ordered pairs of different servers of a hall, or over random ones where they are too many.
fn sums(h: Hall, count: u32, random: &mut Random) -> Sums {
    let mut sums = Sums::default();
    if h.k <= ALL_PAIRS {
        for x in 0..count {
            let others = (0..count).filter(|&y| y != x);
            others.for_each(|y| sums.add(rattle::route_links(h, x, y)));
        }
        return sums;
    }
    for _ in 0..SAMPLE {
        let x = random.below(count);
        let y = (x + 1 + random.below(count - 1)) % count;
        sums.add(rattle::route_links(h, x, y));
    }
    sums
}

#[cfg(test)]
mod tests {
    use super::*;

    #[test]
    fn a_figure_too_far_from_the_printed_one_is_told() {
        assert!(near([5.17, 1.41], [5.16, 1.42]));
        assert!(!near([5.19, 1.42], [5.16, 1.42]));
        assert!(!near([5.16, 1.39], [5.16, 1.42]));
    }

    #[test]
    fn all_ordered_pairs_of_different_servers_are_taken() {
        let h = Hall::full(2, 1, 0);
        let sums = sums(h, 6, &mut Random::new(0));
        assert_eq!(sums.count, 30);
    }
}
