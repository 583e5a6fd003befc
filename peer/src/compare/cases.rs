//! What a call is measured with: halls of each n, k and b and tables of each share of codes down, as far as they play a part in it.

use peer::hall::{Hall, LEAST_FILLED_K};
use peer::random::Random;

use super::counts::half;

/// The n of the halls.
const NS: [u32; 2] = [4, 8];
/// The k of the halls.
const KS: [u32; 3] = [1, 2, 3];
/// The b of the halls.
const BS: [u32; 2] = [0, 1];
/// The shares of codes that are not up, of a hundred.
const SHARES: [u32; 2] = [0, 5];

/// The n and the k of a hall.
pub type Size = [u32; 2];

/// A kind of sound input to measure a call with, a line of the benchmark.
pub struct Case<Input> {
    /// The size of the hall, for a call that is given one.
    pub size: Option<Size>,
    /// What else the inputs have in common, in words.
    pub kind: String,
    pub draw: Box<dyn Fn(&mut Random) -> Input>,
}

/// The sizes of the halls, in the order of the benchmark.
pub fn sizes() -> impl Iterator<Item = Size> {
    NS.into_iter().flat_map(|n| KS.map(|k| [n, k]))
}

/// The words for a size.
pub fn size_words([n, k]: Size) -> String {
    format!("n={n} k={k}")
}

/// The cases of a call in which neither b nor codes play a part: a hall of each size.
pub fn by_size<I>(draw: impl Fn(&mut Random, Hall) -> I + Copy + 'static) -> Vec<Case<I>> {
    halls(0, String::new(), draw)
}

/// The cases of a call in which b plays a part and codes play none.
pub fn by_b<I>(draw: impl Fn(&mut Random, Hall) -> I + Copy + 'static) -> Vec<Case<I>> {
    let cases = BS.map(|b| halls(b, format!("b={b}"), draw));
    cases.into_iter().flatten().collect()
}

/// The cases of a call in which codes play a part and b plays none.
pub fn by_share<I>(draw: impl Fn(&mut Random, Hall, u32) -> I + Copy + 'static) -> Vec<Case<I>> {
    shares(0, "", draw)
}

/// The cases of a call in which both play a part.
pub fn by_b_and_share<I>(
    draw: impl Fn(&mut Random, Hall, u32) -> I + Copy + 'static,
) -> Vec<Case<I>> {
    let cases = BS.map(|b| shares(b, &format!("b={b} "), draw));
    cases.into_iter().flatten().collect()
}

/// The same cases in halls of which half is fitted, where a hall need not be full.
pub fn halves_by_b_and_share<I>(
    draw: impl Fn(&mut Random, Hall, u32) -> I + Copy + 'static,
) -> Vec<Case<I>> {
    let cases =
        by_b_and_share(move |random: &mut Random, hall, not_up| draw(random, half(hall), not_up));
    let tall = cases.into_iter().filter(Case::is_tall);
    tall.map(|case| case.also("half")).collect()
}

impl<I> Case<I> {
    /// Whether the halls of the case need not be full.
    pub fn is_tall(&self) -> bool {
        self.size.is_some_and(|[_, k]| k >= LEAST_FILLED_K)
    }

    /// A case of a call that is given no hall.
    pub fn named(kind: &str, draw: impl Fn(&mut Random) -> I + 'static) -> Case<I> {
        Case {
            size: None,
            kind: kind.to_owned(),
            draw: Box::new(draw),
        }
    }

    /// The case with words before those for its kind.
    pub fn also(self, words: &str) -> Case<I> {
        Case {
            kind: format!("{words} {}", self.kind),
            ..self
        }
    }
}

/// A case for each size and each share of codes down.
fn shares<I>(
    b: u32,
    before: &str,
    draw: impl Fn(&mut Random, Hall, u32) -> I + Copy + 'static,
) -> Vec<Case<I>> {
    let of_share = |not_up| {
        let kind = format!("{before}{}", share_words(not_up));
        halls(b, kind, move |random: &mut Random, hall| {
            draw(random, hall, not_up)
        })
    };
    SHARES.into_iter().flat_map(of_share).collect()
}

/// The words for a share of codes down.
fn share_words(not_up: u32) -> String {
    match not_up {
        0 => "all up".to_owned(),
        share => format!("{share}% down"),
    }
}

/// A case for each size.
fn halls<I>(
    b: u32,
    kind: String,
    draw: impl Fn(&mut Random, Hall) -> I + Copy + 'static,
) -> Vec<Case<I>> {
    let of_size = |[n, k]: Size| Case {
        size: Some([n, k]),
        kind: kind.clone(),
        draw: Box::new(move |random: &mut Random| draw(random, Hall::full(n, k, b))),
    };
    sizes().map(of_size).collect()
}

#[cfg(test)]
mod tests {
    use super::*;

    /// The words and the drawn inputs of some cases.
    fn told<I>(cases: Vec<Case<I>>) -> Vec<(String, I)> {
        let mut random = Random::new(1);
        let mut told = Vec::new();
        for case in cases {
            let size = case.size.map_or_else(String::new, size_words);
            told.push((format!("{size} {}", case.kind), (case.draw)(&mut random)));
        }
        told
    }

    #[test]
    fn each_size_b_and_share_is_a_case_that_draws_what_it_says() {
        let cases = told(by_b_and_share(|_, hall, not_up| (hall, not_up)));
        assert_eq!(cases.len(), 24);
        let last = Hall::full(8, 3, 1);
        assert_eq!(cases[23], ("n=8 k=3 b=1 5% down".to_owned(), (last, 5)));
        let first = Hall::full(4, 1, 0);
        assert_eq!(cases[0], ("n=4 k=1 b=0 all up".to_owned(), (first, 0)));
    }

    #[test]
    fn halves_are_of_the_halls_that_need_not_be_full() {
        let cases = told(halves_by_b_and_share(|_, hall, not_up| (hall, not_up)));
        assert_eq!(cases.len(), 16);
        let part = Hall {
            count: 191_880,
            ..Hall::full(8, 3, 1)
        };
        assert_eq!(
            cases[15],
            ("n=8 k=3 half b=1 5% down".to_owned(), (part, 5))
        );
        assert_eq!(cases[0].1 .0.k, 2);
    }

    #[test]
    fn what_plays_no_part_is_not_told() {
        assert_eq!(told(by_size(|_, h| h))[5].0, "n=8 k=3 ");
        assert_eq!(told(by_b(|_, h| h))[7].0, "n=4 k=2 b=1");
        assert_eq!(told(by_share(|_, h, _| h))[6].0, "n=4 k=1 5% down");
        let scope = by_share(|_, h, _| h)
            .into_iter()
            .map(|case| case.also("scope=1"));
        assert_eq!(told(scope.collect())[0].0, "n=4 k=1 scope=1 all up");
        assert_eq!(
            told(vec![Case::named("proxy", |_| 7)]),
            [(" proxy".to_owned(), 7)]
        );
    }
}
