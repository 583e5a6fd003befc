//! Numbers to call with that no hall bounds: any words.

use peer::hall::Hall;
use peer::random::Random;

use super::frames::edge_words;
use super::inputs::{any_hall, edge_halls};

/// The small numbers, from 0 on.
const SMALL: u32 = 20;

/// Any number: of any length in bits, often a small one or one of the highest.
pub fn any_number(random: &mut Random) -> u32 {
    match random.below(8) {
        0 => random.below(SMALL),
        1 => u32::MAX - random.below(3),
        _ => random.word() >> random.below(u32::BITS),
    }
}

/// The numbers that every comparison tries: small ones, and those beside each power of two and the highest of all.
pub fn edge_numbers() -> impl Iterator<Item = u32> {
    (0..SMALL).chain(edge_words())
}

/// The pairs of these numbers.
pub fn edge_pairs() -> impl Iterator<Item = [u32; 2]> {
    edge_numbers().flat_map(|one| edge_numbers().map(move |other| [one, other]))
}

/// Any hall, or any four numbers for one.
pub fn any_numbers_hall(random: &mut Random) -> Hall {
    if random.once_in(2) {
        return any_hall(random);
    }
    let [n, k, b, count] = [(); 4].map(|()| any_number(random));
    Hall { n, k, b, count }
}

/// The halls at an edge, and each number at an edge for each of the four numbers of a hall.
pub fn edge_numbers_halls() -> impl Iterator<Item = Hall> {
    let around = Hall::full(4, 2, 1);
    let changed = edge_numbers().flat_map(move |number| {
        let n = Hall {
            n: number,
            ..around
        };
        let k = Hall {
            k: number,
            ..around
        };
        let b = Hall {
            b: number,
            ..around
        };
        let count = Hall {
            count: number,
            ..around
        };
        [n, k, b, count]
    });
    edge_halls().chain(changed)
}

#[cfg(test)]
mod tests {
    use super::*;

    #[test]
    fn any_number_meets_small_and_high_ones_and_every_length() {
        let mut random = Random::new(1);
        let numbers: Vec<u32> = (0..2000).map(|_| any_number(&mut random)).collect();
        for number in [0, 1, 2, 3, 8, 9, u32::MAX - 1, u32::MAX] {
            assert!(numbers.contains(&number), "{number}");
        }
        for bits in 0..=u32::BITS {
            assert!(numbers
                .iter()
                .any(|n| u32::BITS - n.leading_zeros() == bits));
        }
    }
}
