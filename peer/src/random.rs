//! A small seeded generator (xoshiro256**), so that every random run can be repeated from the seed its user prints.

/// The step of splitmix64, which spreads a seed over the state.
const SPLITMIX_STEP: u64 = 0x9E37_79B9_7F4A_7C15;

/// A xoshiro256** generator that remembers its seed.
#[derive(Debug, Clone, PartialEq, Eq)]
pub struct Random {
    seed: u64,
    state: [u64; 4],
}

impl Random {
    /// A generator whose numbers depend on the seed alone.
    pub fn new(seed: u64) -> Random {
        let mut spread = seed;
        let state = [(); 4].map(|()| splitmix(&mut spread));
        Random { seed, state }
    }

    /// The seed this generator began with.
    pub fn seed(&self) -> u64 {
        self.seed
    }

    /// The next 64 random bits.
    pub fn bits(&mut self) -> u64 {
        let [s0, s1, s2, s3] = self.state;
        let answer = s1.wrapping_mul(5).rotate_left(7).wrapping_mul(9);
        let (s2, s3) = (s2 ^ s0, s3 ^ s1);
        self.state = [s0 ^ s3, s1 ^ s2, s2 ^ (s1 << 17), s3.rotate_left(45)];
        answer
    }

    /// A random word.
    pub fn word(&mut self) -> u32 {
        (self.bits() >> 32) as u32
    }

    /// A random byte.
    pub fn byte(&mut self) -> u8 {
        (self.bits() >> 56) as u8
    }

    /// A number below the bound; 0 for a bound of 0.
    pub fn below(&mut self, bound: u32) -> u32 {
        ((u64::from(self.word()) * u64::from(bound)) >> 32) as u32
    }

    /// True once in so many calls on average; never for 0.
    pub fn once_in(&mut self, times: u32) -> bool {
        times > 0 && self.below(times) == 0
    }
}

/// One splitmix64 number.
fn splitmix(state: &mut u64) -> u64 {
    *state = state.wrapping_add(SPLITMIX_STEP);
    let mixed = (*state ^ (*state >> 30)).wrapping_mul(0xBF58_476D_1CE4_E5B9);
    let mixed = (mixed ^ (mixed >> 27)).wrapping_mul(0x94D0_49BB_1331_11EB);
    mixed ^ (mixed >> 31)
}

#[cfg(test)]
mod tests {
    use super::*;

    #[test]
    fn one_seed_gives_one_run_and_another_seed_another() {
        let run = |seed| {
            let mut random = Random::new(seed);
            [(); 8].map(|()| random.bits())
        };
        assert_eq!(run(7), run(7));
        assert_ne!(run(7), run(8));
        assert_eq!(Random::new(7).seed(), 7);
    }

    #[test]
    fn splitmix_gives_its_published_first_number() {
        assert_eq!(splitmix(&mut 0), 0xE220_A839_7B1D_CDAF);
    }

    #[test]
    fn xoshiro_gives_its_published_first_numbers() {
        let mut random = Random {
            seed: 0,
            state: [1, 2, 3, 4],
        };
        let first = [(); 4].map(|()| random.bits());
        assert_eq!(first, [11520, 0, 1509978240, 1215971899390074240]);
    }

    #[test]
    fn below_stays_below_and_meets_every_number() {
        let mut random = Random::new(1);
        let mut met = [false; 6];
        for _ in 0..1000 {
            met[random.below(6) as usize] = true;
        }
        assert_eq!(met, [true; 6]);
        assert_eq!(random.below(0), 0);
    }
}
