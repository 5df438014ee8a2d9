//! Chance from a seed: xoshiro256** filled by splitmix64, the same on every machine.

/// A stream of numbers that the seed alone decides.
pub struct Chance {
    state: [u64; 4],
}

impl Chance {
    /// The stream of this seed.
    pub fn new(seed: u64) -> Chance {
        let mut filler = seed;
        let state = [(); 4].map(|()| splitmix(&mut filler));
        Chance { state }
    }

    /// Any number.
    pub fn next(&mut self) -> u64 {
        let [a, b, c, d] = self.state;
        let result = b.wrapping_mul(5).rotate_left(7).wrapping_mul(9);
        let (c, d) = (c ^ a, d ^ b);
        self.state = [a ^ d, b ^ c, c ^ (b << 17), d.rotate_left(45)];
        result
    }

    /// A number below a limit that is above 0.
    pub fn below(&mut self, limit: usize) -> usize {
        // The high half of the product; its bias is far below what matters here.
        let product = u128::from(self.next()) * limit as u128;
        (product >> 64) as usize
    }

    /// A number from the first to the last.
    pub fn range(&mut self, first: usize, last: usize) -> usize {
        first + self.below(last - first + 1)
    }

    /// True in that many of 100 cases.
    pub fn percent(&mut self, part: usize) -> bool {
        self.below(100) < part
    }

    /// Any byte.
    pub fn byte(&mut self) -> u8 {
        (self.next() >> 56) as u8
    }

    /// One of some choices; a choice that stands twice comes twice as often.
    pub fn pick<T: Copy>(&mut self, choices: &[T]) -> T {
        choices[self.below(choices.len())]
    }

    /// One of some choices, each as often as the weight before it says; not all weights are 0.
    pub fn weighted<T: Copy>(&mut self, choices: &[(usize, T)]) -> T {
        let all = choices.iter().map(|(weight, _)| weight).sum();
        let mut left = self.below(all);
        let mut place = 0;
        while left >= choices[place].0 {
            left -= choices[place].0;
            place += 1;
        }
        choices[place].1
    }

    /// Any order.
    pub fn shuffle<T>(&mut self, items: &mut [T]) {
        for last in (1..items.len()).rev() {
            items.swap(last, self.below(last + 1));
        }
    }
}

fn splitmix(state: &mut u64) -> u64 {
    *state = state.wrapping_add(0x9E37_79B9_7F4A_7C15);
    let z = (*state ^ (*state >> 30)).wrapping_mul(0xBF58_476D_1CE4_E5B9);
    let z = (z ^ (z >> 27)).wrapping_mul(0x94D0_49BB_1331_11EB);
    z ^ (z >> 31)
}

#[cfg(test)]
mod tests {
    use super::*;

    #[test]
    fn splitmix_gives_its_published_numbers() {
        let mut state = 1_234_567;
        let numbers = [(); 3].map(|()| splitmix(&mut state));
        let published = [
            6_457_827_717_110_365_317,
            3_203_168_211_198_807_973,
            9_817_491_932_198_370_423,
        ];
        assert_eq!(numbers, published);
    }

    #[test]
    fn xoshiro_gives_its_published_numbers() {
        let mut chance = Chance {
            state: [1, 2, 3, 4],
        };
        let numbers = [(); 4].map(|()| chance.next());
        assert_eq!(
            numbers,
            [11_520, 0, 1_509_978_240, 1_215_971_899_390_074_240]
        );
    }

    #[test]
    fn weights_are_kept() {
        let mut chance = Chance::new(8);
        let mut seen = [0; 4];
        for _ in 0..4_000 {
            seen[chance.weighted(&[(1, 0), (0, 1), (2, 2), (1, 3)])] += 1;
        }
        assert_eq!(seen[1], 0);
        let near = |count: i32, wanted: i32| (count - wanted).abs() < 150;
        assert!(near(seen[0], 1_000) && near(seen[2], 2_000), "{seen:?}");
    }

    #[test]
    fn limits_hold() {
        let mut chance = Chance::new(7);
        for _ in 0..1_000 {
            assert!(chance.below(3) < 3);
            assert!((5..=6).contains(&chance.range(5, 6)));
        }
    }
}
