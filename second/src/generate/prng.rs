//! Random numbers: the generator splitmix64.

/// A seeded generator of random numbers.
#[derive(Clone, Debug)]
pub struct Prng {
    state: u64,
}

impl Prng {
    /// A generator with this seed.
    pub fn new(seed: u64) -> Prng {
        Prng { state: seed }
    }

    /// The generator of one file: it depends on the seed, the kind and the number of the file.
    pub fn for_file(seed: u64, kind: u64, index: u64) -> Prng {
        let mut prng = Prng::new(seed ^ kind.wrapping_mul(0xD1B5_4A32_D192_ED03));
        let mixed = prng.draw() ^ index.wrapping_mul(0xA24B_AED4_963E_E407);
        Prng::new(mixed)
    }

    /// The next random number.
    pub fn draw(&mut self) -> u64 {
        self.state = self.state.wrapping_add(0x9E37_79B9_7F4A_7C15);
        let mut mixed = self.state;
        mixed = (mixed ^ (mixed >> 30)).wrapping_mul(0xBF58_476D_1CE4_E5B9);
        mixed = (mixed ^ (mixed >> 27)).wrapping_mul(0x94D0_49BB_1331_11EB);
        mixed ^ (mixed >> 31)
    }

    /// A number from 0 up to, not including, `bound`; 0 if the bound is 0.
    pub fn below(&mut self, bound: usize) -> usize {
        (self.draw() % (bound.max(1) as u64)) as usize
    }

    /// A number from `least` to `greatest`, both included.
    pub fn between(&mut self, least: usize, greatest: usize) -> usize {
        least + self.below(greatest.saturating_sub(least) + 1)
    }

    /// True in so many of a thousand cases.
    pub fn chance(&mut self, per_mille: usize) -> bool {
        self.below(1000) < per_mille
    }

    /// One of the things. There must be one at least.
    pub fn pick<'a, T: ?Sized>(&mut self, things: &[&'a T]) -> &'a T {
        things[self.below(things.len())]
    }

    /// One of the things, as a copy. There must be one at least.
    pub fn pick_of<T: Copy>(&mut self, things: &[T]) -> T {
        things[self.below(things.len())]
    }

    /// Any byte.
    pub fn byte(&mut self) -> u8 {
        (self.draw() >> 56) as u8
    }
}
