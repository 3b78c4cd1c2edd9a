//! Seeded random numbers, for the tests that draw what they do.

use std::io::Write;

/// A 64-bit xorshift generator.
pub struct Random(u64);

impl Random {
    /// The generator of a seed. The seed is mixed first, so that neighbours have nothing in common.
    pub fn new(seed: u64) -> Random {
        let mixed = seed.wrapping_add(1).wrapping_mul(0x9e37_79b9_7f4a_7c15);
        let mut random = Random((mixed ^ (mixed >> 29)).max(1));
        for _ in 0..4 {
            random.next();
        }
        random
    }

    pub fn next(&mut self) -> u64 {
        self.0 ^= self.0 << 13;
        self.0 ^= self.0 >> 7;
        self.0 ^= self.0 << 17;
        self.0
    }

    pub fn below(&mut self, end: u64) -> u64 {
        (self.next() >> 16) % end
    }

    /// Both ends are drawn too.
    pub fn between(&mut self, low: u64, high: u64) -> u64 {
        low + self.below(high - low + 1)
    }

    pub fn one_in(&mut self, times: u64) -> bool {
        self.below(times) == 0
    }

    pub fn pick<T: Copy>(&mut self, from: &[T]) -> T {
        from[self.below(from.len() as u64) as usize]
    }

    pub fn shuffled<T>(&mut self, from: impl Iterator<Item = T>) -> Vec<T> {
        let mut items: Vec<T> = from.collect();
        for i in (1..items.len()).rev() {
            items.swap(i, self.below(i as u64 + 1) as usize);
        }
        items
    }

    pub fn bytes(&mut self, length: usize) -> Vec<u8> {
        (0..length).map(|_| self.next() as u8).collect()
    }
}

/// The number that a variable of the environment names, else the usual one.
pub fn named(variable: &str, usual: u64) -> u64 {
    std::env::var(variable).map_or(usual, |named| {
        let number = named.parse();
        number.unwrap_or_else(|_| panic!("{variable} is a decimal number, not {named}"))
    })
}

/// The first seed, shown even when the test passes.
pub fn first_seed(test: &str) -> u64 {
    let seed = named("PIT_SEED", 20_260_401);
    let _ = writeln!(std::io::stderr(), "{test}: PIT_SEED={seed}");
    seed
}

/// Draws so many scenes, or as many as `PIT_SCENES` says. The seed of one that fails is shown: with it, it comes first.
pub fn scenes(test: &str, usual: u64, mut scene: impl FnMut(Random)) {
    let first = first_seed(test);
    for seed in (0..named("PIT_SCENES", usual)).map(|i| first.wrapping_add(i)) {
        let _shown = ShownSeed(seed);
        scene(Random::new(seed));
    }
}

/// Shows the seed where a test panics.
pub struct ShownSeed(pub u64);

impl Drop for ShownSeed {
    fn drop(&mut self) {
        if std::thread::panicking() {
            let _ = writeln!(std::io::stderr(), "failed with PIT_SEED={}", self.0);
        }
    }
}
