//! A small generator of random numbers: the same numbers for the same seed, on every machine.

/// The seed of the first case, where `ASDRIFEN_SEED` does not say another.
const FIRST_SEED: u64 = 20_261_115;

/// A stream of random numbers (the generator is known as splitmix64).
#[derive(Clone, Debug)]
pub struct Random(u64);

/// The seeds of so many cases.
pub fn seeds(count: u64) -> impl Iterator<Item = u64> {
    let first = match std::env::var("ASDRIFEN_SEED") {
        Ok(text) => text.parse().expect("ASDRIFEN_SEED is a number"),
        Err(_) => FIRST_SEED,
    };
    (0..count).map(move |number| first.wrapping_add(number))
}

impl Random {
    /// The stream of this seed.
    pub fn new(seed: u64) -> Random {
        Random(seed)
    }

    /// The next number of the stream.
    pub fn wide(&mut self) -> u64 {
        self.0 = self.0.wrapping_add(0x9e37_79b9_7f4a_7c15);
        let mixed = (self.0 ^ (self.0 >> 30)).wrapping_mul(0xbf58_476d_1ce4_e5b9);
        let mixed = (mixed ^ (mixed >> 27)).wrapping_mul(0x94d0_49bb_1331_11eb);
        mixed ^ (mixed >> 31)
    }

    /// Any number.
    pub fn number(&mut self) -> u32 {
        (self.wide() >> 32) as u32
    }

    /// So many numbers.
    pub fn numbers(&mut self, count: usize) -> Vec<u32> {
        (0..count).map(|_| self.number()).collect()
    }

    /// A place below the limit, which is not 0.
    pub fn below(&mut self, limit: usize) -> usize {
        (self.wide() % limit as u64) as usize
    }

    /// A number up to the limit.
    pub fn up_to(&mut self, limit: u32) -> u32 {
        (self.wide() % (u64::from(limit) + 1)) as u32
    }

    /// True once in so many times.
    pub fn one_in(&mut self, times: usize) -> bool {
        self.below(times) == 0
    }

    /// One of the items.
    pub fn pick<Item: Copy>(&mut self, items: &[Item]) -> Item {
        items[self.below(items.len())]
    }

    /// The items in another order.
    pub fn shuffle<Item>(&mut self, items: &mut [Item]) {
        for last in (1..items.len()).rev() {
            items.swap(last, self.below(last + 1));
        }
    }

    /// A number to put in the place of another: extreme, near, or any.
    pub fn damaged(&mut self, old: u32) -> u32 {
        match self.below(10) {
            0 => 0,
            1 => 1,
            2 => 2,
            3 => u32::MAX,
            4 => u32::MAX - 1,
            5 | 6 => old.wrapping_add(1),
            7 | 8 => old.wrapping_sub(1),
            _ => self.number(),
        }
    }
}
