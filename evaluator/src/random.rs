//! Deterministic random numbers (SplitMix64). The same seed gives the same numbers on every machine:
//! all arithmetic is on 64 and 128 bits, nothing depends on the size of a pointer.

/// The step of SplitMix64.
const STEP: u64 = 0x9E37_79B9_7F4A_7C15;

/// A generator of random numbers.
#[derive(Clone, Debug)]
pub struct Random {
    state: u64,
}

impl Random {
    /// A generator that starts from a seed.
    pub fn new(seed: u64) -> Random {
        Random { state: seed }
    }

    /// The generator of case `index` under `seed`: cases do not depend on each other.
    pub fn for_case(seed: u64, index: u64) -> Random {
        let mut start = Random::new(seed);
        let first = start.bits();
        let mut mixed = Random::new(first ^ index.wrapping_mul(0xD1B5_4A32_D192_ED03));
        let state = mixed.bits();
        Random { state }
    }

    /// The next 64 random bits.
    pub fn bits(&mut self) -> u64 {
        self.state = self.state.wrapping_add(STEP);
        let mut z = self.state;
        z = (z ^ (z >> 30)).wrapping_mul(0xBF58_476D_1CE4_E5B9);
        z = (z ^ (z >> 27)).wrapping_mul(0x94D0_49BB_1331_11EB);
        z ^ (z >> 31)
    }

    /// A number below `bound`; 0 where `bound` is 0.
    pub fn below(&mut self, bound: u64) -> u64 {
        ((self.bits() as u128 * bound as u128) >> 64) as u64
    }

    /// A place in a list of `length` entries; 0 where the list is empty.
    pub fn place(&mut self, length: usize) -> usize {
        self.below(length as u64) as usize
    }

    /// A number from `low` to `high`, both included.
    pub fn between(&mut self, low: u64, high: u64) -> u64 {
        low + self.below(high - low + 1)
    }

    /// True in `part` of `whole` draws.
    pub fn chance(&mut self, part: u64, whole: u64) -> bool {
        self.below(whole) < part
    }

    /// An entry of a list that is not empty.
    pub fn pick<'a, T>(&mut self, list: &'a [T]) -> &'a T {
        &list[self.place(list.len())]
    }

    /// The list in a random order.
    pub fn shuffle<T>(&mut self, list: &mut [T]) {
        for i in (1..list.len()).rev() {
            let j = self.place(i + 1);
            list.swap(i, j);
        }
    }

    /// Random numbers below `bound`, ascending, each once, each taken in `part` of `whole` draws.
    pub fn subset(&mut self, bound: usize, part: u64, whole: u64) -> Vec<usize> {
        (0..bound).filter(|_| self.chance(part, whole)).collect()
    }

    /// The numbers below `bound` in a random order.
    pub fn permutation(&mut self, bound: usize) -> Vec<usize> {
        let mut list: Vec<usize> = (0..bound).collect();
        self.shuffle(&mut list);
        list
    }
}
