//! A small seeded source of random numbers (splitmix64).

pub struct Random(u64);

impl Random {
    /// The source for one numbered case, so that any case can be drawn again by itself.
    pub fn for_case(seed: u64, case: u64) -> Random {
        let mut source = Random(seed);
        Random(source.word() ^ case.wrapping_mul(0xd134_2543_de82_ef95))
    }

    pub fn word(&mut self) -> u64 {
        self.0 = self.0.wrapping_add(0x9e37_79b9_7f4a_7c15);
        let mixed = (self.0 ^ self.0 >> 30).wrapping_mul(0xbf58_476d_1ce4_e5b9);
        let mixed = (mixed ^ mixed >> 27).wrapping_mul(0x94d0_49bb_1331_11eb);
        mixed ^ mixed >> 31
    }

    pub fn byte(&mut self) -> u8 {
        self.word() as u8
    }

    /// A number below the bound, 0 if the bound is 0.
    pub fn below(&mut self, bound: usize) -> usize {
        (self.word() % bound.max(1) as u64) as usize
    }

    /// A number from the first to the last, both included.
    pub fn between(&mut self, first: usize, last: usize) -> usize {
        first + self.below(last + 1 - first)
    }

    pub fn chance(&mut self, percent: usize) -> bool {
        self.below(100) < percent
    }

    pub fn pick<T: Copy>(&mut self, items: &[T]) -> T {
        items[self.below(items.len())]
    }

    pub fn shuffle<T>(&mut self, items: &mut [T]) {
        for last in (1..items.len()).rev() {
            items.swap(last, self.below(last + 1));
        }
    }

    /// The numbers below a bound in random order.
    pub fn permutation(&mut self, count: usize) -> Vec<usize> {
        let mut numbers: Vec<usize> = (0..count).collect();
        self.shuffle(&mut numbers);
        numbers
    }

    /// Some atoms of a set, at most this many.
    pub fn atoms_of(&mut self, set: u64, most: usize) -> u64 {
        let atoms: Vec<u64> = (0..64).map(|atom| 1 << atom).filter(|atom| set & atom != 0).collect();
        if atoms.is_empty() {
            return 0;
        }
        (0..most).fold(0, |chosen, _| chosen | self.pick(&atoms))
    }
}
