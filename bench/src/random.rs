//! A small generator of numbers that only look random: the same seed gives the same numbers.

pub struct Random(u64);

impl Random {
    pub fn new(seed: u64) -> Random {
        Random(seed)
    }

    pub fn number(&mut self) -> u64 {
        self.0 = self.0.wrapping_add(0x9e37_79b9_7f4a_7c15);
        let mut x = self.0;
        x = (x ^ (x >> 30)).wrapping_mul(0xbf58_476d_1ce4_e5b9);
        x = (x ^ (x >> 27)).wrapping_mul(0x94d0_49bb_1331_11eb);
        x ^ (x >> 31)
    }

    /// A number below `limit`.
    pub fn below(&mut self, limit: usize) -> usize {
        (self.number() % limit as u64) as usize
    }

    /// Whether something happens that happens so many times in a hundred.
    pub fn percent(&mut self, chance: usize) -> bool {
        self.below(100) < chance
    }

    /// One of the bits of a mask that is not 0.
    pub fn bit(&mut self, mask: u16) -> u16 {
        let mut rest = mask;
        for _ in 0..self.below(mask.count_ones() as usize) {
            rest &= rest - 1;
        }
        rest & rest.wrapping_neg()
    }

    /// A mask within another, with about so many in a hundred of its bits, and at least one.
    pub fn within(&mut self, whole: u16, chance: usize) -> u16 {
        let mut mask = self.bit(whole);
        for bit in 0..16 {
            if self.percent(chance) {
                mask |= whole & 1 << bit;
            }
        }
        mask
    }
}
