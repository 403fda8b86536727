//! A small generator of numbers (splitmix64), so that inputs need no outside library.

use std::ops::RangeInclusive;

pub struct Random(u64);

impl Random {
    /// A generator for this seed; `salt` keeps equal seeds of two profiles apart.
    pub fn new(seed: u64, salt: u64) -> Random {
        let mut random = Random(seed ^ salt.rotate_right(8));
        random.next();
        random
    }

    pub fn next(&mut self) -> u64 {
        self.0 = self.0.wrapping_add(0x9e37_79b9_7f4a_7c15);
        let z = (self.0 ^ (self.0 >> 30)).wrapping_mul(0xbf58_476d_1ce4_e5b9);
        let z = (z ^ (z >> 27)).wrapping_mul(0x94d0_49bb_1331_11eb);
        z ^ (z >> 31)
    }

    /// Any of the 32-bit words.
    pub fn word(&mut self) -> u32 {
        (self.next() >> 32) as u32
    }

    /// A number in the range; its slight lean to low numbers does no harm here.
    pub fn within(&mut self, range: RangeInclusive<u32>) -> u32 {
        let span = u64::from(range.end() - range.start()) + 1;
        range.start() + (self.next() % span) as u32
    }

    /// True once in `times`.
    pub fn once_in(&mut self, times: u32) -> bool {
        self.within(1..=times) == 1
    }

    /// One of some values.
    pub fn pick<T: Copy>(&mut self, from: &[T]) -> T {
        let last = from.len() as u32 - 1;
        from[self.within(0..=last) as usize]
    }

    /// Two numbers in the range, the lower first.
    pub fn pair(&mut self, range: RangeInclusive<u32>) -> (u32, u32) {
        let a = self.within(range.clone());
        let b = self.within(range);
        (a.min(b), a.max(b))
    }

    /// Proper sides with all coordinates in the range.
    pub fn sides(&mut self, range: RangeInclusive<u32>) -> [u32; 4] {
        let (x0, x1) = self.pair(range.clone());
        let (y0, y1) = self.pair(range);
        [x0, y0, x1, y1]
    }

    /// Puts the values in another order.
    pub fn shuffle<T>(&mut self, values: &mut [T]) {
        for last in (1..values.len()).rev() {
            let other = self.within(0..=last as u32) as usize;
            values.swap(last, other);
        }
    }
}
