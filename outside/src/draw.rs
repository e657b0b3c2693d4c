//! A small seeded source of numbers (splitmix64). The same name and seed
//! give the same numbers on every machine.

/// A run of numbers that look random.
#[derive(Clone, Debug)]
pub struct Draw {
    state: u64,
}

impl Draw {
    /// The run for a seed of a named series.
    pub fn new(series: &str, seed: u64) -> Draw {
        let mut draw = Draw { state: seed };
        for byte in series.bytes() {
            draw.state ^= u64::from(byte);
            draw.state = draw.any();
        }
        draw
    }

    /// Any number.
    pub fn any(&mut self) -> u64 {
        self.state = self.state.wrapping_add(0x9e37_79b9_7f4a_7c15);
        let mut mixed = self.state;
        mixed = (mixed ^ (mixed >> 30)).wrapping_mul(0xbf58_476d_1ce4_e5b9);
        mixed = (mixed ^ (mixed >> 27)).wrapping_mul(0x94d0_49bb_1331_11eb);
        mixed ^ (mixed >> 31)
    }

    /// A number below `count`, which is at least 1.
    pub fn below(&mut self, count: usize) -> usize {
        (self.any() % count as u64) as usize
    }

    /// A number from `least` to `most`, both included.
    pub fn between(&mut self, least: usize, most: usize) -> usize {
        least + self.below(most - least + 1)
    }

    /// True in `part` of `whole` draws.
    pub fn chance(&mut self, part: usize, whole: usize) -> bool {
        self.below(whole) < part
    }

    /// Any byte.
    pub fn byte(&mut self) -> u8 {
        self.any() as u8
    }

    /// One of the items, of which there is at least one.
    pub fn pick<T: Copy>(&mut self, items: &[T]) -> T {
        items[self.below(items.len())]
    }

    /// `count` different numbers from 1 to `most`, increasing.
    pub fn subset(&mut self, count: usize, most: usize) -> Vec<usize> {
        let mut all = (1..=most).collect::<Vec<_>>();
        self.shuffle(&mut all);
        all.truncate(count);
        all.sort_unstable();
        all
    }

    /// Puts the items into any order.
    pub fn shuffle<T>(&mut self, items: &mut [T]) {
        for last in (1..items.len()).rev() {
            items.swap(last, self.below(last + 1));
        }
    }
}

#[cfg(test)]
mod tests {
    use super::*;

    #[test]
    fn the_same_seed_gives_the_same_run() {
        let mut one = Draw::new("a", 7);
        let mut other = Draw::new("a", 7);
        let mut third = Draw::new("b", 7);
        let run = (0..8).map(|_| one.any()).collect::<Vec<_>>();
        assert_eq!(run, (0..8).map(|_| other.any()).collect::<Vec<_>>());
        assert_ne!(run, (0..8).map(|_| third.any()).collect::<Vec<_>>());
    }

    #[test]
    fn subsets_increase_within_their_range() {
        let mut draw = Draw::new("subsets", 0);
        for _ in 0..100 {
            let subset = draw.subset(5, 9);
            assert_eq!(subset.len(), 5);
            assert!(subset.windows(2).all(|pair| pair[0] < pair[1]));
            assert!((1..=9).contains(&subset[0]) && subset[4] <= 9);
        }
    }
}
