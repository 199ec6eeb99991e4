//! A small source of random numbers (splitmix64), so that a seed repeats a script on every machine.

pub struct Dice {
    state: u64,
}

fn mix(mut z: u64) -> u64 {
    z = (z ^ (z >> 30)).wrapping_mul(0xbf58_476d_1ce4_e5b9);
    z = (z ^ (z >> 27)).wrapping_mul(0x94d0_49bb_1331_11eb);
    z ^ (z >> 31)
}

impl Dice {
    /// Each script has dice of its own, so that it can be made again without those before it.
    pub fn of_script(seed: u64, script: u64) -> Dice {
        Dice { state: mix(mix(seed).wrapping_add(script)) }
    }

    pub fn any(&mut self) -> u64 {
        self.state = self.state.wrapping_add(0x9e37_79b9_7f4a_7c15);
        mix(self.state)
    }

    /// A number below `bound`; the slight lean of the remainder does no harm here.
    pub fn below(&mut self, bound: u64) -> u64 {
        self.any() % bound
    }

    pub fn between(&mut self, low: u64, high: u64) -> u64 {
        low + self.below(high - low + 1)
    }

    /// True once in `times`.
    pub fn once_in(&mut self, times: u64) -> bool {
        self.below(times) == 0
    }

    pub fn pick<T: Copy>(&mut self, from: &[T]) -> T {
        from[self.below(from.len() as u64) as usize]
    }

    /// An index, by weights.
    pub fn weighed(&mut self, weights: &[u64]) -> usize {
        let mut rest = self.below(weights.iter().sum());
        for (index, weight) in weights.iter().enumerate() {
            if rest < *weight {
                return index;
            }
            rest -= weight;
        }
        unreachable!()
    }

    /// A 64-bit number in which ends, small numbers and any numbers are all common.
    pub fn wide(&mut self) -> u64 {
        match self.below(8) {
            0 => u64::MAX - self.below(3),
            1 => 0,
            2 => 1 << self.below(64),
            3 | 4 => self.any(),
            _ => self.below(100),
        }
    }
}
