//! A small generator of random numbers: splitmix64.

pub struct Random(u64);

impl Random {
    /// The stream of one case: the same for the same seed and index.
    pub fn of_case(seed: u64, index: u64) -> Random {
        let mixed = Random(seed).next() ^ index;
        Random(Random(mixed).next())
    }

    pub fn next(&mut self) -> u64 {
        self.0 = self.0.wrapping_add(0x9E37_79B9_7F4A_7C15);
        let mut z = self.0;
        z = (z ^ (z >> 30)).wrapping_mul(0xBF58_476D_1CE4_E5B9);
        z = (z ^ (z >> 27)).wrapping_mul(0x94D0_49BB_1331_11EB);
        z ^ (z >> 31)
    }

    /// A number under `bound`, which is not 0.
    pub fn below(&mut self, bound: usize) -> usize {
        (self.next() % bound as u64) as usize
    }

    pub fn between(&mut self, low: usize, high: usize) -> usize {
        low + self.below(high - low + 1)
    }

    pub fn chance(&mut self, of: usize) -> bool {
        self.below(of) == 0
    }

    pub fn byte(&mut self) -> u8 {
        self.next() as u8
    }

    pub fn word(&mut self) -> u16 {
        self.next() as u16
    }

    /// A scheduler or the private place.
    pub fn place(&mut self, first: u8, last: u8) -> u8 {
        self.between(usize::from(first), usize::from(last)) as u8
    }

    pub fn shuffle<T>(&mut self, items: &mut [T]) {
        for at in (1..items.len()).rev() {
            items.swap(at, self.below(at + 1));
        }
    }

    pub fn pick<T: Copy>(&mut self, items: &[T]) -> Option<T> {
        match items.len() {
            0 => None,
            count => Some(items[self.below(count)]),
        }
    }

    /// One of the values, each as often as the weight before it says.
    pub fn weighted<T: Copy>(&mut self, values: &[(usize, T)]) -> T {
        let total = values.iter().map(|(weight, _)| weight).sum();
        let mut number = self.below(total);
        for &(weight, value) in values {
            if number < weight {
                return value;
            }
            number -= weight;
        }
        unreachable!("the number is below the sum of the weights")
    }
}
