//! A small seeded source of random numbers (splitmix64).

#[derive(Clone, Debug)]
pub struct Rng {
    state: u64,
}

const STEP: u64 = 0x9E37_79B9_7F4A_7C15;

impl Rng {
    pub fn new(seed: u64) -> Rng {
        Rng { state: seed }
    }

    /// The source for case `index` of kind `kind` under a seed, so that each
    /// case can be made again by itself.
    pub fn for_case(seed: u64, kind: u64, index: u64) -> Rng {
        let mut rng = Rng::new(seed ^ kind.wrapping_mul(STEP));
        let base = rng.draw();
        Rng::new(base ^ index.wrapping_mul(STEP))
    }

    pub fn draw(&mut self) -> u64 {
        self.state = self.state.wrapping_add(STEP);
        let z = self.state;
        let z = (z ^ (z >> 30)).wrapping_mul(0xBF58_476D_1CE4_E5B9);
        let z = (z ^ (z >> 27)).wrapping_mul(0x94D0_49BB_1331_11EB);
        z ^ (z >> 31)
    }

    /// A number below `bound`, which is not 0.
    pub fn below(&mut self, bound: usize) -> usize {
        (self.draw() % bound as u64) as usize
    }

    /// A number from `low` to `high`, both included.
    pub fn between(&mut self, low: usize, high: usize) -> usize {
        low + self.below(high - low + 1)
    }

    /// True in `percent` of a hundred cases.
    pub fn chance(&mut self, percent: usize) -> bool {
        self.below(100) < percent
    }

    /// Any word.
    pub fn word(&mut self) -> u16 {
        self.draw() as u16
    }

    /// Any word but 0, mostly a small one.
    pub fn code(&mut self) -> u16 {
        if self.chance(85) {
            self.between(1, 99) as u16
        } else {
            self.word().max(1)
        }
    }

    /// One of the items, if there is any.
    pub fn pick<T: Copy>(&mut self, items: &[T]) -> Option<T> {
        if items.is_empty() {
            return None;
        }
        Some(items[self.below(items.len())])
    }

    pub fn shuffle<T>(&mut self, items: &mut [T]) {
        for i in (1..items.len()).rev() {
            items.swap(i, self.below(i + 1));
        }
    }
}
