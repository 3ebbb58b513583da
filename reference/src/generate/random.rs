//! Random numbers that are a function of a seed and an image's number alone.

/// A row of numbers without a visible pattern.
#[derive(Clone, Debug)]
pub struct Random {
    state: u64,
}

/// The distance between two states: an odd number with its bits well spread.
const STRIDE: u64 = 0x9E37_79B9_7F4A_7C15;

/// Spreads every bit of a number over the whole of it.
fn mix(number: u64) -> u64 {
    let a = (number ^ number >> 30).wrapping_mul(0xBF58_476D_1CE4_E5B9);
    let b = (a ^ a >> 27).wrapping_mul(0x94D0_49BB_1331_11EB);
    b ^ b >> 31
}

impl Random {
    /// The row that belongs to this seed and this number.
    pub fn new(seed: u64, number: u64) -> Random {
        let state = mix(mix(seed.wrapping_add(STRIDE)) ^ number.wrapping_mul(STRIDE));
        Random { state }
    }

    /// The next word.
    pub fn word(&mut self) -> u32 {
        self.state = self.state.wrapping_add(STRIDE);
        (mix(self.state) >> 32) as u32
    }

    /// A number below the bound; 0 if the bound is 0.
    pub fn below(&mut self, bound: u32) -> u32 {
        ((u64::from(self.word()) * u64::from(bound)) >> 32) as u32
    }

    /// A place in a row of so many; 0 if the row is empty.
    pub fn index(&mut self, length: usize) -> usize {
        self.below(length as u32) as usize
    }

    /// A number from `low` to `high`, both among them; `low` if the range is empty.
    pub fn between(&mut self, low: u32, high: u32) -> u32 {
        low + self.below((high + 1).saturating_sub(low))
    }

    /// True once in so many times.
    pub fn one_in(&mut self, times: u32) -> bool {
        self.below(times) == 0
    }

    /// One of these, or none if there is none.
    pub fn pick<T: Copy>(&mut self, from: &[T]) -> Option<T> {
        from.get(self.index(from.len())).copied()
    }

    /// One of these.
    pub fn choose<T: Copy, const N: usize>(&mut self, from: [T; N]) -> T {
        from[self.index(N)]
    }

    /// Puts a row into another order.
    pub fn shuffle<T>(&mut self, row: &mut [T]) {
        for end in (1..row.len()).rev() {
            let other = self.index(end + 1);
            row.swap(end, other);
        }
    }
}
