//! Pseudo-random numbers, the same on every machine.

/// splitmix64.
pub struct Prng(u64);

impl Prng {
    /// A stream of its own for each pair of seed and number.
    pub fn new(seed: u64, number: u64) -> Prng {
        let mut first = Prng(seed);
        let mixed = first.next() ^ number;
        let mut second = Prng(mixed);
        Prng(second.next())
    }

    fn next(&mut self) -> u64 {
        self.0 = self.0.wrapping_add(0x9E37_79B9_7F4A_7C15);
        let mut z = self.0;
        z = (z ^ (z >> 30)).wrapping_mul(0xBF58_476D_1CE4_E5B9);
        z = (z ^ (z >> 27)).wrapping_mul(0x94D0_49BB_1331_11EB);
        z ^ (z >> 31)
    }

    pub fn word(&mut self) -> u32 {
        (self.next() >> 32) as u32
    }

    pub fn below(&mut self, bound: usize) -> usize {
        ((self.word() as u64 * bound as u64) >> 32) as usize
    }

    /// True once in `n`.
    pub fn once_in(&mut self, n: usize) -> bool {
        self.below(n) == 0
    }

    pub fn pick<T: Copy>(&mut self, from: &[T]) -> T {
        from[self.below(from.len())]
    }

    pub fn shuffle<T>(&mut self, items: &mut [T]) {
        for k in (1..items.len()).rev() {
            items.swap(k, self.below(k + 1));
        }
    }
}

fn xorshift32(mut x: u32) -> u32 {
    x ^= x << 13;
    x ^= x >> 17;
    x ^= x << 5;
    x
}

/// Zeros for seed 0, else the first `len` outputs of xorshift32.
pub fn seeded_words(seed: u32, len: usize) -> Vec<u32> {
    let mut x = seed;
    (0..len)
        .map(|_| {
            x = xorshift32(x);
            x
        })
        .collect()
}

/// The seed whose output number `k`, from 0, is `value`.
pub fn seed_with_word(k: usize, value: u32) -> u32 {
    (0..=k).fold(value, |x, _| undo_xorshift32(x))
}

fn undo_xorshift32(x: u32) -> u32 {
    let x = undo(x, |y| y << 5);
    let x = undo(x, |y| y >> 17);
    undo(x, |y| y << 13)
}

/// The y with y ^ shift(y) = x: each round settles more of its bits.
fn undo(x: u32, shift: fn(u32) -> u32) -> u32 {
    (0..32).fold(x, |y, _| x ^ shift(y))
}

#[cfg(test)]
mod tests {
    use super::*;

    #[test]
    fn seed_is_found_for_a_word() {
        for (k, value) in [(0, 1), (2, 0x20), (0x8C, 0x123456), (255, 0xFFFFFFFF)] {
            assert_eq!(seeded_words(seed_with_word(k, value), k + 1)[k], value);
        }
    }

    #[test]
    fn seed_zero_gives_zeros() {
        assert_eq!(seeded_words(0, 256), vec![0; 256]);
    }
}
