//! Lists to time: made up, accepted, and the same in every run.

/// A generator of pseudo-random numbers (xorshift64*).
pub struct Random(u64);

impl Random {
    pub fn new(seed: u64) -> Self {
        Random(seed.wrapping_mul(0x9E37_79B9_7F4A_7C15) | 1)
    }

    pub fn next(&mut self) -> u32 {
        self.0 ^= self.0 >> 12;
        self.0 ^= self.0 << 25;
        self.0 ^= self.0 >> 27;
        (self.0.wrapping_mul(0x2545_F491_4F6C_DD1D) >> 32) as u32
    }

    pub fn below(&mut self, n: u32) -> u32 {
        self.next() % n
    }
}

/// The setting of a number from 0 to 8, in rising id. It takes few values, so that most are set again unchanged.
fn setting(random: &mut Random, list: &mut Vec<u32>, which: u32) {
    let v = if random.below(4) == 0 { random.below(4) } else { 0 };
    match which {
        0 => list.push(0x0200_0010 + v),
        1 => list.push(0x2601_0200 + v),
        2 => list.push(0x3000_1000 + v),
        3 => list.push(0x3180_0001 + v),
        4 => list.extend([0x8400_0000 + v, 0x1000_0000, 0x5000_1000, 0x0040_0100]),
        5 => list.extend([0x8840_4001, 0x0000_1234 + v, 0x0000_0100, 0x00FF_0000]),
        6 => list.extend([0x8C00_0000, 0x3F80_0000, v, 0x4000_0000]),
        7 => list.extend([0x9000_0001, 0x00FF_FF00, 0x0100_0200 + v, 0x0300_0400]),
        _ => list.extend([0xC400_0000, 0x0000_FFFF, 0x00FF_0000, v]),
    }
}

fn load(random: &mut Random, list: &mut Vec<u32>, longest: u32) {
    let length = random.below(longest + 1);
    match random.below(4) {
        0 => list.extend([0x4010_0000 | length, 0, 0x0000_1597, 0x000F_6800]),
        1 => {
            let length = length.min(2);
            list.extend([0x4050_0000 | length, 0, 0, 0]);
            return list.extend((0..4 * length).map(|_| random.next()));
        }
        2 => list.extend([
            0x4020_0000 | random.below(512) << 10 & 0x7FC00 | length,
            0x0100_0006,
            0x0302_0006,
            0x0504_0006,
        ]),
        _ => list.extend([0x4000_0000 | length, 0, 0, 0]),
    }
    list.extend((0..4 * length).map(|_| random.next()));
}

fn begin(random: &mut Random, list: &mut Vec<u32>) {
    list.extend([
        [0x0800_0000, 0x0C00_0000, 0x1010_0000, 0x1400_0000][random.below(4) as usize] | random.below(256),
        0x20,
        0x40,
        0,
    ]);
}

/// An item of work.
fn work(random: &mut Random, list: &mut Vec<u32>, longest: u32) {
    match random.below(12) {
        0 => list.push(random.below(0x300)),
        1 => list.push(0x0100_0004),
        2 => list.push(0x0500_0000 + random.below(8)),
        3 => list.push(0x2000_0000 + (random.below(3) << 25) + random.below(16)),
        4 => {
            list.push(0x2100_0000 + (random.below(3) << 25) + random.below(0x1000));
            begin(random, list);
        }
        5 | 6 => list.extend([0x4800_0000, 0, 0, 0]),
        7 => begin(random, list),
        _ => load(random, list, longest),
    }
}

/// The order in which a scene sets its settings before an item of work.
#[derive(Clone, Copy, PartialEq, Eq)]
enum Order {
    /// All of them, in rising id.
    All,
    /// About half of them, in rising id.
    Some,
    /// A few, in any order.
    Any,
}

/// A list of at most `words` words, and near to that many where there is room: settings, then work, again and again.
fn list(random: &mut Random, words: usize, order: Order, most: u32, longest: u32) -> Vec<u32> {
    let mut list = Vec::new();
    loop {
        let before = list.len();
        if order == Order::Any {
            for _ in 0..random.below(most + 1) {
                let which = random.below(9);
                setting(random, &mut list, which);
            }
        } else {
            for which in 0..9 {
                if order == Order::All || random.below(2) == 0 {
                    setting(random, &mut list, which);
                }
            }
        }
        work(random, &mut list, longest);
        if list.len() > words {
            list.truncate(before);
            return list;
        }
    }
}

fn scenes(seed: u64, order: Order, longest: u32) -> Vec<Vec<u32>> {
    let mut random = Random::new(seed);
    (0..24)
        .map(|i| {
            let words = if i == 0 { 4096 } else { 300 + random.below(3797) as usize };
            list(&mut random, words, order, 8, longest)
        })
        .collect()
}

/// Scenes of 300 to 4,096 words whose settings stand in one order before each item of work.
pub fn regular_scenes() -> Vec<Vec<u32>> {
    scenes(1, Order::All, 8)
}

/// The same with some of the settings only.
pub fn partial_scenes() -> Vec<Vec<u32>> {
    scenes(2, Order::Some, 8)
}

/// The same with few settings, in any order.
pub fn mixed_scenes() -> Vec<Vec<u32>> {
    scenes(3, Order::Any, 8)
}

/// The same, with loads of up to 256 words.
pub fn loaded_scenes() -> Vec<Vec<u32>> {
    scenes(5, Order::Any, 63)
}

/// Lists under 20 words.
pub fn short_lists() -> Vec<Vec<u32>> {
    let mut random = Random::new(4);
    (0..512)
        .map(|_| {
            let words = 4 + random.below(16) as usize;
            list(&mut random, words, Order::Any, 3, 1)
        })
        .collect()
}
