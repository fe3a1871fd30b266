//! Changes of the modes.

use super::{one_changed, one_left_out, Variants, Vary};
use crate::rules::{Bytes, Modes};

/// Each mode changed or left out, each two exchanged.
impl Vary for Modes {
    fn variants(&self) -> Variants<Self> {
        let mut all = one_changed(&self.0);
        all.extend(one_left_out(&self.0));
        for second in 0..self.0.len() {
            for first in 0..second {
                let mut modes = self.0.clone();
                modes.swap(first, second);
                all.push((format!("{first} and {second} exchanged"), modes));
            }
        }
        all.into_iter().map(|(name, modes)| (name, Modes(modes))).collect()
    }
}

/// Each other order of the four bytes, and each byte once more in another one's place.
impl Vary for Bytes {
    fn variants(&self) -> Variants<Self> {
        let all = (0..256).map(|n: usize| [n & 3, n >> 2 & 3, n >> 4 & 3, n >> 6]);
        let missing = |bytes: &[usize; 4]| (0..4).filter(|byte| !bytes.contains(byte)).count();
        let near = |bytes: &[usize; 4]| {
            let other = (0..4).filter(|&k| bytes[k] != self.0[k]).count();
            other > 0 && (missing(bytes) == 0 || other == 1)
        };
        let name = |bytes: [usize; 4]| bytes.iter().rev().map(usize::to_string).collect::<String>();
        let changed = all.filter(near);
        changed
            .map(|bytes| (format!("bytes {}, not {}", name(bytes), name(self.0)), Bytes(bytes)))
            .collect()
    }
}
