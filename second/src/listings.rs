//! Inputs of the listing program and what it prints for them.

use crate::paper;
use crate::rules::{self, MAX_LIST_WORDS};
use std::fs;
use std::io;
use std::path::Path;

/// Writes NAME.in and NAME.out for each input.
pub fn write(folder: &Path) -> io::Result<()> {
    fs::create_dir_all(folder)?;
    for (name, input) in inputs() {
        fs::write(folder.join(format!("{name}.in")), &input)?;
        fs::write(folder.join(format!("{name}.out")), rules::paper().listing(&input))?;
    }
    Ok(())
}

/// Writes stdin and stdout of the test program `listings`.
pub fn write_crate(folder: &Path) -> io::Result<()> {
    let (stdin, stdout) = crate_files();
    fs::write(folder.join("stdin"), stdin)?;
    fs::write(folder.join("stdout"), stdout)
}

/// Each input after its length in two bytes, low first; and the texts.
pub fn crate_files() -> (Vec<u8>, String) {
    let (mut stdin, mut stdout) = (Vec::new(), String::new());
    for (_, input) in stored_inputs() {
        stdin.extend((input.len() as u16).to_le_bytes());
        stdin.extend(&input);
        stdout += &rules::paper().listing(&input);
    }
    (stdin, stdout)
}

/// Two that are long and like others are left out.
pub fn stored_inputs() -> Vec<(&'static str, Vec<u8>)> {
    let mut inputs = inputs();
    inputs.retain(|(name, _)| !["refused-1-much-more", "one-word-less"].contains(name));
    inputs
}

/// 2, 11, 13 and 14 are never printed: the program has its own image, enough room and no pairs.
fn inputs() -> Vec<(&'static str, Vec<u8>)> {
    let most = 4 * MAX_LIST_WORDS;
    let flushes = |count: usize| bytes(&(0..count as u32).collect::<Vec<u32>>());
    vec![
        ("example", bytes(&paper::LISTING_WORDS)),
        ("empty", vec![]),
        ("guide", bytes(&[paper::GUIDE_FETCH, paper::GUIDE_PUT].concat())),
        ("settings", bytes(&[0x02ABCDEF, 0x26000001, 0x30000002, 0x31000003])),
        ("equal-thresholds", bytes(&[0x84000000, 0, 0x40004000, 0, 0x00000001])),
        ("high-digits", bytes(&[0x00ABCDEF, 0x0CFEDCBA, 0x803FFFFF, 0x0FFFFFFF, 0])),
        ("long-load", bytes(&[&[0x401001FF, 0, 1, 2][..], &[0x06000000; 4 * 511]].concat())),
        ("refused-1-next-word", flushes(MAX_LIST_WORDS + 1)),
        ("refused-1-next-byte", with_more(flushes(MAX_LIST_WORDS), 1)),
        ("refused-1-much-more", vec![0xFF; 3 * most + 2]),
        ("refused-3", bytes(&[0x02000001, 0x06000000])),
        ("refused-4", bytes(&[0x00000001, 0x00000001, 0x03000000])),
        ("refused-5", bytes(&[0x84000000, 0, 0])),
        ("refused-6", bytes(&[0x10000000, 0, 0x10000000, 0])),
        ("refused-7", bytes(&[0x05000000, 0x84000000, 0x30000000, 0, 0])),
        ("refused-9", bytes(&[0x00000001, 0x40500001, 0, 0, 0, 0, 0, 0])),
        ("refused-10", bytes(&[0x21000000, 0x21000000])),
        ("refused-15", bytes(&[0x02000001, 0x84000000, 0x10000000, 0xC000D000, 0])),
        ("refused-16", bytes(&[0x00000001, 0x84000000, 0, 0x30004000, 0])),
        ("refused-17", bytes(&[0x02000001, 0x88004000, 0, 0, 0])),
        ("refused-18", bytes(&[0x00000001, 0x00000001, 0x40800000, 0, 0, 0])),
        ("refused-19", bytes(&[0x40501C02, 0, 0, 0])),
        ("refused-12-one-byte", vec![0x06]),
        ("refused-12-two-bytes", with_more(bytes(&[0x06000000]), 2)),
        ("refused-12-three-bytes", with_more(bytes(&paper::LISTING_WORDS), 3)),
        ("refused-12-almost-most", vec![0; most - 1]),
        ("most-records", flushes(MAX_LIST_WORDS)),
        ("most-settings", bytes(&[0x02000001; MAX_LIST_WORDS])),
        ("one-word-less", flushes(MAX_LIST_WORDS - 1)),
        ("last-word-unknown", with_last(flushes(MAX_LIST_WORDS), 0xFF)),
    ]
}

pub fn bytes(words: &[u32]) -> Vec<u8> {
    words.iter().flat_map(|word| word.to_le_bytes()).collect()
}

fn with_more(mut input: Vec<u8>, count: usize) -> Vec<u8> {
    input.resize(input.len() + count, 0);
    input
}

fn with_last(mut input: Vec<u8>, last: u8) -> Vec<u8> {
    *input.last_mut().expect("an input with bytes") = last;
    input
}

#[cfg(test)]
mod tests {
    use super::*;

    #[test]
    fn refusals_are_named_for_their_numbers() {
        for (name, input) in inputs() {
            let text = rules::paper().listing(&input);
            match name.strip_prefix("refused-") {
                Some(rest) => {
                    let number = rest.split('-').next().expect("a number");
                    assert!(text.starts_with(&format!("refused {number} at ")), "{name}: {text}");
                    assert_eq!(text.lines().count(), 1);
                }
                None if name == "last-word-unknown" => assert_eq!(text, "refused 3 at 4095\n"),
                None => assert!(text.starts_with("at id words head\n"), "{name}: {text}"),
            }
        }
    }
}
