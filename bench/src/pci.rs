//! PCI writes from a list and back in safe Rust, written for speed: what the proved library is timed against.

#![forbid(unsafe_code)]

use crate::rust::{
    check_load, check_raster_mode, check_window_clip, give, group_size, refuse, refused, split, Counts, Kind, Refusal,
    IMAGE, LIMIT, LOAD, NO_BIT, PRIMITIVE, RASTER_MODE, ROWS, WINDOW_CLIP,
};

/// The size in words of each id's command, without payload.
static SIZES: [u8; 256] = sizes();

const fn sizes() -> [u8; 256] {
    let mut sizes = [0; 256];
    let mut id = 0;
    while id < 256 {
        sizes[id] = ROWS[id].size;
        id += 1;
    }
    sizes
}

/// An address and the value written there.
type Pair = [u32; 2];

/// The address of a command's first word.
fn address(first: u32) -> u32 {
    0x2800 + (first >> 24) * 4
}

/// The size in words of a command, known or not.
fn size(first: u32) -> usize {
    let (id, header, row) = split(first);
    if row.size == 4 {
        group_size(id, header)
    } else {
        1
    }
}

/// The pairs of any list, to time and to spoil. Its last command may be cut.
pub fn pairs_of(list: &[u32]) -> Vec<u32> {
    let mut pairs = Vec::new();
    let mut rest = list;
    while let Some(&first) = rest.first() {
        let (words, after) = rest.split_at(size(first).min(rest.len()));
        pairs.extend((0..).zip(words).flat_map(|(i, &word)| [address(first) + 4 * (i % 4), word]));
        rest = after;
    }
    pairs
}

/// Checks a list (N = 1) or pairs (N = 2) in one pass. Gives the start of the first command that fails; its number is
/// found out afterwards.
#[inline(always)]
fn walk<const N: usize>(all: &[[u32; N]]) -> Result<Counts, usize> {
    let value = |item: &[u32; N]| item[N - 1];
    let astray = |item: &[u32; N], address: u32| if N == 2 { item[0] ^ address } else { 0 };
    let mut counts = Counts { commands: 0, records: 0 };
    let mut rest = all;
    let mut flip = false;
    while let Some((item, tail)) = rest.split_first() {
        let first = value(item);
        let (id, header, row) = split(first);
        let a = address(first);
        let wrong = astray(item, a) | (header & !row.masks[0]);
        if wrong != 0 || row.kind == Kind::Unknown || (flip && row.kind != Kind::Begin) {
            break;
        }
        counts.commands += 1;
        if row.size == 1 {
            rest = tail;
            flip = matches!(id, 0x21 | 0x23 | 0x25);
            counts.records += !matches!(row.kind, Kind::Setting(_)) as u32;
            continue;
        }
        let Some((group, tail)) = tail.split_first_chunk::<3>() else {
            break;
        };
        let [second, third, fourth] = [value(&group[0]), value(&group[1]), value(&group[2])];
        let wrong = astray(&group[0], a + 4) | astray(&group[1], a + 8) | astray(&group[2], a + 12);
        let outside = (second & !row.masks[1]) | (third & !row.masks[2]) | (fourth & !row.masks[3]);
        if wrong | outside != 0 {
            break;
        }
        let words = [header, second, third, fourth];
        let mut after = tail;
        match id {
            LOAD => {
                let Some((payload, tail)) = tail.split_at_checked(group_size(id, header) - 4) else {
                    break;
                };
                let wrong = payload.iter().zip(0..).fold(0, |wrong, (item, i)| wrong | astray(item, a + 4 * (i % 4)));
                if wrong != 0 || check_load(words, 0).is_err() {
                    break;
                }
                after = tail;
                counts.records += 1;
            }
            PRIMITIVE if words != [0; 4] => break,
            PRIMITIVE => counts.records += 1,
            WINDOW_CLIP if check_window_clip(words, 0).is_err() => break,
            RASTER_MODE if check_raster_mode(words, 0).is_err() => break,
            _ => counts.records += (row.kind == Kind::Begin) as u32,
        }
        rest = after;
        flip = false;
    }
    if rest.is_empty() {
        Ok(counts)
    } else {
        Err(all.len() - rest.len())
    }
}

/// Writes the pairs of an accepted list, in a buffer of as many pairs.
#[inline(always)]
fn write_pairs(mut list: &[u32], mut pairs: &mut [Pair]) {
    while let Some(&first) = list.first() {
        let id = (first >> 24) as u8;
        let a = address(first);
        let mut size = 1;
        if SIZES[id as usize] == 4 {
            let (Some(words), Some(group)) = (list.first_chunk::<4>(), pairs.first_chunk_mut::<4>()) else {
                return;
            };
            *group = [[a, first], [a + 4, words[1]], [a + 8, words[2]], [a + 12, words[3]]];
            size = 4;
            if id == LOAD {
                size = group_size(id, first);
                for (i, (pair, &word)) in pairs[4..size].iter_mut().zip(&list[4..size]).enumerate() {
                    *pair = [a + 4 * (i as u32 % 4), word];
                }
            }
        } else {
            pairs[0] = [a, first];
        }
        list = &list[size..];
        pairs = &mut pairs[size..];
    }
}

#[inline(never)]
pub fn to_pci(list: &[u32], image: &[u32], pairs: &mut [u32], answer: &mut [u32]) -> u32 {
    if list.len() > LIMIT {
        return refuse(answer, Refusal::new(1, LIMIT));
    }
    if image.len() != IMAGE {
        return refuse(answer, Refusal::new(2, 0));
    }
    let counts = match walk(list.as_chunks::<1>().0).map_err(|at| refused::<0>(&list[at..], at)) {
        Ok(counts) => counts,
        Err(refusal) => return refuse(answer, refusal),
    };
    let Some(pairs) = pairs.as_chunks_mut().0.get_mut(..list.len()) else {
        return refuse(answer, Refusal::new(11, list.len()));
    };
    write_pairs(list, pairs);
    let words = list.len() as u32;
    give(answer, [0, words, counts.commands, counts.records, 2 * words, NO_BIT])
}

/// The first pair from a command's start on that is out of place, or the start of the command that is cut.
fn misplaced(mut pairs: &[Pair], mut at: usize) -> Option<Refusal> {
    while let Some(&[_, first]) = pairs.first() {
        let size = size(first);
        let (there, rest) = pairs.split_at(size.min(pairs.len()));
        if let Some(i) = (0..there.len()).find(|&i| there[i][0] != address(first) + 4 * (i as u32 % 4)) {
            return Some(Refusal::new(13, at + i));
        }
        if there.len() < size {
            return Some(Refusal::new(14, at));
        }
        pairs = rest;
        at += size;
    }
    None
}

/// The refusal of pairs whose first command that fails starts here. Any wrong address comes before any wrong word.
#[cold]
fn refused_pairs(pairs: &[Pair], at: usize) -> Refusal {
    let pairs = &pairs[at..];
    misplaced(pairs, at).unwrap_or_else(|| {
        let list: Vec<u32> = pairs.iter().map(|pair| pair[1]).collect();
        refused::<0>(&list, at)
    })
}

#[inline(never)]
pub fn from_pci(pairs: &[u32], image: &[u32], list: &mut [u32], answer: &mut [u32]) -> u32 {
    let pairs = pairs.as_chunks::<2>().0;
    if pairs.len() > LIMIT {
        return refuse(answer, Refusal::new(1, LIMIT));
    }
    if image.len() != IMAGE {
        return refuse(answer, Refusal::new(2, 0));
    }
    let counts = match walk(pairs).map_err(|at| refused_pairs(pairs, at)) {
        Ok(counts) => counts,
        Err(refusal) => return refuse(answer, refusal),
    };
    let Some(list) = list.get_mut(..pairs.len()) else {
        return refuse(answer, Refusal::new(11, pairs.len()));
    };
    for (word, [_, value]) in list.iter_mut().zip(pairs) {
        *word = *value;
    }
    let words = pairs.len() as u32;
    give(answer, [0, words, counts.commands, counts.records, words, NO_BIT])
}
