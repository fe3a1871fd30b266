//! A scene for the tool: the approach to a coast as a scene builder writes it, with every setting said
//! again before each item, and the board's registers before it.

use crate::listings::bytes;
use crate::rules::IMAGE_WORDS;
use std::fs;
use std::io;
use std::path::Path;

/// Writes approach.list, broken.list and board.image.
pub fn write(folder: &Path) -> io::Result<()> {
    fs::create_dir_all(folder)?;
    fs::write(folder.join("approach.list"), bytes(&approach()))?;
    fs::write(folder.join("broken.list"), bytes(&broken()))?;
    fs::write(folder.join("board.image"), bytes(&board()))
}

/// The whole screen of 1,024 by 768; the chart in its corner.
const SCREEN: [u32; 4] = [0x84BF8000, 0x03FF0000, 0xF2FF4000, 0];
const CHART: [u32; 4] = [0x84BF8000, 0x03FF0300, 0xF0FF4000, 0];
/// Three or four textures: bank 1, with a page maximum of 11.
const TEXTURED: [u32; 4] = [0x84BF8000, 0x13FF0000, 0xB2FF4000, 0];

const PAGED: [u32; 4] = [0x88404001, 0x00000840, 0x00020000, 0x00000001];
const BLENDED: [u32; 4] = [0x88404001, 0x00000840, 0x00030000, 0x00000001];
const LINES: [u32; 4] = [0x88000001, 0x00000042, 0x00020000, 0x00000001];

const FLAT: [u32; 4] = [0x8C000000, 0x3F800000, 0x3F800000, 0];
/// What lies on the water is drawn a little nearer.
const AFLOAT: [u32; 4] = [0x8CBF8000, 0xB8D1B717, 0x3F800000, 0];

const DEPTH: [u32; 4] = [0x900000FF, 0x00F80000, 0, 0x02FF03FF];
const SHARP: [u32; 4] = [0xC4000000, 0, 0, 0];
const HAZY: [u32; 4] = [0xC4000000, 0x0000FFFF, 0, 0];

const TIMER: u32 = 0x0287FFFF;
const OVERFLOW: [u32; 2] = [0x30012000, 0x31800400];
const EXTENDED_BASE: u32 = 0x26008000;

const RESET_2D: u32 = 0x01000004;
/// Setup and rasterizer; all of 3D; the 2D engine; the flip engine.
const FLUSH_SETUP: u32 = 0x00000300;
const FLUSH_3D: u32 = 0x000FFFFF;
const FLUSH_2D: u32 = 0x00100000;
const FLUSH_FLIP: u32 = 0x00200000;

/// The end mark of a batch.
const BATCH_END: [u32; 4] = [0x48000000, 0, 0, 0];

struct Item {
    clip: [u32; 4],
    raster: [u32; 4],
    offset: [u32; 4],
    lod_bias: [u32; 4],
    load: Vec<u32>,
}

/// The sky, the sea, the coast from far to near, the harbour, its light, the buoys and the ships.
fn items() -> Vec<Item> {
    let item = |clip, raster, offset, lod_bias, load| Item { clip, raster, offset, lod_bias, load };
    vec![
        item(SCREEN, PAGED, FLAT, SHARP, put(0, 2)),
        item(TEXTURED, PAGED, FLAT, SHARP, fetch(0, 2)),
        item(TEXTURED, PAGED, FLAT, HAZY, put(11, 2)),
        item(TEXTURED, PAGED, FLAT, HAZY, fetch(5, 2)),
        item(TEXTURED, PAGED, FLAT, SHARP, user_planes()),
        item(TEXTURED, BLENDED, FLAT, SHARP, put(22, 1)),
        item(TEXTURED, BLENDED, AFLOAT, SHARP, fetch(10, 1)),
        item(TEXTURED, PAGED, AFLOAT, SHARP, put(29, 2)),
    ]
}

/// A load of put instructions: three in the group, four in each payload group.
fn put(offset: u32, groups: u32) -> Vec<u32> {
    let instruction = |k: u32| 0x01000006 + 0x02020000 * (k % 8) + k;
    let mut words = vec![0x40200000 | offset << 10 | groups];
    words.extend((0..3 + 4 * groups).map(|k| instruction(offset + k)));
    words
}

/// A load of fetch instructions of two words each.
fn fetch(offset: u32, groups: u32) -> Vec<u32> {
    let instruction = |k: u32| [0x00001597 + 0x100 * k, 0x000F6800 + 0x20 * k];
    let mut words = vec![0x40100000 | offset << 10 | groups, 0];
    words.extend((0..1 + 2 * groups).flat_map(|k| instruction(offset + k)));
    words
}

/// The water's surface as a user clip plane, and the harbour's mouth, in IEEE floats.
fn user_planes() -> Vec<u32> {
    let (one, minus_half) = (0x3F800000, 0xBF000000);
    vec![0x40D00002, 0, 0, 0, 0, one, 0, minus_half, one, 0, 0, minus_half]
}

pub fn approach() -> Vec<u32> {
    let mut list = vec![TIMER, EXTENDED_BASE, OVERFLOW[0], OVERFLOW[1], RESET_2D];
    list.extend([0x10100007, 0, 0, 0]);
    for item in items() {
        let Item { clip, raster, offset, lod_bias, load } = item;
        for setting in [clip, raster, offset, DEPTH, lod_bias] {
            list.extend(setting);
        }
        list.extend(load);
        list.extend(BATCH_END);
        list.push(FLUSH_SETUP);
    }
    list.push(FLUSH_3D);
    // The chart, drawn by the 2D engine from a list of its own.
    list.extend([CHART, LINES, FLAT, DEPTH, SHARP].concat());
    list.extend([TIMER, OVERFLOW[0], OVERFLOW[1]]);
    list.extend([0x0C100008, 0x00000060, 0x00012800, 0]);
    list.extend([FLUSH_2D, FLUSH_FLIP]);
    // The flip to the surface that was drawn.
    list.extend([SCREEN, PAGED].concat());
    list.extend([TIMER, EXTENDED_BASE]);
    list.extend([0x2200000A, 0x230C0000, 0x14100009, 0, 0, 0]);
    list
}

/// The approach with an undefined bit in the third word of its fifth raster mode.
pub fn broken() -> Vec<u32> {
    let mut list = approach();
    let raster_modes: Vec<usize> =
        (0..list.len() - 1).filter(|&k| list[k] == PAGED[0] && list[k + 1] == PAGED[1]).collect();
    list[raster_modes[4] + 2] |= 1 << 22;
    list
}

/// The registers as the last scene left them: its screen, raster mode, depth constants and timer are
/// this one's too.
pub fn board() -> Vec<u32> {
    let mut image = vec![0; IMAGE_WORDS];
    let mut put = |id: usize, words: &[u32]| image[id..id + words.len()].copy_from_slice(words);
    let header = |word: u32| word & 0x00FFFFFF;
    put(0x02, &[header(TIMER)]);
    put(0x05, &[0x000001]);
    put(0x08, &[0x100006]);
    put(0x20, &[0x00000A, 0x000000, 0x00000A, 0x000000, 0x000000, 0x000000, 0x000000]);
    put(0x30, &[header(OVERFLOW[0]), 0x800000]);
    for words in [SCREEN, PAGED, DEPTH, SHARP] {
        put((words[0] >> 24) as usize, &[&[header(words[0])], &words[1..]].concat());
    }
    put(0x8C, &[0, 0, 0x3F800000, 0]);
    image
}

#[cfg(test)]
mod tests {
    use super::*;
    use crate::rules;

    #[test]
    fn approach_is_accepted_and_its_form_clearly_shorter() {
        let list = approach();
        assert!((300..=400).contains(&list.len()), "{} words", list.len());
        let answer = rules::paper().measure(&list, &board());
        assert_eq!(answer.verdict, 0, "refused at {}", answer.position);
        let form = answer.words as usize;
        assert!(form * 3 <= list.len() * 2 && form * 2 >= list.len(), "{form} of {}", list.len());
    }

    #[test]
    fn broken_has_one_undefined_bit_in_its_middle() {
        let answer = rules::paper().measure(&broken(), &board());
        assert_eq!((answer.verdict, answer.bit), (6, 22));
        let middle = broken().len() / 2;
        assert!((answer.position as usize).abs_diff(middle) < 60, "at {}", answer.position);
        let differing = approach().iter().zip(broken()).filter(|(a, b)| **a != *b).count();
        assert_eq!(differing, 1);
    }
}
