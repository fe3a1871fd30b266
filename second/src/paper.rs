//! The cases of document 01, as Tickets 2 and 3 changed them, and the guide's own words.

use crate::rules::NO_BIT;

pub enum Expected {
    /// Accepted by the reader, with this many commands.
    Accepted {
        commands: u32,
    },
    /// Accepted by the reader, which leaves this image word.
    Image {
        word: usize,
        value: u32,
    },
    Refused {
        verdict: u32,
        position: u32,
        bit: u32,
    },
    Form(&'static [u32]),
}

pub struct PaperCase {
    pub name: &'static str,
    pub list: &'static [u32],
    /// The starting image has this value in word 02, and zeros elsewhere.
    pub timer: u32,
    pub expected: Expected,
}

const fn accepted(name: &'static str, list: &'static [u32], commands: u32) -> PaperCase {
    PaperCase { name, list, timer: 0, expected: Expected::Accepted { commands } }
}

const fn refused(
    name: &'static str,
    list: &'static [u32],
    verdict: u32,
    position: u32,
) -> PaperCase {
    let expected = Expected::Refused { verdict, position, bit: NO_BIT };
    PaperCase { name, list, timer: 0, expected }
}

const fn undefined(name: &'static str, list: &'static [u32], position: u32, bit: u32) -> PaperCase {
    PaperCase { name, list, timer: 0, expected: Expected::Refused { verdict: 6, position, bit } }
}

const fn form(
    name: &'static str,
    list: &'static [u32],
    timer: u32,
    form: &'static [u32],
) -> PaperCase {
    PaperCase { name, list, timer, expected: Expected::Form(form) }
}

const N1_LIST: &[u32] = &[0x02000010, 0x02000020, 0x00000001, 0x02000020];

pub const CASES: [PaperCase; 28] = [
    accepted("P1", &[], 0),
    PaperCase {
        name: "P2",
        list: &[0x02000010],
        timer: 0,
        expected: Expected::Image { word: 0x02, value: 0x10 },
    },
    refused("P3", &[0x03000000], 4, 0),
    refused("P4", &[0x06000000], 3, 0),
    refused("P5", &[0x84000000, 0, 0], 5, 0),
    undefined("P6", &[0x01000002], 0, 1),
    refused("P7", &[0x84000000, 0x30000000, 0, 0], 7, 1),
    refused("P8", &[0x84000000, 0x10000000, 0xC0000000, 0], 15, 0),
    // Ticket 3: "P9 becomes accepted, and third word 30004000 takes its place as refused."
    accepted("P9", &[0x84000000, 0, 0x40004000, 0], 1),
    refused("in P9's place", &[0x84000000, 0, 0x30004000, 0], 16, 0),
    refused("P10", &[0x88004000, 0, 0, 0], 17, 0),
    refused("P11", &[0x40500001, 0, 0, 0, 0, 0, 0], 9, 0),
    refused("P12", &[0x21000000, 0x21000000], 10, 1),
    form("N1", N1_LIST, 0, &[0x02000020, 0x00000001]),
    form("N2", &[0x02000010, 0x02000000], 0, &[]),
    form("N3", &[0x31800001, 0x02000005], 0, &[0x02000005, 0x31800001]),
    form("N4", N1_LIST, 0x20, &[0x00000001]),
    accepted("run only 1", &[0x01000004], 1),
    accepted("run only 2", &[0x84000000, 0x20000000, 0, 0], 1),
    accepted("run only 3", &[0x84000000, 0x10000000, 0xB0000000, 0], 1),
    accepted("run only 4", &[0x84000000, 0, 0x50004000, 0], 1),
    accepted("run only 5", &[0x88404000, 0, 0, 0], 1),
    accepted("run only 6", &[0x40500001, 0, 0, 0, 0, 0, 0, 0], 1),
    accepted("run only 7", &[0x40501C01, 0, 0, 0, 0, 0, 0, 0], 1),
    accepted("run only 8", &[0x21000000], 1),
    refused("run only 9", &[0x40501C02, 0, 0, 0], 19, 0),
    accepted("guide fetch", GUIDE_FETCH, 1),
    accepted("guide put", GUIDE_PUT, 1),
];

/// The guide's example of a fetch load, 5.1.
pub const GUIDE_FETCH: &[u32] = &[0x40100000, 0x00000000, 0x00001597, 0x000F6800];

/// The guide's example of a put load, 5.2, with one payload group.
pub const GUIDE_PUT: &[u32] = &[
    0x40200001, 0x01000006, 0x03020006, 0x05040006, 0x07060006, 0x0008009A, 0x0C000904, 0x19180007,
];

/// Lists with the pairs of their writes. The guide's own, in its master engine notes: a reset, the
/// null primitive; then its put load, at the addresses that it gives for loads.
pub const GUIDE_WRITES: [(&[u32], &[u32]); 3] = [
    (&[0x01000004], &[0x2804, 0x01000004]),
    (&[0x48000000, 0, 0, 0], &[0x2920, 0x48000000, 0x2924, 0, 0x2928, 0, 0x292C, 0]),
    (
        GUIDE_PUT,
        &[
            0x2900, 0x40200001, 0x2904, 0x01000006, 0x2908, 0x03020006, 0x290C, 0x05040006, //
            0x2900, 0x07060006, 0x2904, 0x0008009A, 0x2908, 0x0C000904, 0x290C, 0x19180007,
        ],
    ),
];

pub const LISTING_WORDS: [u32; 11] = [
    0x02000010, 0x00000300, 0x48000000, 0x00000000, 0x00000000, 0x00000000, 0x21000100, 0x10100007,
    0x00000000, 0x00000000, 0x00000000,
];

pub const LISTING_TEXT: &str = "\
at id words head
1 00 1 000300
2 48 4 000000
6 21 1 000100
7 10 4 100007
accepted commands 5 items 4
";
