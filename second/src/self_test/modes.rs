//! Lists in a mode: the guide's swaps and answers written out by hand; on fixed and random lists the same
//! words in every mode, demand 3, and 21 before all else.

use super::{doings, normal_form, records, without_positions};
use crate::agreement;
use crate::lists::{self, Case, CaseKind, Purpose};
use crate::outcome::{self, prefilled, Function};
use crate::prng::Prng;
use crate::rules::{self, Answer, IMAGE_WORDS, MAX_LIST_WORDS, NO_BIT, RECORD_WORDS};

const RANDOM_LISTS: u64 = 20_000;
const OVER_3: [u32; 9] = [4, 5, 7, 255, 0x100, 0x10000, 0x7FFFFFFF, 0x80000003, 0xFFFFFFFF];

/// Each panics when the words or the answers aren't those of the guide and of Ticket 7.
pub fn by_hand() {
    guides_table();
    swapping_twice();
    words_read();
    what_is_held();
    modes_over_3();
}

fn got(mode: u32, word: u32) -> u32 {
    let got = rules::paper().words_got(mode, &[word]);
    assert_eq!(got, [agreement::swapped(mode, word)]);
    got[0]
}

/// The lowest bits of two bytes that change places: "bit[7:0] <--> bit[15:08]" and so on.
const EXCHANGED: [&[[u32; 2]]; 4] =
    [&[], &[[0, 8], [24, 16]], &[[0, 16], [8, 24]], &[[0, 24], [8, 16]]];

fn guides_table() {
    assert_eq!(got(0, 0x11223344), 0x11223344);
    assert_eq!(got(1, 0x11223344), 0x22114433);
    assert_eq!(got(2, 0x11223344), 0x33441122);
    assert_eq!(got(3, 0x11223344), 0x44332211);
    for (mode, exchanged) in (0..).zip(EXCHANGED) {
        for bit in 0..32 {
            let mut to = bit;
            for [a, b] in exchanged.iter().flat_map(|[a, b]| [[*a, *b], [*b, *a]]) {
                if (a..a + 8).contains(&bit) {
                    to = bit - a + b;
                }
            }
            assert_eq!(got(mode, 1 << bit), 1 << to, "bit {bit} in mode {mode}");
        }
    }
}

fn swapping_twice() {
    let rng = &mut Prng::new(21, 0);
    let random = (0..RANDOM_LISTS).map(|_| rng.word());
    for word in random.chain((0..32).map(|bit| 1 << bit)).chain([0, !0, 0x02020202]) {
        for mode in 0..4 {
            assert_eq!(got(mode, got(mode, word)), word, "{word:08X} in mode {mode}");
        }
        // The third mode is the first two, in either order.
        assert_eq!([got(1, got(2, word)), got(2, got(1, word))], [got(3, word); 2]);
    }
}

/// The reader's numbers from a zero image, with room for the records.
fn read(mode: u32, list: &[u32]) -> [u32; 6] {
    let mut room = vec![0; RECORD_WORDS * list.len()];
    rules::paper().read_in(mode, list, &mut [0; IMAGE_WORDS], &mut room).numbers()
}

/// One list in each mode: other commands, other refusals, the same positions.
fn words_read() {
    // A timer; a trigger; a flush; a 2D overflow base.
    for (mode, records) in [(0, 0), (1, 1), (2, 1), (3, 0)] {
        assert_eq!(read(mode, &[0x02050030]), [0, 1, 1, records, 4 * records, 32]);
    }
    // A reset with bit 1; two flushes; a timer.
    assert_eq!(read(0, &[0x01000002]), [6, 0, 0, 0, 0, 1]);
    assert_eq!(read(1, &[0x01000002]), [0, 1, 1, 1, 4, 32]);
    assert_eq!(read(2, &[0x01000002]), [0, 1, 1, 1, 4, 32]);
    assert_eq!(read(3, &[0x01000002]), [0, 1, 1, 0, 0, 32]);
    // The bit is that of the word got, 00180000 hex below the id, at the same position.
    let undefined = [0x00000001, 0x88180000, 0, 0, 0];
    for mode in 0..4 {
        let list = undefined.map(|word| agreement::swapped(mode, word));
        assert_eq!(read(mode, &list), [6, 1, 0, 0, 0, 19]);
    }
    // A load in mode 3, with a payload of which the first word would be an unknown id.
    let load = [0x01001040, 0, 0, 0, 0x00000006, 0, 0, 0x02000000];
    assert_eq!(read(3, &load), [0, 8, 1, 1, 4, 32]);
    assert_eq!(read(3, &load[..7]), [9, 0, 0, 0, 0, 32]);
    assert_eq!(read(3, &[]), [0, 0, 0, 0, 0, 32]);
    for mode in 0..4 {
        assert_eq!(read(mode, &[0x02020202; 4096]), [0, 4096, 4096, 0, 0, 32]);
        assert_eq!(read(mode, &[0x02020202; 4097]), [1, 4096, 0, 0, 0, 32]);
    }
}

/// Records, image and form hold the words got.
fn what_is_held() {
    let list = [0x56341202, 0x03020100, 0x1000408C, 0x44332211, 0x88776655, 0xCCBBAA99];
    let (mut image, mut records) = ([0; IMAGE_WORDS], prefilled(6));
    let answer = rules::paper().read_in(3, &list, &mut image, &mut records);
    assert_eq!(answer.numbers(), [0, 6, 3, 1, 4, 32]);
    assert_eq!(records, [0x00, 1, 1, 0x010203, 0xA5000004, 0xA5000005]);
    assert_eq!(image[0x02], 0x123456);
    assert_eq!(image[0x8C..0x90], [0x400010, 0x11223344, 0x55667788, 0x99AABBCC]);
    let mut form = prefilled(7);
    let answer = rules::paper().normalise_in(3, &list, &[0; IMAGE_WORDS], &mut form);
    assert_eq!(answer.numbers(), [0, 6, 3, 1, 6, 32]);
    let got = [0x02123456, 0x00010203, 0x8C400010, 0x11223344, 0x55667788, 0x99AABBCC];
    assert_eq!(form, [&got[..], &[0xA5000006]].concat());
}

/// 21 at 0 before 1, 2, the list's own refusals and 11, with nothing changed.
fn modes_over_3() {
    let too_long = vec![0x06000000; MAX_LIST_WORDS + 1];
    for mode in OVER_3 {
        for list in [&[][..], &[0x02000010], &[0x06000000], &[0x01000002], &too_long] {
            for (image_words, room) in [(256, 8), (256, 0), (255, 8), (0, 0)] {
                let before = vec![7; image_words];
                let (mut image, mut buffer) = (before.clone(), prefilled(room));
                let read = rules::paper().read_in(mode, list, &mut image, &mut buffer);
                let normalised = rules::paper().normalise_in(mode, list, &image, &mut buffer);
                assert_eq!(read.numbers(), [21, 0, 0, 0, 0, NO_BIT]);
                assert_eq!(normalised, read);
                assert_eq!((image, buffer), (before, prefilled(room)));
            }
        }
    }
}

/// The fixed lists in a mode, and random ones.
fn all_cases(seed: u64) -> impl Iterator<Item = Case> {
    let random = (0..RANDOM_LISTS)
        .map(move |number| lists::random_in_mode(&mut Prng::new(seed, number), Purpose::Run));
    lists::fixed_in_modes().into_iter().chain(random)
}

/// A list in a mode is the words got from it, in whatever mode; of each mode many are accepted.
pub fn same_words() {
    let run = |function, case: &Case| outcome::of(function, rules::paper(), case);
    let mut accepted = [0; 4];
    let mut refused = 0;
    for (index, case) in all_cases(22).enumerate() {
        assert_eq!(agreement::disagreement(&case, run), None, "list in a mode {index}");
        match run(Function::Reader, &case).answer[0] {
            0 => accepted[case.mode() as usize] += 1,
            verdict => refused += (verdict == 21) as usize,
        }
    }
    assert!(accepted.iter().all(|count| *count > 500), "{accepted:?} accepted");
    assert!(refused > 1000, "{refused} refused with 21");
}

/// A form of a list in a mode, read back in mode 0, does what the list does.
pub fn demand_3() {
    let mut lists = 0;
    for case in all_cases(23).filter(|case| case.list.len() <= 1000) {
        let (mode, list, image) = (case.mode(), &case.list, case.image.words());
        let mut list_image = image.clone();
        let mut list_records = vec![0; RECORD_WORDS * list.len()];
        let paper = rules::paper();
        let of_list = paper.read_in(mode, list, &mut list_image, &mut list_records);
        let mut form = vec![0; list.len()];
        let normalised = paper.normalise_in(mode, list, &image, &mut form);
        let Answer { commands, records: work, .. } = of_list;
        assert_eq!((normalised.verdict, normalised.position), (of_list.verdict, of_list.position));
        assert_eq!((normalised.commands, normalised.records), (commands, work));
        if of_list.verdict != 0 {
            continue;
        }
        lists += 1;
        list_records.truncate(of_list.words as usize);
        form.truncate(normalised.words as usize);

        let mut form_image = image.clone();
        let (of_form, form_records) = records(&form, &mut form_image);
        assert_eq!((of_form.verdict, of_form.position as usize), (0, form.len()));
        assert_eq!(form_image, list_image);
        assert_eq!(without_positions(&form_records), without_positions(&list_records));
        let got: Vec<u32> = list.iter().map(|word| agreement::swapped(mode, *word)).collect();
        assert!(doings(&form, &image) == doings(&got, &image));
        assert_eq!(normal_form(&form, &image).1, form);
    }
    assert!(lists > RANDOM_LISTS / 4, "{lists} accepted lists");
}

/// Whatever the list, the image and the room are, in each mode over 3.
pub fn over_3_first() {
    for (k, case) in all_cases(24).enumerate() {
        let case = Case { arguments: vec![OVER_3[k % OVER_3.len()]], ..case };
        for function in CaseKind::InMode.functions() {
            let given = outcome::of(function, rules::paper(), &case);
            let expected = agreement::in_mode_over_3(function, &case);
            assert_eq!(outcome::difference(function, &given, &expected), None);
        }
    }
}
