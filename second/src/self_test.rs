//! Checks of the rules: the paper's cases, and on random lists demand 3, the bit told, the form's length
//! told, sessions and lists in a mode; and scene books.

mod books;
mod modes;
mod scenes;

use crate::agreement;
use crate::listings::bytes;
use crate::lists::{self, Case, CaseKind, OneOrTwoBits, Purpose};
use crate::outcome::{self, prefilled, Function};
use crate::paper::{self, Expected, PaperCase};
use crate::prng::Prng;
use crate::rules::{self, Answer, Refusal, Task, IMAGE_WORDS, NO_BIT, RECORD_WORDS};
use crate::runs;

/// Each panics when it fails.
pub const CHECKS: [(&str, fn()); 23] = [
    ("cases of document 01", paper_cases),
    ("the guide's writes", guide_writes),
    ("page thresholds", page_thresholds),
    ("listing", listings),
    ("lent words", lent_words),
    ("the bit told", told_bit),
    ("the lowest of one bit or two", lowest_bit),
    ("room", room),
    ("room told", room_told),
    ("demand 3", demand_3),
    ("equal doings, equal forms", equal_doings),
    ("pairs and back", pairs_and_back),
    ("several scenes in one call", scenes::by_hand),
    ("sessions and single calls", scenes::single_calls),
    ("lists in a mode", modes::by_hand),
    ("the same words in every mode", modes::same_words),
    ("demand 3 in a mode", modes::demand_3),
    ("21 before all else", modes::over_3_first),
    ("scene books", books::by_hand),
    ("books there and back", books::there_and_back),
    ("one set of scenes, one book", books::one_book),
    ("the tool's texts", tool_texts),
    ("the tool and the functions", tool_and_functions),
];

const RANDOM_LISTS: u64 = 20_000;

fn paper_cases() {
    for case in &paper::CASES {
        paper_case(case);
    }
}

fn paper_case(case: &PaperCase) {
    let mut image = vec![0; IMAGE_WORDS];
    image[0x02] = case.timer;
    let (form_answer, form) = normal_form(case.list, &image);
    assert_eq!(rules::paper().measure(case.list, &image), form_answer, "{}", case.name);
    let (answer, _) = records(case.list, &mut image);
    assert_eq!(form_answer.verdict, answer.verdict, "{}", case.name);
    assert_eq!(form_answer.position, answer.position, "{}", case.name);
    assert_eq!(form_answer.bit, answer.bit, "{}", case.name);
    match case.expected {
        Expected::Accepted { commands } => {
            assert_eq!((answer.verdict, answer.commands), (0, commands), "{}", case.name)
        }
        Expected::Image { word, value } => {
            assert_eq!((answer.verdict, image[word]), (0, value), "{}", case.name)
        }
        Expected::Refused { verdict, position, bit } => {
            let given = (answer.verdict, answer.position, answer.bit);
            assert_eq!(given, (verdict, position, bit), "{}", case.name)
        }
        Expected::Form(expected) => assert_eq!(form, expected, "{}", case.name),
    }
}

/// The reader's answer and records, with room for them.
fn records(list: &[u32], image: &mut [u32]) -> (Answer, Vec<u32>) {
    let mut buffer = vec![0; RECORD_WORDS * list.len()];
    let answer = rules::paper().read(list, image, &mut buffer);
    buffer.truncate(answer.words as usize);
    (answer, buffer)
}

/// The normaliser's answer and form, with room for it.
fn normal_form(list: &[u32], image: &[u32]) -> (Answer, Vec<u32>) {
    let mut buffer = vec![0; 2 * list.len() + 64];
    let answer = rules::paper().normalise(list, image, &mut buffer);
    buffer.truncate(answer.words as usize);
    (answer, buffer)
}

fn listings() {
    assert_eq!(rules::paper().listing(&bytes(&paper::LISTING_WORDS)), paper::LISTING_TEXT);
    assert_eq!(rules::paper().listing(&[]), "at id words head\naccepted commands 0 items 0\n");
    assert_eq!(rules::paper().listing(&[0; 16_385]), "refused 1 at 4096\n");
    assert_eq!(rules::paper().listing(&[0x06; 5]), "refused 12 at 1\n");
    assert_eq!(rules::paper().listing(&bytes(&[0x03000000])), "refused 4 at 0\n");
    assert_eq!(rules::paper().listing(&bytes(&[0x01000002])), "refused 6 at 0\n");
    assert_eq!(rules::paper().listing(&bytes(&[0x40501C02, 0, 0, 0])), "refused 19 at 0\n");
    let clip = |word| rules::paper().listing(&bytes(&[0x84000000, 0, word, 0]));
    assert_eq!(clip(0x40004000), "at id words head\naccepted commands 1 items 0\n");
    assert_eq!(clip(0x30004000), "refused 16 at 0\n");
}

/// Texts written out by hand from the tool's paper.
fn tool_texts() {
    let zeros = bytes(&[0; IMAGE_WORDS]);
    let text = |task, words: &[u32]| rules::paper().run(task, &bytes(words), &zeros).text;
    let shown = "\
accepted commands 5 items 4
sets: id name before -> after
02 timer threshold 00000000 -> 00000010
draws: at id words head name
1 00 1 000300 flush
2 48 4 000000 primitive
6 21 1 000100 surface 0 base
7 10 4 100007 BEGIN 3D
words 11 normal form 11
";
    assert_eq!(text(Task::Show, &paper::LISTING_WORDS), shown);
    let group = "\
accepted commands 1 items 0
sets: id name before -> after
84 window clip 00000000 00000000 00000000 00000000 -> 00000001 00000000 40004000 00000000
draws: at id words head name
words 4 normal form 4
";
    assert_eq!(text(Task::Show, &[0x84000001, 0, 0x40004000, 0]), group);
    let undefined = "\
refused 6 at 3
word 80c00000
command 88 raster mode at 1
bit 22
why undefined bit set - the bit that the answer names, the lowest one: it must be zero
";
    let list = [0x00000300, 0x88000000, 0, 0x80C00000, 0];
    for task in [Task::Show, Task::Image, Task::Normalise, Task::Pci] {
        assert_eq!(text(task, &list), undefined);
    }
    let unknown = "\
refused 3 at 0
word 06000000
command 06 at 0
why unknown id - bits 31..24 of that word; often the command before has a wrong length
";
    assert_eq!(text(Task::Show, &[0x06000000]), unknown);
    let misplaced = "\
refused 13 at 2
address 00002928
word 00000000
command 48 primitive at 1
why PCI writes only: not the address that the command asks for - the address; often a value is missing or \
the command before has a wrong length
";
    let pairs = [0x2804, 0x01000004, 0x2920, 0x48000000, 0x2928, 0, 0x2928, 0, 0x292C, 0];
    assert_eq!(text(Task::List, &pairs), misplaced);
    let no_image = "\
refused 2 at 0
image 1025 bytes
why the image has not 256 words - the caller's image, not the list
";
    assert_eq!(rules::paper().run(Task::Pci, &[], &[0; 1025]).text, no_image);
    let cut = "\
refused 12 at 1
why programs only: bytes no multiple of four - the file was cut, or is no list
";
    assert_eq!(rules::paper().run(Task::List, &[0; 7], &[]).text, cut);
    let written = rules::paper().run(Task::Pci, &bytes(&[0x01000004]), &zeros);
    assert_eq!(written.text, "accepted commands 1 items 1\nwritten 2 words\n");
    assert_eq!(written.words, bytes(&[0x2804, 0x01000004]));
    let left = rules::paper().run(Task::Image, &bytes(&[0x02000010]), &zeros);
    assert_eq!(left.text, "accepted commands 1 items 0\nwritten 256 words\n");
    assert_eq!(left.words[..12], bytes(&[0, 0, 0x10]));
}

/// The tool gives the verdict of the function whose words it writes, and those words.
fn tool_and_functions() {
    for number in 0..RANDOM_LISTS {
        let case = runs::random_run(5000 + number, Purpose::Store);
        let function = match case.task {
            Task::Show | Task::Image => Function::Reader,
            Task::Normalise => Function::Normaliser,
            Task::Pci => Function::ToPci,
            Task::List => Function::FromPci,
        };
        let [list, image] = [&case.input, &case.image].map(|bytes| {
            let words = bytes.chunks_exact(4);
            words.map(|b| u32::from_le_bytes([b[0], b[1], b[2], b[3]])).collect::<Vec<u32>>()
        });
        let room = 4 * list.len() + 8;
        let of_function = Case {
            class: "the tool's",
            kind: CaseKind::List,
            list,
            arguments: Vec::new(),
            image: lists::Image::Words(image),
            records_len: room,
            out_len: room,
            pci_len: room,
        };
        let outcome = outcome::of(function, rules::paper(), &of_function);
        let [verdict, position, commands, records, words, _] = outcome.answer;
        let run = case.expected();
        if verdict != 0 {
            assert!(run.text.starts_with(&format!("refused {verdict} at {position}\n")));
            assert!(run.words.is_empty());
            continue;
        }
        assert!(run.text.starts_with(&format!("accepted commands {commands} items {records}\n")));
        let written = match case.task {
            Task::Show => &[][..],
            Task::Image => &outcome.image,
            _ => &outcome.buffer[..words as usize],
        };
        assert_eq!(run.words, bytes(written), "{}", case.name);
    }
}

/// A refusal changes nothing; after acceptance the words behind those written are as before.
fn lent_words() {
    for number in 0..RANDOM_LISTS {
        let of = if number % 3 == 2 { lists::random_pairs } else { lists::random_case };
        let case = of(&mut Prng::new(11, number), Purpose::Run);
        for function in CaseKind::List.functions() {
            let outcome = outcome::of(function, rules::paper(), &case);
            let [verdict, position, commands, records, words, _] = outcome.answer;
            let before = prefilled(outcome.buffer.len());
            let written = if function.writes() { words as usize } else { 0 };
            assert_eq!(outcome.buffer[written..], before[written..]);
            if verdict == 0 {
                let pair_words = if function == Function::FromPci { 2 } else { 1 };
                assert_eq!(position as usize, case.list.len() / pair_words);
                assert!(records <= commands && commands <= position);
            } else {
                assert_eq!([commands, records, words], [0; 3]);
                assert_eq!(outcome.image, case.image.words());
                assert!(position as usize <= case.list.len());
            }
        }
    }
}

/// The bit is below 32 exactly with 6, and is then the lowest undefined one of the word at the position.
fn told_bit() {
    let mut told = [0; 32];
    for number in 0..RANDOM_LISTS {
        let of = if number % 3 == 2 { lists::random_pairs } else { lists::random_case };
        let case = of(&mut Prng::new(16, number), Purpose::Run);
        for function in CaseKind::List.functions() {
            let [verdict, position, .., bit] = outcome::of(function, rules::paper(), &case).answer;
            assert_eq!(bit < NO_BIT, verdict == 6);
            assert!(bit <= NO_BIT);
            if verdict == 6 {
                told[bit as usize] += 1;
                bit_is_lowest(function.list_of(&case), position as usize, bit);
            }
        }
    }
    assert!(told.iter().all(|count| *count > 10), "{told:?}");
}

/// Without this bit the list's refusal is another, without all lower ones of the word the same.
fn bit_is_lowest(list: Vec<u32>, position: usize, bit: u32) {
    let word = list[position];
    assert!(word >> bit & 1 == 1, "bit {bit} of {word:08X}");
    let refusal_without = |bits: u32| {
        let mut other = list.clone();
        other[position] &= !bits;
        rules::paper().walk(&other).1
    };
    let refusal = Some(Refusal { verdict: 6, position, bit });
    assert_eq!(refusal_without(0), refusal);
    assert_ne!(refusal_without(1 << bit), refusal);
    assert_eq!(refusal_without((1 << bit) - 1), refusal);
}

/// Of every bit alone and of every two of a word the lowest undefined one is told, and 6 is given exactly
/// where there is one.
fn lowest_bit() {
    for OneOrTwoBits { list, word, undefined } in lists::one_or_two_bits() {
        let told = rules::paper().walk(&list).1.filter(|refusal| refusal.verdict == 6);
        let lowest = undefined.first().map(|&bit| bit as u32);
        let expected = lowest.map(|bit| Refusal { verdict: 6, position: word, bit });
        assert_eq!(told, expected, "{list:08X?}");
    }
}

/// 11 is given exactly when the words to write don't fit.
fn room() {
    for number in 0..RANDOM_LISTS {
        let case = lists::random_case(&mut Prng::new(12, number), Purpose::Run);
        let image = case.image.words();
        let (read, _) = records(&case.list, &mut image.clone());
        let (normalised, form) = normal_form(&case.list, &image);
        if read.verdict != 0 {
            assert_eq!(read, normalised);
            continue;
        }
        let too_small = Refusal::new(11, case.list.len()).answer();
        let needed = read.words as usize;
        for (room, fits) in [(needed, true), (needed + 3, true), (needed.wrapping_sub(1), false)] {
            if room == usize::MAX {
                continue;
            }
            let answer = rules::paper().read(&case.list, &mut image.clone(), &mut vec![0; room]);
            assert_eq!(answer, if fits { read } else { too_small });
        }
        let mut exact = vec![0; form.len()];
        assert_eq!(rules::paper().normalise(&case.list, &image, &mut exact), normalised);
        if let Some((_, less)) = exact.split_last_mut() {
            assert_eq!(rules::paper().normalise(&case.list, &image, less), too_small);
        }
        pci_room(&case.list, &image, too_small);
    }
}

/// On every fixed list and on random ones; the buffer is too small in many of them.
fn room_told() {
    let fixed = lists::fixed_cases();
    let mut too_small = 0;
    let all = (0..fixed.len() + RANDOM_LISTS as usize).map(|k| (k, lists::case(&fixed, k, 18)));
    for (index, case) in all.filter(|(_, case)| case.kind == CaseKind::List) {
        let run = |function, case: &Case| outcome::of(function, rules::paper(), case);
        assert_eq!(agreement::disagreement(&case, run), None, "case {index}");
        let told = run(Function::Measure, &case).answer[4] as usize;
        too_small += (told > case.out_len) as usize;
    }
    assert!(too_small > 1000, "{too_small} buffers too small");
}

fn pci_room(list: &[u32], image: &[u32], too_small: Answer) {
    let (written, mut pairs) = pairs(list, image);
    assert_eq!((written.verdict, written.words as usize), (0, 2 * list.len()));
    let mut recovered = vec![0; list.len()];
    assert_eq!(rules::paper().from_pci(&pairs, image, &mut recovered).verdict, 0);
    if let Some((_, less)) = recovered.split_last_mut() {
        assert_eq!(rules::paper().from_pci(&pairs, image, less), too_small);
    }
    if let Some((_, less)) = pairs.split_last_mut() {
        assert_eq!(rules::paper().to_pci(list, image, less), too_small);
    }
}

/// The writer's answer and pairs, with room for exactly them.
fn pairs(list: &[u32], image: &[u32]) -> (Answer, Vec<u32>) {
    let mut buffer = vec![0; 2 * list.len()];
    let answer = rules::paper().to_pci(list, image, &mut buffer);
    buffer.truncate(answer.words as usize);
    (answer, buffer)
}

fn recovered(pairs: &[u32], image: &[u32]) -> (Answer, Vec<u32>) {
    let mut buffer = vec![0; pairs.len() / 2];
    let answer = rules::paper().from_pci(pairs, image, &mut buffer);
    buffer.truncate(answer.words as usize);
    (answer, buffer)
}

fn guide_writes() {
    let image = [0; IMAGE_WORDS];
    for (list, writes) in paper::GUIDE_WRITES {
        assert_eq!(pairs(list, &image).1, writes);
        assert_eq!(recovered(writes, &image).1, list);
    }
}

/// Every bank, maximum and minimum, by the guide's real values: its limits are 16, 12 and 7, "Real
/// value=setting+1" for the maximum, "Real value = setting" for the minimum.
fn page_thresholds() {
    for number in 0..4 * 16 * 16_u32 {
        let (bank, maximum, minimum) = (number >> 8, number >> 4 & 15, number & 15);
        let list = [0x84000000, bank << 28, maximum << 28 | minimum << 12, 0];
        let (real_maximum, real_minimum) = (maximum + 1, minimum);
        let expected = match [16, 12, 7].get(bank as usize) {
            None => (7, 1),
            Some(limit) if real_maximum > *limit => (15, 0),
            Some(_) if real_minimum > 0 && real_minimum >= real_maximum => (16, 0),
            Some(_) => (0, 4),
        };
        let answer = records(&list, &mut [0; IMAGE_WORDS]).0;
        assert_eq!((answer.verdict, answer.position, answer.bit), (expected.0, expected.1, NO_BIT));
    }
}

/// Writing and reading pairs undo each other, and the list's own refusals are the reader's.
fn pairs_and_back() {
    let mut back = 0;
    for number in 0..RANDOM_LISTS {
        let case = lists::random_case(&mut Prng::new(15, number), Purpose::Run);
        let image = case.image.words();
        let read = records(&case.list, &mut image.clone()).0;
        let (written, list_pairs) = pairs(&case.list, &image);
        assert_eq!(Answer { words: 0, ..written }, Answer { words: 0, ..read });
        if written.verdict == 0 {
            let (answer, list) = recovered(&list_pairs, &image);
            assert_eq!((answer.words, answer.commands), (answer.position, written.commands));
            assert_eq!(list, case.list);
        }

        let case = lists::random_pairs(&mut Prng::new(15, number), Purpose::Run);
        let image = case.image.words();
        let (answer, list) = recovered(&case.list, &image);
        if answer.verdict == 0 {
            back += 1;
            assert_eq!(pairs(&list, &image).1, case.list[..2 * list.len()]);
        }
    }
    assert!(back > RANDOM_LISTS / 10, "{back} accepted pairs");
}

/// What a list does, by document 01: its work with the images met, and the last image.
#[derive(PartialEq)]
struct Doings {
    work: Vec<(Vec<u32>, Vec<u32>)>,
    last_image: Vec<u32>,
}

fn doings(list: &[u32], start: &[u32]) -> Doings {
    let mut image = start.to_vec();
    let mut work = Vec::new();
    for command in rules::paper().commands(list).expect("an accepted list") {
        if command.is_work() {
            work.push((command.words.to_vec(), image.clone()));
        }
        rules::paper().apply(&command, &mut image);
    }
    Doings { work, last_image: image }
}

/// Random lists that are accepted, not too long for `doings`, with images.
fn accepted_lists(seed: u64) -> impl Iterator<Item = (Prng, Vec<u32>, Vec<u32>)> {
    (0..RANDOM_LISTS).filter_map(move |number| {
        let mut rng = Prng::new(seed, number);
        let case = lists::random_case(&mut rng, Purpose::Run);
        let image = case.image.words();
        let accepted = records(&case.list, &mut image.clone()).0.verdict == 0;
        (accepted && case.list.len() <= 1000).then_some((rng, case.list, image))
    })
}

fn demand_3() {
    let mut lists = 0;
    for (_, list, image) in accepted_lists(13) {
        lists += 1;
        let mut list_image = image.clone();
        let (of_list, list_records) = records(&list, &mut list_image);
        let (normalised, form) = normal_form(&list, &image);
        assert_eq!(normalised.verdict, 0);
        assert_eq!(normalised.commands, of_list.commands);
        assert_eq!(normalised.records, of_list.records);

        let mut form_image = image.clone();
        let (of_form, form_records) = records(&form, &mut form_image);
        assert_eq!((of_form.verdict, of_form.position as usize), (0, form.len()));
        assert_eq!(form_image, list_image);
        assert_eq!(without_positions(&form_records), without_positions(&list_records));
        assert!(doings(&form, &image) == doings(&list, &image));
        assert_eq!(normal_form(&form, &image).1, form);
        assert!(form.len() <= list.len());
    }
    assert!(lists > RANDOM_LISTS / 4);
}

fn without_positions(records: &[u32]) -> Vec<[u32; 3]> {
    records.chunks_exact(RECORD_WORDS).map(|r| [r[0], r[2], r[3]]).collect()
}

/// Two lists do the same exactly when their forms are equal.
fn equal_doings() {
    let mut equal = 0;
    let mut different = 0;
    for (mut rng, list, image) in accepted_lists(14) {
        let other = lists::equivalent_list(&mut rng, &list);
        let same = doings(&list, &image) == doings(&other, &image);
        assert_eq!(same, normal_form(&list, &image).1 == normal_form(&other, &image).1);
        if same {
            equal += 1;
        } else {
            different += 1;
        }
    }
    assert!(equal > 1000 && different > 100, "{equal} equal, {different} different");
}

#[cfg(test)]
mod tests {
    #[test]
    fn paper_cases() {
        super::paper_cases();
    }

    #[test]
    fn guide_writes() {
        super::guide_writes();
    }

    #[test]
    fn page_thresholds() {
        super::page_thresholds();
    }

    #[test]
    fn pairs_and_back() {
        super::pairs_and_back();
    }

    #[test]
    fn scenes_by_hand() {
        super::scenes::by_hand();
    }

    #[test]
    fn single_calls() {
        super::scenes::single_calls();
    }

    #[test]
    fn modes_by_hand() {
        super::modes::by_hand();
    }

    #[test]
    fn same_words_in_every_mode() {
        super::modes::same_words();
    }

    #[test]
    fn demand_3_in_a_mode() {
        super::modes::demand_3();
    }

    #[test]
    fn over_3_first() {
        super::modes::over_3_first();
    }

    #[test]
    fn books_by_hand() {
        super::books::by_hand();
    }

    #[test]
    fn books_there_and_back() {
        super::books::there_and_back();
    }

    #[test]
    fn one_book() {
        super::books::one_book();
    }

    #[test]
    fn listings() {
        super::listings();
    }

    #[test]
    fn lent_words() {
        super::lent_words();
    }

    #[test]
    fn told_bit() {
        super::told_bit();
    }

    #[test]
    fn lowest_bit() {
        super::lowest_bit();
    }

    #[test]
    fn room() {
        super::room();
    }

    #[test]
    fn room_told() {
        super::room_told();
    }

    #[test]
    fn demand_3() {
        super::demand_3();
    }

    #[test]
    fn equal_doings() {
        super::equal_doings();
    }

    #[test]
    fn tool_texts() {
        super::tool_texts();
    }

    #[test]
    fn tool_and_functions() {
        super::tool_and_functions();
    }
}
