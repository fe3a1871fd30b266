//! Lists, pairs and images that show each line, name, refusal, order, position and edge.

use super::RunCase;
use crate::listings::bytes;
use crate::lists::{self, pairs_of, Purpose};
use crate::paper;
use crate::prng::{self, Prng};
use crate::rules::{self, Task, IMAGE_WORDS, MAX_LIST_WORDS};
use crate::scene;

const FLUSH: u32 = 0x00000300;
const LIST_TASKS: [Task; 4] = [Task::Show, Task::Image, Task::Normalise, Task::Pci];

/// One for each way to be refused, behind whatever it follows.
const REFUSED: [(&str, &[u32]); 12] = [
    ("3", &[0x06123456]),
    ("4", &[0x03ABCDEF]),
    ("5", &[0x8C000001, 2, 3]),
    ("6", &[0x90000001, 2, 0x0FFF1FFF, 4]),
    ("7", &[0x84000000, 0x30000000, 0, 0]),
    ("9", &[0x40100002, 0, 1, 2, 3, 4, 5, 6, 7, 8, 9]),
    ("10", &[0x21000100, 0x8C000001, 2, 3, 4]),
    ("15", &[0x84000000, 0x20000000, 0x70008000, 0]),
    ("16", &[0x84000000, 0x10000000, 0x30004000, 0]),
    ("17", &[0x88004000, 0, 0, 0]),
    ("18", &[0x40900000, 0, 1, 2]),
    ("19", &[0x40502002, 0, 0, 0]),
];

/// A setting of each kind, with every word other than zero where it may be.
const SETTINGS: [&[u32]; 9] = [
    &[0x02800010],
    &[0x26818283],
    &[0x30012000],
    &[0x31C00004],
    &[0x84BF8000, 0x23FF0001, 0x62FF5002, 0x8000FFFF],
    &[0x88404001, 0x00000840, 0x00020003, 0x00FF0004],
    &[0x8CBF8000, 0xB8D1B717, 0x3F800000, 0x00000001],
    &[0x90FF00FF, 0x00F80000, 0x00010002, 0x02FF03FF],
    &[0xC4000000, 0x0000FFFF, 0xFFFF0000, 0x00000001],
];

/// Work of each kind, a surface base with its BEGIN.
const WORK: [&[u32]; 16] = [
    &[0x00ABCDEF],
    &[0x01000714],
    &[0x05FEDCBA],
    &[0x08100001, 0x80000010, 0x0ABCDEF0, 0],
    &[0x2000000F],
    &[0x21123456, 0x0C200002, 0x00000020, 0x00000100, 0],
    &[0x2200000A],
    &[0x23F00000, 0x10300003, 0x003FFFFF, 0x0FFFFFFF, 0],
    &[0x24000005],
    &[0x25000001, 0x14400004, 0, 0, 0],
    &[0x40000000, 0, 0, 0],
    &[0x40107C01, 0, 0xABCDEF01, 2, 0x84000000, 0x06000000, 0x03000000, 0xFFFFFFFF],
    &[0x40200002, 1, 2, 3, 4, 5, 6, 7, 0x21000000, 0x02000001, 0x02000002, 0x10000000],
    &[0x40D01801, 0, 0, 0, 0x3F800000, 0, 0, 0xBF000000],
    &[0x48000000, 0, 0, 0],
    &[0x10000000, 0, 0, 0],
];

/// Commands to stand before a refused one; the lowest bits of each header could be a payload's length.
const BEFORE: [&[u32]; 19] = [
    &[0x00000001],
    &[0x01000004],
    &[0x02000010],
    &[0x05000001],
    &[0x2000000F],
    &[0x22000001],
    &[0x24000002],
    &[0x26000081],
    &[0x30000001],
    &[0x31800001],
    &[0x08000001, 0, 0, 0],
    &[0x0C000001, 0, 0, 0],
    &[0x10000001, 0, 0, 0],
    &[0x14000001, 0, 0, 0],
    &[0x84000001, 0, 0, 0],
    &[0x88000001, 0, 0, 0],
    &[0x8C000001, 0, 0, 0],
    &[0x90000001, 0, 0, 0],
    &[0x40100001, 0, 0, 0, 0x06000000, 0x06000000, 0x06000000, 0x10000000],
];

fn zero_image() -> Vec<u32> {
    vec![0; IMAGE_WORDS]
}

fn seeded_image(seed: u32) -> Vec<u32> {
    prng::seeded_words(seed, IMAGE_WORDS)
}

/// A run on whole words; `what` is its verdict and more.
fn run(task: Task, what: &str, words: &[u32], image: &[u32]) -> RunCase {
    of_bytes(task, what, bytes(words), bytes(image))
}

fn of_bytes(task: Task, what: &str, input: Vec<u8>, image: Vec<u8>) -> RunCase {
    RunCase { name: format!("{}-{what}", task.name()), task, input, image }
}

/// The list, or its pairs where the task reads pairs.
fn of_list(task: Task, what: &str, list: &[u32], image: &[u32]) -> RunCase {
    match task {
        Task::List => run(task, what, &pairs_of(list), image),
        _ => run(task, what, list, image),
    }
}

/// The runs of the test program `runs`.
pub fn stored_runs() -> Vec<RunCase> {
    let mut all = accepted();
    all.extend(settings());
    all.extend(refusals().into_iter().filter(is_stored));
    all.extend(refused_words());
    all.extend(refused_pairs());
    all.extend(image_sizes());
    all.extend(orders());
    all.extend(at_random());
    all.extend(long_lists());
    all.extend(sizes());
    all
}

/// Runs that are too many or too large to be stored, for the tool itself.
pub fn more_runs() -> Vec<RunCase> {
    let mut all = more_sizes();
    all.extend(refusals().into_iter().filter(|case| !is_stored(case)));
    all.extend(every_unknown_id());
    all.extend(more_at_random());
    all
}

fn accepted() -> Vec<RunCase> {
    let work = WORK.concat();
    let example = paper::LISTING_WORDS;
    let mut all = vec![
        run(Task::Show, "accepted-empty", &[], &seeded_image(1)),
        run(Task::Show, "accepted-example", &example, &zero_image()),
        run(Task::Show, "accepted-all-work", &work, &seeded_image(2)),
        run(Task::Show, "accepted-ends-with-base", &[FLUSH, 0x25000001], &zero_image()),
        run(Task::Image, "accepted-all-work", &work, &seeded_image(3)),
        run(Task::Pci, "accepted-all-work", &work, &zero_image()),
        of_list(Task::List, "accepted-all-work", &work, &seeded_image(4)),
        run(Task::Image, "accepted-empty", &[], &seeded_image(5)),
        run(Task::Normalise, "accepted-empty", &[], &zero_image()),
        run(Task::Pci, "accepted-empty", &[], &zero_image()),
        run(Task::List, "accepted-empty", &[], &seeded_image(6)),
        run(Task::List, "accepted-odd-word-alone", &[0x2808], &zero_image()),
        run(Task::List, "accepted-odd-word", &[0x2808, 0x02000001, 0x2800], &zero_image()),
        run(Task::Pci, "accepted-guide", paper::GUIDE_PUT, &seeded_image(7)),
        run(Task::List, "accepted-guide", paper::GUIDE_WRITES[2].1, &zero_image()),
    ];
    for task in Task::ALL {
        all.push(of_list(task, "accepted-scene", &scene::approach(), &scene::board()));
    }
    all.push(run(Task::Show, "refused-6-scene", &scene::broken(), &scene::board()));
    all
}

/// The image that a list leaves.
fn image_after(list: &[u32], mut image: Vec<u32>) -> Vec<u32> {
    let commands = rules::paper().commands(list).expect("a list that is accepted");
    commands.iter().for_each(|command| rules::paper().apply(command, &mut image));
    image
}

fn settings() -> Vec<RunCase> {
    let all_settings = SETTINGS.concat();
    let falling: Vec<u32> = SETTINGS.iter().rev().flat_map(|words| words.to_vec()).collect();
    let left = image_after(&all_settings, seeded_image(8));
    let zeros: Vec<u32> = SETTINGS
        .iter()
        .flat_map(|words| (0..words.len()).map(|k| if k == 0 { words[0] & 0xFF000000 } else { 0 }))
        .collect();
    let back = [&all_settings[..], &[FLUSH], &zeros].concat();
    let mut high_bytes = left.clone();
    SETTINGS.iter().for_each(|words| high_bytes[(words[0] >> 24) as usize] |= words[0]);
    let mut all = vec![
        run(Task::Show, "accepted-settings-from-zeros", &all_settings, &zero_image()),
        run(Task::Show, "accepted-settings-from-any", &falling, &seeded_image(9)),
        run(Task::Show, "accepted-settings-as-they-are", &all_settings, &left),
        run(Task::Show, "accepted-settings-with-ids", &all_settings, &high_bytes),
        run(Task::Show, "accepted-settings-to-zeros", &zeros, &left),
        run(Task::Show, "accepted-settings-and-back", &back, &zero_image()),
        run(Task::Normalise, "accepted-settings-and-back", &back, &zero_image()),
        run(Task::Normalise, "accepted-settings", &falling, &seeded_image(10)),
        run(Task::Image, "accepted-settings", &all_settings, &zero_image()),
        run(Task::Image, "accepted-settings-and-back", &back, &seeded_image(11)),
    ];
    // Only one word of each differs, the settings in another order each time.
    for k in 0..4 {
        let mut image = left.clone();
        for words in SETTINGS.iter().filter(|words| k < words.len()) {
            image[(words[0] >> 24) as usize + k] ^= 1 << (8 * k);
        }
        let mut order = SETTINGS;
        order.rotate_left(k);
        let what = format!("accepted-only-word-{k}");
        all.push(run(Task::Show, &what, &order.concat(), &image));
    }
    all
}

/// Every refusal with every task.
fn refusals() -> Vec<RunCase> {
    let mut all = Vec::new();
    let mut number = 0;
    for task in Task::ALL {
        for (what, words) in REFUSED {
            let mut list = [BEFORE[number % BEFORE.len()], words].concat();
            // Pairs of a cut command end inside it.
            let what = match (task, what) {
                (Task::List, "5" | "9") => "14",
                (_, what) => what,
            };
            if (task, what) == (Task::List, "19") {
                list.extend([0; 8]);
            }
            all.push(of_list(task, &format!("refused-{what}-{number}"), &list, &zero_image()));
            number += 1;
        }
    }
    all
}

/// Some refusals are enough for tasks that say what others say.
fn is_stored(case: &RunCase) -> bool {
    let refused = |verdict: &&str| case.name.contains(&format!("-refused-{verdict}-"));
    let some = ["3", "6", "9", "10", "15"];
    matches!(case.task, Task::Show | Task::List) || some.iter().any(refused)
}

/// A name for a list by its last words.
fn named(verdict: u32, list: &[u32]) -> String {
    let words: Vec<String> = list.iter().rev().take(6).map(|word| format!("{word:x}")).collect();
    format!("refused-{verdict}-{}", words.join("-"))
}

/// Refused words by kind of command and place: the first, the middle and the last word of a group.
fn refused_words() -> Vec<RunCase> {
    let undefined: [&[u32]; 20] = [
        &[0x01000002],
        &[0x08000000, 0x00400000, 0, 0],
        &[0x0C000000, 0, 0x10000000, 0],
        &[0x10000000, 0, 0, 0x00000001],
        &[0x14000000, 0x40000000, 0x10000000, 0x80000000],
        &[0x20000010],
        &[0x22000020],
        &[0x24800000],
        &[0x26000010],
        &[0x26700000],
        &[0x40000200, 0, 0, 0],
        &[0x40080000, 0, 0, 0],
        &[0x84000000, 0x00001000, 0, 0],
        &[0x84000000, 0xC0000000, 0, 0],
        &[0x88180000, 0, 0, 0],
        &[0x88000000, 0xFF000000, 0, 0],
        &[0x88000000, 0, 0x80C00000, 0x01000000],
        &[0x88000000, 0, 0, 0x01000000],
        &[0x90000000, 0x01000000, 0, 0],
        &[0xC4000001, 0, 0, 0],
    ];
    let illegal: [&[u32]; 9] = [
        &[0x40300000, 0, 0, 0],
        &[0x40400001, 0, 0, 0],
        &[0x40000000, 1, 0, 0],
        &[0x40000000, 0, 1, 0],
        &[0x40500001, 0, 0, 1, 0, 0, 0, 0],
        &[0x48000001, 0, 0, 0],
        &[0x48000000, 0, 0x84000000, 0],
        &[0x48000000, 0, 0, 0xFFFFFFFF],
        &[0x48000000, 0x00000300, 0, 0],
    ];
    let other: [(u32, &[u32]); 8] = [
        (4, &[0x04000000]),
        (5, &[0x88000000]),
        (5, &[0xC4000000, 1]),
        (10, &[0x23000000, FLUSH]),
        (10, &[0x25000000, 0x40200000, 0, 0, 0]),
        (6, &[0x90000000, 0, 0, 0x10000000]),
        (9, &[0x402001FF, 0, 0, 0]),
        (3, &[0x10000000, 0, 0, 0, 0x09000000]),
    ];
    let kinds = undefined.map(|list| (6, list)).into_iter();
    let kinds = kinds.chain(illegal.map(|list| (7, list))).chain(other);
    let mut all = Vec::new();
    for (number, (verdict, words)) in kinds.enumerate() {
        let task = LIST_TASKS[number % 4];
        let list = [BEFORE[number % BEFORE.len()], words].concat();
        all.push(run(task, &named(verdict, &list), &list, &zero_image()));
    }
    // Behind a payload that looks like commands, whose last word would begin a group.
    let load = [0x40200001, 1, 2, 3, 0x06000000, 0x21000000, 0x03000000, 0x84000000];
    for (number, refused) in
        [&[0x34000000][..], &[0x01000002], &[0x48000000, 0, 1, 0]].iter().enumerate()
    {
        let verdict = [3, 6, 7][number];
        let list = [&[0x02000001], &load[..], refused].concat();
        let what = format!("refused-{verdict}-behind-payload");
        all.push(of_list(LIST_TASKS[number], &what, &list, &zero_image()));
    }
    for (number, id) in [0x07, 0x41, 0x85, 0xC8, 0xFF].iter().enumerate() {
        let list = [FLUSH, FLUSH, id << 24 | 0x123456];
        all.push(run(LIST_TASKS[number % 4], &named(3, &list), &list, &zero_image()));
    }
    all
}

/// Pairs with the address of one changed.
fn readdressed(list: &[u32], pair: usize, address: u32) -> Vec<u32> {
    let mut pairs = pairs_of(list);
    pairs[2 * pair] = address;
    pairs
}

fn refused_pairs() -> Vec<RunCase> {
    let mut all = Vec::new();
    let image = zero_image();
    let load = [0x40300001, 1, 2, 3, 0x06000000, 0x84000000, 0x03000000, 0x84000000];
    let lists: [(&[u32], usize); 19] = [
        (&[0x02000001], 0),
        (&[0x02000001, FLUSH], 1),
        (&[0x8C000001, 2, 3, 4], 1),
        (&[0x8C000001, 2, 3, 4, FLUSH], 3),
        (&[FLUSH, 0xC4000000, 1, 2, 3], 3),
        (&[FLUSH, 0x14000000, 1, 2], 2),
        (&[0x06000001, FLUSH], 1),
        (&[0x03000001, FLUSH], 1),
        (&[0x04000001, FLUSH], 1),
        (&[0xFF000001, 0x02000001, FLUSH], 2),
        (&[0x21000001, FLUSH], 1),
        (&[0x23000001, FLUSH], 1),
        (&[0x25000001, 0x06000000], 1),
        (&load, 6),
        (&[&load[..], &[0x06000000, FLUSH]].concat(), 8),
        (&[FLUSH, 0x40100002, 0, 1, 2, 3], 5),
        (&[0x48000001, 0, 0, 0, FLUSH], 4),
        (&[0xC4000001, 0, 0, 0, FLUSH], 4),
        (&[0x20000001, 0x06000000, 0x41000000, 0x48000001, 0, 0, 0], 2),
    ];
    for (number, (list, pair)) in lists.into_iter().enumerate() {
        let address = [0x00002804, 0xFFFFFFFF, 0x0000290C, 0xABCDEF00][number % 4];
        let words = readdressed(list, pair, address);
        all.push(run(Task::List, &format!("refused-13-{number}"), &words, &image));
    }
    let cut: [&[u32]; 5] = [
        &[0x88000000],
        &[FLUSH, 0x10000000, 0],
        &[FLUSH, FLUSH, 0x90000000, 0, 0],
        &[0x06000000, 0x40100001, 0, 0, 0],
        &[0x40300002, 1, 2, 3, 4, 5, 6, 7, 8, 9, 10],
    ];
    for (number, list) in cut.into_iter().enumerate() {
        all.push(run(Task::List, &format!("refused-14-cut-{number}"), &pairs_of(list), &image));
    }
    // An odd word doesn't complete a pair.
    let odd = [&pairs_of(&[0x48000000, 0, 0])[..], &[0x0000292C]].concat();
    all.push(run(Task::List, "refused-14-odd-word", &odd, &image));
    let refused: [(u32, &[u32]); 3] = [
        (6, &[FLUSH, 0x10000000, 0x80000000, 0xF0000000, 0]),
        (7, &[FLUSH, 0x40500000, 0, 0, 0x12345678]),
        (3, &[0x40200001, 1, 2, 3, 0, 0, 0, 0x10000000, 0x34000000]),
    ];
    for (verdict, list) in refused {
        all.push(run(Task::List, &named(verdict, list), &pairs_of(list), &image));
    }
    all
}

/// 2 with images of other sizes, the list good or bad.
fn image_sizes() -> Vec<RunCase> {
    let sizes = [0, 4, 1020, 1023, 1025, 1027, 1028, 4096];
    let mut all = Vec::new();
    for (number, size) in sizes.into_iter().enumerate() {
        let image: Vec<u8> = (0..size).map(|k| k as u8).collect();
        let task = Task::ALL[number % 5];
        let words = pairs_of(&[FLUSH]);
        let input = if task == Task::List { bytes(&words) } else { bytes(&[FLUSH]) };
        all.push(of_bytes(task, &format!("refused-2-image-{size}"), input, image));
    }
    for task in [Task::Pci, Task::List] {
        let input = bytes(&pairs_of(&[FLUSH, FLUSH]));
        all.push(of_bytes(task, "refused-2-image-1025-also", input, vec![0; 1025]));
    }
    all
}

/// 1 before 12 before 2 before the list's own; at every task.
fn orders() -> Vec<RunCase> {
    let mut all = Vec::new();
    let broken = [FLUSH, 0x06000000, 0x06000000, 0x06000000];
    for task in Task::ALL {
        let input = bytes(&broken);
        all.push(of_bytes(task, "refused-2-and-broken", input.clone(), vec![0; 12]));
        let cut = |bytes: usize| input[..bytes].to_vec();
        all.push(of_bytes(task, "refused-12-and-2", cut(15), vec![0; 12]));
        all.push(of_bytes(task, "refused-12-alone", cut(5), bytes(&zero_image())));
    }
    // Of pairs it counts words, not pairs.
    let pairs = bytes(&pairs_of(&[FLUSH, 0x48000000, 0, 0, 0]));
    all.push(of_bytes(Task::List, "refused-12-words", pairs[..30].to_vec(), Vec::new()));
    all.push(of_bytes(Task::Show, "refused-12-one-byte", vec![0x06], Vec::new()));
    all.push(of_bytes(Task::List, "refused-12-three-bytes", vec![0x06; 3], Vec::new()));
    all
}

fn at_random() -> Vec<RunCase> {
    (0..10).map(|number| random_run(number, Purpose::Store)).collect()
}

fn more_at_random() -> Vec<RunCase> {
    (100..400).map(|number| random_run(number, Purpose::Run)).collect()
}

pub fn random_run(number: u64, purpose: Purpose) -> RunCase {
    let rng = &mut Prng::new(21, number);
    let task = Task::ALL[number as usize % 5];
    let list = match number % 3 {
        0 => lists::any_refused_list(rng, purpose),
        _ => lists::any_list(rng, purpose),
    };
    // An image that a part of the list has left.
    let mut image = if rng.once_in(2) { zero_image() } else { seeded_image(rng.word()) };
    let commands = rules::paper().walk(&list).0;
    let applied = rng.below(commands.len() + 1);
    commands[..applied].iter().for_each(|command| rules::paper().apply(command, &mut image));
    of_list(task, &format!("any-{number}"), &list, &image)
}

/// Several hundred pieces of work, each with a setting that is new, or old, before it.
fn long_lists() -> Vec<RunCase> {
    let item = |k: u32| match k % 3 {
        0 => vec![0x02000000 | k / 7, 0x48000000, 0, 0, 0],
        1 => vec![0x02000000 | k / 7, k],
        _ => vec![0x30000000 | k / 50, 0x05000000 | k],
    };
    let list: Vec<u32> = (0..400).flat_map(item).collect();
    let mut long_load = vec![FLUSH, 0x40200064, 1, 2, 3];
    long_load.extend((0..4 * 100).map(|k| 0x06000000 + k));
    long_load.extend([0x02000001, FLUSH]);
    vec![
        run(Task::Show, "accepted-long", &list, &zero_image()),
        run(Task::Normalise, "accepted-long", &list, &zero_image()),
        run(Task::Show, "accepted-long-load", &long_load, &zero_image()),
    ]
}

/// The list with the longest text: 4,096 words, of which four change a setting each and the others are
/// work with the longest name.
fn longest() -> Vec<u32> {
    let mut list: Vec<u32> = SETTINGS[..4].concat();
    list.extend((4..MAX_LIST_WORDS as u32).map(|k| 0x20000000 | (k % 3) << 25 | k % 16));
    list
}

fn most_pairs() -> Vec<u8> {
    let list: Vec<u32> = (0..MAX_LIST_WORDS as u32).map(|k| 0x02000000 | k).collect();
    bytes(&pairs_of(&list))
}

fn with_more(mut input: Vec<u8>, count: usize) -> Vec<u8> {
    input.resize(input.len() + count, 0x06);
    input
}

fn sizes() -> Vec<RunCase> {
    let image = || bytes(&zero_image());
    let longest = || bytes(&longest());
    vec![
        of_bytes(Task::Show, "accepted-16384", longest(), image()),
        of_bytes(Task::Image, "refused-1-16385", with_more(longest(), 1), Vec::new()),
        of_bytes(Task::Normalise, "refused-1-16388", with_more(longest(), 4), vec![0; 4]),
        of_bytes(Task::List, "accepted-32768", most_pairs(), image()),
        of_bytes(Task::List, "accepted-32772", with_more(most_pairs(), 4), image()),
        of_bytes(Task::List, "refused-12-32775", with_more(most_pairs(), 7), vec![0; 3]),
        of_bytes(Task::List, "refused-1-32776", with_more(most_pairs(), 8), vec![0; 8]),
    ]
}

/// Every task at every size, and large images.
fn more_sizes() -> Vec<RunCase> {
    let image = || bytes(&zero_image());
    let list = bytes(&longest());
    let mut all = Vec::new();
    for task in LIST_TASKS {
        let of = |what: &str, input: Vec<u8>| of_bytes(task, what, input, image());
        all.push(of("accepted-16384-also", list.clone()));
        all.push(of("refused-12-16383-also", list[..16_383].to_vec()));
        all.push(of("refused-1-16385-also", with_more(list.clone(), 1)));
        all.push(of("refused-1-16388-also", with_more(list.clone(), 4)));
        all.push(of("refused-1-100000-also", with_more(list.clone(), 83_616)));
    }
    let of = |what: &str, input: Vec<u8>| of_bytes(Task::List, what, input, image());
    all.push(of("refused-12-32767-also", most_pairs()[..32_767].to_vec()));
    all.push(of("refused-12-32769-also", with_more(most_pairs(), 1)));
    all.push(of("refused-12-32773-also", with_more(most_pairs(), 5)));
    all.push(of("refused-1-32777-also", with_more(most_pairs(), 9)));
    all.push(of("refused-1-100000-also", with_more(most_pairs(), 67_232)));
    for size in [65_535, 65_536] {
        for task in Task::ALL {
            let what = format!("refused-2-image-{size}-also");
            all.push(of_bytes(task, &what, Vec::new(), vec![0xFF; size]));
        }
    }
    all
}

fn every_unknown_id() -> Vec<RunCase> {
    let unknown = (0..256).filter(|id| !rules::paper().is_known(*id));
    let list = |id: u32| [FLUSH, id << 24 | 1];
    unknown
        .map(|id| run(Task::Show, &format!("refused-3-id-{id:02x}"), &list(id), &zero_image()))
        .collect()
}
