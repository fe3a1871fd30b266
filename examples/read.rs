//! From Rust: reads a list, asks how long its normal form is and writes it in just that room, writes its PCI writes and the
//! list of these, reads two bad lists, several lists in one call, and a list in the other byte order, writes a book of two
//! scenes, and reads a list where it is in the book.

extern "C" {
    fn xp10_read(
        list: *const u32,
        list_words: usize,
        image: *mut u32,
        image_words: usize,
        records: *mut u32,
        records_words: usize,
        answer: *mut u32,
        answer_words: usize,
        mode: u32,
    ) -> u32;

    fn xp10_read_scenes(
        words: *const u32,
        words_words: usize,
        table: *const u32,
        table_words: usize,
        image: *mut u32,
        image_words: usize,
        records: *mut u32,
        records_words: usize,
        answer: *mut u32,
        answer_words: usize,
    ) -> u32;

    fn xp10_normalise(
        list: *const u32,
        list_words: usize,
        image: *const u32,
        image_words: usize,
        out: *mut u32,
        out_words: usize,
        answer: *mut u32,
        answer_words: usize,
        mode: u32,
    ) -> u32;

    fn xp10_measure(
        list: *const u32,
        list_words: usize,
        image: *const u32,
        image_words: usize,
        answer: *mut u32,
        answer_words: usize,
    ) -> u32;

    fn xp10_to_pci(
        list: *const u32,
        list_words: usize,
        image: *const u32,
        image_words: usize,
        pairs: *mut u32,
        pairs_words: usize,
        answer: *mut u32,
        answer_words: usize,
    ) -> u32;

    fn xp10_from_pci(
        pairs: *const u32,
        pairs_words: usize,
        image: *const u32,
        image_words: usize,
        list: *mut u32,
        list_words: usize,
        answer: *mut u32,
        answer_words: usize,
    ) -> u32;

    fn xp10_find_scene(book: *const u32, book_words: usize, number: u32, place: *mut u32, place_words: usize) -> u32;

    fn xp10_write_book(
        table: *const u32,
        table_words: usize,
        words: *const u32,
        words_words: usize,
        book: *mut u32,
        book_words: usize,
        answer: *mut u32,
        answer_words: usize,
    ) -> u32;
}

/// Verdict, position, commands, records, words, bit.
type Answer = [u32; 6];

/// The modes that are used here: unchanged, and all four bytes reversed.
const NO_SWAP: u32 = 0;
const FULL_SWAP: u32 = 3;

fn read(list: &[u32], image: &mut [u32], records: &mut [u32], mode: u32) -> Answer {
    let mut answer = [0; 6];
    // SAFETY: each pointer is of a slice with its length, and no `&mut` slice overlaps another.
    unsafe {
        xp10_read(
            list.as_ptr(),
            list.len(),
            image.as_mut_ptr(),
            image.len(),
            records.as_mut_ptr(),
            records.len(),
            answer.as_mut_ptr(),
            answer.len(),
            mode,
        )
    };
    answer
}

/// The answer, and how many lists are applied.
fn read_scenes(words: &[u32], table: &[u32], image: &mut [u32], records: &mut [u32]) -> (Answer, u32) {
    let mut answer = [0; 7];
    // SAFETY: as for `read`.
    unsafe {
        xp10_read_scenes(
            words.as_ptr(),
            words.len(),
            table.as_ptr(),
            table.len(),
            image.as_mut_ptr(),
            image.len(),
            records.as_mut_ptr(),
            records.len(),
            answer.as_mut_ptr(),
            answer.len(),
        )
    };
    let [numbers @ .., lists] = answer;
    (numbers, lists)
}

fn measure(list: &[u32], image: &[u32]) -> Answer {
    let mut answer = [0; 6];
    // SAFETY: as for `read`.
    unsafe { xp10_measure(list.as_ptr(), list.len(), image.as_ptr(), image.len(), answer.as_mut_ptr(), answer.len()) };
    answer
}

fn normalise(list: &[u32], image: &[u32], out: &mut [u32], mode: u32) -> Answer {
    let mut answer = [0; 6];
    // SAFETY: as for `read`.
    unsafe {
        xp10_normalise(
            list.as_ptr(),
            list.len(),
            image.as_ptr(),
            image.len(),
            out.as_mut_ptr(),
            out.len(),
            answer.as_mut_ptr(),
            answer.len(),
            mode,
        )
    };
    answer
}

/// PCI writes from a list, or back.
type Writer = unsafe extern "C" fn(*const u32, usize, *const u32, usize, *mut u32, usize, *mut u32, usize) -> u32;

fn write(function: Writer, words: &[u32], image: &[u32], out: &mut [u32]) -> Answer {
    let mut answer = [0; 6];
    // SAFETY: as for `read`.
    unsafe {
        function(
            words.as_ptr(),
            words.len(),
            image.as_ptr(),
            image.len(),
            out.as_mut_ptr(),
            out.len(),
            answer.as_mut_ptr(),
            answer.len(),
        )
    };
    answer
}

/// The verdict, and the start and the length of the scene's words in the book.
fn find_scene(book: &[u32], number: u32) -> (u32, [u32; 2]) {
    let mut place = [0; 2];
    // SAFETY: as for `read`.
    let verdict = unsafe { xp10_find_scene(book.as_ptr(), book.len(), number, place.as_mut_ptr(), place.len()) };
    (verdict, place)
}

/// The verdict, and the words written.
fn write_book(table: &[u32], words: &[u32], book: &mut [u32]) -> [u32; 2] {
    let mut answer = [0; 2];
    // SAFETY: as for `read`.
    unsafe {
        xp10_write_book(
            table.as_ptr(),
            table.len(),
            words.as_ptr(),
            words.len(),
            book.as_mut_ptr(),
            book.len(),
            answer.as_mut_ptr(),
            answer.len(),
        )
    };
    answer
}

fn print_answer(name: &str, answer: Answer) {
    let [verdict, position, commands, records, words, bit] = answer;
    println!(
        "{name}: verdict {verdict} at {position}, commands {commands}, records {records}, words {words}, bit {bit}"
    );
}

fn print_records(records: &[u32]) {
    for record in records.chunks(4) {
        println!("{} {:02x} {} {:06x}", record[1], record[0], record[2], record[3]);
    }
}

/// Reads the lists of a table of starts and lengths in turn.
fn print_scenes(name: &str, words: &[u32], table: &[u32]) {
    let (mut image, mut records) = ([0; 256], [0; 64]);
    let (answer, lists) = read_scenes(words, table, &mut image, &mut records);
    print_answer(name, answer);
    println!("lists applied {lists}, image word 02 is {:06x}", image[0x02]);
    print_records(&records[..answer[4] as usize]);
}

/// Asks for the room that the normal form takes, and lends so much, and then one word less.
fn print_form(list: &[u32], start: &[u32]) {
    let told = measure(list, start);
    print_answer("measure", told);
    let mut out = vec![0; told[4] as usize];
    print_answer("normalise", normalise(list, start, &mut out, NO_SWAP));
    for word in &out {
        println!("{word:08x}");
    }
    if let Some((_, less)) = out.split_last_mut() {
        print_answer("one word less", normalise(list, start, less, NO_SWAP));
    }
}

/// Reads and normalises a list from a host of the other byte order, and then in a mode over 3.
fn print_other_order(list: &[u32]) {
    let (mut image, mut words) = ([0; 256], [0; 64]);
    let answer = read(list, &mut image, &mut words, FULL_SWAP);
    print_answer("the other byte order", answer);
    print_records(&words[..answer[4] as usize]);
    println!("image word 02 is {:06x}", image[0x02]);

    let answer = normalise(list, &[0; 256], &mut words, FULL_SWAP);
    print_answer("its form", answer);
    for word in &words[..answer[4] as usize] {
        println!("{word:08x}");
    }

    print_answer("no such mode", read(list, &mut image, &mut words, FULL_SWAP + 1));
}

/// Reads a scene where it is in its book.
fn print_scene(book: &[u32], number: u32) {
    let (verdict, [start, length]) = find_scene(book, number);
    println!("scene {number}: verdict {verdict}, start {start}, length {length}");
    if verdict != 0 {
        return;
    }
    let (mut image, mut records) = ([0; 256], [0; 64]);
    let list = &book[start as usize..][..length as usize];
    let answer = read(list, &mut image, &mut records, NO_SWAP);
    print_answer("its list", answer);
    print_records(&records[..answer[4] as usize]);
}

/// Writes a book of two scenes of a word buffer, in just its room and in one word less, and asks it for scenes.
fn print_book(words: &[u32]) {
    let table = [2, 0, 3, 7, 3, 2];
    let mut book = [0; 12];
    let [verdict, written] = write_book(&table, words, &mut book[..11]);
    println!("a book in one word less: verdict {verdict}, words {written}");
    let [verdict, written] = write_book(&table, words, &mut book);
    println!("a book: verdict {verdict}, words {written}");
    for word in &book[..written as usize] {
        println!("{word:08x}");
    }
    print_scene(&book, 7);
    print_scene(&book, 3);
    print_scene(&book[..11], 7);
}

fn main() {
    let list = [0x02000010, 0x00000300, 0x48000000, 0, 0, 0, 0x21000100, 0x10100007, 0, 0, 0];
    let start = [0; 256];
    let mut image = start;
    let mut records = [0; 44];
    let mut pairs = [0; 22];
    let mut back = [0; 11];

    let answer = read(&list, &mut image, &mut records, NO_SWAP);
    print_answer("read", answer);
    print_records(&records[..answer[4] as usize]);
    println!("image word 02 is {:06x}", image[0x02]);

    print_form(&list, &start);
    print_form(&[0x02000010, 0x02000020, 0x00000001, 0x02000020], &start);

    let answer = write(xp10_to_pci, &list, &start, &mut pairs);
    print_answer("to_pci", answer);
    for pair in pairs[..answer[4] as usize].chunks(2) {
        println!("{:04x} {:08x}", pair[0], pair[1]);
    }

    print_answer("from_pci", write(xp10_from_pci, &pairs, &start, &mut back));
    println!("{}", if back == list { "the same list" } else { "another list" });

    pairs[7] += 4;
    print_answer("one value changed", write(xp10_from_pci, &pairs, &start, &mut back));
    pairs[6] += 4;
    print_answer("and its address", write(xp10_from_pci, &pairs, &start, &mut back));

    print_answer("undefined bit", read(&[0x01000002], &mut image, &mut records, NO_SWAP));
    print_answer("page maximum", read(&[0x84000000, 0x10000000, 0xC0000000, 0], &mut image, &mut records, NO_SWAP));

    let scenes = [0x02000010, 0x00000001, 0x21000000, 0x00000002, 0x02000020, 0x03000000];
    print_scenes("two lists", &scenes, &[0, 3, 3, 2]);
    print_scenes("the third is refused", &scenes, &[0, 3, 3, 1, 4, 2]);
    print_scenes("the second is outside", &scenes, &[0, 3, 4, 3]);

    print_other_order(&[0x10000002, 0x20000002, 0x01000000, 0x20000002]);

    print_book(&scenes);
}
