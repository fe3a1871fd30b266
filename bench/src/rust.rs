//! The reader and the normaliser in safe Rust, written for speed: what the proved library is timed against. They are
//! generic over the mode: a word is swapped where it is taken from the list.

#![forbid(unsafe_code)]

pub const LIMIT: usize = 4096;
pub const IMAGE: usize = 256;
const HEADER: u32 = 0x00FF_FFFF;
const ANY: u32 = 0xFFFF_FFFF;

/// What a command leaves.
#[derive(Clone, Copy, PartialEq, Eq)]
pub enum Kind {
    /// No such command.
    Unknown,
    /// Its words in the image: the setting of this number, in rising id.
    Setting(u8),
    /// A record.
    Work,
    /// A record, and its header in the image.
    Kept,
    /// A record, and its header in image word 08.
    Begin,
}

/// A row of the table of commands.
#[derive(Clone, Copy)]
pub struct Row {
    pub masks: [u32; 4],
    pub size: u8,
    pub kind: Kind,
}

const fn one(header: u32, kind: Kind) -> Row {
    Row { masks: [header, 0, 0, 0], size: 1, kind }
}

const fn four(masks: [u32; 4], kind: Kind) -> Row {
    Row { masks, size: 4, kind }
}

pub const LOAD: u8 = 0x40;
pub const PRIMITIVE: u8 = 0x48;
pub const WINDOW_CLIP: u8 = 0x84;
pub const RASTER_MODE: u8 = 0x88;

/// The row of each id.
pub static ROWS: [Row; 256] = rows();

const fn rows() -> [Row; 256] {
    let mut rows = [one(0, Kind::Unknown); 256];
    rows[0x00] = one(0xFFFFFF, Kind::Work);
    rows[0x01] = one(0x000714, Kind::Work);
    rows[0x02] = one(0xFFFFFF, Kind::Setting(0));
    rows[0x05] = one(0xFFFFFF, Kind::Kept);
    let begin = four([0xFFFFFF, 0x803F_FFFF, 0x0FFF_FFFF, 0], Kind::Begin);
    rows[0x08] = begin;
    rows[0x0C] = begin;
    rows[0x10] = begin;
    rows[0x14] = begin;
    let (control, base) = (one(0x00000F, Kind::Kept), one(0xFFFFFF, Kind::Kept));
    rows[0x20] = control;
    rows[0x21] = base;
    rows[0x22] = control;
    rows[0x23] = base;
    rows[0x24] = control;
    rows[0x25] = base;
    rows[0x26] = one(0x8F8F8F, Kind::Setting(1));
    rows[0x30] = one(0xFFFFFF, Kind::Setting(2));
    rows[0x31] = one(0xFFFFFF, Kind::Setting(3));
    rows[0x40] = four([0xF7FDFF, ANY, ANY, ANY], Kind::Work);
    rows[0x48] = four([0xFFFFFF, ANY, ANY, ANY], Kind::Work);
    rows[0x84] = four([0xFFFFFF, 0x3FFF_0FFF, ANY, ANY], Kind::Setting(4));
    rows[0x88] = four([0xE7FFFF, 0x00FF_FFFF, 0x003F_FFFF, 0x00FF_FFFF], Kind::Setting(5));
    rows[0x8C] = four([0xFFFFFF, ANY, ANY, ANY], Kind::Setting(6));
    rows[0x90] = four([0xFFFFFF, 0x00FF_FFFF, 0x0FFF_0FFF, 0x0FFF_0FFF], Kind::Setting(7));
    rows[0xC4] = four([0x000000, ANY, ANY, ANY], Kind::Setting(8));
    rows
}

/// The id and size in words of each setting.
static SETTINGS: [(usize, usize); 9] =
    [(0x02, 1), (0x26, 1), (0x30, 1), (0x31, 1), (0x84, 4), (0x88, 4), (0x8C, 4), (0x90, 4), (0xC4, 4)];

/// A list's word as it is got in a mode.
#[inline(always)]
pub fn got<const MODE: u32>(word: u32) -> u32 {
    match MODE {
        0 => word,
        1 => (word & 0x00FF_00FF) << 8 | word >> 8 & 0x00FF_00FF,
        2 => word.rotate_left(16),
        _ => word.swap_bytes(),
    }
}

/// The bit of every verdict but 6.
pub const NO_BIT: u32 = 32;

/// A verdict above 0.
pub struct Refusal {
    verdict: u32,
    position: usize,
    bit: u32,
}

impl Refusal {
    /// Any but 6.
    pub fn new(verdict: u32, position: usize) -> Self {
        Refusal { verdict, position, bit: NO_BIT }
    }
}

/// What a list was found to hold.
pub struct Counts {
    pub commands: u32,
    pub records: u32,
}

/// 6: the lowest word with an undefined bit set, and its lowest such bit.
#[cold]
fn undefined(words: [u32; 4], masks: &[u32; 4], at: usize) -> Refusal {
    let outside = |i: usize| words[i] & !masks[i];
    let word = (0..4).find(|&i| outside(i) != 0).unwrap_or(0);
    Refusal { verdict: 6, position: at + word, bit: outside(word).trailing_zeros() }
}

#[inline(always)]
pub fn check_load(words: [u32; 4], at: usize) -> Result<(), Refusal> {
    let code = words[0] >> 20 & 7;
    let zero = match code {
        0 | 5 => [true, true, true],
        1 => [true, false, false],
        2 => [false, false, false],
        _ => return Err(Refusal::new(7, at)),
    };
    if let Some(i) = (0..3).find(|&i| zero[i] && words[i + 1] != 0) {
        return Err(Refusal::new(7, at + i + 1));
    }
    let floats = words[0] >> 23 & 1 != 0;
    let planes = (words[0] >> 10 & 511) + (words[0] & 511);
    if code != 5 && floats {
        return Err(Refusal::new(18, at));
    }
    if code == 5 && planes > 8 {
        return Err(Refusal::new(19, at));
    }
    Ok(())
}

fn check_primitive(words: [u32; 4], at: usize) -> Result<(), Refusal> {
    match words.iter().position(|&w| w != 0) {
        Some(i) => Err(Refusal::new(7, at + i)),
        None => Ok(()),
    }
}

#[inline(always)]
pub fn check_window_clip(words: [u32; 4], at: usize) -> Result<(), Refusal> {
    let limit = match words[1] >> 28 & 3 {
        0 => 15,
        1 => 11,
        2 => 6,
        _ => return Err(Refusal::new(7, at + 1)),
    };
    let (max, min) = (words[2] >> 28, words[2] >> 12 & 15);
    if max > limit {
        return Err(Refusal::new(15, at));
    }
    if min > max {
        return Err(Refusal::new(16, at));
    }
    Ok(())
}

#[inline(always)]
pub fn check_raster_mode(words: [u32; 4], at: usize) -> Result<(), Refusal> {
    if words[0] & (1 << 22 | 1 << 14) == 1 << 14 {
        return Err(Refusal::new(17, at));
    }
    Ok(())
}

pub fn split(first: u32) -> (u8, u32, &'static Row) {
    let id = (first >> 24) as u8;
    (id, first & HEADER, &ROWS[id as usize])
}

/// The size in words, with payload, of a command of four words.
pub fn group_size(id: u8, header: u32) -> usize {
    if id == LOAD {
        4 + 4 * (header & 511) as usize
    } else {
        4
    }
}

/// Checks a command of four words, and gives its size.
#[inline(always)]
fn check_group<const MODE: u32>(id: u8, header: u32, row: &Row, rest: &[u32], at: usize) -> Result<usize, Refusal> {
    let Some(&[_, second, third, fourth]) = rest.first_chunk::<4>() else {
        return Err(Refusal::new(5, at));
    };
    let words = [header, got::<MODE>(second), got::<MODE>(third), got::<MODE>(fourth)];
    let outside = |i: usize| words[i] & !row.masks[i];
    if outside(0) | outside(1) | outside(2) | outside(3) != 0 {
        return Err(undefined(words, &row.masks, at));
    }
    match id {
        LOAD => check_load(words, at)?,
        PRIMITIVE => check_primitive(words, at)?,
        WINDOW_CLIP => check_window_clip(words, at)?,
        RASTER_MODE => check_raster_mode(words, at)?,
        _ => {}
    }
    let size = group_size(id, header);
    if rest.len() < size {
        return Err(Refusal::new(9, at));
    }
    Ok(size)
}

/// What is made of the commands of a list while they are checked.
trait Pass {
    fn command(&mut self, list: &[u32], at: usize, size: usize, kind: Kind);
}

/// Nothing.
impl Pass for () {
    #[inline(always)]
    fn command(&mut self, _: &[u32], _: usize, _: usize, _: Kind) {}
}

/// Checks a list. Gives the start of the first command that fails.
#[inline(always)]
fn check<const MODE: u32>(list: &[u32], pass: &mut impl Pass) -> Result<Counts, usize> {
    let mut counts = Counts { commands: 0, records: 0 };
    let mut at = 0;
    let mut flip = false;
    while at < list.len() {
        let rest = &list[at..];
        let (id, header, row) = split(got::<MODE>(rest[0]));
        let size = if row.size == 4 {
            check_group::<MODE>(id, header, row, rest, at).map_err(|_| at)?
        } else if row.kind == Kind::Unknown || header & !row.masks[0] != 0 {
            return Err(at);
        } else {
            1
        };
        if flip && row.kind != Kind::Begin {
            return Err(at);
        }
        flip = matches!(id, 0x21 | 0x23 | 0x25);
        counts.commands += 1;
        counts.records += !matches!(row.kind, Kind::Setting(_)) as u32;
        pass.command(list, at, size, row.kind);
        at += size;
    }
    Ok(counts)
}

/// The refusal of the command that these words start with, once it was found to fail.
#[cold]
pub fn refused<const MODE: u32>(words: &[u32], at: usize) -> Refusal {
    let (id, header, row) = split(got::<MODE>(words[0]));
    if row.kind == Kind::Unknown {
        return Refusal::new(if matches!(id, 3 | 4) { 4 } else { 3 }, at);
    }
    if row.size == 1 && header & !row.masks[0] != 0 {
        return undefined([header, 0, 0, 0], &row.masks, at);
    }
    if row.size == 4 {
        if let Err(refusal) = check_group::<MODE>(id, header, row, words, at) {
            return refusal;
        }
    }
    Refusal::new(10, at)
}

/// Writes as many of the six numbers as the buffer has room for, and gives the verdict.
pub fn give(answer: &mut [u32], numbers: [u32; 6]) -> u32 {
    for (slot, number) in answer.iter_mut().zip(numbers) {
        *slot = number;
    }
    numbers[0]
}

pub fn refuse(answer: &mut [u32], refusal: Refusal) -> u32 {
    give(answer, [refusal.verdict, refusal.position as u32, 0, 0, 0, refusal.bit])
}

fn check_sizes(list: &[u32], image: &[u32]) -> Result<(), Refusal> {
    if list.len() > LIMIT {
        return Err(Refusal::new(1, LIMIT));
    }
    if image.len() != IMAGE {
        return Err(Refusal::new(2, 0));
    }
    Ok(())
}

fn check_all<const MODE: u32>(list: &[u32], image: &[u32]) -> Result<Counts, Refusal> {
    check_sizes(list, image)?;
    check::<MODE>(list, &mut ()).map_err(|at| refused::<MODE>(&list[at..], at))
}

/// Copies words of a list.
#[inline(always)]
fn copy<const MODE: u32>(to: &mut [u32], words: &[u32]) {
    if MODE == 0 {
        return to.copy_from_slice(words);
    }
    for (to, &word) in to.iter_mut().zip(words) {
        *to = got::<MODE>(word);
    }
}

/// Applies an accepted list.
fn apply<const MODE: u32>(list: &[u32], image: &mut [u32; IMAGE], records: &mut [u32]) {
    let mut records = records.chunks_exact_mut(4);
    let mut at = 0;
    while at < list.len() {
        let (id, header, row) = split(got::<MODE>(list[at]));
        let i = id as usize;
        if let Kind::Setting(_) = row.kind {
            image[i] = header;
            if row.size == 4 {
                copy::<MODE>(&mut image[i + 1..i + 4], &list[at + 1..at + 4]);
                at += 4;
            } else {
                at += 1;
            }
            continue;
        }
        let size = if row.size == 4 { group_size(id, header) } else { 1 };
        if let Some(record) = records.next() {
            record.copy_from_slice(&[id as u32, at as u32, size as u32, header]);
        }
        match row.kind {
            Kind::Kept => image[i] = header,
            Kind::Begin => image[8] = header,
            _ => {}
        }
        at += size;
    }
}

/// 21.
#[cold]
fn no_such_mode(answer: &mut [u32]) -> u32 {
    refuse(answer, Refusal::new(21, 0))
}

#[inline(never)]
pub fn read(list: &[u32], image: &mut [u32], records: &mut [u32], answer: &mut [u32], mode: u32) -> u32 {
    match mode {
        0 => read_in::<0>(list, image, records, answer),
        1 => read_in::<1>(list, image, records, answer),
        2 => read_in::<2>(list, image, records, answer),
        3 => read_in::<3>(list, image, records, answer),
        _ => no_such_mode(answer),
    }
}

fn read_in<const MODE: u32>(list: &[u32], image: &mut [u32], records: &mut [u32], answer: &mut [u32]) -> u32 {
    let counts = match check_all::<MODE>(list, image) {
        Ok(counts) => counts,
        Err(refusal) => return refuse(answer, refusal),
    };
    let words = 4 * counts.records;
    if records.len() < words as usize {
        return refuse(answer, Refusal::new(11, list.len()));
    }
    if let Ok(image) = image.try_into() {
        apply::<MODE>(list, image, records);
    }
    give(answer, [0, list.len() as u32, counts.commands, counts.records, words, NO_BIT])
}

/// Where the words of a form go.
trait Sink {
    fn put<const MODE: u32>(&mut self, words: &[u32]);
}

/// Counts them.
struct Count(usize);

impl Sink for Count {
    #[inline(always)]
    fn put<const MODE: u32>(&mut self, words: &[u32]) {
        self.0 += words.len();
    }
}

/// Writes them.
struct Write<'a> {
    out: &'a mut [u32],
    len: usize,
}

impl Sink for Write<'_> {
    #[inline(always)]
    fn put<const MODE: u32>(&mut self, words: &[u32]) {
        let end = self.len + words.len();
        copy::<MODE>(&mut self.out[self.len..end], words);
        self.len = end;
    }
}

/// The settings of a list and of the form built so far.
struct Settings {
    /// The words that the form has left for each setting.
    built: [[u32; 4]; 9],
    /// Where the list last set each.
    latest: [usize; 9],
    /// The settings set since the last item of work, a bit for each.
    changed: u32,
}

impl Settings {
    fn new(image: &[u32; IMAGE]) -> Self {
        let mut built = [[0; 4]; 9];
        for (words, &(id, size)) in built.iter_mut().zip(&SETTINGS) {
            words[..size].copy_from_slice(&image[id..id + size]);
        }
        Settings { built, latest: [0; 9], changed: 0 }
    }

    #[inline(always)]
    fn set(&mut self, which: u8, at: usize) {
        self.latest[which as usize] = at;
        self.changed |= 1 << which;
    }

    /// Puts each setting that differs from what the form has left.
    #[inline(always)]
    fn flush<const MODE: u32>(&mut self, list: &[u32], sink: &mut impl Sink) {
        while self.changed != 0 {
            let i = self.changed.trailing_zeros() as usize;
            self.changed &= self.changed - 1;
            let (at, built) = (self.latest[i], &mut self.built[i]);
            if i < 4 {
                let header = got::<MODE>(list[at]) & HEADER;
                if built[0] != header {
                    built[0] = header;
                    sink.put::<MODE>(&list[at..at + 1]);
                }
            } else {
                let words = &list[at..at + 4];
                let [first, second, third, fourth] = [0, 1, 2, 3].map(|i| got::<MODE>(words[i]));
                let now = [first & HEADER, second, third, fourth];
                if *built != now {
                    *built = now;
                    sink.put::<MODE>(words);
                }
            }
        }
    }
}

/// The normal form of an accepted list.
#[inline(always)]
fn form<const MODE: u32>(list: &[u32], image: &[u32; IMAGE], sink: &mut impl Sink) {
    let mut settings = Settings::new(image);
    let mut at = 0;
    while at < list.len() {
        let (id, header, row) = split(got::<MODE>(list[at]));
        if let Kind::Setting(which) = row.kind {
            settings.set(which, at);
            at += row.size as usize;
        } else {
            let size = if row.size == 4 { group_size(id, header) } else { 1 };
            settings.flush::<MODE>(list, sink);
            sink.put::<MODE>(&list[at..at + size]);
            at += size;
        }
    }
    settings.flush::<MODE>(list, sink);
}

#[inline(never)]
pub fn normalise(list: &[u32], image: &[u32], out: &mut [u32], answer: &mut [u32], mode: u32) -> u32 {
    match mode {
        0 => normalise_in::<0>(list, image, out, answer),
        1 => normalise_in::<1>(list, image, out, answer),
        2 => normalise_in::<2>(list, image, out, answer),
        3 => normalise_in::<3>(list, image, out, answer),
        _ => no_such_mode(answer),
    }
}

fn normalise_in<const MODE: u32>(list: &[u32], image: &[u32], out: &mut [u32], answer: &mut [u32]) -> u32 {
    let counts = match check_all::<MODE>(list, image) {
        Ok(counts) => counts,
        Err(refusal) => return refuse(answer, refusal),
    };
    let Ok(image) = image.try_into() else {
        return refuse(answer, Refusal::new(2, 0));
    };
    // A form is never longer than its list.
    if out.len() < list.len() {
        let mut count = Count(0);
        form::<MODE>(list, image, &mut count);
        if out.len() < count.0 {
            return refuse(answer, Refusal::new(11, list.len()));
        }
    }
    let mut write = Write { out, len: 0 };
    form::<MODE>(list, image, &mut write);
    let words = write.len as u32;
    give(answer, [0, list.len() as u32, counts.commands, counts.records, words, NO_BIT])
}

/// The length of a form, counted while its list is checked.
struct Measured {
    settings: Settings,
    words: Count,
}

impl Pass for Measured {
    #[inline(always)]
    fn command(&mut self, list: &[u32], at: usize, size: usize, kind: Kind) {
        if let Kind::Setting(which) = kind {
            self.settings.set(which, at);
        } else {
            self.settings.flush::<0>(list, &mut self.words);
            self.words.0 += size;
        }
    }
}

/// Checks a list and counts its form in one pass.
fn measure_all(list: &[u32], image: &[u32]) -> Result<(Counts, usize), Refusal> {
    check_sizes(list, image)?;
    let image = image.try_into().map_err(|_| Refusal::new(2, 0))?;
    let mut measured = Measured { settings: Settings::new(image), words: Count(0) };
    let counts = check::<0>(list, &mut measured).map_err(|at| refused::<0>(&list[at..], at))?;
    measured.settings.flush::<0>(list, &mut measured.words);
    Ok((counts, measured.words.0))
}

#[inline(never)]
pub fn measure(list: &[u32], image: &[u32], answer: &mut [u32]) -> u32 {
    match measure_all(list, image) {
        Ok((counts, words)) => {
            give(answer, [0, list.len() as u32, counts.commands, counts.records, words as u32, NO_BIT])
        }
        Err(refusal) => refuse(answer, refusal),
    }
}
