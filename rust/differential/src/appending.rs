//! Commits appended to logs: tails, headers and frames, from inputs as they should be and off in a place; what is written is read back by the library.

use plain::MAX_PAGES;
use world::reader::{Plain, Reader};
use world::rng::Rng;
use world::torn::{resum, Torn};
use world::PAGE_SIZES;

use crate::hold::{same, same_bytes, Held, Hold};
use crate::proved::Proved;
use crate::sides;

const WORDS: usize = 8;
const HEADER: usize = 32;
const FRAME_HEADER: usize = 24;
const MOST: u32 = MAX_PAGES as u32;

/// What a commit with refusal 51 is off in; each has to be met by itself. 0: in more than one place.
pub const OFF: std::ops::RangeInclusive<u32> = 0..=6;

/// What is given to be appended.
#[derive(Clone)]
struct Commit {
    tail: Vec<u32>,
    numbers: Vec<u32>,
    pages: Vec<u8>,
    n: u32,
}

impl Commit {
    fn page_size(&self) -> usize {
        self.tail.first().map_or(0, |&size| size as usize)
    }

    /// The bytes of its frames, where that is a number to be tried.
    fn length(&self) -> usize {
        self.numbers.len() * (FRAME_HEADER + self.page_size().min(1 << 16))
    }

    fn off(&self) -> Option<u32> {
        let (size, lock) = (self.page_size(), plain::lock_page(self.page_size().max(1)));
        let any = |off: &dyn Fn(u32) -> bool| self.numbers.iter().any(|&number| off(number));
        let grounds = [
            self.numbers.is_empty(),
            self.n == 0,
            any(&|number| number == 0),
            any(&|number| number > self.n && self.n != 0),
            any(&|number| number as usize == lock),
            self.numbers.len() * size != self.pages.len(),
        ];
        let held: Vec<u32> = (1..).zip(grounds).filter(|(_, off)| *off).map(|(ground, _)| ground).collect();
        match held[..] {
            [] => None,
            [one] => Some(one),
            _ => Some(0),
        }
    }

    /// Appends it into so much room.
    fn held(&self, hold: &mut Hold, room: usize) -> Result<Option<Written>, String> {
        let (refusal, written) = hold.log_append(&self.tail, &self.numbers, &self.pages, self.n, room)?;
        if refusal == 51 {
            let off = self.off().ok_or("51, and nothing is off")?;
            *hold.met.entry(("log_append, what 51 is off in", off)).or_default() += 1;
        }
        Ok(written)
    }
}

/// The tail behind a commit, where the commit belongs, and its bytes.
pub struct Written {
    pub tail: Vec<u32>,
    pub at: u64,
    pub bytes: Vec<u8>,
}

/// What a log and an image show.
fn shown(log: &[u8], image: &[u8]) -> Result<Vec<u8>, u32> {
    let mut out = vec![0; 2 * (log.len() + image.len()) + 65536];
    let answer = Proved.log_recover(log, image, &mut out);
    out.truncate(answer.length as usize);
    if answer.refusal == 0 {
        Ok(out)
    } else {
        Err(answer.refusal)
    }
}

/// What was appended to a log is read back: the tail is that of the log with the frames behind it; cut, they change neither tail nor what is shown.
fn read_back(log: &[u8], image: &[u8], commit: &Commit, written: &Written, rng: &mut Rng) -> Held {
    let base = &log[..written.at as usize];
    let whole = [base, &written.bytes].concat();
    let mut tail = vec![7; WORDS];
    same("the tail behind it", (Proved.log_tail(&whole, &mut tail).refusal, &tail[..]), (0, &written.tail[..WORDS]))?;
    let cut = match rng.below(3) {
        0 => rng.below(written.bytes.len()),
        _ => rng.below(commit.numbers.len()) * (FRAME_HEADER + commit.page_size()) + *rng.pick(&[0, 1, FRAME_HEADER]),
    };
    let torn = &whole[..base.len() + cut];
    same("the tail of it cut", (Proved.log_tail(torn, &mut tail).refusal, &tail[..]), (0, &commit.tail[..WORDS]))?;
    if commit.n as usize * commit.page_size() > 8 << 20 {
        return Ok(());
    }
    let old = shown(log, image);
    same("what is shown with it cut", shown(torn, image) == old, true)?;
    for (i, &number) in commit.numbers.iter().enumerate() {
        if !commit.numbers[i + 1..].contains(&number) {
            let part = Proved.log_page(&whole, image, number);
            let page = &whole[part.start as usize..][..part.length as usize];
            same(&format!("page {number} is from the log"), (part.refusal, part.from_log), (0, 1))?;
            same_bytes(&format!("page {number}"), page, &commit.pages[i * page.len()..][..page.len()])?;
        }
    }
    Ok(())
}

/// A log as it is, in both orders of bytes: its tail in few words, just enough and more; cut; its own commits written again; and every refusal of a tail.
pub fn exact(torn: &Torn, heap: bool, hold: &mut Hold) -> Held {
    let mut turned = torn.side.clone();
    resum(&mut turned, torn.side.get(3).is_some_and(|last| last & 1 == 0));
    for log in [&torn.side, &turned] {
        for room in [0, WORDS - 1, WORDS, WORDS + 3] {
            hold.log_tail(log, room)?;
        }
        let unit = FRAME_HEADER + Plain.log_inspect(log).page_size as usize;
        let borders = (HEADER..log.len()).step_by(unit).flat_map(|border| [border - 1, border, border + 1, border + FRAME_HEADER]);
        for cut in (0..HEADER).chain(borders.take(if heap { 8 } else { 80 })).filter(|&cut| cut <= log.len()) {
            hold.log_tail(&log[..cut], WORDS)?;
        }
        again(log, hold)?;
    }
    Ok(())
}

/// The commits in force, written again: they are the log's own frames.
fn again(log: &[u8], hold: &mut Hold) -> Held {
    let told = Plain.log_inspect(log);
    let unit = FRAME_HEADER + told.page_size as usize;
    let be32 = |bytes: &[u8], at: usize| u32::from_be_bytes(bytes[at..at + 4].try_into().expect("four bytes"));
    if told.in_force == 0 {
        return Ok(());
    }
    let mut tail = hold.log_tail(&log[..HEADER], WORDS)?.ok_or("a header is a log")?;
    let mut start = HEADER;
    let (mut numbers, mut pages) = (Vec::new(), Vec::new());
    for frame in log[HEADER..].chunks_exact(unit).take(told.in_force as usize) {
        numbers.push(be32(frame, 0));
        pages.extend(&frame[FRAME_HEADER..]);
        let n = be32(frame, 4);
        if n != 0 && n <= MOST && numbers.iter().all(|&number| number <= n) {
            let commit = Commit { tail, numbers: std::mem::take(&mut numbers), pages: std::mem::take(&mut pages), n };
            let written = commit.held(hold, commit.length())?.ok_or("a commit of its own")?;
            same("where it belongs", written.at as usize, start)?;
            same_bytes("its own frames", &written.bytes, &log[start..start + written.bytes.len()])?;
            start += written.bytes.len();
            tail = written.tail;
        } else if n != 0 {
            return Ok(());
        }
    }
    Ok(())
}

/// A tail of a log of pages of `size`, without the log.
fn tail(size: u32, frames: u32) -> Vec<u32> {
    vec![size, 0, 0x1234_5678, 0x9abc_def0, 3, !0, frames, 9]
}

/// Inputs made by hand: each refusal, each of its grounds, and their order. Each comes with its refusal and the room for it.
fn made_by_hand() -> Vec<(String, u32, usize, Commit)> {
    const FULL: u32 = u32::MAX;
    let given = |tail: Vec<u32>, numbers: &[u32], length: usize, n: u32| Commit {
        tail,
        numbers: numbers.to_vec(),
        pages: (0..length).map(|at| (at / 7 + at / 512) as u8).collect(),
        n,
    };
    let with = |at: usize, word: u32, frames: u32| {
        let mut tail = tail(512, frames);
        tail[at] = word;
        tail
    };
    let mut made = Vec::new();
    let mut add = |what: &str, refusal: u32, room: usize, commit: Commit| made.push((what.to_owned(), refusal, room, commit));
    for words in [0, 1, 6, 7] {
        add("few words before all", 44, 0, given([513, 2, 0, 0, 0, 0, FULL][..words.min(7)].to_vec(), &[], 0, FULL));
        add("few words", 44, 600, given(tail(512, 0)[..words].to_vec(), &[1], 512, 1));
    }
    for size in [0, 1, 256, 511, 513, 768, 65535, 65537, 131_072, 1 << 31, FULL] {
        add("a page size that is none, before 42, 51, 47, 44", 41, 0, given(with(0, size, FULL), &[], 0, MOST + 1));
        add("a page size that is none", 41, 600, given(with(0, size, 0), &[1], 512, 1));
    }
    for order in [2, 3, 256, 0x377f_0682, FULL] {
        add("an order that is none, before 42, 51, 47, 44", 41, 0, given(with(1, order, FULL), &[], 0, MOST + 1));
        add("an order that is none", 41, 600, given(with(1, order, 0), &[1], 512, 1));
    }
    for n in [MOST + 1, FULL] {
        add("n over the limit, before 51, 47, 44", 42, 0, given(tail(512, FULL), &[], 1, n));
        add("n over the limit", 42, 600, given(tail(512, 0), &[1], 512, n));
    }
    for (what, numbers, length, n) in [
        ("an empty list", &[][..], 0, 1),
        ("an empty list with a page's bytes", &[], 512, 1),
        ("n is 0", &[1], 512, 0),
        ("n and a number are 0", &[0], 512, 0),
        ("the first number is 0", &[0, 1], 1024, 2),
        ("the last number is 0", &[1, 2, 0], 1536, 2),
        ("the first number is above n", &[3, 1], 1024, 2),
        ("the last number is above n", &[1, 3], 1024, 2),
        ("the largest number", &[FULL], 512, MOST),
        ("the lock-byte page", &[2_097_153], 512, MOST),
        ("the lock-byte page last", &[1, 2_097_153], 1024, MOST),
        ("a byte too few", &[1, 2], 1023, 2),
        ("a byte too many", &[1, 2], 1025, 2),
        ("a page too few", &[1, 2], 512, 2),
        ("a page too many", &[1], 1024, 2),
        ("no bytes", &[1], 0, 1),
        ("bytes of larger pages", &[1], 1024, 1),
    ] {
        add(&format!("{what}, before 47, 44"), 51, 0, given(tail(512, FULL), numbers, length, n));
        add(what, 51, 5000, given(tail(512, 0), numbers, length, n));
    }
    add("a frame too many, before 44", 47, 0, given(tail(512, FULL), &[1], 512, 1));
    add("a frame too many", 47, 600, given(tail(512, FULL), &[1], 512, 1));
    add("the second is a frame too many", 47, 2000, given(tail(512, FULL - 1), &[1, 1], 1024, 1));
    add("as many frames as there can be", 0, 2000, given(tail(512, FULL - 2), &[1, 1], 1024, 1));
    add("no room", 44, 0, given(tail(512, 0), &[1], 512, 1));
    add("a byte too little", 44, 2 * 536 - 1, given(tail(512, 0), &[1, 2], 1024, 2));
    add("just enough", 0, 2 * 536, given(tail(512, 0), &[1, 2], 1024, 2));
    add("the most pages", 0, 2000, given(tail(512, 7), &[MOST, 2_097_152, 2_097_154], 1536, MOST));
    add("more words", 0, 600, given([tail(512, 1), vec![5, 6, 7]].concat(), &[1], 512, 1));
    add("past 2^48", 0, 70_000, given(tail(65536, FULL - 1), &[16384], 65536, 16384));
    add("the lock-byte page of 65,536", 51, 70_000, given(tail(65536, 1), &[16385], 65536, 20000));
    add("a page twice", 0, 4000, given(tail(1024, 3), &[2, 2, 2], 3072, 5));
    made
}

/// Inputs made by hand, and headers of every page size.
pub fn by_hand(hold: &mut Hold) -> Held {
    for (what, refusal, room, commit) in made_by_hand() {
        let told = Plain.log_append(&mut commit.tail.clone(), &commit.numbers, &commit.pages, commit.n, &mut vec![0; room]);
        same(&format!("{what}: the refusal"), told.refusal, refusal)?;
        commit.held(hold, room).map_err(|difference| format!("{what}: {difference}"))?;
    }
    let none = [0, 1, 256, 511, 513, 768, 1000, 65535, 65537, 131_072, 1 << 31, u32::MAX];
    for size in PAGE_SIZES.iter().map(|&size| size as u32).chain(none) {
        for words in [0, WORDS - 1, WORDS, WORDS + 2] {
            for room in [0, HEADER - 1, HEADER, HEADER + 9] {
                hold.log_begin(size, 0x0102_0304, [0x8765_4321, u32::MAX], words, room)?;
            }
        }
    }
    Ok(())
}

/// A log, mostly damaged: its tail; a commit behind it, or behind any tail, as it should be or off in a place, into any room; read back.
pub fn case(torn: &Torn, hold: &mut Hold, rng: &mut Rng) -> Held {
    let (log, image) = sides::damaged(torn, rng);
    let words = match rng.below(8) {
        0 => rng.below(WORDS),
        1 => WORDS + rng.below(5),
        _ => WORDS,
    };
    let own = hold.log_tail(&log, words)?;
    let mut tail = own.clone().unwrap_or_else(|| {
        let size = *rng.pick(&PAGE_SIZES[..4]) as u32;
        let any = [(); 5].map(|()| rng.word() as u32);
        vec![size, rng.below(2) as u32, any[0], any[1], any[2], any[3], any[4] >> rng.below(32), rng.below(50) as u32]
    });
    match rng.below(16) {
        0 => tail[0] = *rng.pick(&[0, 256, 511, 513, 768, 65537, 131_072, u32::MAX]),
        1 => tail[1] = rng.word() as u32 >> rng.below(32),
        2 => tail[6] = *rng.pick(&[u32::MAX, u32::MAX - 1, u32::MAX - 3, 0]),
        3 => tail[2 + rng.below(6)] = rng.word() as u32,
        4 => tail.truncate(rng.below(WORDS + 1)),
        5 => tail.extend([rng.word() as u32; 2]),
        _ => {}
    }
    let size = tail.first().map_or(512, |&size| size.min(1 << 16)) as usize;
    let pages = tail.get(7).map_or(3, |&pages| pages.clamp(1, MOST));
    let mut n = match rng.below(6) {
        0 => pages + rng.below(4) as u32,
        1 => 1 + rng.below(pages as usize) as u32,
        _ => pages,
    };
    let most = if size > 8192 { 3 } else { 7 };
    let mut numbers: Vec<u32> = (0..1 + rng.below(most)).map(|_| 1 + rng.below(n.min(200_000) as usize) as u32).collect();
    if rng.below(10) == 0 {
        n = *rng.pick(&[0, 1, MOST - 1, MOST, MOST + 1, u32::MAX]);
    }
    let mut length = numbers.len() * size;
    let at = rng.below(numbers.len());
    let lock = plain::lock_page(size.max(1)) as u32;
    match rng.below(24) {
        0 => numbers[at] = *rng.pick(&[0, n.wrapping_add(1), n.wrapping_add(2), lock, lock + 1, lock - 1, u32::MAX]),
        1 => numbers.clear(),
        2 => numbers.push(1),
        3 => drop(numbers.pop()),
        4 => length = *rng.pick(&[0, length.saturating_sub(1), length + 1, length + size, length / 2]),
        5 => (numbers, length) = (Vec::new(), 0),
        _ => {}
    }
    let mut given = vec![0; length];
    let filled = rng.below(300).min(length);
    rng.fill(&mut given[..filled]);
    let commit = Commit { tail, numbers, pages: given, n };
    let length = commit.length();
    let room = match rng.below(8) {
        0 => length.saturating_sub(1),
        1 => rng.below(length + 1),
        2 => length + rng.below(200),
        _ => length,
    };
    let written = commit.held(hold, room)?;
    if let (Some(written), Some(own)) = (written, own) {
        if own[..WORDS] == commit.tail[..WORDS] {
            read_back(&log, &image, &commit, &written, rng)?;
            *hold.met.entry(("log_append, read back by its own tail", u32::from(own[6] != 0))).or_default() += 1;
        }
    }
    let salts = [rng.word() as u32, rng.word() as u32];
    let size = if rng.below(4) == 0 { rng.word() as u32 >> rng.below(32) } else { *rng.pick(&PAGE_SIZES) as u32 };
    hold.log_begin(size, rng.word() as u32, salts, *rng.pick(&[7, 8, 8, 9]), *rng.pick(&[31, 32, 32, 40]))
}
