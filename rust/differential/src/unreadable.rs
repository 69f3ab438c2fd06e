//! What the rules say is never read stands in memory that no one may touch: the lock-byte page in the verdict, pages past N, what stands behind the end of a
//! log or a journal, and a log and an image where pages are asked for by a table.
//!
//! A read there ends the program. So the cases run in one of their own, which tells each case's name before it runs.

use std::path::Path;
use std::process::Command;
use std::time::Instant;

use plain::cursor::WORDS;
use world::reader::{Plain, Reader};
use world::torn::resum;

use crate::big;
use crate::guard::{Beginning, Mapped};
use crate::hold::{pattern, same, same_bytes, Held, Ledgers};
use crate::lock_page::{Image, Shape};
use crate::proved::Proved;

/// The mode in which the program runs the cases, and nothing else.
pub const MODE: &str = "unreadable";

/// Page sizes whose pages are whole pages of the memory: at the one a chain has one page, at the other many.
const SIZES: [usize; 2] = [65536, 4096];

/// Runs the cases in a program of their own. Where that ends too early the case that it named last is told.
pub fn apart(dir: &Path) {
    let start = Instant::now();
    let program = std::env::current_exe().expect("the program's place");
    let output = Command::new(program).arg(dir).arg(MODE).output().expect("the program runs once more");
    let said = String::from_utf8_lossy(&output.stdout);
    let last = said.lines().last().unwrap_or_default();
    if !output.status.success() {
        println!("memory that no one may touch: {last}: {}", output.status);
        std::process::exit(1);
    }
    println!("memory that no one may touch: {last} ({:.1?})", start.elapsed());
}

/// The cases. Each is named before it runs.
pub fn cases() {
    let mut count = 0;
    let mut case = |name: String, held: &mut dyn FnMut() -> Held| {
        println!("{name}");
        count += 1;
        if let Err(difference) = held() {
            println!("{name}: {difference}");
            std::process::exit(1);
        }
    };
    for size in SIZES {
        for way in WAYS.iter().filter(|way| way.chained < 2 || size < 65536) {
            case(format!("the lock-byte page, {size} bytes, as {}", way.name), &mut || lock_page(way, size));
            for page in past_the_last(size) {
                case(format!("page {page}, past the last, {size} bytes, as {}", way.name), &mut || past_n(way, size, page));
            }
        }
    }
    case("accepted images".into(), &mut accepted);
    case("pages past the last asked for".into(), &mut asked);
    for (name, log, readable) in logs() {
        case(format!("a log: {name}"), &mut || held_log(&log, readable));
    }
    for (name, journal, readable) in journals() {
        case(format!("a journal: {name}"), &mut || held_journal(&journal, readable));
    }
    case("pages by a table".into(), &mut by_table);
    println!("{count} cases, no byte read");
}

/// An image that is made for one pointer: all else in it is zeros, but for what leads there.
struct File {
    mapped: Mapped,
    size: usize,
}

impl File {
    /// So many pages, which the count at 28 says, of those that are present; an empty schema and no free page.
    fn new(size: usize, pages: u32, present: u32) -> File {
        let mut file = File { mapped: Mapped::new(present as usize * size), size };
        file.put(1, 0, b"SQLite format 3\0");
        file.put(1, 16, &(size as u16).max(1).to_be_bytes());
        file.put(1, 18, &[1, 1, 0, 64, 32, 32]);
        for (at, number) in [(24, 1), (28, pages), (44, 4), (56, 1), (92, 1)] {
            file.word(1, at, number);
        }
        file.cells(1, 13, &[], 0);
        file
    }

    fn put(&mut self, page: u32, at: usize, bytes: &[u8]) {
        let from = (page as usize - 1) * self.size + at;
        self.mapped.bytes_mut()[from..from + bytes.len()].copy_from_slice(bytes);
    }

    fn word(&mut self, page: u32, at: usize, number: u32) {
        self.put(page, at, &number.to_be_bytes());
    }

    /// A tree page with these cells, one behind the other at its end; on interior pages a right child.
    fn cells(&mut self, page: u32, kind: u8, cells: &[Vec<u8>], right: u32) {
        let head = if page == 1 { 100 } else { 0 };
        let mut at = self.size - cells.iter().map(Vec::len).sum::<usize>();
        let [high, low] = (at as u16).to_be_bytes();
        self.put(page, head, &[kind, 0, 0, 0, cells.len() as u8, high, low, 0]);
        let mut pointer = head + 8;
        if kind < 10 {
            self.word(page, pointer, right);
            pointer += 4;
        }
        for cell in cells {
            self.put(page, pointer, &(at as u16).to_be_bytes());
            self.put(page, at, cell);
            (pointer, at) = (pointer + 2, at + cell.len());
        }
    }

    /// An interior page with these children; the leaves among them that are not `but` are empty.
    fn children(&mut self, page: u32, kind: u8, children: &[u32], right: u32, but: u32) {
        let cell = |(i, child): (usize, &u32)| {
            let mut cell = child.to_be_bytes().to_vec();
            // A key; or the payload of one byte that reads as a record.
            cell.extend(if kind == 5 { vec![i as u8] } else { vec![1, 1] });
            cell
        };
        let cells: Vec<Vec<u8>> = children.iter().enumerate().map(cell).collect();
        self.cells(page, kind, &cells, right);
        for &child in children.iter().chain([&right]).filter(|&&child| child != but) {
            self.cells(child, kind + 8, &[], 0);
        }
    }

    /// A schema row that names a root.
    fn row(&mut self, root: u32) {
        let mut cell = vec![10, 1, 6, 0, 0, 0, 4, 0];
        cell.extend(root.to_be_bytes());
        self.cells(1, 13, &[cell], 0);
    }

    /// A cell whose payload needs a chain of that first page; `kind` as the page's.
    fn chain(&self, kind: u8, first: u32) -> Vec<u8> {
        // Over three pages where a payload may be so long.
        let length = (3 * self.size).min(65536);
        let (u, least) = (self.size, (self.size - 12) * 32 / 255 - 23);
        let most = if kind == 13 { u - 35 } else { (u - 12) * 64 / 255 - 23 };
        let full = least + (length - least) % (u - 4);
        let local = if full <= most { full } else { least };
        let mut cell = if kind == 2 { 4u32.to_be_bytes().to_vec() } else { vec![] };
        if length >> 14 > 0 {
            cell.push(0x80 | (length >> 14) as u8);
        }
        cell.extend([0x80 | (length >> 7 & 0x7f) as u8, (length & 0x7f) as u8]);
        if kind == 13 {
            cell.push(1);
        }
        cell.resize(cell.len() + local, 0);
        cell.extend(first.to_be_bytes());
        cell
    }

    /// A root at page 2 of that kind, whose one cell has a chain.
    fn chained(&mut self, kind: u8, first: u32) {
        self.row(2);
        let cell = self.chain(kind, first);
        self.cells(2, kind, &[cell], 3);
        if kind == 2 {
            self.cells(4, 10, &[], 0);
        }
    }

    /// So many pages on the freelist, from this trunk on.
    fn free(&mut self, trunk: u32, total: u32) {
        self.word(1, 32, trunk);
        self.word(1, 36, total);
    }
}

/// How a page is named, and the page that holds the pointer.
struct Way {
    name: &'static str,
    holder: u32,
    /// Which page of a chain it is: 0 none, 1 the first.
    chained: u32,
    make: fn(&mut File, u32),
}

const fn way(name: &'static str, holder: u32, make: fn(&mut File, u32)) -> Way {
    Way { name, holder, chained: 0, make }
}

const fn link(name: &'static str, chained: u32, holder: u32, make: fn(&mut File, u32)) -> Way {
    Way { name, holder, chained, make }
}

/// Every place that can name a page. Pages from 5 on are empty leaves where they are named besides.
const WAYS: [Way; 21] = [
    way("the child of page 1's cell", 1, |f, t| f.children(1, 5, &[t], 5, t)),
    way("page 1's right child, with no cell", 1, |f, t| f.children(1, 5, &[], t, t)),
    way("page 1's right child", 1, |f, t| f.children(1, 5, &[5, 6], t, t)),
    way("the child of a table's one cell", 2, |f, t| {
        f.row(2);
        f.children(2, 5, &[t], 5, t);
    }),
    way("the child of a table's third cell", 2, |f, t| {
        f.row(2);
        f.children(2, 5, &[5, 7, t, 9], 11, t);
    }),
    way("the child of a table's 17th cell", 2, |f, t| {
        f.row(2);
        let mut children: Vec<u32> = (5..40).collect();
        children[16] = t;
        f.children(2, 5, &children, 41, t);
    }),
    way("a table's right child, with no cell", 2, |f, t| {
        f.row(2);
        f.children(2, 5, &[], t, t);
    }),
    way("a table's right child", 2, |f, t| {
        f.row(2);
        f.children(2, 5, &[5, 7], t, t);
    }),
    way("the child of an index's cell", 2, |f, t| {
        f.row(2);
        f.children(2, 2, &[t, 5], 7, t);
    }),
    way("the child of an index's 33rd cell", 2, |f, t| {
        f.row(2);
        let mut children: Vec<u32> = (5..45).collect();
        children[32] = t;
        f.children(2, 2, &children, 46, t);
    }),
    way("an index's right child", 2, |f, t| {
        f.row(2);
        f.children(2, 2, &[5, 7], t, t);
    }),
    way("a grandchild", 5, |f, t| {
        f.row(2);
        f.children(2, 5, &[5], 5, 5);
        f.children(5, 5, &[t], 7, t);
    }),
    link("the first page of a schema row's chain", 1, 1, |f, t| {
        let cell = f.chain(13, t);
        f.cells(1, 13, &[cell], 0);
    }),
    link("the first page of a row's chain", 1, 2, |f, t| f.chained(13, t)),
    link("the first page of an index leaf's chain", 1, 2, |f, t| f.chained(10, t)),
    link("the first page of an index interior page's chain", 1, 2, |f, t| f.chained(2, t)),
    link("the second page of a chain", 2, 5, |f, t| {
        f.chained(13, 5);
        f.word(5, 0, t);
    }),
    way("the first trunk", 1, |f, t| f.free(t, 1)),
    way("the next trunk", 5, |f, t| {
        f.free(5, 2);
        f.word(5, 0, t);
    }),
    way("a trunk's leaf", 5, |f, t| {
        f.free(5, 3);
        f.word(5, 4, 2);
        f.word(5, 8, 7);
        f.word(5, 12, t);
    }),
    way("a root", 1, |f, t| f.row(t)),
];

/// What the straightforward reader says of an image while it may still be read; then, with these bytes forbidden, that the library says the same.
fn judged(file: &mut File, pages: u32, forbidden: std::ops::Range<usize>, due: (u32, u32)) -> Held {
    let entries = pages as usize + 3;
    let lent = || Ledgers { kinds: pattern(entries), namers: vec![0x5a5a_5a5a; entries], steps: vec![0xaaaa_aaaa; entries] };
    let named = [2, 5];
    let mut expected = lent();
    let plain = Plain.check(file.mapped.bytes(), &mut expected.kinds, &mut expected.namers, &mut expected.steps);
    same("the refusal and the page that are due", (plain.refusal, plain.page), due)?;
    let mut ordered = lent();
    let by_names = Plain.check_ordered(file.mapped.bytes(), &named, &mut ordered.kinds, &mut ordered.namers, &mut ordered.steps);
    file.mapped.forbid(forbidden);
    let image = file.mapped.bytes();
    let mut found = lent();
    same("urk_check", Proved.check(image, &mut found.kinds, &mut found.namers, &mut found.steps), plain)?;
    expected.same("urk_check", &found.kinds, &found.namers, &found.steps)?;
    let mut found = lent();
    let answer = Proved.check_ordered(image, &named, &mut found.kinds, &mut found.namers, &mut found.steps);
    same("urk_check_ordered", answer, by_names)?;
    ordered.same("urk_check_ordered", &found.kinds, &found.namers, &found.steps)?;
    let mut found = lent();
    let answer = Proved.ledger_check(image, &[], &mut found.kinds, &mut found.namers, &mut found.steps);
    same("urk_ledger_check", (answer.yes, answer.refusal, answer.page), (0, plain.refusal, plain.page))?;
    expected.same("urk_ledger_check", &found.kinds, &found.namers, &found.steps)
}

/// The lock-byte page is named, which is 21; it is the last page but one.
fn lock_page(way: &Way, size: usize) -> Held {
    let lock = plain::lock_page(size) as u32;
    let mut file = File::new(size, lock + 1, lock + 1);
    (way.make)(&mut file, lock);
    let at = (lock as usize - 1) * size;
    judged(&mut file, lock + 1, at..at + size, (21, lock))
}

/// So many pages are over 4 MiB: the walk looks ahead.
fn pages(size: usize) -> u32 {
    (5 << 20) / size as u32
}

/// So many more are present, and the count at 28 leaves them out.
const MORE: u32 = 64;

/// Pages that the database does not have: the next, one that is present, the last that is, the one behind it, the largest number.
fn past_the_last(size: usize) -> [u32; 5] {
    let n = pages(size);
    [n + 1, n + 17, n + MORE, n + MORE + 1, u32::MAX]
}

/// A page past N is named, which is 20; in a schema row it is 28.
fn past_n(way: &Way, size: usize, page: u32) -> Held {
    let n = pages(size);
    let mut file = File::new(size, n, n + MORE);
    (way.make)(&mut file, page);
    let due = if way.name == "a root" { 28 } else { 20 };
    let (from, to) = (n as usize * size, (n + MORE) as usize * size);
    let down = answers(&Plain, file.mapped.bytes());
    judged(&mut file, n, from..to, (due, way.holder))?;
    same("what is asked from a root down", answers(&Proved, file.mapped.bytes()), down)
}

/// The functions that go down from a root come to the same pointers.
fn answers(reader: &dyn Reader, image: &[u8]) -> Vec<String> {
    let mut said = Vec::new();
    let mut room = vec![0; 65536];
    for root in [1, 2, 5] {
        for row in [i64::MIN, 0, 1, 2, 16, i64::MAX] {
            let words = &mut [0; WORDS];
            said.push(format!(
                "{:?}",
                (reader.lookup(image, root, row), reader.find(image, root, row), reader.rows_seek(image, root, row, words), words)
            ));
        }
        let words = &mut [0; WORDS];
        said.push(format!("{:?}", (reader.rows_first(image, root, words), words)));
        said.push(format!("{:?}", (reader.payload_fetch(image, root, 0, &mut room), reader.payload_quick(image, root, 0, &mut room))));
        said.push(format!("{:?}", reader.report(image, root, 1, &mut room)));
    }
    said
}

/// Images in order: the lock-byte page, free leaf pages and pages past N are not looked at, whatever is named.
fn accepted() -> Held {
    for size in SIZES {
        let lock = plain::lock_page(size) as u32;
        let place = |page: u32| (page as usize - 1) * size;
        let ask = |mut image: Image, n: u32, forbidden: std::ops::Range<usize>, names: &[(u32, u32)]| -> Held {
            image.mapped.forbid(forbidden);
            let bytes = image.mapped.bytes();
            let (mut kinds, mut namers, mut steps) = (vec![0; n as usize], vec![0; n as usize], vec![0; n as usize]);
            let answer = Proved.check(bytes, &mut kinds, &mut namers, &mut steps);
            same("urk_check", (answer.refusal, answer.page, answer.pages), (0, 0, n))?;
            let sent = plain::ledger::sent(n as usize, &kinds, &namers, &steps).map_err(|refusal| format!("{refusal}"))?;
            let answer = Proved.ledger_check(bytes, &sent, &mut kinds, &mut namers, &mut steps);
            same("urk_ledger_check", (answer.yes, answer.refusal), (1, 0))?;
            for &(name, refusal) in names {
                let answer = Proved.check_ordered(bytes, &[name], &mut kinds, &mut namers, &mut steps);
                same("urk_check_ordered", (answer.refusal, answer.page), (refusal, name))?;
            }
            Ok(())
        };
        let after = Shape::new(size, lock + 1);
        ask(after.good(), lock + 1, place(lock)..place(lock + 1), &[(lock, 35), (lock + 1, 35), (lock + 2, 35), (1, 35)])?;
        let mapped = Shape::vacuum(size, 0, lock + 2);
        ask(mapped.good(), lock + 2, place(lock)..place(lock + 1), &[(lock, 35)])?;
        // Of few free pages one trunk has all the others, from page 3 on.
        let few = Shape::new(size, 90);
        ask(few.good(), 90, place(3)..place(91), &[(3, 35), (90, 35)])?;
        let more = Shape::new(size, 90 + MORE).naming(&few.free()).with(1, 28, &90u32.to_be_bytes());
        ask(more, 90, place(91)..place(91 + MORE), &[(91, 35), (90 + MORE, 35), (u32::MAX, 35)])?;
    }
    Ok(())
}

/// Pages past N as what is asked for: root, page of a payload, place of a cursor.
fn asked() -> Held {
    for size in SIZES {
        let n = pages(size);
        let mut file = File::new(size, n, n + MORE);
        file.mapped.forbid(n as usize * size..(n + MORE) as usize * size);
        let image = file.mapped.bytes();
        for page in past_the_last(size) {
            same("urk_lookup", Proved.lookup(image, page, 1).refusal, 20)?;
            same("urk_find", Proved.find(image, page, 1).refusal, 20)?;
            let mut words = [0; WORDS];
            same("urk_rows_first", Proved.rows_first(image, page, &mut words).refusal, 20)?;
            same("urk_rows_seek", Proved.rows_seek(image, page, 1, &mut words).refusal, 20)?;
            (words[0], words[1]) = (1, page);
            same("urk_rows_step", Proved.rows_step(image, &mut words).refusal, 49)?;
            let mut room = [0; 100];
            same("urk_payload_fetch", Proved.payload_fetch(image, page, 0, &mut room).refusal, 46)?;
            same("urk_payload_quick", Proved.payload_quick(image, page, 0, &mut room).refusal, 46)?;
            same("urk_report", Proved.report(image, page, 1, &mut room).refusal, 20)?;
        }
    }
    Ok(())
}

const PAGE: usize = 512;
/// A frame, and a record of a journal.
const FRAME: usize = 24 + PAGE;
const RECORD: usize = 8 + PAGE;

fn with(mut bytes: Vec<u8>, at: usize, number: u32) -> Vec<u8> {
    bytes[at..at + 4].copy_from_slice(&number.to_be_bytes());
    bytes
}

/// Logs of eight frames that end early, and how many bytes may be read: to the end of the first frame that fails, or of what is refused or no log.
fn logs() -> Vec<(&'static str, Vec<u8>, usize)> {
    let log = |page: u32| big::log(PAGE, &[(1, 0), (2, 3), (3, 0), (1, 3), (page, 0), (2, 3), (1, 3), (2, 3)]);
    let good = || log(1);
    let summed = |mut log: Vec<u8>| {
        resum(&mut log, false);
        log
    };
    let fifth = 32 + 4 * FRAME;
    vec![
        ("a frame with number 0", log(0), fifth + FRAME),
        ("a frame with the lock-byte page's number", log(plain::lock_page(PAGE) as u32), fifth + FRAME),
        ("a frame with other salts", summed(with(good(), fifth + 8, 7)), fifth + FRAME),
        ("a frame with wrong sums", with(good(), fifth + 16, 1), fifth + FRAME),
        ("a page that its sums do not fit", with(good(), fifth + 24 + PAGE - 4, 1), fifth + FRAME),
        ("the first frame fails", summed(with(good(), 32, 0)), 32 + FRAME),
        ("another magic", with(good(), 0, 0x377f_0681), 32),
        ("a header with wrong sums", with(good(), 24, 1), 32),
        ("another version", summed(with(good(), 4, 3_007_001)), 32),
        ("a page size that is none", resummed_header(with(good(), 8, 768)), 32),
    ]
}

/// The sums of a header, whatever stands behind it.
fn resummed_header(mut log: Vec<u8>) -> Vec<u8> {
    let mut header = log[..32].to_vec();
    resum(&mut header, false);
    log[..32].copy_from_slice(&header);
    log
}

fn held_log(log: &[u8], readable: usize) -> Held {
    // The image alone is shown where there is nothing to recover.
    let mut image = File::new(PAGE, 3, 3).mapped.bytes().to_vec();
    image[2 * PAGE] = 7;
    let asked = [0, 1, 2, 3, 4, u32::MAX];
    let (mut recovered, mut table) = (pattern(5 * PAGE), vec![9; 5]);
    let plain = (Plain.log_inspect(log), Plain.log_recover(log, &image, &mut recovered), Plain.log_fill(log, &image, &mut table));
    let pages = asked.map(|page| Plain.log_page(log, &image, page));
    let (mut tail, mut words) = ([7; 8], [7; 8]);
    let told = Plain.log_tail(log, &mut tail);
    let beginning = Beginning::new(log, readable);
    let log = beginning.bytes();
    same("urk_log_inspect", Proved.log_inspect(log), plain.0)?;
    same("urk_log_tail", (Proved.log_tail(log, &mut words), words), (told, tail))?;
    let mut out = pattern(5 * PAGE);
    same("urk_log_recover", Proved.log_recover(log, &image, &mut out), plain.1)?;
    same_bytes("urk_log_recover's out", &out, &recovered)?;
    let mut entries = vec![9; 5];
    same("urk_log_fill", Proved.log_fill(log, &image, &mut entries), plain.2)?;
    same_bytes("urk_log_fill's table", &entries, &table)?;
    asked.iter().zip(pages).try_for_each(|(&page, part)| same("urk_log_page", Proved.log_page(log, &image, page), part))
}

/// Journals that end early: to the end of the first record that fails, or of the header that ends them.
fn journals() -> Vec<(&'static str, Vec<u8>, usize)> {
    let good = || big::journal(PAGE, 6, &[1, 2, 3, 4, 5, 6]);
    let third = 512 + 2 * RECORD;
    // Two records are counted; the next header is looked for in the sector behind them.
    let two = |next: u32| {
        let mut journal = with(good(), 8, 2);
        journal.resize(third + 4096, 0x55);
        with(journal, third.next_multiple_of(512), next)
    };
    vec![
        ("a record with number 0", with(good(), third, 0), third + RECORD),
        ("a record with the lock-byte page's number", with(good(), third, plain::lock_page(PAGE) as u32), third + RECORD),
        ("a record with a wrong sum", with(good(), third + 4 + PAGE, 1), third + RECORD),
        ("the first record fails", with(good(), 512, 0), 512 + RECORD),
        ("a next header with another magic", two(0xd9d5_05f8), third.next_multiple_of(512) + 28),
        ("another magic", with(good(), 4, 0x20a1_63d6), 28),
        ("a page size that is none", with(good(), 24, 768), 28),
        ("a sector size that is none", with(good(), 20, 256), 28),
        ("too many pages", with(good(), 16, 2_200_001), 28),
    ]
}

fn held_journal(journal: &[u8], readable: usize) -> Held {
    let image = pattern(6 * PAGE);
    let mut recovered = pattern(7 * PAGE);
    let plain = (Plain.journal_inspect(journal), Plain.journal_recover(journal, &image, &mut recovered));
    let beginning = Beginning::new(journal, readable);
    let journal = beginning.bytes();
    let mut out = pattern(7 * PAGE);
    same("urk_journal_recover", Proved.journal_recover(journal, &image, &mut out), plain.1)?;
    same_bytes("urk_journal_recover's out", &out, &recovered)?;
    // With 42 the records are counted all the same: what a journal says of itself is told.
    if plain.0.refusal != 42 {
        same("urk_journal_inspect", Proved.journal_inspect(journal), plain.0)?;
    }
    Ok(())
}

/// By a table no byte of log and image is read, whatever is asked.
fn by_table() -> Held {
    let (mut log, mut image) = (Mapped::new(32 + 8 * FRAME), Mapped::new(5 * PAGE));
    log.forbid(0..32 + 8 * FRAME);
    image.forbid(0..5 * PAGE);
    // The straightforward reader has memory of the same lengths.
    let (readable, other) = (vec![0; 32 + 8 * FRAME], vec![0; 5 * PAGE]);
    let table = [0, 1, 8, 9, u32::MAX, 0];
    for (pages, size) in [(6, PAGE as u32), (6, 1024), (5, 65536), (0, 512), (7, 512), (6, 513)] {
        for page in [0, 1, 2, 3, 4, 5, 6, 7, u32::MAX] {
            let plain = Plain.log_page_by(&readable, &other, &table, pages, size, page);
            same("urk_log_page_by", Proved.log_page_by(log.bytes(), image.bytes(), &table, pages, size, page), plain)?;
        }
    }
    Ok(())
}
