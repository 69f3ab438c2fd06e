//! One call on both readers: the answers, and every byte of every lent buffer.

use std::collections::BTreeMap;
use std::fmt::Debug;

use plain::c;
use world::reader::{Plain, Reader};

use crate::appending::Written;
use crate::guard::Guarded;
use crate::orders::disorder;
use crate::proved::Proved;
use crate::records::unread;

/// The largest image and output that are tried.
const ROOM: usize = 64 << 20;

pub type Held = Result<(), String>;

/// Pages that one call of the cursor may enter beside its path. In a damaged image it may be any number: such a call is left out, and counted.
const ENTERED: u64 = 2000;

/// Where a cursor starts.
#[derive(Clone, Debug)]
pub enum Start {
    First(u32),
    Seek(u32, i64),
    /// At a step from these words.
    Words(Vec<u32>),
}

/// A start with so many words lent (those of `Words` come first in them), then so many steps.
#[derive(Clone, Debug)]
pub struct Listing {
    pub start: Start,
    pub room: usize,
    pub steps: usize,
}

pub struct Hold {
    side: Guarded,
    image: Guarded,
    out: Guarded,
    entries: Guarded,
    more: Guarded,
    /// A cursor of another image.
    pub stored: Vec<u32>,
    /// How often each function gave each refusal.
    pub met: BTreeMap<(&'static str, u32), u64>,
}

/// What a lent buffer holds before the call.
pub fn pattern(length: usize) -> Vec<u8> {
    (0..length).map(|i| (i * 37 + i / 256) as u8 ^ 0xa5).collect()
}

pub fn same<A: PartialEq + Debug>(what: &str, proved: A, plain: A) -> Held {
    if proved == plain {
        return Ok(());
    }
    Err(format!("{what}: the library says {proved:?}, the straightforward reader {plain:?}"))
}

pub fn same_bytes<T: PartialEq + Debug + Copy>(what: &str, proved: &[T], plain: &[T]) -> Held {
    match proved.iter().zip(plain).position(|(a, b)| a != b) {
        None => same(what, proved.len(), plain.len()),
        Some(at) => Err(format!("{what}: entry {at} is {:?}, by the straightforward reader {:?}", proved[at], plain[at])),
    }
}

fn untouched(what: &str, guarded: &Guarded, bytes: usize) -> Held {
    if guarded.untouched_before(bytes) {
        return Ok(());
    }
    Err(format!("{what}: bytes before it were touched"))
}

/// How many entries each ledger has.
#[derive(Clone, Copy, Debug)]
pub struct Rooms {
    pub kinds: usize,
    pub namers: usize,
    pub steps: usize,
}

impl Rooms {
    pub fn all(entries: usize) -> Rooms {
        Rooms { kinds: entries, namers: entries, steps: entries }
    }

    /// The ledgers before a call.
    fn filled(self) -> Ledgers {
        let words = |entries: usize, by: u32| (0..entries as u32).map(|i| i.wrapping_mul(by) | 1).collect();
        Ledgers { kinds: pattern(self.kinds), namers: words(self.namers, 0x9e37_79b9), steps: words(self.steps, 0x85eb_ca6b) }
    }
}

/// The three ledgers of a verdict.
#[derive(Clone)]
pub struct Ledgers {
    pub kinds: Vec<u8>,
    pub namers: Vec<u32>,
    pub steps: Vec<u32>,
}

impl Ledgers {
    /// These are they, entry for entry.
    pub fn same(&self, what: &str, kinds: &[u8], namers: &[u32], steps: &[u32]) -> Held {
        same_bytes(&format!("{what}'s kinds"), kinds, &self.kinds)?;
        same_bytes(&format!("{what}'s namers"), namers, &self.namers)?;
        same_bytes(&format!("{what}'s steps"), steps, &self.steps)
    }
}

impl Hold {
    pub fn new(heap: bool) -> Hold {
        let room = || Guarded::new(ROOM, heap);
        Hold { side: room(), image: room(), out: room(), entries: room(), more: room(), stored: vec![0; 41], met: BTreeMap::new() }
    }

    fn meet(&mut self, function: &'static str, refusal: u32) {
        *self.met.entry((function, refusal)).or_default() += 1;
    }

    pub fn varint_read(&mut self, bytes: &[u8]) -> Held {
        let plain = Plain.varint_read(bytes);
        let answer = if plain.length == 0 { 1 } else { 2 * (1 - plain.shortest) };
        self.meet("varint_read", answer);
        same("urk_varint_read", Proved.varint_read(self.side.place(bytes)), plain)
    }

    pub fn varint_write(&mut self, value: i64, room: usize) -> Held {
        let mut expected = pattern(room);
        let out = self.out.place(&expected);
        let proved = Proved.varint_write(value, out);
        let plain = Plain.varint_write(value, &mut expected);
        same("urk_varint_write", proved, plain)?;
        same_bytes("urk_varint_write's out", out, &expected)?;
        untouched("urk_varint_write's out", &self.out, room)?;
        self.meet("varint_write", u32::from(plain == 0));
        Ok(())
    }

    pub fn record(&mut self, record: &[u8], columns: &[u64]) -> Held {
        let placed = self.side.place(record);
        let plain = Plain.record_columns(record);
        same("urk_record_columns", Proved.record_columns(placed), plain)?;
        for &column in columns {
            let value = Plain.record_column(record, column);
            same(&format!("urk_record_column {column}"), Proved.record_column(placed, column), value)?;
            *self.met.entry(("record_column", value.status)).or_default() += 1;
        }
        self.meet("record_columns", plain.status);
        Ok(())
    }

    /// Both ways round.
    pub fn record_order(&mut self, a: &[u8], b: &[u8]) -> Held {
        let (first, second) = (self.side.place(a), self.image.place(b));
        for (a, b, left, right) in [(a, b, &*first, &*second), (b, a, &*second, &*first)] {
            let plain = Plain.record_order(a, b);
            same("urk_record_order", Proved.record_order(left, right), plain)?;
            let answer = if plain.status == 0 { (1001 + plain.order) as u32 } else { plain.status };
            *self.met.entry(("record_order", answer)).or_default() += 1;
        }
        Ok(())
    }

    pub fn check(&mut self, image: &[u8], rooms: Rooms) -> Held {
        let mut expected = rooms.filled();
        let placed = self.image.place(image);
        let (kinds, namers, steps) = (self.out.place(&expected.kinds), self.entries.place(&expected.namers), self.more.place(&expected.steps));
        let proved = Proved.check(placed, kinds, namers, steps);
        let plain = Plain.check(image, &mut expected.kinds, &mut expected.namers, &mut expected.steps);
        same("urk_check", proved, plain)?;
        expected.same("urk_check", kinds, namers, steps)?;
        same_bytes("urk_check's image", placed, image)?;
        self.ledgers_untouched("urk_check", rooms)?;
        self.meet("check", plain.refusal);
        if plain.refusal == 0 {
            // 3 stands for more.
            self.meet("long_spellings", plain.long_spellings.min(3) as u32);
        }
        if let Some((kind, chained)) = (plain.refusal == 28).then(|| unread(image, plain.page)).flatten() {
            self.meet(if chained { "28 past page 1, over a chain, by type" } else { "28 past page 1, local, by type" }, kind.into());
        }
        Ok(())
    }

    /// With indexes named: the answer, every entry of the three ledgers, the image and the names.
    pub fn check_ordered(&mut self, image: &[u8], ordered: &[u32], rooms: Rooms) -> Held {
        let mut expected = rooms.filled();
        let (placed, named) = (self.image.place(image), self.side.place(ordered));
        let (kinds, namers, steps) = (self.out.place(&expected.kinds), self.entries.place(&expected.namers), self.more.place(&expected.steps));
        let proved = Proved.check_ordered(placed, named, kinds, namers, steps);
        let plain = Plain.check_ordered(image, ordered, &mut expected.kinds, &mut expected.namers, &mut expected.steps);
        let what = format!("urk_check_ordered, named {ordered:?}");
        same(&what, proved, plain)?;
        expected.same(&what, kinds, namers, steps)?;
        same_bytes(&format!("{what}: the image"), placed, image)?;
        same_bytes(&format!("{what}: the names"), named, ordered)?;
        self.ledgers_untouched(&what, rooms)?;
        self.meet("check_ordered", plain.refusal);
        if let Some((kind, chained)) = (plain.refusal == 33).then(|| disorder(image, ordered, plain.page)).flatten() {
            self.meet(if chained { "33 over a chain, by type" } else { "33 local, by type" }, kind.into());
        }
        Ok(())
    }

    fn ledgers_untouched(&self, what: &str, rooms: Rooms) -> Held {
        untouched(&format!("{what}'s kinds"), &self.out, rooms.kinds)?;
        untouched(&format!("{what}'s namers"), &self.entries, 4 * rooms.namers)?;
        untouched(&format!("{what}'s steps"), &self.more, 4 * rooms.steps)
    }

    /// A proposal beside an image: the answer, every entry of the three ledgers, and both inputs.
    pub fn ledger_check(&mut self, image: &[u8], proposal: &[u8], rooms: Rooms) -> Held {
        let mut expected = rooms.filled();
        let (placed, sent) = (self.image.place(image), self.side.place(proposal));
        let (kinds, namers, steps) = (self.out.place(&expected.kinds), self.entries.place(&expected.namers), self.more.place(&expected.steps));
        let proved = Proved.ledger_check(placed, sent, kinds, namers, steps);
        let plain = Plain.ledger_check(image, proposal, &mut expected.kinds, &mut expected.namers, &mut expected.steps);
        same("urk_ledger_check", proved, plain)?;
        expected.same("urk_ledger_check", kinds, namers, steps)?;
        same_bytes("urk_ledger_check's image", placed, image)?;
        same_bytes("urk_ledger_check's proposal", sent, proposal)?;
        self.ledgers_untouched("urk_ledger_check", rooms)?;
        // 1000 differs in front, 1001 at a page, 1002 yes.
        let answer = match (plain.yes, plain.refusal, plain.page) {
            (1, _, _) => 1002,
            (_, 0, page) => 1000 + page.min(1),
            (_, refusal, _) => refusal,
        };
        self.meet("ledger_check", answer);
        Ok(())
    }

    /// Ledgers written down, with so much room.
    pub fn ledger_write(&mut self, pages: u32, kinds: &[u8], namers: &[u32], steps: &[u32], room: usize) -> Held {
        let mut expected = pattern(room);
        let out = self.out.place(&expected);
        let (placed_namers, placed_steps) = (self.entries.place(namers), self.more.place(steps));
        let proved = Proved.ledger_write(pages, self.side.place(kinds), placed_namers, placed_steps, out);
        let plain = Plain.ledger_write(pages, kinds, namers, steps, &mut expected);
        same(&format!("urk_ledger_write {pages} pages, room {room}"), proved, plain)?;
        same_bytes("urk_ledger_write's out", out, &expected)?;
        same_bytes("urk_ledger_write's namers", placed_namers, namers)?;
        same_bytes("urk_ledger_write's steps", placed_steps, steps)?;
        untouched("urk_ledger_write's out", &self.out, room)?;
        self.meet("ledger_write", plain.refusal);
        Ok(())
    }

    /// Lookup, and the same by halving.
    pub fn lookup(&mut self, image: &[u8], places: &[(u32, i64)]) -> Held {
        let placed = self.image.place(image);
        for &(root, row) in places {
            let plain = Plain.lookup(image, root, row);
            same(&format!("urk_lookup root {root} row {row}"), Proved.lookup(placed, root, row), plain)?;
            let found = Plain.find(image, root, row);
            same(&format!("urk_find root {root} row {row}"), Proved.find(placed, root, row), found)?;
            for (function, answer) in [("lookup", plain), ("find", found)] {
                let answer = if answer.refusal == 0 { 1000 + answer.found } else { answer.refusal };
                *self.met.entry((function, answer)).or_default() += 1;
            }
        }
        same_bytes("lookup's image", placed, image)
    }

    /// Runs cursors over an image: the answers, every word and the image after each call. Answers the words where one stood last.
    pub fn rows(&mut self, image: &[u8], listings: &[Listing]) -> Result<Option<Vec<u32>>, String> {
        let placed = self.image.place(image);
        let mut stood = None;
        for listing in listings {
            let mut words: Vec<u32> = (0..listing.room as u32).map(|i| i.wrapping_mul(0x9e37_79b9) ^ 0xa5a5).collect();
            let mut start = Some(&listing.start);
            if let Start::Words(given) = &listing.start {
                let known = given.len().min(words.len());
                words[..known].copy_from_slice(&given[..known]);
                start = None;
            }
            for _ in 0..=listing.steps {
                let mut expected = words.clone();
                let (function, plain) = match start {
                    Some(&Start::First(root)) => ("rows_first", c::rows_first(image, root, &mut expected, ENTERED)),
                    Some(&Start::Seek(root, row)) => ("rows_seek", c::rows_seek(image, root, row, &mut expected, ENTERED)),
                    _ => ("rows_step", c::rows_step(image, &mut expected, ENTERED)),
                };
                let Some(plain) = plain else {
                    *self.met.entry(("rows left out", 0)).or_default() += 1;
                    break;
                };
                let lent = self.entries.place(&words);
                let proved = match start {
                    Some(&Start::First(root)) => Proved.rows_first(placed, root, lent),
                    Some(&Start::Seek(root, row)) => Proved.rows_seek(placed, root, row, lent),
                    _ => Proved.rows_step(placed, lent),
                };
                let what = || format!("urk_{function} of {listing:?} from {words:?}");
                same(&what(), proved, plain)?;
                same_bytes(&what(), lent, &expected)?;
                untouched(&what(), &self.entries, 4 * words.len())?;
                let answer = if plain.refusal == 0 { 1000 + plain.found } else { plain.refusal };
                *self.met.entry((function, answer)).or_default() += 1;
                if plain.refusal != 0 {
                    break;
                }
                (words, start) = (expected, None);
                if plain.found == 1 {
                    stood = Some(words.clone());
                }
            }
        }
        same_bytes("the cursor's image", placed, image)?;
        Ok(stood)
    }

    /// Sets a row: the answer, every byte of the image, and what was given. Answers the refusal, and the image afterwards where the row was set.
    pub fn row_set(&mut self, image: &[u8], kinds: &[u8], root: u32, row: i64, record: &[u8]) -> Result<(u32, Option<Vec<u8>>), String> {
        let mut expected = image.to_vec();
        let (placed, lent, given) = (self.image.place(image), self.entries.place(kinds), self.side.place(record));
        let proved = Proved.row_set(placed, lent, root, row, given);
        let plain = Plain.row_set(&mut expected, kinds, root, row, record);
        same(&format!("urk_row_set root {root} row {row}, {} bytes", record.len()), proved, plain)?;
        same_bytes("urk_row_set's image", placed, &expected)?;
        same_bytes("urk_row_set's kinds", lent, kinds)?;
        same_bytes("urk_row_set's record", given, record)?;
        untouched("urk_row_set's image", &self.image, image.len())?;
        self.meet("row_set", if plain.refusal == 0 { 1000 + plain.found } else { plain.refusal });
        Ok((plain.refusal, (plain.found == 1).then_some(expected)))
    }

    pub fn payload(&mut self, image: &[u8], page: u32, cell: u32, room: usize) -> Held {
        let mut expected = pattern(room);
        let (placed, out) = (self.image.place(image), self.out.place(&expected));
        let proved = Proved.payload_fetch(placed, page, cell, out);
        let plain = Plain.payload_fetch(image, page, cell, &mut expected);
        same(&format!("urk_payload_fetch page {page} cell {cell} room {room}"), proved, plain)?;
        same_bytes("urk_payload_fetch's out", out, &expected)?;
        untouched("urk_payload_fetch's out", &self.out, room)?;
        self.meet("payload_fetch", plain.refusal);
        Ok(())
    }

    pub fn payload_quick(&mut self, image: &[u8], page: u32, cell: u32, room: usize) -> Held {
        let mut expected = pattern(room);
        let (placed, out) = (self.image.place(image), self.out.place(&expected));
        let proved = Proved.payload_quick(placed, page, cell, out);
        let plain = Plain.payload_quick(image, page, cell, &mut expected);
        same(&format!("urk_payload_quick page {page} cell {cell} room {room}"), proved, plain)?;
        same_bytes("urk_payload_quick's out", out, &expected)?;
        untouched("urk_payload_quick's out", &self.out, room)?;
        self.meet("payload_quick", plain.refusal);
        Ok(())
    }

    /// A report; one that would look at over `most` bytes of pages is left out.
    pub fn report(&mut self, image: &[u8], root: u32, column: u64, room: usize, most: u64) -> Held {
        let mut expected = pattern(room);
        let Some(plain) = plain::c::report(image, root, column, &mut expected, most) else {
            self.meet("report left out", 0);
            return Ok(());
        };
        let (placed, out) = (self.image.place(image), self.out.place(&pattern(room)));
        let proved = Proved.report(placed, root, column, out);
        same(&format!("urk_report root {root} column {column} room {room}"), proved, plain)?;
        same_bytes("urk_report's room", out, &expected)?;
        same_bytes("urk_report's image", placed, image)?;
        untouched("urk_report's room", &self.out, room)?;
        self.meet("report", if plain.refusal == 0 { 1000 + plain.sum_is_nan } else { plain.refusal });
        Ok(())
    }

    pub fn log_pages(&mut self, log: &[u8], image: &[u8], pages: &[u32]) -> Held {
        let (placed_log, placed_image) = (self.side.place(log), self.image.place(image));
        for &page in pages {
            let plain = Plain.log_page(log, image, page);
            same(&format!("urk_log_page {page}"), Proved.log_page(placed_log, placed_image, page), plain)?;
            let answer = if plain.refusal == 0 { 1000 + plain.from_log } else { plain.refusal };
            *self.met.entry(("log_page", answer)).or_default() += 1;
        }
        Ok(())
    }

    /// Fills a table of so many entries: the answer, every entry, log and image. Answers what the fill left.
    pub fn log_fill(&mut self, log: &[u8], image: &[u8], room: usize) -> Result<(c::Filled, Vec<u32>), String> {
        let mut expected: Vec<u32> = (0..room as u32).map(|i| i.wrapping_mul(0x9e37_79b9) | 1).collect();
        let (placed_log, placed_image, table) = (self.side.place(log), self.image.place(image), self.entries.place(&expected));
        let proved = Proved.log_fill(placed_log, placed_image, table);
        let plain = Plain.log_fill(log, image, &mut expected);
        same(&format!("urk_log_fill room {room}"), proved, plain)?;
        same_bytes("urk_log_fill's table", table, &expected)?;
        same_bytes("urk_log_fill's log", placed_log, log)?;
        same_bytes("urk_log_fill's image", placed_image, image)?;
        untouched("urk_log_fill's table", &self.entries, 4 * room)?;
        self.meet("log_fill", if plain.refusal == 0 { 1000 } else { plain.refusal });
        Ok((plain, expected))
    }

    /// Pages by a table.
    pub fn log_pages_by(&mut self, log: &[u8], image: &[u8], table: &[u32], pages: u32, page_size: u32, asked: &[u32]) -> Held {
        let (placed_log, placed_image, placed) = (self.side.place(log), self.image.place(image), self.entries.place(table));
        for &page in asked {
            let plain = Plain.log_page_by(log, image, table, pages, page_size, page);
            let proved = Proved.log_page_by(placed_log, placed_image, placed, pages, page_size, page);
            same(&format!("urk_log_page_by {page} of {pages}, pages of {page_size}"), proved, plain)?;
            *self.met.entry(("log_page_by", if plain.refusal == 0 { 1000 + plain.from_log } else { plain.refusal })).or_default() += 1;
        }
        same_bytes("urk_log_page_by's table", placed, table)
    }

    /// Pages by the table that a fill left: the scan's, refusals too.
    pub fn as_scanned(&mut self, log: &[u8], image: &[u8], table: &[u32], filled: c::Filled, asked: &[u32]) -> Held {
        self.log_pages_by(log, image, table, filled.pages, filled.page_size, asked)?;
        for &page in asked {
            let by = Proved.log_page_by(log, image, table, filled.pages, filled.page_size, page);
            same(&format!("page {page} by the table and by the scan"), by, Proved.log_page(log, image, page))?;
        }
        Ok(())
    }

    pub fn log_recover(&mut self, log: &[u8], image: &[u8], room: usize) -> Held {
        let mut expected = pattern(room);
        let (placed_log, placed_image, out) = (self.side.place(log), self.image.place(image), self.out.place(&expected));
        let proved = Proved.log_recover(placed_log, placed_image, out);
        let plain = Plain.log_recover(log, image, &mut expected);
        same(&format!("urk_log_recover room {room}"), proved, plain)?;
        same_bytes("urk_log_recover's out", out, &expected)?;
        untouched("urk_log_recover's out", &self.out, room)?;
        self.meet("log_recover", plain.refusal);
        Ok(())
    }

    pub fn journal_recover(&mut self, journal: &[u8], image: &[u8], room: usize) -> Held {
        let mut expected = pattern(room);
        let (placed_journal, placed_image, out) = (self.side.place(journal), self.image.place(image), self.out.place(&expected));
        let proved = Proved.journal_recover(placed_journal, placed_image, out);
        let plain = Plain.journal_recover(journal, image, &mut expected);
        same(&format!("urk_journal_recover room {room}"), proved, plain)?;
        same_bytes("urk_journal_recover's out", out, &expected)?;
        untouched("urk_journal_recover's out", &self.out, room)?;
        self.meet("journal_recover", plain.refusal);
        Ok(())
    }

    /// What a log says of itself.
    pub fn log_inspect(&mut self, log: &[u8]) -> Held {
        let placed = self.side.place(log);
        let plain = Plain.log_inspect(log);
        same("urk_log_inspect", Proved.log_inspect(placed), plain)?;
        same_bytes("urk_log_inspect's log", placed, log)?;
        self.meet("log_inspect", plain.refusal);
        self.meet("log_inspect's header", plain.header);
        if plain.header == 0 && plain.page_size != 0 {
            self.meet("log_inspect's stop", plain.stop);
            self.meet("log_inspect, frames in force", plain.in_force.min(2) as u32);
        }
        Ok(())
    }

    /// What a journal says of itself.
    pub fn journal_inspect(&mut self, journal: &[u8]) -> Held {
        let placed = self.side.place(journal);
        let plain = Plain.journal_inspect(journal);
        same("urk_journal_inspect", Proved.journal_inspect(placed), plain)?;
        same_bytes("urk_journal_inspect's journal", placed, journal)?;
        self.meet("journal_inspect", plain.refusal);
        self.meet("journal_inspect's header", plain.header);
        if plain.page_size != 0 {
            self.meet("journal_inspect's stop", plain.stop);
            self.meet("journal_inspect's segments", plain.segments.min(3));
        }
        Ok(())
    }

    /// A log's tail, in so many words lent: the answer, every word, the log. Answers the words where it is no refusal.
    pub fn log_tail(&mut self, log: &[u8], words: usize) -> Result<Option<Vec<u32>>, String> {
        let mut expected: Vec<u32> = (0..words as u32).map(|i| i.wrapping_mul(0x9e37_79b9) | 1).collect();
        let (placed, tail) = (self.side.place(log), self.entries.place(&expected));
        let proved = Proved.log_tail(placed, tail);
        let plain = Plain.log_tail(log, &mut expected);
        same(&format!("urk_log_tail, {words} words"), proved, plain)?;
        same_bytes("urk_log_tail's words", tail, &expected)?;
        same_bytes("urk_log_tail's log", placed, log)?;
        untouched("urk_log_tail's words", &self.entries, 4 * words)?;
        self.meet("log_tail", if plain.refusal == 0 { 1000 + u32::from(plain.frames != 0) } else { plain.refusal });
        if plain.refusal == 0 {
            self.meet("log_tail, by the order of bytes", expected[1]);
        }
        Ok((plain.refusal == 0).then_some(expected))
    }

    /// The header of a fresh log: the answer, every word of the tail, every byte of the output.
    pub fn log_begin(&mut self, page_size: u32, sequence: u32, salts: [u32; 2], words: usize, room: usize) -> Held {
        let (mut expected_tail, mut expected) = (vec![0x5a5a_a5a5; words], pattern(room));
        let (tail, out) = (self.entries.place(&expected_tail), self.out.place(&expected));
        let proved = Proved.log_begin(page_size, sequence, salts, tail, out);
        let plain = Plain.log_begin(page_size, sequence, salts, &mut expected_tail, &mut expected);
        same(&format!("urk_log_begin, pages of {page_size}, {words} words, room {room}"), proved, plain)?;
        same_bytes("urk_log_begin's tail", tail, &expected_tail)?;
        same_bytes("urk_log_begin's out", out, &expected)?;
        untouched("urk_log_begin's tail", &self.entries, 4 * words)?;
        untouched("urk_log_begin's out", &self.out, room)?;
        self.meet("log_begin", plain.refusal);
        Ok(())
    }

    /// A commit behind a tail, into so much room: the answer, every word of the tail, every byte of the output, and what was given. Answers the refusal,
    /// or what was written.
    pub fn log_append(&mut self, tail: &[u32], numbers: &[u32], pages: &[u8], n: u32, room: usize) -> Result<(u32, Option<Written>), String> {
        let (mut expected_tail, mut expected) = (tail.to_vec(), pattern(room));
        let (placed_tail, placed_numbers) = (self.entries.place(tail), self.more.place(numbers));
        let (placed_pages, out) = (self.side.place(pages), self.out.place(&expected));
        let proved = Proved.log_append(placed_tail, placed_numbers, placed_pages, n, out);
        let plain = Plain.log_append(&mut expected_tail, numbers, pages, n, &mut expected);
        same(&format!("urk_log_append of {} pages, tail {tail:?}, n {n}, room {room}", numbers.len()), proved, plain)?;
        same_bytes("urk_log_append's tail", placed_tail, &expected_tail)?;
        same_bytes("urk_log_append's numbers", placed_numbers, numbers)?;
        same_bytes("urk_log_append's pages", placed_pages, pages)?;
        same_bytes("urk_log_append's out", out, &expected)?;
        untouched("urk_log_append's tail", &self.entries, 4 * tail.len())?;
        untouched("urk_log_append's out", &self.out, room)?;
        self.meet("log_append", plain.refusal);
        expected.truncate(plain.length as usize);
        Ok((plain.refusal, (plain.refusal == 0).then_some(Written { tail: expected_tail, at: plain.at, bytes: expected })))
    }

    /// The name of its super-journal.
    pub fn journal_super(&mut self, journal: &[u8]) -> Held {
        let placed = self.side.place(journal);
        let plain = Plain.journal_super(journal);
        same("urk_journal_super", Proved.journal_super(placed), plain)?;
        same_bytes("urk_journal_super's journal", placed, journal)?;
        self.meet("journal_super", plain.found);
        Ok(())
    }
}
