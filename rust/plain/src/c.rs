//! The functions of `urkibasko.h`: the same names, answers and effects on lent buffers.

use crate::cursor::{self, Stop};
use crate::{appending, build, header, inspect, journal, ledger, lookup, number, quick, record, report, setting, verdict, wal, Refusal};

/// `urk_varint`
#[repr(C)]
#[derive(Clone, Copy, Debug, Default, PartialEq)]
pub struct Varint {
    pub length: u32,
    pub shortest: u32,
    pub value: i64,
}

/// `urk_columns`
#[repr(C)]
#[derive(Clone, Copy, Debug, Default, PartialEq)]
pub struct Columns {
    pub status: u32,
    pub count: u64,
}

/// `urk_column`
#[repr(C)]
#[derive(Clone, Copy, Debug, Default)]
pub struct Column {
    pub status: u32,
    pub kind: u32,
    pub integer: i64,
    pub real: f64,
    pub place: u64,
    pub length: u64,
}

/// Reals are compared by their bits.
impl PartialEq for Column {
    fn eq(&self, other: &Column) -> bool {
        let fields = |c: &Column| (c.status, c.kind, c.integer, c.real.to_bits(), c.place, c.length);
        fields(self) == fields(other)
    }
}

/// `urk_order`
#[repr(C)]
#[derive(Clone, Copy, Debug, Default, PartialEq)]
pub struct Order {
    pub status: u32,
    pub order: i32,
}

/// `urk_verdict`
#[repr(C)]
#[derive(Clone, Copy, Debug, Default, PartialEq)]
pub struct Verdict {
    pub refusal: u32,
    pub page: u32,
    pub pages: u32,
    pub long_spellings: u64,
}

/// `urk_ledger_answer`
#[repr(C)]
#[derive(Clone, Copy, Debug, Default, PartialEq)]
pub struct LedgerAnswer {
    pub yes: u32,
    pub refusal: u32,
    pub page: u32,
}

/// `urk_ledger_written`
#[repr(C)]
#[derive(Clone, Copy, Debug, Default, PartialEq)]
pub struct LedgerWritten {
    pub refusal: u32,
    pub length: u64,
}

/// `urk_found`
#[repr(C)]
#[derive(Clone, Copy, Debug, Default, PartialEq)]
pub struct Found {
    pub refusal: u32,
    pub page: u32,
    pub found: u32,
    pub cell: u32,
    pub length: u32,
}

/// `urk_row`
#[repr(C)]
#[derive(Clone, Copy, Debug, Default, PartialEq)]
pub struct Row {
    pub refusal: u32,
    pub page: u32,
    pub found: u32,
    pub cell: u32,
    pub length: u32,
    pub row: i64,
}

/// `urk_payload`
#[repr(C)]
#[derive(Clone, Copy, Debug, Default, PartialEq)]
pub struct Payload {
    pub refusal: u32,
    pub page: u32,
    pub length: u32,
}

/// `urk_part`
#[repr(C)]
#[derive(Clone, Copy, Debug, Default, PartialEq)]
pub struct Part {
    pub refusal: u32,
    pub from_log: u32,
    pub start: u64,
    pub length: u64,
}

/// `urk_filled`
#[repr(C)]
#[derive(Clone, Copy, Debug, Default, PartialEq)]
pub struct Filled {
    pub refusal: u32,
    pub pages: u32,
    pub page_size: u32,
}

/// `urk_recovered`
#[repr(C)]
#[derive(Clone, Copy, Debug, Default, PartialEq)]
pub struct Recovered {
    pub refusal: u32,
    pub pages: u32,
    pub length: u64,
}

/// `urk_log_summary`
#[repr(C)]
#[derive(Clone, Copy, Debug, Default, PartialEq)]
pub struct LogSummary {
    pub refusal: u32,
    pub header: u32,
    pub page_size: u32,
    pub pages: u32,
    pub frames: u64,
    pub counting: u64,
    pub in_force: u64,
    pub stop: u32,
}

/// `urk_journal_summary`
#[repr(C)]
#[derive(Clone, Copy, Debug, Default, PartialEq)]
pub struct JournalSummary {
    pub refusal: u32,
    pub header: u32,
    pub page_size: u32,
    pub sector_size: u32,
    pub pages: u32,
    pub segments: u32,
    pub counting: u64,
    pub laid: u64,
    pub stop: u32,
}

/// `urk_name`
#[repr(C)]
#[derive(Clone, Copy, Debug, Default, PartialEq)]
pub struct Name {
    pub found: u32,
    pub start: u64,
    pub length: u64,
}

/// `urk_built`
#[repr(C)]
#[derive(Clone, Copy, Debug, Default, PartialEq)]
pub struct Built {
    pub refusal: u32,
    pub pages: u32,
    pub length: u64,
}

/// `urk_tail`
#[repr(C)]
#[derive(Clone, Copy, Debug, Default, PartialEq)]
pub struct Tail {
    pub refusal: u32,
    pub page_size: u32,
    pub frames: u32,
    pub pages: u32,
}

/// `urk_appended`
#[repr(C)]
#[derive(Clone, Copy, Debug, Default, PartialEq)]
pub struct Appended {
    pub refusal: u32,
    pub at: u64,
    pub length: u64,
}

/// `urk_summary`
#[repr(C)]
#[derive(Clone, Copy, Debug, Default)]
pub struct Summary {
    pub refusal: u32,
    pub page: u32,
    pub count: u64,
    pub least: f64,
    pub greatest: f64,
    pub sum: f64,
    pub sum_is_nan: u32,
}

/// Reals are compared by their bits.
impl PartialEq for Summary {
    fn eq(&self, other: &Summary) -> bool {
        let fields = |s: &Summary| (s.refusal, s.page, s.count, s.least.to_bits(), s.greatest.to_bits(), s.sum.to_bits(), s.sum_is_nan);
        fields(self) == fields(other)
    }
}

pub fn urk_varint_read(bytes: &[u8]) -> Varint {
    match number::read_varint(bytes) {
        Some((value, length)) => Varint { length: length as u32, shortest: u32::from(length == number::varint_len(value)), value },
        None => Varint::default(),
    }
}

pub fn urk_varint_write(value: i64, out: &mut [u8]) -> u32 {
    number::write_varint(value, out).unwrap_or(0) as u32
}

pub fn urk_record_columns(record: &[u8]) -> Columns {
    match record::columns(record) {
        Some(count) => Columns { status: 0, count },
        None => Columns { status: 1, count: 0 },
    }
}

pub fn urk_record_column(record: &[u8], column: u64) -> Column {
    use record::Value;
    let zero = Column::default();
    let value = match record::column(record, column) {
        record::Column::Unreadable => return Column { status: 1, ..zero },
        record::Column::Missing => return Column { status: 2, ..zero },
        record::Column::Value(value) => value,
    };
    match value {
        Value::Null => zero,
        Value::Integer(integer) => Column { kind: 1, integer, ..zero },
        Value::Real(real) => Column { kind: 2, real, ..zero },
        Value::Text { place, length } => Column { kind: 3, place: place as u64, length: length as u64, ..zero },
        Value::Blob { place, length } => Column { kind: 4, place: place as u64, length: length as u64, ..zero },
    }
}

pub fn urk_record_order(a: &[u8], b: &[u8]) -> Order {
    match record::order(a, b) {
        Ok(ordering) => Order { status: 0, order: ordering as i32 },
        Err(status) => Order { status, order: 0 },
    }
}

pub fn urk_check(image: &[u8], kinds: &mut [u8], namers: &mut [u32], steps: &mut [u32]) -> Verdict {
    urk_check_ordered(image, &[], kinds, namers, steps)
}

pub fn urk_check_ordered(image: &[u8], ordered: &[u32], kinds: &mut [u8], namers: &mut [u32], steps: &mut [u32]) -> Verdict {
    match verdict::verdict_ordered(image, ordered, kinds, namers, steps) {
        Ok(accepted) => Verdict { refusal: 0, page: 0, pages: accepted.pages as u32, long_spellings: accepted.long_spellings },
        Err(Refusal { number, page }) => Verdict { refusal: number, page, ..Verdict::default() },
    }
}

pub fn urk_ledger_check(image: &[u8], proposal: &[u8], kinds: &mut [u8], namers: &mut [u32], steps: &mut [u32]) -> LedgerAnswer {
    match ledger::check(image, proposal, kinds, namers, steps) {
        Ok(()) => LedgerAnswer { yes: 1, refusal: 0, page: 0 },
        Err(ledger::No::Differs(page)) => LedgerAnswer { yes: 0, refusal: 0, page },
        Err(ledger::No::Refused(Refusal { number, page })) => LedgerAnswer { yes: 0, refusal: number, page },
    }
}

pub fn urk_ledger_write(pages: u32, kinds: &[u8], namers: &[u32], steps: &[u32], out: &mut [u8]) -> LedgerWritten {
    match ledger::write(pages as usize, kinds, namers, steps, out) {
        Ok(length) => LedgerWritten { refusal: 0, length: length as u64 },
        Err(refusal) => LedgerWritten { refusal, length: 0 },
    }
}

fn found_of(answer: Result<Option<lookup::Found>, Refusal>) -> Found {
    match answer {
        Ok(Some(at)) => Found { refusal: 0, page: at.page, found: 1, cell: at.cell as u32, length: at.payload as u32 },
        Ok(None) => Found::default(),
        Err(Refusal { number, page }) => Found { refusal: number, page, ..Found::default() },
    }
}

pub fn urk_lookup(image: &[u8], root: u32, row: i64) -> Found {
    found_of(lookup::lookup(image, root, row))
}

pub fn urk_find(image: &[u8], root: u32, row: i64) -> Found {
    found_of(quick::find(image, root, row))
}

pub fn urk_row_set(image: &mut [u8], kinds: &[u8], root: u32, row: i64, record: &[u8]) -> Found {
    found_of(setting::set(image, kinds, root, row, record))
}

/// An answer of the cursor: the words change where it is no refusal. `None` where more pages would be entered than are allowed.
fn cursor_call(image: &[u8], words: &mut [u32], call: impl FnOnce(&[u32]) -> cursor::Answer) -> Option<Row> {
    let refused = |Refusal { number, page }| Row { refusal: number, page, ..Row::default() };
    if words.len() < cursor::WORDS {
        return Some(refused(Refusal::general(header::header(image).err().unwrap_or(44))));
    }
    let (row, path) = match call(words) {
        Err(Stop::Bound) => return None,
        Err(Stop::Refused(refusal)) => return Some(refused(refusal)),
        Ok(None) => (Row::default(), Vec::new()),
        Ok(Some(at)) => {
            let (cell, length) = (at.cell as u32, at.payload as u32);
            (Row { refusal: 0, page: at.page, found: 1, cell, length, row: at.number }, at.path)
        }
    };
    words[..cursor::WORDS].copy_from_slice(&cursor::words_of(&path));
    Some(row)
}

/// `urk_rows_first`, with at most so many pages entered.
pub fn rows_first(image: &[u8], root: u32, words: &mut [u32], most: u64) -> Option<Row> {
    cursor_call(image, words, |_| cursor::first(image, root, most))
}

/// `urk_rows_seek`, with at most so many pages entered.
pub fn rows_seek(image: &[u8], root: u32, row: i64, words: &mut [u32], most: u64) -> Option<Row> {
    cursor_call(image, words, |_| cursor::seek(image, root, row, most))
}

/// `urk_rows_step`, with at most so many pages entered beside those of the path.
pub fn rows_step(image: &[u8], words: &mut [u32], most: u64) -> Option<Row> {
    cursor_call(image, words, |words| cursor::step(image, &cursor::path_in(words), most))
}

pub fn urk_rows_first(image: &[u8], root: u32, words: &mut [u32]) -> Row {
    rows_first(image, root, words, u64::MAX).expect("no bound")
}

pub fn urk_rows_seek(image: &[u8], root: u32, row: i64, words: &mut [u32]) -> Row {
    rows_seek(image, root, row, words, u64::MAX).expect("no bound")
}

pub fn urk_rows_step(image: &[u8], words: &mut [u32]) -> Row {
    rows_step(image, words, u64::MAX).expect("no bound")
}

fn payload_of(answer: Result<usize, Refusal>) -> Payload {
    match answer {
        Ok(length) => Payload { refusal: 0, page: 0, length: length as u32 },
        Err(Refusal { number, page }) => Payload { refusal: number, page, length: 0 },
    }
}

pub fn urk_payload_fetch(image: &[u8], page: u32, cell: u32, out: &mut [u8]) -> Payload {
    payload_of(lookup::payload(image, page, cell, out))
}

pub fn urk_payload_quick(image: &[u8], page: u32, cell: u32, out: &mut [u8]) -> Payload {
    payload_of(quick::payload(image, page, cell, out))
}

/// None where more than `most` bytes of pages would have to be looked at.
pub fn report(image: &[u8], root: u32, column: u64, room: &mut [u8], most: u64) -> Option<Summary> {
    Some(match report::report(image, root, column, room, most)? {
        Err(Refusal { number, page }) => Summary { refusal: number, page, ..Summary::default() },
        Ok(report::Summary { count, least, greatest, sum }) => {
            let nan = sum.is_nan();
            Summary { refusal: 0, page: 0, count, least, greatest, sum: if nan { 0.0 } else { sum }, sum_is_nan: u32::from(nan) }
        }
    })
}

pub fn urk_report(image: &[u8], root: u32, column: u64, room: &mut [u8]) -> Summary {
    report(image, root, column, room, u64::MAX).expect("a bound that is never met")
}

fn part(answer: Result<wal::Part, Refusal>) -> Part {
    match answer {
        Ok(part) => Part { refusal: 0, from_log: u32::from(part.from_log), start: part.start as u64, length: part.length as u64 },
        Err(Refusal { number, .. }) => Part { refusal: number, ..Part::default() },
    }
}

pub fn urk_log_page(log: &[u8], image: &[u8], page: u32) -> Part {
    part(wal::page(log, image, page))
}

pub fn urk_log_fill(log: &[u8], image: &[u8], table: &mut [u32]) -> Filled {
    match wal::fill(log, image, table) {
        Ok(wal::Filled { pages, page_size }) => Filled { refusal: 0, pages: pages as u32, page_size: page_size as u32 },
        Err(Refusal { number, .. }) => Filled { refusal: number, ..Filled::default() },
    }
}

pub fn urk_log_page_by(log: &[u8], image: &[u8], table: &[u32], pages: u32, page_size: u32, page: u32) -> Part {
    part(wal::page_by(log, image, table, pages, page_size, page))
}

fn recovered(answer: Result<(usize, usize), Refusal>) -> Recovered {
    match answer {
        Ok((pages, length)) => Recovered { refusal: 0, pages: pages as u32, length: length as u64 },
        Err(Refusal { number, .. }) => Recovered { refusal: number, ..Recovered::default() },
    }
}

pub fn urk_log_recover(log: &[u8], image: &[u8], out: &mut [u8]) -> Recovered {
    recovered(wal::recover(log, image, out))
}

pub fn urk_journal_recover(journal: &[u8], image: &[u8], out: &mut [u8]) -> Recovered {
    recovered(journal::recover(journal, image, out))
}

pub fn urk_log_inspect(log: &[u8]) -> LogSummary {
    inspect::log(log)
}

pub fn urk_journal_inspect(journal: &[u8]) -> JournalSummary {
    inspect::journal(journal)
}

pub fn urk_journal_super(journal: &[u8]) -> Name {
    journal::super_name(journal).map_or(Name::default(), |name| Name { found: 1, start: name.start as u64, length: name.len() as u64 })
}

pub fn urk_build(schema: &[u8], rows: &[i64], lengths: &[u32], payloads: &[u8], out: &mut [u8]) -> Built {
    match build::build(schema, rows, lengths, payloads, out) {
        Ok(pages) => Built { refusal: 0, pages: pages as u32, length: pages as u64 * 1024 },
        Err(number) => Built { refusal: number, ..Built::default() },
    }
}

/// The words that a tail is kept in: 44 where they are too few.
fn tail_words(tail: &mut [u32]) -> Result<&mut [u32; appending::WORDS], u32> {
    tail.first_chunk_mut().ok_or(44)
}

fn appended_of(answer: Result<appending::Appended, u32>) -> Appended {
    match answer {
        Ok(appending::Appended { at, length }) => Appended { refusal: 0, at, length },
        Err(refusal) => Appended { refusal, ..Appended::default() },
    }
}

pub fn urk_log_tail(log: &[u8], tail: &mut [u32]) -> Tail {
    let told = appending::tail(log).and_then(|told| {
        *tail_words(tail)? = told.words();
        Ok(told)
    });
    match told {
        Ok(appending::Tail { page_size, frames, pages, .. }) => Tail { refusal: 0, page_size, frames, pages },
        Err(refusal) => Tail { refusal, ..Tail::default() },
    }
}

pub fn urk_log_begin(page_size: u32, sequence: u32, salt1: u32, salt2: u32, tail: &mut [u32], out: &mut [u8]) -> Appended {
    // 41 comes first, and a refusal leaves the output too.
    let out = if tail.len() < appending::WORDS { &mut [] } else { out };
    appended_of(appending::begin(page_size, sequence, [salt1, salt2], out).and_then(|(told, appended)| {
        *tail_words(tail)? = told.words();
        Ok(appended)
    }))
}

pub fn urk_log_append(tail: &mut [u32], numbers: &[u32], pages: &[u8], n: u32, out: &mut [u8]) -> Appended {
    appended_of(tail_words(tail).and_then(|words| {
        let (told, appended) = appending::append(appending::Tail::of(*words), numbers, pages, n, out)?;
        *words = told.words();
        Ok(appended)
    }))
}
