//! The functions of `urkibasko.h`, so that the same test runs on any implementation of them.

use plain::c::{
    self, Appended, Built, Column, Columns, Filled, Found, JournalSummary, LedgerAnswer, LedgerWritten, LogSummary, Name, Order, Part, Payload,
    Recovered, Row, Summary, Tail, Varint, Verdict,
};

pub trait Reader {
    fn varint_read(&self, bytes: &[u8]) -> Varint;
    fn varint_write(&self, value: i64, out: &mut [u8]) -> u32;
    fn record_columns(&self, record: &[u8]) -> Columns;
    fn record_column(&self, record: &[u8], column: u64) -> Column;
    fn record_order(&self, a: &[u8], b: &[u8]) -> Order;
    fn check(&self, image: &[u8], kinds: &mut [u8], namers: &mut [u32], steps: &mut [u32]) -> Verdict;
    fn check_ordered(&self, image: &[u8], ordered: &[u32], kinds: &mut [u8], namers: &mut [u32], steps: &mut [u32]) -> Verdict;
    fn ledger_check(&self, image: &[u8], proposal: &[u8], kinds: &mut [u8], namers: &mut [u32], steps: &mut [u32]) -> LedgerAnswer;
    fn ledger_write(&self, pages: u32, kinds: &[u8], namers: &[u32], steps: &[u32], out: &mut [u8]) -> LedgerWritten;
    fn lookup(&self, image: &[u8], root: u32, row: i64) -> Found;
    fn find(&self, image: &[u8], root: u32, row: i64) -> Found;
    fn row_set(&self, image: &mut [u8], kinds: &[u8], root: u32, row: i64, record: &[u8]) -> Found;
    fn rows_first(&self, image: &[u8], root: u32, cursor: &mut [u32]) -> Row;
    fn rows_seek(&self, image: &[u8], root: u32, row: i64, cursor: &mut [u32]) -> Row;
    fn rows_step(&self, image: &[u8], cursor: &mut [u32]) -> Row;
    fn payload_fetch(&self, image: &[u8], page: u32, cell: u32, out: &mut [u8]) -> Payload;
    fn payload_quick(&self, image: &[u8], page: u32, cell: u32, out: &mut [u8]) -> Payload;
    fn report(&self, image: &[u8], root: u32, column: u64, room: &mut [u8]) -> Summary;
    fn log_page(&self, log: &[u8], image: &[u8], page: u32) -> Part;
    fn log_fill(&self, log: &[u8], image: &[u8], table: &mut [u32]) -> Filled;
    fn log_page_by(&self, log: &[u8], image: &[u8], table: &[u32], pages: u32, page_size: u32, page: u32) -> Part;
    fn log_recover(&self, log: &[u8], image: &[u8], out: &mut [u8]) -> Recovered;
    fn journal_recover(&self, journal: &[u8], image: &[u8], out: &mut [u8]) -> Recovered;
    fn log_inspect(&self, log: &[u8]) -> LogSummary;
    fn journal_inspect(&self, journal: &[u8]) -> JournalSummary;
    fn journal_super(&self, journal: &[u8]) -> Name;
    fn build(&self, schema: &[u8], rows: &[i64], lengths: &[u32], payloads: &[u8], out: &mut [u8]) -> Built;
    fn log_tail(&self, log: &[u8], tail: &mut [u32]) -> Tail;
    fn log_begin(&self, page_size: u32, sequence: u32, salts: [u32; 2], tail: &mut [u32], out: &mut [u8]) -> Appended;
    fn log_append(&self, tail: &mut [u32], numbers: &[u32], pages: &[u8], n: u32, out: &mut [u8]) -> Appended;
}

/// The straightforward reader.
pub struct Plain;

impl Reader for Plain {
    fn varint_read(&self, bytes: &[u8]) -> Varint {
        c::urk_varint_read(bytes)
    }
    fn varint_write(&self, value: i64, out: &mut [u8]) -> u32 {
        c::urk_varint_write(value, out)
    }
    fn record_columns(&self, record: &[u8]) -> Columns {
        c::urk_record_columns(record)
    }
    fn record_column(&self, record: &[u8], column: u64) -> Column {
        c::urk_record_column(record, column)
    }
    fn record_order(&self, a: &[u8], b: &[u8]) -> Order {
        c::urk_record_order(a, b)
    }
    fn check(&self, image: &[u8], kinds: &mut [u8], namers: &mut [u32], steps: &mut [u32]) -> Verdict {
        c::urk_check(image, kinds, namers, steps)
    }
    fn check_ordered(&self, image: &[u8], ordered: &[u32], kinds: &mut [u8], namers: &mut [u32], steps: &mut [u32]) -> Verdict {
        c::urk_check_ordered(image, ordered, kinds, namers, steps)
    }
    fn ledger_check(&self, image: &[u8], proposal: &[u8], kinds: &mut [u8], namers: &mut [u32], steps: &mut [u32]) -> LedgerAnswer {
        c::urk_ledger_check(image, proposal, kinds, namers, steps)
    }
    fn ledger_write(&self, pages: u32, kinds: &[u8], namers: &[u32], steps: &[u32], out: &mut [u8]) -> LedgerWritten {
        c::urk_ledger_write(pages, kinds, namers, steps, out)
    }
    fn lookup(&self, image: &[u8], root: u32, row: i64) -> Found {
        c::urk_lookup(image, root, row)
    }
    fn find(&self, image: &[u8], root: u32, row: i64) -> Found {
        c::urk_find(image, root, row)
    }
    fn row_set(&self, image: &mut [u8], kinds: &[u8], root: u32, row: i64, record: &[u8]) -> Found {
        c::urk_row_set(image, kinds, root, row, record)
    }
    fn rows_first(&self, image: &[u8], root: u32, cursor: &mut [u32]) -> Row {
        c::urk_rows_first(image, root, cursor)
    }
    fn rows_seek(&self, image: &[u8], root: u32, row: i64, cursor: &mut [u32]) -> Row {
        c::urk_rows_seek(image, root, row, cursor)
    }
    fn rows_step(&self, image: &[u8], cursor: &mut [u32]) -> Row {
        c::urk_rows_step(image, cursor)
    }
    fn payload_fetch(&self, image: &[u8], page: u32, cell: u32, out: &mut [u8]) -> Payload {
        c::urk_payload_fetch(image, page, cell, out)
    }
    fn payload_quick(&self, image: &[u8], page: u32, cell: u32, out: &mut [u8]) -> Payload {
        c::urk_payload_quick(image, page, cell, out)
    }
    fn report(&self, image: &[u8], root: u32, column: u64, room: &mut [u8]) -> Summary {
        c::urk_report(image, root, column, room)
    }
    fn log_page(&self, log: &[u8], image: &[u8], page: u32) -> Part {
        c::urk_log_page(log, image, page)
    }
    fn log_fill(&self, log: &[u8], image: &[u8], table: &mut [u32]) -> Filled {
        c::urk_log_fill(log, image, table)
    }
    fn log_page_by(&self, log: &[u8], image: &[u8], table: &[u32], pages: u32, page_size: u32, page: u32) -> Part {
        c::urk_log_page_by(log, image, table, pages, page_size, page)
    }
    fn log_recover(&self, log: &[u8], image: &[u8], out: &mut [u8]) -> Recovered {
        c::urk_log_recover(log, image, out)
    }
    fn journal_recover(&self, journal: &[u8], image: &[u8], out: &mut [u8]) -> Recovered {
        c::urk_journal_recover(journal, image, out)
    }
    fn log_inspect(&self, log: &[u8]) -> LogSummary {
        c::urk_log_inspect(log)
    }
    fn journal_inspect(&self, journal: &[u8]) -> JournalSummary {
        c::urk_journal_inspect(journal)
    }
    fn journal_super(&self, journal: &[u8]) -> Name {
        c::urk_journal_super(journal)
    }
    fn build(&self, schema: &[u8], rows: &[i64], lengths: &[u32], payloads: &[u8], out: &mut [u8]) -> Built {
        c::urk_build(schema, rows, lengths, payloads, out)
    }
    fn log_tail(&self, log: &[u8], tail: &mut [u32]) -> Tail {
        c::urk_log_tail(log, tail)
    }
    fn log_begin(&self, page_size: u32, sequence: u32, salts: [u32; 2], tail: &mut [u32], out: &mut [u8]) -> Appended {
        c::urk_log_begin(page_size, sequence, salts[0], salts[1], tail, out)
    }
    fn log_append(&self, tail: &mut [u32], numbers: &[u32], pages: &[u8], n: u32, out: &mut [u8]) -> Appended {
        c::urk_log_append(tail, numbers, pages, n, out)
    }
}
