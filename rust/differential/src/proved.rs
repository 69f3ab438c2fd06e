//! The proved library, behind the same functions as the straightforward reader.

use plain::c::{
    Appended, Built, Column, Columns, Filled, Found, JournalSummary, LedgerAnswer, LedgerWritten, LogSummary, Name, Order, Part, Payload, Recovered,
    Row, Summary, Tail, Varint, Verdict,
};
use urkibasko::raw;
use world::reader::Reader;

pub struct Proved;

fn row_of(answer: raw::urk_row) -> Row {
    let raw::urk_row { refusal, page, found, cell, length, row } = answer;
    Row { refusal, page, found, cell, length, row }
}

fn part_of(answer: raw::urk_part) -> Part {
    let raw::urk_part { refusal, from_log, start, length } = answer;
    Part { refusal, from_log, start, length }
}

fn appended_of(answer: raw::urk_appended) -> Appended {
    let raw::urk_appended { refusal, at, length } = answer;
    Appended { refusal, at, length }
}

// SAFETY (all calls): pointers and lengths are those of slices, and a lent slice is borrowed alone.
impl Reader for Proved {
    fn varint_read(&self, bytes: &[u8]) -> Varint {
        let raw::urk_varint { length, shortest, value } = unsafe { raw::urk_varint_read(bytes.as_ptr(), bytes.len()) };
        Varint { length, shortest, value }
    }

    fn varint_write(&self, value: i64, out: &mut [u8]) -> u32 {
        unsafe { raw::urk_varint_write(value, out.as_mut_ptr(), out.len()) }
    }

    fn record_columns(&self, record: &[u8]) -> Columns {
        let raw::urk_columns { status, count } = unsafe { raw::urk_record_columns(record.as_ptr(), record.len()) };
        Columns { status, count }
    }

    fn record_column(&self, record: &[u8], column: u64) -> Column {
        let raw::urk_column { status, kind, integer, real, place, length } = unsafe { raw::urk_record_column(record.as_ptr(), record.len(), column) };
        Column { status, kind, integer, real, place, length }
    }

    fn record_order(&self, a: &[u8], b: &[u8]) -> Order {
        let raw::urk_order { status, order } = unsafe { raw::urk_record_order(a.as_ptr(), a.len(), b.as_ptr(), b.len()) };
        Order { status, order }
    }

    fn check(&self, image: &[u8], kinds: &mut [u8], namers: &mut [u32], steps: &mut [u32]) -> Verdict {
        let raw::urk_verdict { refusal, page, pages, long_spellings } = unsafe {
            raw::urk_check(
                image.as_ptr(),
                image.len(),
                kinds.as_mut_ptr(),
                kinds.len(),
                namers.as_mut_ptr(),
                namers.len(),
                steps.as_mut_ptr(),
                steps.len(),
            )
        };
        Verdict { refusal, page, pages, long_spellings }
    }

    fn check_ordered(&self, image: &[u8], ordered: &[u32], kinds: &mut [u8], namers: &mut [u32], steps: &mut [u32]) -> Verdict {
        let raw::urk_verdict { refusal, page, pages, long_spellings } = unsafe {
            raw::urk_check_ordered(
                image.as_ptr(),
                image.len(),
                ordered.as_ptr(),
                ordered.len(),
                kinds.as_mut_ptr(),
                kinds.len(),
                namers.as_mut_ptr(),
                namers.len(),
                steps.as_mut_ptr(),
                steps.len(),
            )
        };
        Verdict { refusal, page, pages, long_spellings }
    }

    fn ledger_check(&self, image: &[u8], proposal: &[u8], kinds: &mut [u8], namers: &mut [u32], steps: &mut [u32]) -> LedgerAnswer {
        let raw::urk_ledger_answer { yes, refusal, page } = unsafe {
            raw::urk_ledger_check(
                image.as_ptr(),
                image.len(),
                proposal.as_ptr(),
                proposal.len(),
                kinds.as_mut_ptr(),
                kinds.len(),
                namers.as_mut_ptr(),
                namers.len(),
                steps.as_mut_ptr(),
                steps.len(),
            )
        };
        LedgerAnswer { yes, refusal, page }
    }

    fn ledger_write(&self, pages: u32, kinds: &[u8], namers: &[u32], steps: &[u32], out: &mut [u8]) -> LedgerWritten {
        let raw::urk_ledger_written { refusal, length } = unsafe {
            raw::urk_ledger_write(
                pages,
                kinds.as_ptr(),
                kinds.len(),
                namers.as_ptr(),
                namers.len(),
                steps.as_ptr(),
                steps.len(),
                out.as_mut_ptr(),
                out.len(),
            )
        };
        LedgerWritten { refusal, length }
    }

    fn lookup(&self, image: &[u8], root: u32, row: i64) -> Found {
        let raw::urk_found { refusal, page, found, cell, length } = unsafe { raw::urk_lookup(image.as_ptr(), image.len(), root, row) };
        Found { refusal, page, found, cell, length }
    }

    fn find(&self, image: &[u8], root: u32, row: i64) -> Found {
        let raw::urk_found { refusal, page, found, cell, length } = unsafe { raw::urk_find(image.as_ptr(), image.len(), root, row) };
        Found { refusal, page, found, cell, length }
    }

    fn row_set(&self, image: &mut [u8], kinds: &[u8], root: u32, row: i64, record: &[u8]) -> Found {
        let raw::urk_found { refusal, page, found, cell, length } =
            unsafe { raw::urk_row_set(image.as_mut_ptr(), image.len(), kinds.as_ptr(), kinds.len(), root, row, record.as_ptr(), record.len()) };
        Found { refusal, page, found, cell, length }
    }

    fn rows_first(&self, image: &[u8], root: u32, cursor: &mut [u32]) -> Row {
        row_of(unsafe { raw::urk_rows_first(image.as_ptr(), image.len(), root, cursor.as_mut_ptr(), cursor.len()) })
    }

    fn rows_seek(&self, image: &[u8], root: u32, row: i64, cursor: &mut [u32]) -> Row {
        row_of(unsafe { raw::urk_rows_seek(image.as_ptr(), image.len(), root, row, cursor.as_mut_ptr(), cursor.len()) })
    }

    fn rows_step(&self, image: &[u8], cursor: &mut [u32]) -> Row {
        row_of(unsafe { raw::urk_rows_step(image.as_ptr(), image.len(), cursor.as_mut_ptr(), cursor.len()) })
    }

    fn payload_fetch(&self, image: &[u8], page: u32, cell: u32, out: &mut [u8]) -> Payload {
        let raw::urk_payload { refusal, page, length } =
            unsafe { raw::urk_payload_fetch(image.as_ptr(), image.len(), page, cell, out.as_mut_ptr(), out.len()) };
        Payload { refusal, page, length }
    }

    fn payload_quick(&self, image: &[u8], page: u32, cell: u32, out: &mut [u8]) -> Payload {
        let raw::urk_payload { refusal, page, length } =
            unsafe { raw::urk_payload_quick(image.as_ptr(), image.len(), page, cell, out.as_mut_ptr(), out.len()) };
        Payload { refusal, page, length }
    }

    fn report(&self, image: &[u8], root: u32, column: u64, room: &mut [u8]) -> Summary {
        let raw::urk_summary { refusal, page, count, least, greatest, sum, sum_is_nan } =
            unsafe { raw::urk_report(image.as_ptr(), image.len(), root, column, room.as_mut_ptr(), room.len()) };
        Summary { refusal, page, count, least, greatest, sum, sum_is_nan }
    }

    fn log_page(&self, log: &[u8], image: &[u8], page: u32) -> Part {
        part_of(unsafe { raw::urk_log_page(log.as_ptr(), log.len(), image.as_ptr(), image.len(), page) })
    }

    fn log_fill(&self, log: &[u8], image: &[u8], table: &mut [u32]) -> Filled {
        let raw::urk_filled { refusal, pages, page_size } =
            unsafe { raw::urk_log_fill(log.as_ptr(), log.len(), image.as_ptr(), image.len(), table.as_mut_ptr(), table.len()) };
        Filled { refusal, pages, page_size }
    }

    fn log_page_by(&self, log: &[u8], image: &[u8], table: &[u32], pages: u32, page_size: u32, page: u32) -> Part {
        part_of(unsafe {
            raw::urk_log_page_by(log.as_ptr(), log.len(), image.as_ptr(), image.len(), table.as_ptr(), table.len(), pages, page_size, page)
        })
    }

    fn log_recover(&self, log: &[u8], image: &[u8], out: &mut [u8]) -> Recovered {
        let raw::urk_recovered { refusal, pages, length } =
            unsafe { raw::urk_log_recover(log.as_ptr(), log.len(), image.as_ptr(), image.len(), out.as_mut_ptr(), out.len()) };
        Recovered { refusal, pages, length }
    }

    fn journal_recover(&self, journal: &[u8], image: &[u8], out: &mut [u8]) -> Recovered {
        let raw::urk_recovered { refusal, pages, length } =
            unsafe { raw::urk_journal_recover(journal.as_ptr(), journal.len(), image.as_ptr(), image.len(), out.as_mut_ptr(), out.len()) };
        Recovered { refusal, pages, length }
    }

    fn log_inspect(&self, log: &[u8]) -> LogSummary {
        let raw::urk_log_summary { refusal, header, page_size, pages, frames, counting, in_force, stop } =
            unsafe { raw::urk_log_inspect(log.as_ptr(), log.len()) };
        LogSummary { refusal, header, page_size, pages, frames, counting, in_force, stop }
    }

    fn journal_inspect(&self, journal: &[u8]) -> JournalSummary {
        let raw::urk_journal_summary { refusal, header, page_size, sector_size, pages, segments, counting, laid, stop } =
            unsafe { raw::urk_journal_inspect(journal.as_ptr(), journal.len()) };
        JournalSummary { refusal, header, page_size, sector_size, pages, segments, counting, laid, stop }
    }

    fn journal_super(&self, journal: &[u8]) -> Name {
        let raw::urk_name { found, start, length } = unsafe { raw::urk_journal_super(journal.as_ptr(), journal.len()) };
        Name { found, start, length }
    }

    fn build(&self, schema: &[u8], rows: &[i64], lengths: &[u32], payloads: &[u8], out: &mut [u8]) -> Built {
        let raw::urk_built { refusal, pages, length } = unsafe {
            raw::urk_build(
                schema.as_ptr(),
                schema.len(),
                rows.as_ptr(),
                rows.len(),
                lengths.as_ptr(),
                lengths.len(),
                payloads.as_ptr(),
                payloads.len(),
                out.as_mut_ptr(),
                out.len(),
            )
        };
        Built { refusal, pages, length }
    }

    fn log_tail(&self, log: &[u8], tail: &mut [u32]) -> Tail {
        let raw::urk_tail { refusal, page_size, frames, pages } =
            unsafe { raw::urk_log_tail(log.as_ptr(), log.len(), tail.as_mut_ptr(), tail.len()) };
        Tail { refusal, page_size, frames, pages }
    }

    fn log_begin(&self, page_size: u32, sequence: u32, salts: [u32; 2], tail: &mut [u32], out: &mut [u8]) -> Appended {
        appended_of(unsafe {
            raw::urk_log_begin(page_size, sequence, salts[0], salts[1], tail.as_mut_ptr(), tail.len(), out.as_mut_ptr(), out.len())
        })
    }

    fn log_append(&self, tail: &mut [u32], numbers: &[u32], pages: &[u8], n: u32, out: &mut [u8]) -> Appended {
        appended_of(unsafe {
            raw::urk_log_append(
                tail.as_mut_ptr(),
                tail.len(),
                numbers.as_ptr(),
                numbers.len(),
                pages.as_ptr(),
                pages.len(),
                n,
                out.as_mut_ptr(),
                out.len(),
            )
        })
    }
}
