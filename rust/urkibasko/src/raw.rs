//! The functions of `urkibasko.h`, as they are.

macro_rules! answers {
    ($($(#[$doc:meta])* $name:ident { $($field:ident: $kind:ty),* })*) => {$(
        $(#[$doc])*
        #[repr(C)]
        #[derive(Clone, Copy, Debug, PartialEq)]
        #[allow(non_camel_case_types)]
        pub struct $name { $(pub $field: $kind),* }
    )*};
}

answers! {
    /// Length 0: short. `shortest` is 1 where the spelling is the shortest.
    urk_varint { length: u32, shortest: u32, value: i64 }
    /// Status 0 reads, 1 does not read.
    urk_columns { status: u32, count: u64 }
    /// Status 0 value, 1 does not read, 2 missing; kind 0 null, 1 integer, 2 real, 3 text, 4 blob.
    urk_column { status: u32, kind: u32, integer: i64, real: f64, place: u64, length: u64 }
    /// Status 0 both read, 1 the first does not, 2 the second does not; order -1, 0 or 1.
    urk_order { status: u32, order: i32 }
    /// Refusal 0: accepted, with the number of pages and of numbers spelled long.
    urk_verdict { refusal: u32, page: u32, pages: u32, long_spellings: u64 }
    /// Yes 1: the proposal is the ledger of an accepted image. Else the verdict's refusal, or refusal 0 and the first page that differs.
    urk_ledger_answer { yes: u32, refusal: u32, page: u32 }
    urk_ledger_written { refusal: u32, length: u64 }
    /// Refusal 0: found 1, or nothing.
    urk_found { refusal: u32, page: u32, found: u32, cell: u32, length: u32 }
    /// Refusal 0: found 1, or the end.
    urk_row { refusal: u32, page: u32, found: u32, cell: u32, length: u32, row: i64 }
    urk_payload { refusal: u32, page: u32, length: u32 }
    /// All but refusal and page is 0 on a refusal; sum_is_nan 1: the sum turned to NaN, and is 0.
    urk_summary { refusal: u32, page: u32, count: u64, least: f64, greatest: f64, sum: f64, sum_is_nan: u32 }
    urk_part { refusal: u32, from_log: u32, start: u64, length: u64 }
    /// The pages and the page size in force; both 0 on a refusal.
    urk_filled { refusal: u32, pages: u32, page_size: u32 }
    urk_recovered { refusal: u32, pages: u32, length: u64 }
    /// Header 0 accepted, 1 under 32 bytes, 2 wrong magic, 3 wrong sums; stop 0 to 5.
    urk_log_summary { refusal: u32, header: u32, page_size: u32, pages: u32, frames: u64, counting: u64, in_force: u64, stop: u32 }
    /// Header 0 there, 1 under 28 bytes, 2 wrong magic; stop 0 to 7.
    urk_journal_summary { refusal: u32, header: u32, page_size: u32, sector_size: u32, pages: u32, segments: u32, counting: u64, laid: u64, stop: u32 }
    /// Found 1 with the name's place in the journal; or all is 0.
    urk_name { found: u32, start: u64, length: u64 }
    /// Pages of 1,024 bytes, and bytes, of the image; both 0 on a refusal.
    urk_built { refusal: u32, pages: u32, length: u64 }
    /// What a log's tail says: page size, frames in force and pages; all 0 on a refusal.
    urk_tail { refusal: u32, page_size: u32, frames: u32, pages: u32 }
    /// What was written, and where in the log it belongs; both 0 on a refusal.
    urk_appended { refusal: u32, at: u64, length: u64 }
}

extern "C" {
    pub fn urk_varint_read(bytes: *const u8, bytes_len: usize) -> urk_varint;
    pub fn urk_varint_write(value: i64, out: *mut u8, out_len: usize) -> u32;
    pub fn urk_record_columns(record: *const u8, record_len: usize) -> urk_columns;
    pub fn urk_record_column(record: *const u8, record_len: usize, column: u64) -> urk_column;
    pub fn urk_record_order(a: *const u8, a_len: usize, b: *const u8, b_len: usize) -> urk_order;
    pub fn urk_check(
        image: *const u8,
        image_len: usize,
        kinds: *mut u8,
        kinds_len: usize,
        namers: *mut u32,
        namers_len: usize,
        steps: *mut u32,
        steps_len: usize,
    ) -> urk_verdict;
    pub fn urk_check_ordered(
        image: *const u8,
        image_len: usize,
        ordered: *const u32,
        ordered_len: usize,
        kinds: *mut u8,
        kinds_len: usize,
        namers: *mut u32,
        namers_len: usize,
        steps: *mut u32,
        steps_len: usize,
    ) -> urk_verdict;
    pub fn urk_ledger_check(
        image: *const u8,
        image_len: usize,
        proposal: *const u8,
        proposal_len: usize,
        kinds: *mut u8,
        kinds_len: usize,
        namers: *mut u32,
        namers_len: usize,
        steps: *mut u32,
        steps_len: usize,
    ) -> urk_ledger_answer;
    pub fn urk_ledger_write(
        pages: u32,
        kinds: *const u8,
        kinds_len: usize,
        namers: *const u32,
        namers_len: usize,
        steps: *const u32,
        steps_len: usize,
        out: *mut u8,
        out_len: usize,
    ) -> urk_ledger_written;
    pub fn urk_lookup(image: *const u8, image_len: usize, root: u32, row: i64) -> urk_found;
    pub fn urk_find(image: *const u8, image_len: usize, root: u32, row: i64) -> urk_found;
    pub fn urk_rows_first(image: *const u8, image_len: usize, root: u32, cursor: *mut u32, cursor_len: usize) -> urk_row;
    pub fn urk_rows_seek(image: *const u8, image_len: usize, root: u32, row: i64, cursor: *mut u32, cursor_len: usize) -> urk_row;
    pub fn urk_rows_step(image: *const u8, image_len: usize, cursor: *mut u32, cursor_len: usize) -> urk_row;
    pub fn urk_payload_fetch(image: *const u8, image_len: usize, page: u32, cell: u32, out: *mut u8, out_len: usize) -> urk_payload;
    pub fn urk_payload_quick(image: *const u8, image_len: usize, page: u32, cell: u32, out: *mut u8, out_len: usize) -> urk_payload;
    pub fn urk_row_set(
        image: *mut u8,
        image_len: usize,
        kinds: *const u8,
        kinds_len: usize,
        root: u32,
        row: i64,
        record: *const u8,
        record_len: usize,
    ) -> urk_found;
    pub fn urk_report(image: *const u8, image_len: usize, root: u32, column: u64, room: *mut u8, room_len: usize) -> urk_summary;
    pub fn urk_log_page(log: *const u8, log_len: usize, image: *const u8, image_len: usize, page: u32) -> urk_part;
    pub fn urk_log_fill(log: *const u8, log_len: usize, image: *const u8, image_len: usize, table: *mut u32, table_len: usize) -> urk_filled;
    pub fn urk_log_page_by(
        log: *const u8,
        log_len: usize,
        image: *const u8,
        image_len: usize,
        table: *const u32,
        table_len: usize,
        pages: u32,
        page_size: u32,
        page: u32,
    ) -> urk_part;
    pub fn urk_log_recover(log: *const u8, log_len: usize, image: *const u8, image_len: usize, out: *mut u8, out_len: usize) -> urk_recovered;
    pub fn urk_journal_recover(
        journal: *const u8,
        journal_len: usize,
        image: *const u8,
        image_len: usize,
        out: *mut u8,
        out_len: usize,
    ) -> urk_recovered;
    pub fn urk_log_inspect(log: *const u8, log_len: usize) -> urk_log_summary;
    pub fn urk_journal_inspect(journal: *const u8, journal_len: usize) -> urk_journal_summary;
    pub fn urk_journal_super(journal: *const u8, journal_len: usize) -> urk_name;
    pub fn urk_build(
        schema: *const u8,
        schema_len: usize,
        rows: *const i64,
        rows_len: usize,
        lengths: *const u32,
        lengths_len: usize,
        payloads: *const u8,
        payloads_len: usize,
        out: *mut u8,
        out_len: usize,
    ) -> urk_built;
    pub fn urk_log_tail(log: *const u8, log_len: usize, tail: *mut u32, tail_len: usize) -> urk_tail;
    pub fn urk_log_begin(
        page_size: u32,
        sequence: u32,
        salt1: u32,
        salt2: u32,
        tail: *mut u32,
        tail_len: usize,
        out: *mut u8,
        out_len: usize,
    ) -> urk_appended;
    pub fn urk_log_append(
        tail: *mut u32,
        tail_len: usize,
        numbers: *const u32,
        numbers_len: usize,
        pages: *const u8,
        pages_len: usize,
        n: u32,
        out: *mut u8,
        out_len: usize,
    ) -> urk_appended;
}
