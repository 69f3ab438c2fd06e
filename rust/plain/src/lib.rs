//! A straightforward reader of SQLite 3 files, written from the format's description only.
//!
//! It exists to be compared with: the tests hold every function of the proved library against it, and both against the sqlite3
//! program. [`c`] has the functions of `urkibasko.h` with the same names, answers and effects on lent buffers.

#![forbid(unsafe_code)]

pub mod appending;
pub mod build;
pub mod c;
pub mod cursor;
pub mod header;
pub mod inspect;
pub mod journal;
pub mod ledger;
pub mod lookup;
pub mod number;
pub mod page;
pub mod quick;
pub mod record;
pub mod report;
pub mod setting;
pub mod unread;
pub mod verdict;
pub mod wal;

/// Why something was refused: the number of the refusal, and the page it reports (0: none).
#[derive(Clone, Copy, Debug, PartialEq, Eq)]
pub struct Refusal {
    pub number: u32,
    pub page: u32,
}

impl Refusal {
    pub fn new(number: u32, page: u32) -> Refusal {
        Refusal { number, page }
    }

    /// A refusal that reports no page.
    pub fn general(number: u32) -> Refusal {
        Refusal { number, page: 0 }
    }
}

/// At most this many pages, in an image and after recovery.
pub const MAX_PAGES: usize = 2_200_000;
/// The lock-byte page holds this offset.
const LOCK_BYTE: usize = 1 << 30;

/// The number of the lock-byte page.
pub fn lock_page(page_size: usize) -> usize {
    LOCK_BYTE / page_size + 1
}
/// At most this many bytes in a payload.
pub const MAX_PAYLOAD: u64 = 65536;
/// At most this many levels in a tree, the root being level 1.
pub const MAX_LEVELS: u32 = 20;
