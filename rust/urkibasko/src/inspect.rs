//! What a log and a journal say of themselves: how far recovery reads them, and why no further.

use crate::{raw, Refusal, Rule};

macro_rules! cases {
    ($($(#[$doc:meta])* $name:ident { $($number:literal $case:ident $text:literal)* })*) => {$(
        $(#[$doc])*
        #[derive(Clone, Copy, Debug, PartialEq, Eq, Hash)]
        #[non_exhaustive]
        #[repr(u32)]
        pub enum $name { $(#[doc = $text] $case = $number),* }

        impl $name {
            fn from_number(number: u32) -> $name {
                match number { $($number => $name::$case,)* _ => unreachable!("the library tells one of these") }
            }

            /// In words.
            pub fn text(self) -> &'static str {
                match self { $($name::$case => $text),* }
            }
        }
    )*};
}

cases! {
    /// A log's header.
    LogHeader {
        0 Accepted "its magic and sums are right"
        1 Short "the log has under 32 bytes"
        2 Magic "it does not begin as a log does"
        3 Sums "its sums are wrong"
    }
    /// Why the scan stopped, at the frame after the last that counts.
    LogStop {
        0 End "the log ends there"
        1 Cut "the frame is cut"
        2 ZeroNumber "its page number is 0"
        3 Salts "its salts are not the header's: an older log left it, or it is damaged"
        4 Sums "its sums do not match"
        5 LockByte "its page number is the lock-byte page's"
    }
    /// A journal's first header.
    JournalHeader {
        0 There "it is there"
        1 Short "the journal has under 28 bytes"
        2 Magic "it does not begin as a journal does"
    }
    /// Why reading stopped, behind the last record that counts.
    JournalStop {
        0 End "no further header fits"
        1 Magic "where the next segment would begin no header stands"
        2 Sizes "the next header has another page or sector size"
        3 Cut "a record is cut"
        4 ZeroNumber "its page number is 0"
        5 Sum "its sum does not match"
        6 LockByte "its page number is the lock-byte page's"
        7 All "the file ends after whole records, all of which count"
    }
}

/// What a log says of itself. With a header that is not accepted, and with the rules [`Rule::LogVersion`] and [`Rule::RecoverySize`], all numbers are 0.
#[derive(Clone, Copy, Debug, PartialEq, Eq)]
pub struct LogSummary {
    pub header: LogHeader,
    /// What recovery refuses the log for, whatever the image.
    pub refusal: Option<Rule>,
    pub page_size: u32,
    /// The number n of pages after the last commit; 0 where there is none.
    pub pages: u32,
    /// Frames that are whole.
    pub frames: u64,
    /// How many of them count: each is whole, its number is neither 0 nor the lock-byte page's, it has the header's salts and right sums, and so have all before it.
    pub counting: u64,
    /// How many are in force: those up to the last commit.
    pub in_force: u64,
    pub stop: LogStop,
}

impl LogSummary {
    /// Recovery shows the image alone.
    pub fn nothing_to_recover(&self) -> bool {
        self.refusal.is_none() && self.in_force == 0
    }
}

/// What a log says of itself, and what recovery makes of it: it has the same refusal, page size, frames in force and pages.
///
/// ```
/// use urkibasko::{log_inspect, LogHeader, LogStop};
/// let log = include_bytes!("../../../crates/wal_vectors/data/leftovers.log");
/// let told = log_inspect(log);
/// assert_eq!((told.header, told.stop), (LogHeader::Accepted, LogStop::Salts));
/// assert!(told.in_force <= told.counting && told.counting < told.frames);
/// assert_eq!(log_inspect(b"no log").header, LogHeader::Short);
/// ```
pub fn log_inspect(log: &[u8]) -> LogSummary {
    // SAFETY: pointer and length are those of a slice.
    let told = unsafe { raw::urk_log_inspect(log.as_ptr(), log.len()) };
    LogSummary {
        header: LogHeader::from_number(told.header),
        refusal: Refusal::test(told.refusal, 0).err().map(|refusal| refusal.rule),
        page_size: told.page_size,
        pages: told.pages,
        frames: told.frames,
        counting: told.counting,
        in_force: told.in_force,
        stop: LogStop::from_number(told.stop),
    }
}

/// What a journal says of itself. With a header that is not there, and with the rule [`Rule::RecoverySize`], all numbers are 0.
#[derive(Clone, Copy, Debug, PartialEq, Eq)]
pub struct JournalSummary {
    pub header: JournalHeader,
    /// What recovery refuses the journal for, whatever the image.
    pub refusal: Option<Rule>,
    pub page_size: u32,
    pub sector_size: u32,
    /// The number n of pages that the journal takes a database back to.
    pub pages: u32,
    /// Headers read; 4,294,967,295 stands for so many or more.
    pub segments: u32,
    /// Records that stand before the end.
    pub counting: u64,
    /// Those of them that are laid down: their numbers are at most n.
    pub laid: u64,
    pub stop: JournalStop,
}

impl JournalSummary {
    /// There is no journal: recovery hands the image on as it is.
    pub fn nothing_to_recover(&self) -> bool {
        self.header != JournalHeader::There
    }
}

/// What a journal, of one segment or several, says of itself, and what recovery makes of it: it has the same refusal, page size and pages, and lays down as many records.
///
/// ```
/// use urkibasko::{journal_inspect, JournalHeader, JournalStop};
/// let journal = include_bytes!("../../../crates/journal_vectors/data/segments.journal");
/// let told = journal_inspect(journal);
/// assert_eq!((told.segments, told.pages, told.stop), (3, 10, JournalStop::Magic));
/// assert_eq!(journal_inspect(&journal[..27]).header, JournalHeader::Short);
/// ```
pub fn journal_inspect(journal: &[u8]) -> JournalSummary {
    // SAFETY: pointer and length are those of a slice.
    let told = unsafe { raw::urk_journal_inspect(journal.as_ptr(), journal.len()) };
    JournalSummary {
        header: JournalHeader::from_number(told.header),
        refusal: Refusal::test(told.refusal, 0).err().map(|refusal| refusal.rule),
        page_size: told.page_size,
        sector_size: told.sector_size,
        pages: told.pages,
        segments: told.segments,
        counting: told.counting,
        laid: told.laid,
        stop: JournalStop::from_number(told.stop),
    }
}

/// The name of the super-journal that a journal ends with, where its transaction was over several files. While that file is there the journal is in force.
/// Once it is gone the transaction was committed: the image by itself is the database, and [`journal_recover`](crate::journal_recover), which looks at no
/// file, would undo it.
///
/// sqlite3 takes the name up to its first zero byte, one that does not begin with `/` from the folder that the process runs in, and a file of no bytes for
/// one that is gone.
///
/// ```
/// use urkibasko::journal_super;
/// // The name, its length, the sum of its bytes, and the magic.
/// let journal = b"what stands before/var/a-mj1\0\0\0\x0a\0\0\x03\x3d\xd9\xd5\x05\xf9\x20\xa1\x63\xd7";
/// assert_eq!(journal_super(journal), Some(&b"/var/a-mj1"[..]));
/// assert_eq!(journal_super(&journal[..journal.len() - 1]), None);
/// ```
pub fn journal_super(journal: &[u8]) -> Option<&[u8]> {
    // SAFETY: pointer and length are those of a slice.
    let told = unsafe { raw::urk_journal_super(journal.as_ptr(), journal.len()) };
    let start = told.start as usize;
    (told.found == 1).then(|| &journal[start..start + told.length as usize])
}
