//! Commits that are appended to a write-ahead log.

use crate::{raw, Refusal};

/// The words of a log's tail.
const TAIL_WORDS: usize = 8;

/// The bytes of a log's header.
pub const LOG_HEADER: usize = 32;

/// Bytes for a log, and where in it they belong.
#[derive(Clone, Copy, Debug, PartialEq, Eq)]
pub struct Appended<'o> {
    /// The log has to end here before they are written: it is cut, and synced.
    pub at: u64,
    pub bytes: &'o [u8],
}

/// Appends commits to a write-ahead log: it keeps the log's tail, and makes the bytes; its caller writes them. A commit takes the time of its own frames,
/// however long the log is.
///
/// ```
/// # let image = include_bytes!("../../../examples/counter.db");
/// use urkibasko::{LogView, LogWriter};
/// // A fresh log, for a database of 17 pages of 512 bytes.
/// let (mut writer, header) = LogWriter::begin(512, 0, [2024, 7])?;
/// let mut log = header.to_vec();
///
/// // A commit of page 2 in a new version.
/// let page = [7; 512];
/// let mut frames = Vec::new();
/// let appended = writer.append(&[2], &page, 17, &mut frames)?;
/// log.truncate(appended.at as usize);
/// log.extend(appended.bytes);
/// assert_eq!(LogView::new(&log, image)?.page(2)?, page);
///
/// // Cut anywhere, the frames change nothing.
/// assert_eq!(LogView::new(&log[..log.len() - 1], image)?.page(2)?, &image[512..1024]);
///
/// // Whoever opens the log goes on where this writer stands.
/// assert_eq!(LogWriter::open(&log)?, writer);
/// # Ok::<(), urkibasko::Refusal>(())
/// ```
///
/// **What is appended is appended to a log that ends at [`Appended::at`]**: cut the log there first where it is longer, and sync it; then write the bytes,
/// and sync them. Where old bytes stand behind a torn frame its sums may match by chance, and only this holds: every commit that was in force stays in force.
///
/// **Who grows a database gives every new page** but the lock-byte page: of one that is not given an older frame in force is shown, else the image's page,
/// else it is nowhere. The lock-byte page cannot be given (51): it is shown from the image, or is 46.
///
/// After an append the writer stands behind its commit. Where the bytes do not reach the log go on with a clone from before, or open the log again. A refusal
/// leaves the writer and the output as they were.
#[derive(Clone, Debug, PartialEq, Eq)]
pub struct LogWriter {
    tail: [u32; TAIL_WORDS],
}

impl LogWriter {
    /// A writer behind the last commit in force of a log, which is scanned once. What stands behind that commit is to be cut off: see [`end`](LogWriter::end).
    ///
    /// ```
    /// use urkibasko::{LogWriter, Rule};
    /// let log = include_bytes!("../../../crates/wal_vectors/data/leftovers.log");
    /// let writer = LogWriter::open(log)?;
    /// assert_eq!((writer.page_size(), writer.frames(), writer.pages()), (512, 1, Some(14)));
    /// assert!(writer.end() < log.len() as u64);
    /// assert_eq!(LogWriter::open(&log[..31]).expect_err("no header").rule, Rule::NoLogHeader);
    /// # Ok::<(), urkibasko::Refusal>(())
    /// ```
    pub fn open(log: &[u8]) -> Result<LogWriter, Refusal> {
        let mut tail = [0; TAIL_WORDS];
        // SAFETY: pointers and lengths are those of a slice and of an array that is borrowed alone.
        let told = unsafe { raw::urk_log_tail(log.as_ptr(), log.len(), tail.as_mut_ptr(), tail.len()) };
        Refusal::test(told.refusal, 0)?;
        Ok(LogWriter { tail })
    }

    /// A fresh log, of which the header alone is to be written, at 0. A log that takes another's place has another salt, and sqlite3 counts the sequence up.
    /// The other log is cut to nothing first, unless it has a commit in force, sums in little-endian words and the same page size: over such a log's header the
    /// fresh one may be laid, once the image is what that log showed.
    pub fn begin(page_size: u32, sequence: u32, salts: [u32; 2]) -> Result<(LogWriter, [u8; LOG_HEADER]), Refusal> {
        let mut tail = [0; TAIL_WORDS];
        let mut header = [0; LOG_HEADER];
        // SAFETY: pointers and lengths are those of arrays that are borrowed alone.
        let told =
            unsafe { raw::urk_log_begin(page_size, sequence, salts[0], salts[1], tail.as_mut_ptr(), tail.len(), header.as_mut_ptr(), header.len()) };
        Refusal::test(told.refusal, 0)?;
        Ok((LogWriter { tail }, header))
    }

    pub fn page_size(&self) -> usize {
        self.tail[0] as usize
    }

    /// How many frames are in force.
    pub fn frames(&self) -> u32 {
        self.tail[6]
    }

    /// The pages after the last commit in force; none where there is none.
    pub fn pages(&self) -> Option<u32> {
        Some(self.tail[7]).filter(|&pages| pages != 0)
    }

    /// Where the last commit in force ends, and the next one belongs.
    pub fn end(&self) -> u64 {
        LOG_HEADER as u64 + u64::from(self.frames()) * self.frame() as u64
    }

    /// How many bytes a frame takes.
    fn frame(&self) -> usize {
        24 + self.page_size()
    }

    /// How many bytes a commit of so many pages takes in the log.
    pub fn room(&self, pages: usize) -> usize {
        pages.saturating_mul(self.frame())
    }

    /// A commit of `n` pages, in a vector whose room is used again: it holds the frames alone afterwards. `numbers` lists pages, whose bytes are side by side
    /// in `pages`; of a page that is listed more than once the last bytes count. [`Rule::BadCommit`](crate::Rule::BadCommit): there are none, or a number is 0,
    /// above `n`, or the lock-byte page's, or `pages` has other bytes than they take.
    pub fn append<'o>(&mut self, numbers: &[u32], pages: &[u8], n: u32, out: &'o mut Vec<u8>) -> Result<Appended<'o>, Refusal> {
        let before = out.len();
        // What a commit takes whose pages are as many bytes as they must be; of any other no more than was given.
        let room = pages.len().saturating_add(numbers.len().saturating_mul(24)).min(self.room(numbers.len()));
        if before < room {
            out.resize(room, 0);
        }
        match self.lay(numbers, pages, n, out) {
            Ok((at, length)) => {
                out.truncate(length);
                Ok(Appended { at, bytes: out })
            }
            Err(refusal) => {
                out.truncate(before);
                Err(refusal)
            }
        }
    }

    /// The same at the start of a slice, of which only the frames change.
    pub fn append_into<'o>(&mut self, numbers: &[u32], pages: &[u8], n: u32, out: &'o mut [u8]) -> Result<Appended<'o>, Refusal> {
        let (at, length) = self.lay(numbers, pages, n, out)?;
        Ok(Appended { at, bytes: &out[..length] })
    }

    /// Frames at the start of an output: where in the log they belong, and their length.
    fn lay(&mut self, numbers: &[u32], pages: &[u8], n: u32, out: &mut [u8]) -> Result<(u64, usize), Refusal> {
        // SAFETY: pointers and lengths are those of slices, and the borrow checker keeps the lent ones apart.
        let told = unsafe {
            raw::urk_log_append(
                self.tail.as_mut_ptr(),
                self.tail.len(),
                numbers.as_ptr(),
                numbers.len(),
                pages.as_ptr(),
                pages.len(),
                n,
                out.as_mut_ptr(),
                out.len(),
            )
        };
        Refusal::test(told.refusal, 0)?;
        Ok((told.at, told.length as usize))
    }
}
