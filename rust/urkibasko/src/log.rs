//! A database with its write-ahead log, shown page by page.

use crate::{raw, Refusal, MAX_PAGES};

/// The pages of the database that a write-ahead log makes of an image. The log is scanned once, when the view is made: for each page a table has the frame that holds it.
#[derive(Clone, Debug)]
pub struct LogView<'a> {
    log: &'a [u8],
    image: &'a [u8],
    table: Vec<u32>,
    page_size: u32,
}

impl<'a> LogView<'a> {
    /// Scans the log. Where it has nothing to recover the image alone is shown.
    pub fn new(log: &'a [u8], image: &'a [u8]) -> Result<LogView<'a>, Refusal> {
        // No database has more pages. Entries past its own are not touched, and given back.
        let mut table = vec![0; MAX_PAGES];
        // SAFETY: pointers and lengths are those of slices and of a vector that is borrowed alone.
        let answer = unsafe { raw::urk_log_fill(log.as_ptr(), log.len(), image.as_ptr(), image.len(), table.as_mut_ptr(), table.len()) };
        Refusal::test(answer.refusal, 0)?;
        table.truncate(answer.pages as usize);
        table.shrink_to_fit();
        Ok(LogView { log, image, table, page_size: answer.page_size })
    }

    /// The number n of pages.
    pub fn pages(&self) -> u32 {
        self.table.len() as u32
    }

    pub fn page_size(&self) -> usize {
        self.page_size as usize
    }

    /// The frame of the log, counted from 1, that holds a page; none where the image does, and where there is no such page.
    pub fn frame(&self, page: u32) -> Option<u32> {
        self.table.get((page as usize).checked_sub(1)?).copied().filter(|&frame| frame != 0)
    }

    /// A page, counted from 1, as a part of the log or of the image: what [`log_page`](crate::log_page) shows.
    pub fn page(&self, page: u32) -> Result<&'a [u8], Refusal> {
        let (log, image, table) = (self.log, self.image, &self.table);
        // SAFETY: pointers and lengths are those of slices.
        let part = unsafe {
            raw::urk_log_page_by(
                log.as_ptr(),
                log.len(),
                image.as_ptr(),
                image.len(),
                table.as_ptr(),
                table.len(),
                self.pages(),
                self.page_size,
                page,
            )
        };
        Refusal::test(part.refusal, 0)?;
        Ok(crate::part_of(log, image, part))
    }
}
