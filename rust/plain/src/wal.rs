//! The write-ahead log.

use crate::header;
use crate::number::be32;
use crate::{lock_page, Refusal, MAX_PAGES};

const HEADER: usize = 32;
const FRAME_HEADER: usize = 24;

/// What a log with a commit says.
#[derive(Clone, Copy, Debug, PartialEq, Eq)]
pub struct Committed {
    pub page_size: usize,
    /// The size of the database after the last commit, in pages.
    pub pages: usize,
    /// The number of frames up to the last commit.
    pub frames: usize,
}

impl Committed {
    /// Where frame `i`, from 0, begins in the log.
    fn frame(&self, i: usize) -> usize {
        HEADER + i * (FRAME_HEADER + self.page_size)
    }

    /// Where the page of frame `i` begins in the log.
    fn page(&self, i: usize) -> usize {
        self.frame(i) + FRAME_HEADER
    }
}

/// The running checksum.
#[derive(Clone, Copy, PartialEq, Eq)]
struct Sums {
    s0: u32,
    s1: u32,
    big_endian: bool,
}

impl Sums {
    fn add(self, bytes: &[u8]) -> Sums {
        if self.big_endian {
            self.add_words(bytes, u32::from_be_bytes)
        } else {
            self.add_words(bytes, u32::from_le_bytes)
        }
    }

    fn add_words(mut self, bytes: &[u8], word: impl Fn([u8; 4]) -> u32) -> Sums {
        for pair in bytes.chunks_exact(8) {
            self.s0 = self.s0.wrapping_add(word([pair[0], pair[1], pair[2], pair[3]])).wrapping_add(self.s1);
            self.s1 = self.s1.wrapping_add(word([pair[4], pair[5], pair[6], pair[7]])).wrapping_add(self.s0);
        }
        self
    }

    fn are(&self, bytes: &[u8], at: usize) -> bool {
        self.s0 == be32(bytes, at) && self.s1 == be32(bytes, at + 4)
    }
}

/// Scans a log. None: there is nothing to recover. Refusals 40 and 41.
pub fn scan(log: &[u8]) -> Result<Option<Committed>, u32> {
    if log.len() < HEADER {
        return Ok(None);
    }
    let big_endian = match be32(log, 0) {
        0x377f0682 => false,
        0x377f0683 => true,
        _ => return Ok(None),
    };
    let mut sums = Sums { s0: 0, s1: 0, big_endian }.add(&log[..24]);
    if !sums.are(log, 24) {
        return Ok(None);
    }
    if be32(log, 4) != 3007000 {
        return Err(40);
    }
    let page_size = be32(log, 8) as usize;
    if !(512..=65536).contains(&page_size) || !page_size.is_power_of_two() {
        return Err(41);
    }
    let salts = &log[16..24];
    let mut last = None;
    for (i, frame) in log[HEADER..].chunks_exact(FRAME_HEADER + page_size).enumerate() {
        sums = sums.add(&frame[..8]).add(&frame[FRAME_HEADER..]);
        let number = be32(frame, 0) as usize;
        if number == 0 || number == lock_page(page_size) || &frame[8..16] != salts || !sums.are(frame, 16) {
            break;
        }
        let size = be32(frame, 4) as usize;
        if size != 0 {
            last = Some(Committed { page_size, pages: size, frames: i + 1 });
        }
    }
    Ok(last)
}

/// A part of the log or of the image.
#[derive(Clone, Copy, Debug, PartialEq, Eq)]
pub struct Part {
    pub from_log: bool,
    pub start: usize,
    pub length: usize,
}

/// Where a page of the recovered database stands.
pub fn page(log: &[u8], image: &[u8], page: u32) -> Result<Part, Refusal> {
    let refuse = |refusal| Err(Refusal::general(refusal));
    let page = page as usize;
    match scan(log).map_err(Refusal::general)? {
        None => {
            let (page_size, pages) = header::alone(image).map_err(Refusal::general)?;
            if page == 0 || page > pages {
                return refuse(46);
            }
            Ok(Part { from_log: false, start: (page - 1) * page_size, length: page_size })
        }
        Some(state) => {
            if state.pages > MAX_PAGES {
                return refuse(42);
            }
            if page == 0 || page > state.pages {
                return refuse(46);
            }
            let holder = (0..state.frames).rev().find(|&i| be32(log, state.frame(i)) as usize == page);
            let length = state.page_size;
            match holder {
                Some(i) => Ok(Part { from_log: true, start: state.page(i), length }),
                None if page * length <= image.len() => Ok(Part { from_log: false, start: (page - 1) * length, length }),
                None if page == lock_page(length) => refuse(46),
                None => refuse(43),
            }
        }
    }
}

/// A database with its log: the last frame for each page, found in one pass.
pub struct View<'a> {
    log: &'a [u8],
    image: &'a [u8],
    page_size: usize,
    /// For page p, in entry p - 1, the last frame up to the last commit, counted from 1, or 0.
    last: Vec<usize>,
}

impl<'a> View<'a> {
    pub fn new(log: &'a [u8], image: &'a [u8]) -> Result<View<'a>, Refusal> {
        let Some(state) = scan(log).map_err(Refusal::general)? else {
            let (page_size, pages) = header::alone(image).map_err(Refusal::general)?;
            return Ok(View { log, image, page_size, last: vec![0; pages] });
        };
        if state.pages > MAX_PAGES {
            return Err(Refusal::general(42));
        }
        let mut last = vec![0; state.pages];
        for i in 0..state.frames {
            if let Some(entry) = last.get_mut(be32(log, state.frame(i)) as usize - 1) {
                *entry = i + 1;
            }
        }
        Ok(View { log, image, page_size: state.page_size, last })
    }

    pub fn pages(&self) -> usize {
        self.last.len()
    }

    pub fn page(&self, page: u32) -> Result<&'a [u8], Refusal> {
        let (page, size) = (page as usize, self.page_size);
        let frame = page.checked_sub(1).and_then(|at| self.last.get(at)).ok_or(Refusal::general(46))?;
        if *frame > 0 {
            let start = HEADER + (frame - 1) * (FRAME_HEADER + size) + FRAME_HEADER;
            return Ok(&self.log[start..start + size]);
        }
        let absent = Refusal::general(if page == lock_page(size) { 46 } else { 43 });
        self.image.get((page - 1) * size..page * size).ok_or(absent)
    }
}

/// The size of the database and its page size, as a table was filled for it.
#[derive(Clone, Copy, Debug, PartialEq, Eq)]
pub struct Filled {
    pub pages: usize,
    pub page_size: usize,
}

/// Fills the front of a table, one entry a page: the last frame for that page up to the last commit, counted from 1, or 0. On a refusal the table is as it was.
pub fn fill(log: &[u8], image: &[u8], table: &mut [u32]) -> Result<Filled, Refusal> {
    let View { page_size, last, .. } = View::new(log, image)?;
    let short = Refusal::general(47);
    let table = table.get_mut(..last.len()).ok_or(short)?;
    let entries: Vec<u32> = last.into_iter().map(u32::try_from).collect::<Result<_, _>>().map_err(|_| short)?;
    table.copy_from_slice(&entries);
    Ok(Filled { pages: entries.len(), page_size })
}

/// Where a page stands by a table, a number of pages and a page size, which may be any.
pub fn page_by(log: &[u8], image: &[u8], table: &[u32], pages: u32, page_size: u32, page: u32) -> Result<Part, Refusal> {
    let refuse = |refusal| Err(Refusal::general(refusal));
    let (pages, length, page) = (pages as usize, page_size as usize, page as usize);
    if !(512..=65536).contains(&length) || !length.is_power_of_two() {
        return refuse(41);
    }
    if table.len() < pages {
        return refuse(47);
    }
    if page == 0 || page > pages {
        return refuse(46);
    }
    let in_image = page * length <= image.len();
    let part = Part { from_log: false, start: (page - 1) * length, length };
    if page == lock_page(length) {
        return if in_image { Ok(part) } else { refuse(46) };
    }
    let frame = table[page - 1] as usize;
    let whole = log.len().saturating_sub(HEADER) / (FRAME_HEADER + length);
    match frame {
        0 if in_image => Ok(part),
        1.. if frame <= whole => Ok(Part { from_log: true, start: HEADER + (frame - 1) * (FRAME_HEADER + length) + FRAME_HEADER, length }),
        _ => refuse(43),
    }
}

/// Copies the recovered database to the start of `out` and answers its number of pages and its length; on a refusal `out` is as it was.
pub fn recover(log: &[u8], image: &[u8], out: &mut [u8]) -> Result<(usize, usize), Refusal> {
    let Some(state) = scan(log).map_err(Refusal::general)? else {
        let (_, pages) = header::alone(image).map_err(Refusal::general)?;
        let out = out.get_mut(..image.len()).ok_or(Refusal::general(44))?;
        out.copy_from_slice(image);
        return Ok((pages, image.len()));
    };
    if state.pages > MAX_PAGES {
        return Err(Refusal::general(42));
    }
    let mut parts: Vec<Option<&[u8]>> = image.chunks_exact(state.page_size).take(state.pages).map(Some).collect();
    parts.resize(state.pages, None);
    for i in 0..state.frames {
        let number = be32(log, state.frame(i)) as usize;
        if number <= state.pages {
            parts[number - 1] = Some(&log[state.page(i)..state.page(i) + state.page_size]);
        }
    }
    lay_down(parts, state.page_size, out)
}

/// Copies pages, one after the other: 43 where one is missing, then 44. Where the lock-byte page is missing it is zeros.
pub(crate) fn lay_down(parts: Vec<Option<&[u8]>>, page_size: usize, out: &mut [u8]) -> Result<(usize, usize), Refusal> {
    let zeros = vec![0; page_size];
    let mut parts: Vec<Option<&[u8]>> = parts;
    if let Some(lock) = parts.get_mut(lock_page(page_size) - 1) {
        lock.get_or_insert(&zeros);
    }
    let Some(parts) = parts.into_iter().collect::<Option<Vec<&[u8]>>>() else {
        return Err(Refusal::general(43));
    };
    let length = parts.len() * page_size;
    let out = out.get_mut(..length).ok_or(Refusal::general(44))?;
    for (to, part) in out.chunks_exact_mut(page_size).zip(&parts) {
        to.copy_from_slice(part);
    }
    Ok((parts.len(), length))
}
