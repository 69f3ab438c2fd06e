//! Logs and journals, damaged.

use world::rng::Rng;
use world::torn::{resum, segments, Kind, Torn};

use crate::hold::{Held, Hold};

fn put(bytes: &mut [u8], at: usize, number: u32) {
    if let Some(to) = bytes.get_mut(at..at + 4) {
        to.copy_from_slice(&number.to_be_bytes());
    }
}

fn be32(bytes: &[u8], at: usize) -> u32 {
    bytes.get(at..at + 4).map_or(0, |four| u32::from_be_bytes(four.try_into().expect("four bytes")))
}

/// The lock-byte page at that page size, which may be any number.
fn lock_page(page_size: usize) -> u32 {
    plain::lock_page(page_size.max(1)) as u32
}

/// Damages a log or journal, and sometimes the image beside it.
pub fn damaged(torn: &Torn, rng: &mut Rng) -> (Vec<u8>, Vec<u8>) {
    let (mut side, mut image) = (torn.side.clone(), torn.image.clone());
    for _ in 0..rng.below(3) {
        match torn.kind {
            Kind::Log => log(&mut side, image.len(), rng),
            Kind::Journal => journal(&mut side, image.len(), rng),
        }
    }
    match rng.below(12) {
        0 => image.truncate(rng.below(image.len() + 1)),
        1 => image.clear(),
        2 if image.len() > 18 => image[*rng.pick(&[0, 16, 17])] ^= 1 << rng.below(8),
        3 => image.extend(std::iter::repeat_n(7, rng.below(2000))),
        _ => {}
    }
    (side, image)
}

/// A number of pages that tests edges.
fn size(rng: &mut Rng, image: usize, page_size: usize) -> u32 {
    let present = (image / page_size.max(1)) as u32;
    *rng.pick(&[0, 1, 2, present.wrapping_sub(1), present, present + 1, 65536, 65537, 2_200_000, 2_200_001, u32::MAX])
}

fn log(log: &mut Vec<u8>, image: usize, rng: &mut Rng) {
    let length = log.len();
    let page_size = be32(log, 8) as usize;
    let step = 24 + page_size;
    if length < 32 {
        log.resize(rng.below(64), 0x37);
        return;
    }
    let frames = (length - 32) / step;
    let frame = 32 + rng.below(frames.max(1)) * step;
    let big_endian = log[3] & 1 == 1;
    match rng.below(10) {
        0 => log.truncate(rng.below(length + 1)),
        1 => log.truncate(frame + *rng.pick(&[0, 1, 8, 23, 24, 25])),
        2 => log[rng.below(length)] ^= 1 << rng.below(8),
        3 => {
            let at = frame + rng.below(24);
            if at < length {
                log[at] ^= 1 << rng.below(8);
            }
        }
        // With sums made anew, so that they do not hide what was changed.
        4 => {
            put(log, 4, *rng.pick(&[3007000, 3007001, 0]));
            resum(log, big_endian);
        }
        5 => {
            put(log, 8, *rng.pick(&[0, 256, 512, 513, 768, 1024, 4096, 65536, 131072, u32::MAX]));
            resum(log, big_endian);
        }
        6 => {
            put(log, frame, *rng.pick(&[0, 1, 2, 3, lock_page(page_size), lock_page(page_size) + 1, u32::MAX]));
            resum(log, big_endian);
        }
        7 => {
            put(log, frame + 4, size(rng, image, page_size));
            resum(log, big_endian);
        }
        8 => {
            let at = frame + 8 + rng.below(8);
            if at < length {
                log[at] ^= 1 << rng.below(8);
                resum(log, big_endian);
            }
        }
        _ => resum(log, !big_endian),
    }
}

fn journal(journal: &mut Vec<u8>, image: usize, rng: &mut Rng) {
    let length = journal.len();
    if length < 28 {
        journal.resize(rng.below(64), 0xd9);
        return;
    }
    let (sector, page_size) = (be32(journal, 20) as usize, be32(journal, 24) as usize);
    // A header and a record of any segment.
    let segments = segments(journal);
    let some = |rng: &mut Rng| match segments.get(rng.below(segments.len().max(1))) {
        Some(one) => (one.header, *one.records.get(rng.below(one.records.len().max(1))).unwrap_or(&(one.header + sector))),
        None => (0, sector),
    };
    let (header, record) = some(rng);
    let count = be32(journal, header + 8);
    let records = (length.saturating_sub(header).saturating_sub(sector) / page_size.saturating_add(8)) as u32;
    match rng.below(14) {
        0 => journal.truncate(rng.below(length + 1)),
        1 => journal.truncate(record.saturating_add(*rng.pick(&[0, 1, 4, 5])).min(length)),
        2 => journal.truncate((header + *rng.pick(&[0, 1, 27, 28, 29])).min(length)),
        3 => journal[rng.below(length)] ^= 1 << rng.below(8),
        4 => put(journal, header + 8, *rng.pick(&[0, 1, 2, count.wrapping_sub(1), count.wrapping_add(1), records, u32::MAX])),
        5 => put(journal, header + 16, size(rng, image, page_size)),
        6 => put(journal, header + 20, *rng.pick(&[0, 28, 32, 256, 512, 600, 1024, 4096, 65536, 131072])),
        7 => put(journal, header + 24, *rng.pick(&[0, 256, 512, 768, 1024, 4096, 65536, 131072])),
        8 => put(journal, record, *rng.pick(&[0, 1, 2, 3, 4, 5, 100, lock_page(page_size), lock_page(page_size) + 1, u32::MAX])),
        9 => put(journal, record.saturating_add(4 + page_size), rng.word() as u32),
        10 => {
            let at = record.saturating_add(4 + rng.below(page_size.max(1)));
            if at < length {
                journal[at] = journal[at].wrapping_add(1);
            }
        }
        11 => {
            let others = be32(journal, some(rng).0 + 12);
            let random = rng.word() as u32;
            put(journal, header + 12, *rng.pick(&[others, random]));
        }
        // A number is not in the sum: the same page twice, perhaps in two segments.
        12 => {
            let number = be32(journal, some(rng).1);
            put(journal, record, number);
        }
        _ => journal[header + rng.below(8)] ^= 1,
    }
}

/// Cut in steps, and at each edge of a frame or a record: what it says of itself.
pub fn cut(torn: &Torn, hold: &mut Hold, step: usize) -> Held {
    let side = &torn.side;
    let (first, unit) = match torn.kind {
        Kind::Log => (32, 24 + be32(side, 8) as usize),
        Kind::Journal => (be32(side, 20) as usize, 8 + be32(side, 24) as usize),
    };
    let edges = (0..20).flat_map(|k| [0, 1, unit - 1].map(|at| first.saturating_add(k * unit).saturating_add(at)));
    // At most some two hundred, for the time that each takes.
    let step = step.max(side.len() / 100);
    for length in (0..40).chain(edges).chain((0..side.len()).step_by(step)).filter(|&length| length <= side.len()) {
        match torn.kind {
            Kind::Log => hold.log_inspect(&side[..length]),
            Kind::Journal => hold.journal_inspect(&side[..length]),
        }
        .map_err(|difference| format!("cut at {length}: {difference}"))?;
    }
    Ok(())
}

/// Segments put together: what each header says and which pages its records carry. Records have the sums of `nonce`; what a header tells can be another.
struct Made {
    page_size: usize,
    sector: usize,
    /// The original size, as the first header tells it.
    pages: u32,
    bytes: Vec<u8>,
}

impl Made {
    fn new(page_size: usize, sector: usize, pages: u32) -> Made {
        Made { page_size, sector, pages, bytes: Vec::new() }
    }

    /// One more segment, with the count of its records.
    fn segment(self, nonce: u32, numbers: &[u32]) -> Made {
        self.counted(numbers.len() as u32, nonce, numbers)
    }

    /// One more segment, with any count.
    fn counted(mut self, count: u32, nonce: u32, numbers: &[u32]) -> Made {
        let header = self.bytes.len().next_multiple_of(self.sector);
        self.bytes.resize(header + self.sector, 0);
        self.bytes[header..header + 8].copy_from_slice(&[0xd9, 0xd5, 0x05, 0xf9, 0x20, 0xa1, 0x63, 0xd7]);
        for (field, number) in [count, nonce, self.pages, self.sector as u32, self.page_size as u32].into_iter().enumerate() {
            put(&mut self.bytes, header + 8 + 4 * field, number);
        }
        for (i, number) in numbers.iter().enumerate() {
            let page: Vec<u8> = (0..self.page_size).map(|at| (at / 3 + 7 * i + *number as usize + nonce as usize) as u8).collect();
            let sum = (1..)
                .map(|k| 200 * k)
                .take_while(|&back| back < self.page_size)
                .fold(nonce, |sum, back| sum.wrapping_add(page[self.page_size - back].into()));
            self.bytes.extend(number.to_be_bytes());
            self.bytes.extend(page);
            self.bytes.extend(sum.to_be_bytes());
        }
        self
    }

    /// The last segment's header tells another number at an offset.
    fn telling(mut self, offset: usize, number: u32) -> Made {
        let header = segments(&self.bytes).last().expect("a segment").header;
        put(&mut self.bytes, header + offset, number);
        self
    }

    /// The last record's sum does not match.
    fn spoilt(mut self) -> Made {
        let last = self.bytes.len() - 1;
        self.bytes[last] ^= 1;
        self
    }

    fn beside(self, name: &str, image_pages: usize) -> Torn {
        let image = (0..image_pages * self.page_size).map(|at| (at / 5) as u8).collect();
        Torn { name: format!("by hand: {name}"), kind: Kind::Journal, image, side: self.bytes }
    }
}

/// Journals of several segments put together by hand, with what the recovery of each answers.
pub fn journals_made_by_hand() -> Vec<(Torn, u32)> {
    let new = || Made::new(512, 512, 6);
    let first = || new().segment(7, &[1, 2]);
    let all: Vec<u32> = (1..=64).collect();
    let mut made = vec![
        (first().segment(8, &[3]).segment(9, &[4, 5, 6]).beside("three segments", 6), 0),
        (first().segment(8, &[3, 4]).segment(9, &[5, 6]).beside("all pages from records", 0), 0),
        (first().segment(8, &[3]).segment(9, &[4, 5]).beside("page 6 nowhere", 5), 43),
        (new().segment(1, &[]).segment(2, &[]).segment(3, &[2]).segment(4, &[]).segment(5, &[4]).beside("counts of 0", 6), 0),
        (first().counted(u32::MAX, 8, &[3, 4]).segment(9, &[1]).beside("the rest of the file", 6), 0),
        (new().counted(u32::MAX, 8, &[3, 4]).segment(9, &[3]).beside("all in the first", 6), 0),
        (first().segment(8, &[3, 2]).beside("page 2 twice, across segments", 6), 45),
        (first().segment(8, &[3]).segment(8, &[4, 3]).beside("page 3 twice, across later segments", 6), 45),
        (first().segment(8, &[3, 3]).beside("page 3 twice, in a later segment", 6), 45),
        (first().spoilt().segment(8, &[1, 1]).beside("the first segment fails", 6), 0),
        (first().segment(8, &[0, 1]).beside("number 0 in a later segment", 6), 0),
        (new().segment(7, &[9, 1]).segment(8, &[9, 2]).segment(9, &[7, 3]).beside("numbers above n", 6), 0),
        (first().segment(8, &[3, 9]).spoilt().segment(9, &[1]).beside("a number above n with a wrong sum", 6), 0),
        (first().counted(3, 8, &[3]).segment(9, &[1]).beside("a count too high", 6), 0),
        (first().counted(1, 8, &[3, 2]).segment(9, &[1]).beside("a count too low", 6), 0),
        (first().segment(8, &[3]).telling(16, 4097).segment(9, &[4]).beside("a later original size", 6), 0),
        (first().segment(8, &[1]).telling(20, 1024).beside("a later sector size", 6), 0),
        (first().segment(8, &[1]).telling(24, 1024).beside("a later page size", 6), 0),
        (first().segment(8, &[1]).telling(4, 0x20a1_63d6).beside("a later magic", 6), 0),
        (first().segment(8, &[1]).telling(12, 7).beside("the first nonce again", 6), 0),
        (Made::new(512, 512, 64).segment(7, &all).segment(8, &[64]).beside("records that end on a multiple", 70), 45),
        (Made::new(512, 512, 64).segment(7, &all[..63]).segment(8, &[64]).beside("records that end before a multiple", 70), 0),
        (Made::new(512, 512, 0).segment(7, &[1]).segment(8, &[1]).beside("an original size of 0", 3), 0),
        (Made::new(512, 4096, 6).segment(7, &[1]).segment(8, &[2]).segment(9, &[3]).beside("sectors larger than pages", 6), 0),
        (Made::new(1024, 512, 6).segment(7, &[1]).segment(8, &[2]).segment(9, &[2]).beside("sectors smaller than pages", 6), 45),
        (first().segment(8, &[1]).telling(8, 0).segment(9, &[3]).beside("a count of 0 before records", 6), 0),
    ];
    // A last header of which so many bytes are left.
    for left in [0, 27, 28, 511, 512] {
        let mut torn = first().segment(8, &[1]).beside(&format!("{left} bytes of a later header"), 6);
        let header = segments(&torn.side)[1].header;
        torn.side.truncate(header + left);
        made.push((torn, 0));
    }
    made
}
