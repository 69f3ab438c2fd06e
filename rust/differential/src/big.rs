//! Logs and journals of files past 1 GiB: the lock-byte page, and the most pages. Images and outputs are mapped; of an image hardly a byte is ever touched.

use plain::c::Filled;
use world::reader::{Plain, Reader};
use world::torn::resum;

use crate::guard::Mapped;
use crate::hold::{pattern, same, same_bytes, Held};
use crate::proved::Proved;

/// The largest page, and the lock-byte page's number at that size.
pub const SIZE: usize = 65536;
pub const LOCK: u32 = 16385;
/// The same of the smallest page.
pub const SMALL: usize = 512;
pub const SMALL_LOCK: u32 = 2_097_153;
pub const MOST: u32 = 2_200_000;

/// A log of frames, each with a page number and a size after commit; the page's bytes are the frame's number, from 1.
pub fn log(size: usize, frames: &[(u32, u32)]) -> Vec<u8> {
    let mut log = vec![0; 32];
    for (at, number) in [(0, 0x377f_0682), (4, 3_007_000), (8, size as u32), (16, 11), (20, 12)] {
        log[at..at + 4].copy_from_slice(&u32::to_be_bytes(number));
    }
    for (i, (page, commit)) in frames.iter().enumerate() {
        for number in [*page, *commit, 11, 12, 0, 0] {
            log.extend(number.to_be_bytes());
        }
        log.resize(log.len() + size, i as u8 + 1);
    }
    resum(&mut log, false);
    log
}

/// A journal of one segment for n pages, with these pages' records; a page's bytes are the record's number, from 1.
pub fn journal(size: usize, n: u32, pages: &[u32]) -> Vec<u8> {
    let mut journal = vec![0xd9, 0xd5, 0x05, 0xf9, 0x20, 0xa1, 0x63, 0xd7];
    for number in [pages.len() as u32, 5, n, 512, size as u32] {
        journal.extend(number.to_be_bytes());
    }
    journal.resize(512, 0);
    for (i, page) in pages.iter().enumerate() {
        journal.extend(page.to_be_bytes());
        journal.resize(journal.len() + size, i as u8 + 1);
        journal.extend((5 + (size as u32 - 1) / 200 * (i as u32 + 1)).to_be_bytes());
    }
    journal
}

fn same_log(log: &[u8], image: &[u8], room: usize, refusal: u32, views: &[(u32, u32)]) -> Held {
    let (mut out, mut expected) = (pattern(room), pattern(room));
    let plain = Plain.log_recover(log, image, &mut expected);
    same("urk_log_recover", Proved.log_recover(log, image, &mut out), plain)?;
    same_bytes("urk_log_recover's out", &out, &expected)?;
    same("the refusal", plain.refusal, refusal)?;
    for &(page, refusal) in views {
        let plain = Plain.log_page(log, image, page);
        same(&format!("urk_log_page {page}"), Proved.log_page(log, image, page), plain)?;
        same(&format!("the refusal of page {page}"), plain.refusal, refusal)?;
    }
    Ok(())
}

/// Fills a table on both sides: the answer and every entry.
pub fn same_fill(log: &[u8], image: &[u8], room: usize) -> Result<(Filled, Vec<u32>), String> {
    let mut expected: Vec<u32> = (0..room as u32).map(|i| i | 1 << 31).collect();
    let mut table = expected.clone();
    let plain = Plain.log_fill(log, image, &mut expected);
    same("urk_log_fill", Proved.log_fill(log, image, &mut table), plain)?;
    same_bytes("urk_log_fill's table", &table, &expected)?;
    Ok((plain, table))
}

fn same_journal(journal: &[u8], image: &[u8], room: usize, refusal: u32) -> Held {
    let (mut out, mut expected) = (pattern(room), pattern(room));
    let plain = Plain.journal_recover(journal, image, &mut expected);
    same("urk_journal_recover", Proved.journal_recover(journal, image, &mut out), plain)?;
    same_bytes("urk_journal_recover's out", &out, &expected)?;
    same("the refusal", plain.refusal, refusal)
}

/// Each rule about the lock-byte page, on both sides of its edge.
pub fn aimed() -> Held {
    let all = MOST as usize * SMALL;
    let mapped = Mapped::new(all);
    let image = |bytes: usize| &mapped.bytes()[..bytes];
    let (before, with) = (LOCK as usize * SIZE - SIZE, LOCK as usize * SIZE);

    // Never 43 for it; alone it is the image's, or 46 where it is not wholly there, or above n.
    let ends_there = log(SIZE, &[(1, LOCK)]);
    same_log(&ends_there, image(before), 0, 44, &[(0, 46), (1, 0), (LOCK - 1, 0), (LOCK, 46), (LOCK + 1, 46)])?;
    same_log(&ends_there, image(with - 1), 0, 44, &[(LOCK - 1, 0), (LOCK, 46)])?;
    same_log(&ends_there, image(with), 0, 44, &[(LOCK, 0)])?;
    same_log(&ends_there, image(before - 1), 0, 43, &[(LOCK - 1, 43), (LOCK, 46)])?;
    same_log(&log(SIZE, &[(1, LOCK + 1)]), image(with), 0, 43, &[(LOCK, 0), (LOCK + 1, 43)])?;
    same_log(&log(SIZE, &[(1, LOCK + 1)]), image(with + SIZE), 0, 44, &[(LOCK, 0), (LOCK + 1, 0)])?;
    same_log(&log(SIZE, &[(1, LOCK - 1)]), image(with), 0, 44, &[(LOCK - 1, 0), (LOCK, 46)])?;

    // A frame with its number ends the log, above n too; the frames before it stay.
    let room = 3 * SIZE;
    same_log(&log(SIZE, &[(1, 2), (LOCK, 2), (2, 2)]), image(2 * SIZE), room, 0, &[(1, 0), (2, 0), (3, 46)])?;
    same_log(&log(SIZE, &[(1, 2), (LOCK + 1, 0), (2, 2)]), image(0), room, 0, &[(1, 0), (2, 0), (3, 46)])?;
    same_log(&log(SIZE, &[(1, 0), (LOCK, 2), (2, 2)]), image(2 * SIZE), room, 2, &[(1, 2)])?;
    same_log(&log(SIZE, &[(1, 0), (2, 2), (LOCK, LOCK)]), image(0), room, 0, &[(1, 0), (2, 0), (LOCK, 46)])?;

    // The smallest pages, and the most of them.
    same_log(&log(SMALL, &[(1, MOST)]), image(all - SMALL), 0, 43, &[(MOST, 43), (SMALL_LOCK, 0)])?;
    same_log(&log(SMALL, &[(MOST, MOST)]), image(all - SMALL), 0, 44, &[(MOST, 0), (MOST + 1, 46)])?;
    same_log(&log(SMALL, &[(1, MOST + 1)]), image(all), 0, 42, &[(1, 42)])?;
    same_log(&log(SMALL, &[(1, SMALL_LOCK)]), image(1 << 30), 0, 44, &[(SMALL_LOCK - 1, 0), (SMALL_LOCK, 46)])?;

    // Journals: never 43 for it, and its record ends the journal.
    same_journal(&journal(SIZE, LOCK, &[1]), image(before), 0, 44)?;
    same_journal(&journal(SIZE, LOCK, &[1]), image(before - 1), 0, 43)?;
    same_journal(&journal(SIZE, LOCK + 1, &[1]), image(with), 0, 43)?;
    same_journal(&journal(SIZE, LOCK + 1, &[LOCK + 1]), image(with - 1), 0, 44)?;
    same_journal(&journal(SIZE, 3, &[2, LOCK, 2, 1]), image(3 * SIZE), room, 0)?;
    same_journal(&journal(SIZE, 3, &[2, LOCK + 1, 2]), image(3 * SIZE), room, 45)?;
    same_journal(&journal(SIZE, 3, &[LOCK, 3]), image(2 * SIZE), room, 43)?;
    same_journal(&journal(SMALL, MOST, &[MOST]), image(all - SMALL), 0, 44)?;
    same_journal(&journal(SMALL, MOST + 1, &[]), image(all), 0, 42)
}

/// Whole files with a lock-byte page: zeros where the image has not all of it, else the image's bytes.
pub fn whole() -> Held {
    let length = LOCK as usize * SIZE;
    let mut image = Mapped::new(length);
    let mut out = Mapped::new(length + SIZE);
    image.bytes_mut()[length - SIZE..].fill(7);
    for (there, by_log) in [(length - 1, true), (length, false)] {
        out.bytes_mut()[length - SIZE..].fill(0xa5);
        let image = &image.bytes()[..there];
        let answer = if by_log {
            Proved.log_recover(&log(SIZE, &[(2, LOCK)]), image, out.bytes_mut())
        } else {
            Proved.journal_recover(&journal(SIZE, LOCK, &[2]), image, out.bytes_mut())
        };
        same("the answer", (answer.refusal, answer.pages, answer.length), (0, LOCK, length as u64))?;
        let all = |from: usize, to: usize, byte: u8| out.bytes()[from..to].iter().all(|&found| found == byte);
        same("page 1", all(0, SIZE, 0), true)?;
        same("page 2", all(SIZE, 2 * SIZE, 1), true)?;
        same("the pages up to the lock-byte page", all(2 * SIZE, length - SIZE, 0), true)?;
        same("the lock-byte page", all(length - SIZE, length, if there == length { 7 } else { 0 }), true)?;
        same("past the file", all(length, length + SIZE, 0xa5), true)?;
    }
    Ok(())
}
