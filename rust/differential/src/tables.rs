//! Tables of frames: filled, and any others.

use world::reader::{Plain, Reader};
use world::rng::Rng;

use crate::big::{self, LOCK, MOST, SIZE, SMALL, SMALL_LOCK};
use crate::guard::Mapped;
use crate::hold::{same, Held, Hold};
use crate::proved::Proved;

const SIZES: [u32; 8] = [512, 1024, 2048, 4096, 8192, 16384, 32768, 65536];

/// Pages that test edges, n being one of them.
fn pages_about(n: u32) -> Vec<u32> {
    let mut pages: Vec<u32> = (0..20).chain([n.wrapping_sub(1), n, n.saturating_add(1), LOCK, SMALL_LOCK, MOST + 1, u32::MAX]).collect();
    pages.sort_unstable();
    pages.dedup();
    pages
}

/// A log and an image: tables of every length about n, and by each table that was filled the pages as the scan shows them.
pub fn exact(hold: &mut Hold, log: &[u8], image: &[u8]) -> Held {
    let n = Plain.log_fill(log, image, &mut vec![0; MOST as usize]).pages;
    for room in [0, n.saturating_sub(1), n, n + 1, n + 50] {
        let (filled, table) = hold.log_fill(log, image, room as usize)?;
        if filled.refusal == 0 {
            hold.as_scanned(log, image, &table, filled, &pages_about(n))?;
        }
    }
    Ok(())
}

/// A table filled for a log and an image, perhaps changed; perhaps another n, another page size, another log or image.
pub fn random(hold: &mut Hold, log: &[u8], image: &[u8], rng: &mut Rng) -> Held {
    let n = Plain.log_fill(log, image, &mut vec![0; MOST as usize]).pages as usize;
    let room = match rng.below(6) {
        0 => n.saturating_sub(1),
        1 => rng.below(n.min(1000) + 1),
        2 => n,
        _ => n + rng.below(40),
    };
    let (filled, mut table) = hold.log_fill(log, image, room)?;
    let ask = |rng: &mut Rng, n: u32| match rng.below(8) {
        0 => *rng.pick(&[0, n, n.saturating_add(1), LOCK, SMALL_LOCK, u32::MAX]),
        _ => 1 + rng.below(n.min(3000) as usize + 1) as u32,
    };
    if filled.refusal == 0 {
        let pages: Vec<u32> = (0..8).map(|_| ask(rng, filled.pages)).collect();
        hold.as_scanned(log, image, &table, filled, &pages)?;
    }
    let mut size = if filled.refusal == 0 { filled.page_size } else { *rng.pick(&SIZES) };
    if rng.below(4) == 0 {
        size = *rng.pick(&[0, 1, 256, 511, 512, 513, 768, 1024, 4096, 65535, 65536, 65537, 131_072, 1 << 31, u32::MAX]);
    }
    let log = if rng.below(4) == 0 { &log[..rng.below(log.len() + 1).min(log.len())] } else { log };
    let image = if rng.below(4) == 0 { &image[..rng.below(image.len() + 1).min(image.len())] } else { image };
    let whole = (log.len().saturating_sub(32) / (24 + size as usize)) as u32;
    for _ in 0..rng.below(table.len().min(20) + 1) {
        let at = rng.below(table.len());
        let any = rng.word() as u32;
        table[at] = *rng.pick(&[0, 1, whole.saturating_sub(1), whole, whole + 1, any % (whole + 3), any, u32::MAX]);
    }
    let long = table.len() as u32;
    let pages = match rng.below(6) {
        0 => *rng.pick(&[0, 1, long.saturating_sub(1), long + 1, u32::MAX]),
        1 => rng.below(long as usize + 2) as u32,
        2 | 3 => filled.pages,
        _ => long,
    };
    let asked: Vec<u32> = (0..10).map(|_| ask(rng, pages)).collect();
    hold.log_pages_by(log, image, &table, pages, size, &asked)
}

/// The lock-byte page, the most pages, the largest entries: what takes mapped files.
pub fn aimed(hold: &mut Hold) -> Held {
    let mapped = Mapped::new(MOST as usize * SMALL + SMALL);
    let image = |bytes: usize| &mapped.bytes()[..bytes];
    let mut case = |log: &[u8], image: &[u8], room: u32, refusal: u32, pages: &[u32]| -> Held {
        let (filled, table) = big::same_fill(log, image, room as usize)?;
        *hold.met.entry(("log_fill", if filled.refusal == 0 { 1000 } else { filled.refusal })).or_default() += 1;
        same("the refusal", filled.refusal, refusal)?;
        for &page in if refusal == 0 { pages } else { &[] } {
            let scanned = Plain.log_page(log, image, page);
            let by = Proved.log_page_by(log, image, &table, filled.pages, filled.page_size, page);
            same(&format!("urk_log_page_by {page}"), by, scanned)?;
            // Whatever its entry, the lock-byte page is the image's.
            let mut changed = table.clone();
            changed.fill(1);
            let lock = if filled.page_size == SIZE as u32 { LOCK } else { SMALL_LOCK };
            if page == lock {
                let by = Proved.log_page_by(log, image, &changed, filled.pages, filled.page_size, page);
                same("the lock-byte page whatever its entry", by, scanned)?;
            }
        }
        Ok(())
    };
    let with = LOCK as usize * SIZE;
    case(&big::log(SIZE, &[(1, LOCK)]), image(with), LOCK, 0, &[0, 1, LOCK - 1, LOCK, LOCK + 1])?;
    case(&big::log(SIZE, &[(1, LOCK + 1)]), image(with - 1), LOCK + 1, 0, &[1, LOCK - 1, LOCK, LOCK + 1, LOCK + 2])?;
    case(&big::log(SIZE, &[(1, LOCK)]), image(with), LOCK - 1, 47, &[])?;
    case(&big::log(SIZE, &[(1, 2), (LOCK, 3), (2, 2)]), image(with), 2, 0, &[1, 2, 3, LOCK])?;
    let all = MOST as usize * SMALL;
    case(&big::log(SMALL, &[(2, 0), (MOST, MOST)]), image(all - SMALL), MOST, 0, &[1, 2, 3, SMALL_LOCK, MOST, MOST + 1])?;
    case(&big::log(SMALL, &[(MOST, MOST)]), image(0), MOST - 1, 47, &[])?;
    case(&big::log(SMALL, &[(1, MOST + 1)]), image(all), MOST + 1, 42, &[])?;
    case(&big::log(SMALL, &[(1, 0), (1, MOST), (u32::MAX, 0), (1, 7)]), image(3000), 9, 0, &[0, 1, 2, 5, 6, 7, 8, SMALL_LOCK])?;

    // A log with as many frames as an entry can tell, of which no byte is read.
    let most = u32::MAX as usize * (24 + SMALL) + 32;
    let log = Mapped::new(most + 1);
    for (length, entry, refusal) in
        [(most, u32::MAX, 0), (most + 1, u32::MAX, 0), (most - 1, u32::MAX, 43), (most - 1, u32::MAX - 1, 0), (32, 1, 43), (31, 0, 43), (0, 1, 43)]
    {
        let log = &log.bytes()[..length];
        let plain = Plain.log_page_by(log, &[], &[entry], 1, SMALL as u32, 1);
        same("urk_log_page_by", Proved.log_page_by(log, &[], &[entry], 1, SMALL as u32, 1), plain)?;
        same("the refusal", plain.refusal, refusal)?;
    }
    Ok(())
}
