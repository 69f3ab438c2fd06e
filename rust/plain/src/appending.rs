//! A writer of write-ahead logs: the tail of a log, the header of a fresh one, the frames of a commit.

use crate::number::be32;
use crate::{lock_page, MAX_PAGES};

const HEADER: usize = 32;
const FRAME_HEADER: usize = 24;
const VERSION: u32 = 3007000;
/// The last byte of the magic, by the words of the sums.
const LITTLE: u8 = 0x82;
const BIG: u8 = 0x83;

/// Words of a tail.
pub const WORDS: usize = 8;

/// What a writer has to know of a log, in the order of its words.
#[derive(Clone, Copy, Debug, PartialEq, Eq)]
pub struct Tail {
    pub page_size: u32,
    /// 0: the words of the sums are little-endian; 1: big-endian.
    pub order: u32,
    pub salts: [u32; 2],
    /// Over the header and all frames in force.
    pub sums: [u32; 2],
    /// How many frames are in force.
    pub frames: u32,
    /// The pages after the last commit in force; 0 where there is none.
    pub pages: u32,
}

impl Tail {
    pub fn of(words: [u32; WORDS]) -> Tail {
        let [page_size, order, salt1, salt2, sum0, sum1, frames, pages] = words;
        Tail { page_size, order, salts: [salt1, salt2], sums: [sum0, sum1], frames, pages }
    }

    pub fn words(self) -> [u32; WORDS] {
        let Tail { page_size, order, salts, sums, frames, pages } = self;
        [page_size, order, salts[0], salts[1], sums[0], sums[1], frames, pages]
    }
}

/// Bytes that are written, and where in the log they belong.
#[derive(Clone, Copy, Debug, PartialEq, Eq)]
pub struct Appended {
    pub at: u64,
    pub length: u64,
}

fn is_size(size: u32) -> bool {
    (512..=65536).contains(&size) && size.is_power_of_two()
}

/// Sums carried on over bytes, eight at a time.
fn carried(sums: [u32; 2], order: u32, bytes: &[u8]) -> [u32; 2] {
    let word = |bytes: &[u8]| {
        let word = be32(bytes, 0);
        if order == 0 {
            word.swap_bytes()
        } else {
            word
        }
    };
    let [mut first, mut second] = sums;
    for eight in bytes.chunks_exact(8) {
        first = first.wrapping_add(word(&eight[..4])).wrapping_add(second);
        second = second.wrapping_add(word(&eight[4..])).wrapping_add(first);
    }
    [first, second]
}

/// Two numbers, as a header and a frame have them.
fn two([a, b]: [u32; 2]) -> [u8; 8] {
    (u64::from(a) << 32 | u64::from(b)).to_be_bytes()
}

/// The tail of a log: 50, 40, 41, 42, 47.
pub fn tail(log: &[u8]) -> Result<Tail, u32> {
    let header = log.get(..HEADER).ok_or(50u32)?;
    let order = match header[..4] {
        [0x37, 0x7f, 0x06, LITTLE] => 0,
        [0x37, 0x7f, 0x06, BIG] => 1,
        _ => return Err(50),
    };
    let mut sums = carried([0, 0], order, &header[..24]);
    if header[24..] != two(sums) {
        return Err(50);
    }
    if be32(header, 4) != VERSION {
        return Err(40);
    }
    let page_size = be32(header, 8);
    if !is_size(page_size) {
        return Err(41);
    }
    let size = page_size as usize;
    let mut last = (sums, 0, 0);
    for (i, frame) in log[HEADER..].chunks_exact(FRAME_HEADER + size).enumerate() {
        sums = carried(carried(sums, order, &frame[..8]), order, &frame[FRAME_HEADER..]);
        let number = be32(frame, 0) as usize;
        if number == 0 || number == lock_page(size) || frame[8..16] != header[16..24] || frame[16..24] != two(sums) {
            break;
        }
        let pages = be32(frame, 4);
        if pages != 0 {
            last = (sums, i + 1, pages);
        }
    }
    let (sums, frames, pages) = last;
    if pages as usize > MAX_PAGES {
        return Err(42);
    }
    let frames = u32::try_from(frames).map_err(|_| 47u32)?;
    Ok(Tail { page_size, order, salts: [be32(header, 16), be32(header, 20)], sums, frames, pages })
}

/// The header of a fresh log, at the start of `out`, with its tail: 41, 44.
pub fn begin(page_size: u32, sequence: u32, salts: [u32; 2], out: &mut [u8]) -> Result<(Tail, Appended), u32> {
    if !is_size(page_size) {
        return Err(41);
    }
    let out = out.get_mut(..HEADER).ok_or(44u32)?;
    out[..8].copy_from_slice(&two([u32::from_be_bytes([0x37, 0x7f, 0x06, LITTLE]), VERSION]));
    out[8..16].copy_from_slice(&two([page_size, sequence]));
    out[16..24].copy_from_slice(&two(salts));
    let sums = carried([0, 0], 0, &out[..24]);
    out[24..].copy_from_slice(&two(sums));
    Ok((Tail { page_size, order: 0, salts, sums, frames: 0, pages: 0 }, Appended { at: 0, length: HEADER as u64 }))
}

/// The frames of a commit of `n` pages behind a tail, at the start of `out`, with the tail behind them: 41, 42, 51, 47, 44.
pub fn append(tail: Tail, numbers: &[u32], pages: &[u8], n: u32, out: &mut [u8]) -> Result<(Tail, Appended), u32> {
    let Tail { page_size, order, salts, mut sums, frames, .. } = tail;
    if !is_size(page_size) || order > 1 {
        return Err(41);
    }
    if n as usize > MAX_PAGES {
        return Err(42);
    }
    let size = page_size as usize;
    let may = |&number: &u32| number != 0 && number <= n && number as usize != lock_page(size);
    if numbers.is_empty() || n == 0 || !numbers.iter().all(may) || numbers.len().checked_mul(size) != Some(pages.len()) {
        return Err(51);
    }
    let all = u32::try_from(frames as usize + numbers.len()).map_err(|_| 47u32)?;
    let unit = FRAME_HEADER + size;
    let out = out.get_mut(..numbers.len() * unit).ok_or(44u32)?;
    for (i, ((frame, &number), page)) in out.chunks_exact_mut(unit).zip(numbers).zip(pages.chunks_exact(size)).enumerate() {
        let commit = if i + 1 == numbers.len() { n } else { 0 };
        frame[..8].copy_from_slice(&two([number, commit]));
        frame[8..16].copy_from_slice(&two(salts));
        frame[FRAME_HEADER..].copy_from_slice(page);
        sums = carried(carried(sums, order, &frame[..8]), order, page);
        frame[16..FRAME_HEADER].copy_from_slice(&two(sums));
    }
    let at = HEADER as u64 + u64::from(frames) * unit as u64;
    Ok((Tail { sums, frames: all, pages: n, ..tail }, Appended { at, length: out.len() as u64 }))
}
