//! What a log and a journal say of themselves: how far they are read, and why no further.

use std::collections::HashSet;

use crate::c::{JournalSummary, LogSummary};
use crate::number::be32;
use crate::{lock_page, MAX_PAGES};

/// A page or sector size.
fn is_size(size: u32) -> bool {
    (512..=65536).contains(&size) && size.is_power_of_two()
}

/// The two sums of a log, carried on over bytes.
fn add(sums: [u32; 2], bytes: &[u8], big_endian: bool) -> [u32; 2] {
    let [mut s0, mut s1] = sums;
    for pair in bytes.chunks_exact(8) {
        let [a, b] = [0, 4].map(|at| if big_endian { be32(pair, at) } else { be32(pair, at).swap_bytes() });
        s0 = s0.wrapping_add(a).wrapping_add(s1);
        s1 = s1.wrapping_add(b).wrapping_add(s0);
    }
    [s0, s1]
}

pub fn log(log: &[u8]) -> LogSummary {
    let unread = |header| LogSummary { header, ..LogSummary::default() };
    let Some((header, mut rest)) = log.split_at_checked(32) else { return unread(1) };
    let big_endian = match be32(header, 0) {
        0x377f0682 => false,
        0x377f0683 => true,
        _ => return unread(2),
    };
    let mut sums = add([0, 0], &header[..24], big_endian);
    if sums != [be32(header, 24), be32(header, 28)] {
        return unread(3);
    }
    let page_size = be32(header, 8);
    if be32(header, 4) != 3007000 {
        return LogSummary { refusal: 40, ..LogSummary::default() };
    }
    if !is_size(page_size) {
        return LogSummary { refusal: 41, ..LogSummary::default() };
    }
    let length = 24 + page_size as usize;
    let mut told = LogSummary { page_size, frames: (rest.len() / length) as u64, ..LogSummary::default() };
    told.stop = loop {
        if rest.is_empty() {
            break 0;
        }
        let Some((frame, behind)) = rest.split_at_checked(length) else { break 1 };
        let number = be32(frame, 0);
        if number == 0 {
            break 2;
        }
        if number as usize == lock_page(page_size as usize) {
            break 5;
        }
        if frame[8..16] != header[16..24] {
            break 3;
        }
        sums = add(add(sums, &frame[..8], big_endian), &frame[24..], big_endian);
        if sums != [be32(frame, 16), be32(frame, 20)] {
            break 4;
        }
        told.counting += 1;
        if be32(frame, 4) != 0 {
            told.in_force = told.counting;
            told.pages = be32(frame, 4);
        }
        rest = behind;
    };
    told.refusal = if told.pages as usize > MAX_PAGES { 42 } else { 0 };
    told
}

/// A record's number, or why it ends the records.
fn record(journal: &[u8], at: usize, page_size: usize, nonce: u32, all: bool) -> Result<u32, u32> {
    let Some(record) = journal.get(at..at + page_size + 8) else {
        return Err(if all && at >= journal.len() { 7 } else { 3 });
    };
    let (number, page, sum) = (be32(record, 0), &record[4..4 + page_size], be32(record, 4 + page_size));
    if number == 0 {
        return Err(4);
    }
    if number as usize == lock_page(page_size) {
        return Err(6);
    }
    // The bytes at the size less 200, 400 and so on.
    let offsets = (1..).map_while(|k| page_size.checked_sub(200 * k)).take_while(|&offset| offset > 0);
    if sum != offsets.fold(nonce, |sum, offset| sum.wrapping_add(u32::from(page[offset]))) {
        return Err(5);
    }
    Ok(number)
}

pub fn journal(journal: &[u8]) -> JournalSummary {
    let none = JournalSummary::default();
    let Some(first) = journal.get(..28) else { return JournalSummary { header: 1, ..none } };
    if first[..8] != [0xd9, 0xd5, 0x05, 0xf9, 0x20, 0xa1, 0x63, 0xd7] {
        return JournalSummary { header: 2, ..none };
    }
    let [pages, sector_size, page_size] = [16, 20, 24].map(|at| be32(first, at));
    if !is_size(sector_size) || !is_size(page_size) {
        return JournalSummary { refusal: 41, ..none };
    }
    let mut told = JournalSummary { page_size, sector_size, pages, ..none };
    let mut seen = HashSet::new();
    let mut twice = false;
    let mut at = 0;
    told.stop = 'segments: loop {
        let Some(header) = journal.get(at..at + 28) else { break 0 };
        if header[..8] != first[..8] {
            break 1;
        }
        if header[20..] != first[20..] {
            break 2;
        }
        told.segments += 1;
        let (count, nonce) = (be32(header, 8), be32(header, 12));
        at += sector_size as usize;
        let mut read = 0;
        while count == u32::MAX || read < count {
            let number = match record(journal, at, page_size as usize, nonce, count == u32::MAX) {
                Ok(number) => number,
                Err(stop) => break 'segments stop,
            };
            told.counting += 1;
            if number <= pages {
                told.laid += 1;
                twice |= !seen.insert(number);
            }
            read += 1;
            at += page_size as usize + 8;
        }
        at = at.next_multiple_of(sector_size as usize);
    };
    told.refusal = match () {
        _ if pages as usize > MAX_PAGES => 42,
        _ if twice => 45,
        _ => 0,
    };
    told
}
