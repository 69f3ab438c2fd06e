//! Journals' ends: the name of a super-journal, as it should be and damaged.

use world::rng::Rng;

use crate::hold::{Held, Hold};

/// The last 16 bytes: length, sum and magic.
const END: usize = 16;
const MAGIC: [u8; 8] = [0xd9, 0xd5, 0x05, 0xf9, 0x20, 0xa1, 0x63, 0xd7];

/// What an end says, told part by part: why there is no name, or what the name is like. Each of them has to be met.
pub const SAYS: std::ops::RangeInclusive<u32> = 0..=13;

fn be32(bytes: &[u8]) -> u32 {
    u32::from_be_bytes(bytes.try_into().expect("four bytes"))
}

fn says(journal: &[u8]) -> u32 {
    let Some(before) = journal.len().checked_sub(END) else { return 0 };
    let (end, length) = (&journal[before..], be32(&journal[before..before + 4]) as usize);
    match () {
        _ if end[8..12] != MAGIC[..4] => return 1,
        _ if end[12..] != MAGIC[4..] => return 2,
        _ if length == 0 => return 3,
        _ if length > 512 && length > before => return 4,
        _ if length > 512 => return 5,
        _ if length > before => return 6,
        _ => {}
    }
    let name = &journal[before - length..before];
    let unsigned: u32 = name.iter().map(|&byte| u32::from(byte)).sum();
    let high = name.iter().filter(|&&byte| byte > 127).count() as u32;
    match be32(&end[4..8]) {
        // The sum of the bytes as they are, where it is not that of the bytes as signed.
        sum if sum == unsigned && high > 0 => 7,
        sum if sum != unsigned.wrapping_sub(256 * high) => 8,
        _ if name[0] == 0 => 9,
        _ if length == 512 => 10,
        _ if length == before => 11,
        _ if high > 0 => 12,
        _ => 13,
    }
}

/// Places a journal before the answer is asked for, and counts what its end says.
pub fn held(hold: &mut Hold, journal: &[u8]) -> Held {
    *hold.met.entry(("journal_super, by its end", says(journal))).or_default() += 1;
    hold.journal_super(journal)
}

/// An end as it should be, behind what stands before it.
fn ended(mut journal: Vec<u8>, name: &[u8]) -> Vec<u8> {
    let sum = name.iter().fold(0u32, |sum, &byte| sum.wrapping_add(byte as i8 as u32));
    journal.extend(name);
    journal.extend((name.len() as u32).to_be_bytes());
    journal.extend(sum.to_be_bytes());
    journal.extend(MAGIC);
    journal
}

fn name(rng: &mut Rng) -> Vec<u8> {
    let length = match rng.below(6) {
        0 => *rng.pick(&[1, 2, 511, 512, 513, 600]),
        _ => 1 + rng.below(80),
    };
    let mut name: Vec<u8> = (0..length).map(|at| b"/var/several.db-mj0123456789"[at % 28]).collect();
    match rng.below(5) {
        0 => rng.fill(&mut name),
        1 => name.iter_mut().for_each(|byte| *byte |= 0x80),
        2 => name[rng.below(length)] = *rng.pick(&[0, 1, 127, 128, 255]),
        _ => {}
    }
    if rng.below(12) == 0 {
        name[0] = 0;
    }
    name
}

/// A name at the end of some bytes, or of a real journal, mostly damaged.
pub fn case(real: &[u8], hold: &mut Hold, rng: &mut Rng) -> Held {
    let mut before = match rng.below(4) {
        0 => Vec::new(),
        1 => real.to_vec(),
        _ => vec![0; rng.below(40)],
    };
    if before.len() < 100 {
        rng.fill(&mut before);
    }
    let mut journal = ended(before, &name(rng));
    let length = journal.len();
    let put = |journal: &mut Vec<u8>, at: usize, number: u32| journal[at..at + 4].copy_from_slice(&number.to_be_bytes());
    match rng.below(14) {
        0 => {
            let told = be32(&journal[length - END..length - 12]);
            let most = (length - END) as u32;
            put(&mut journal, length - END, *rng.pick(&[0, 1, told - 1, told + 1, 511, 512, 513, most, most + 1, 1 << 31, u32::MAX]));
        }
        // The sum of other lengths, so that it is not the sum that is told of.
        1 => {
            let told = *rng.pick(&[1, 512, 513, length - END, length - END - 1]);
            let told = told.min(length - END);
            let sum = journal[length - END - told..length - END].iter().fold(0u32, |sum, &byte| sum.wrapping_add(byte as i8 as u32));
            put(&mut journal, length - END, told as u32);
            put(&mut journal, length - 12, sum);
        }
        2 => {
            let told = be32(&journal[length - END..length - 12]) as usize;
            let sum = journal[length - END - told..length - END].iter().fold(0u32, |sum, &byte| sum.wrapping_add(byte.into()));
            put(&mut journal, length - 12, sum);
        }
        3 => {
            let sum = be32(&journal[length - 12..length - 8]);
            put(&mut journal, length - 12, *rng.pick(&[sum.wrapping_add(1), sum.wrapping_add(256), sum ^ 1 << 31, sum.swap_bytes(), 0]));
        }
        4 => journal[length - 8 + rng.below(8)] ^= 1 << rng.below(8),
        5 => journal[length - END + rng.below(END)] ^= 1 << rng.below(8),
        6 => {
            let at = length - 1 - rng.below(length.min(600));
            journal[at] ^= 1 << rng.below(8);
        }
        7 => journal.truncate(length - 1 - rng.below(length.min(40))),
        8 => journal.push(rng.byte()),
        9 => {
            let kept = length - rng.below(length.min(END + 2));
            journal.drain(..kept.min(length));
        }
        // What stands before is gone: from the name on, or from within it.
        10 => {
            let told = be32(&journal[length - END..length - 12]) as usize;
            journal.drain(..length - END - told + rng.below(2));
        }
        _ => {}
    }
    held(hold, &journal)
}

/// A real journal: as it is, cut and changed at its end, and with a name behind it.
pub fn real(journal: &[u8], hold: &mut Hold, rng: &mut Rng) -> Held {
    held(hold, journal)?;
    for cut in 1..40.min(journal.len()) {
        held(hold, &journal[..journal.len() - cut])?;
    }
    for back in 1..=60.min(journal.len()) {
        let mut changed = journal.to_vec();
        let at = journal.len() - back;
        changed[at] ^= 1 << rng.below(8);
        held(hold, &changed)?;
    }
    held(hold, &ended(journal.to_vec(), &name(rng)))
}
