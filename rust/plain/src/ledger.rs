//! Ledgers as they are sent: a 4-byte length of what follows, version byte 1, then for each page one kind byte, 4 bytes namer, 4 bytes step.

use crate::number::be32;
use crate::verdict::verdict;
use crate::Refusal;

pub const VERSION: u8 = 1;
/// A page's entry takes so many bytes.
pub const ENTRY: usize = 9;

/// The first `pages` entries of three ledgers as bytes. 5 where their length does not fit 4 bytes, 12 where a ledger has fewer.
pub fn sent(pages: usize, kinds: &[u8], namers: &[u32], steps: &[u32]) -> Result<Vec<u8>, u32> {
    let Ok(length) = u32::try_from(1 + ENTRY as u64 * pages as u64) else {
        return Err(5);
    };
    if kinds.len().min(namers.len()).min(steps.len()) < pages {
        return Err(12);
    }
    let mut bytes = length.to_be_bytes().to_vec();
    bytes.push(VERSION);
    for page in 0..pages {
        bytes.push(kinds[page]);
        bytes.extend(namers[page].to_be_bytes());
        bytes.extend(steps[page].to_be_bytes());
    }
    Ok(bytes)
}

/// Writes them to the start of `out`: 44 where there is no room.
pub fn write(pages: usize, kinds: &[u8], namers: &[u32], steps: &[u32], out: &mut [u8]) -> Result<usize, u32> {
    let bytes = sent(pages, kinds, namers, steps)?;
    out.get_mut(..bytes.len()).ok_or(44u32)?.copy_from_slice(&bytes);
    Ok(bytes.len())
}

/// Why a proposal is not the image's ledger.
#[derive(Clone, Copy, Debug, PartialEq, Eq)]
pub enum No {
    /// The verdict refuses the image.
    Refused(Refusal),
    /// The proposal differs: the first page whose entry does, or 0 where its length or version is wrong.
    Differs(u32),
}

/// Whether the verdict accepts the image and the proposal is its ledger.
pub fn check(image: &[u8], proposal: &[u8], kinds: &mut [u8], namers: &mut [u32], steps: &mut [u32]) -> Result<(), No> {
    let pages = verdict(image, kinds, namers, steps).map_err(No::Refused)?.pages;
    let told = proposal.first_chunk::<4>().map(|four| u32::from_be_bytes(*four) as usize);
    if told != Some(proposal.len().wrapping_sub(4)) || proposal.len() != 5 + ENTRY * pages || proposal[4] != VERSION {
        return Err(No::Differs(0));
    }
    for (page, entry) in proposal[5..].chunks_exact(ENTRY).enumerate() {
        if (entry[0], be32(entry, 1), be32(entry, 5)) != (kinds[page], namers[page], steps[page]) {
            return Err(No::Differs(page as u32 + 1));
        }
    }
    Ok(())
}
