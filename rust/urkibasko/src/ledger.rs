//! Ledgers made elsewhere, and ledgers to be sent there: a 4-byte length of what follows, version byte 1, then for each page one kind byte, 4 bytes namer,
//! 4 bytes step.

use crate::{raw, Ledger, Refusal, MAX_PAGES};

/// What a proposal is beside the ledger of an accepted image.
#[derive(Clone, Copy, Debug, PartialEq, Eq, Hash)]
pub enum Proposal {
    /// It is the ledger, byte for byte.
    Is,
    /// Its length, the length in front or its version is wrong.
    Malformed,
    /// It differs: first in the entry of this page.
    Differs(u32),
}

/// Judges an image, and says whether a proposal made elsewhere is its ledger.
pub fn check_proposal(image: &[u8], proposal: &[u8]) -> Result<Proposal, Refusal> {
    let room = (image.len() / 512).min(MAX_PAGES);
    let (mut kinds, mut namers, mut steps) = (vec![0u8; room], vec![0u32; room], vec![0u32; room]);
    // SAFETY: pointers and lengths are those of slices, and the lent ones are apart.
    let answer = unsafe {
        raw::urk_ledger_check(
            image.as_ptr(),
            image.len(),
            proposal.as_ptr(),
            proposal.len(),
            kinds.as_mut_ptr(),
            kinds.len(),
            namers.as_mut_ptr(),
            namers.len(),
            steps.as_mut_ptr(),
            steps.len(),
        )
    };
    Refusal::test(answer.refusal, answer.page)?;
    Ok(match (answer.yes, answer.page) {
        (1, _) => Proposal::Is,
        (_, 0) => Proposal::Malformed,
        (_, page) => Proposal::Differs(page),
    })
}

impl Ledger {
    /// The ledger as it is sent: [`check_proposal`] says yes to it for the image that it is of.
    pub fn to_bytes(&self) -> Vec<u8> {
        let mut out = vec![0; 5 + 9 * self.kinds.len()];
        // SAFETY: pointers and lengths are those of slices, and the lent one is borrowed alone.
        let answer = unsafe {
            raw::urk_ledger_write(
                self.pages(),
                self.kinds.as_ptr(),
                self.kinds.len(),
                self.namers.as_ptr(),
                self.namers.len(),
                self.steps.as_ptr(),
                self.steps.len(),
                out.as_mut_ptr(),
                out.len(),
            )
        };
        assert_eq!((answer.refusal, answer.length as usize), (0, out.len()), "there is room for each entry");
        out
    }
}
