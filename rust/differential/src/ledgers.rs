//! Ledgers made elsewhere: proposals that are an image's ledger, are changed in a place, or have nothing to do with it; ledgers written down.

use plain::ledger;
use world::rng::Rng;

use crate::hold::{Held, Hold, Rooms};

/// An image with a proposal, then ledgers written with some room.
pub fn case(image: &[u8], rooms: Rooms, hold: &mut Hold, rng: &mut Rng) -> Held {
    let most = (image.len() / 512).min(plain::MAX_PAGES);
    let (mut kinds, mut namers, mut steps) = (vec![0; most], vec![0; most], vec![0; most]);
    let pages = match plain::verdict::verdict(image, &mut kinds, &mut namers, &mut steps) {
        Ok(accepted) => accepted.pages,
        // Of a refused image, ledgers of one page or of all.
        Err(_) => *rng.pick(&[0, 1, most]),
    };
    let mut proposal = ledger::sent(pages.min(most), &kinds, &namers, &steps).expect("few pages, and ledgers of as many");
    for _ in 0..*rng.pick(&[0, 0, 1, 1, 1, 2]) {
        change(&mut proposal, rng);
    }
    hold.ledger_check(image, &proposal, rooms)?;

    let told = match rng.below(16) {
        0 => *rng.pick(&[477_218_588, 477_218_589, u32::MAX]),
        1 => pages as u32 + 1 + rng.below(3) as u32,
        _ => rng.below(pages + 1) as u32,
    };
    let length = 5 + 9 * told as usize;
    let room = match rng.below(4) {
        0 => length.min(1 << 20).saturating_sub(1),
        1 => 0,
        2 => length.min(1 << 20),
        _ => length.min(1 << 20) + rng.below(100),
    };
    let mut short = |entries: &[u32]| entries[..if rng.below(8) == 0 { rng.below(entries.len() + 1) } else { entries.len() }].to_vec();
    let (namers, steps) = (short(&namers), short(&steps));
    hold.ledger_write(told, &kinds, &namers, &steps, room)
}

fn change(proposal: &mut Vec<u8>, rng: &mut Rng) {
    let length = proposal.len();
    let entries = length.saturating_sub(5) / 9;
    match rng.below(12) {
        // A byte in front, or anywhere.
        0 if length > 0 => proposal[rng.below(length.min(5))] = rng.byte(),
        1..=3 if length > 0 => proposal[rng.below(length)] ^= 1 << rng.below(8),
        // A field of an entry: its kind, namer or step, by one or as the bytes in the other order.
        4 | 5 if entries > 0 => {
            let at = 5 + 9 * rng.below(entries);
            let field = *rng.pick(&[0, 4, 8]);
            proposal[at + field] = proposal[at + field].wrapping_add(*rng.pick(&[1, 255]));
        }
        6 if entries > 0 => {
            let at = 6 + 9 * rng.below(entries) + 4 * rng.below(2);
            proposal[at..at + 4].reverse();
        }
        7 => proposal.truncate(rng.below(length + 1)),
        // Bytes behind its end: with the length as it was, and with a length that covers them.
        8 => proposal.push(rng.byte()),
        9 => {
            proposal.extend([0; 9]);
            let told = (proposal.len() - 4) as u32;
            proposal[..4].copy_from_slice(&told.to_be_bytes());
        }
        10 if entries > 1 => {
            let (a, b) = (5 + 9 * rng.below(entries), 5 + 9 * rng.below(entries));
            (0..9).for_each(|i| proposal.swap(a + i, b + i));
        }
        11 => *proposal = (0..rng.below(40)).map(|_| rng.byte()).collect(),
        _ => {}
    }
}
