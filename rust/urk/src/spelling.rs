//! Where numbers are spelled longer than need be.

use urkibasko::varint;

/// How many payload lengths, row numbers and keys on a tree page of an accepted image are not in their shortest spelling.
pub fn on_page(image: &[u8], page_size: usize, page: u32) -> u64 {
    let bytes = &image[(page as usize - 1) * page_size..][..page_size];
    let head = if page == 1 { 100 } else { 0 };
    let two = |at: usize| usize::from(u16::from_be_bytes([bytes[at], bytes[at + 1]]));
    let kind = bytes[head];
    let child = if kind < 10 { 4 } else { 0 };
    let numbers = if kind == 13 { 2 } else { 1 };
    let mut long = 0;
    for cell in 0..two(head + 3) {
        let mut at = two(head + 8 + child + 2 * cell) + child;
        for _ in 0..numbers {
            let Some(number) = varint::read(&bytes[at..]) else { break };
            long += u64::from(!number.shortest);
            at += number.length;
        }
    }
    long
}
