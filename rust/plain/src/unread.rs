//! Which bytes of an accepted image no answer depends on.

use crate::header::Header;
use crate::number::be16;
use crate::page::{INDEX_INTERIOR, TABLE_INTERIOR};

/// Whether the byte at an offset may change: on a free leaf page (kind 3), in the reserved bytes at the end of a page, or between the cell pointers and the content of a tree page (kinds 1
/// and 6). `kinds` is the ledger of the image.
pub fn may_change(image: &[u8], header: &Header, kinds: &[u8], offset: usize) -> bool {
    let (page, at) = (offset / header.page_size, offset % header.page_size);
    if page >= header.pages {
        return false;
    }
    let reserved = at >= header.usable;
    match kinds[page] {
        3 => true,
        1 | 6 => {
            let bytes = &image[page * header.page_size..][..header.page_size];
            let head = if page == 0 { 100 } else { 0 };
            let before_pointers = match bytes[head] {
                INDEX_INTERIOR | TABLE_INTERIOR => 12,
                _ => 8,
            };
            let pointers_end = head + before_pointers + 2 * usize::from(be16(bytes, head + 3));
            let content = match be16(bytes, head + 5) {
                0 => 65536,
                content => usize::from(content),
            };
            reserved || (pointers_end..content).contains(&at)
        }
        _ => reserved,
    }
}
