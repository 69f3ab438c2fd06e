//! The header of an image: refusals 1 to 11.

use crate::number::{be16, be32};
use crate::MAX_PAGES;

/// What the header says of the pages.
#[derive(Clone, Copy, Debug, PartialEq, Eq)]
pub struct Header {
    pub page_size: usize,
    /// U: the page size less the reserved bytes.
    pub usable: usize,
    /// N: the count at 28 where it holds, else the pages present.
    pub pages: usize,
}

/// Refusals 1 to 4: page size and pages present.
fn present(image: &[u8]) -> Result<(usize, usize), u32> {
    if image.len() < 512 {
        return Err(1);
    }
    if &image[..16] != b"SQLite format 3\0" {
        return Err(2);
    }
    let page_size = match be16(image, 16) {
        1 => 65536,
        size if size >= 512 && size.is_power_of_two() => usize::from(size),
        _ => return Err(3),
    };
    if !image.len().is_multiple_of(page_size) {
        return Err(4);
    }
    Ok((page_size, image.len() / page_size))
}

/// An image that recovery shows alone: refusals 1 to 5, page size and pages present. What the header counts is not read.
pub fn alone(image: &[u8]) -> Result<(usize, usize), u32> {
    match present(image)? {
        (_, pages) if pages > MAX_PAGES => Err(5),
        sizes => Ok(sizes),
    }
}

/// The count at 28, if it holds: it is not zero, and the change counter at 24 is still what it was, by 92, when the count was written.
fn counted(image: &[u8]) -> Option<usize> {
    match be32(image, 28) {
        0 => None,
        count => (image[24..28] == image[92..96]).then_some(count as usize),
    }
}

/// Refusals 1 to 4, 6 to 9, 5, 10, 11.
pub fn header(image: &[u8]) -> Result<Header, u32> {
    let (page_size, present) = present(image)?;
    let usable = page_size - usize::from(image[20]);
    if usable < 480 {
        return Err(6);
    }
    if image[21..24] != [64, 32, 32] {
        return Err(7);
    }
    if image[19] != 1 && image[19] != 2 {
        return Err(8);
    }
    let pages = match counted(image) {
        Some(count) if count > present => return Err(9),
        Some(count) => count,
        None => present,
    };
    if pages > MAX_PAGES {
        return Err(5);
    }
    if be32(image, 52) == 0 && be32(image, 64) != 0 {
        return Err(10);
    }
    if image[72..92].iter().any(|&byte| byte != 0) {
        return Err(11);
    }
    Ok(Header { page_size, usable, pages })
}
