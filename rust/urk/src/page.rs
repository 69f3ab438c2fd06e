//! One page as the command reads it itself, with words for what is wrong. The library's answer decides; this only tells more of it.

use crate::header::{four, thousands, two, varint};

pub const INDEX_INTERIOR: u8 = 2;
pub const TABLE_INTERIOR: u8 = 5;
pub const INDEX_LEAF: u8 = 10;
pub const TABLE_LEAF: u8 = 13;

/// An image whose header is in order.
#[derive(Clone, Copy)]
pub struct Pages<'a> {
    pub image: &'a [u8],
    pub page_size: usize,
    pub usable: usize,
    /// N.
    pub count: u32,
}

impl<'a> Pages<'a> {
    /// The usable bytes of a page of 1 to N; none where the page is not there.
    pub fn bytes(&self, page: u32) -> Option<&'a [u8]> {
        let start = (page as usize).checked_sub(1)?.checked_mul(self.page_size)?;
        self.image.get(start..start.checked_add(self.usable)?).filter(|_| page <= self.count)
    }

    /// A page as a tree page, whatever it is.
    pub fn tree(&self, page: u32) -> Option<TreePage<'a>> {
        Some(TreePage::new(self.bytes(page)?, if page == 1 { 100 } else { 0 }))
    }
}

/// A page read as a tree page. Nothing of it was tested.
#[derive(Clone, Copy)]
pub struct TreePage<'a> {
    pub bytes: &'a [u8],
    pub kind: u8,
    pub cells: usize,
    pub content: usize,
    pub freeblock: usize,
    pub fragments: usize,
    pub right: u32,
    pub pointers: usize,
}

/// A cell. What its page's type does not have is 0.
#[derive(Clone, Copy, Default)]
pub struct Cell {
    pub start: usize,
    pub end: usize,
    pub child: u32,
    pub key: i64,
    pub payload: usize,
    pub local_at: usize,
    pub local: usize,
    pub overflow: u32,
}

/// A rule that a page breaks by itself, and how.
pub struct Broken {
    pub rule: u32,
    pub how: String,
}

fn broken<T>(rule: u32, how: String) -> Result<T, Broken> {
    Err(Broken { rule, how })
}

/// The name of a page's type.
pub fn type_name(kind: u8) -> Option<&'static str> {
    match kind {
        INDEX_INTERIOR => Some("index interior"),
        TABLE_INTERIOR => Some("table interior"),
        INDEX_LEAF => Some("index leaf"),
        TABLE_LEAF => Some("table leaf"),
        _ => None,
    }
}

fn type_words(kind: u8) -> String {
    type_name(kind).map_or_else(|| format!("{kind}, which no tree page has"), |name| format!("{kind} ({name})"))
}

/// How many of a payload's bytes stand on a page of a type.
fn local_length(kind: u8, usable: usize, payload: usize) -> usize {
    let most = if kind == TABLE_LEAF { usable - 35 } else { (usable - 12) * 64 / 255 - 23 };
    let least = (usable - 12) * 32 / 255 - 23;
    if payload <= most {
        return payload;
    }
    let kept = least + (payload - least) % (usable - 4);
    if kept <= most {
        kept
    } else {
        least
    }
}

impl<'a> TreePage<'a> {
    fn new(bytes: &'a [u8], at: usize) -> TreePage<'a> {
        let kind = bytes[at];
        let interior = kind == INDEX_INTERIOR || kind == TABLE_INTERIOR;
        TreePage {
            bytes,
            kind,
            cells: two(bytes, at + 3),
            content: match two(bytes, at + 5) {
                0 => 65536,
                start => start,
            },
            freeblock: two(bytes, at + 1),
            fragments: usize::from(bytes[at + 7]),
            right: if interior { four(bytes, at + 8) } else { 0 },
            pointers: at + if interior { 12 } else { 8 },
        }
    }

    pub fn is_leaf(&self) -> bool {
        self.kind == INDEX_LEAF || self.kind == TABLE_LEAF
    }

    /// Cell i, or what is wrong with it (23, 26).
    pub fn cell(&self, i: usize) -> Result<Cell, Broken> {
        let usable = self.bytes.len();
        let pointer = self.pointers + 2 * i;
        if pointer + 2 > usable {
            return broken(
                23,
                format!("cell {i}'s pointer would stand at byte {pointer}, past the page's {usable} usable bytes: it counts {} cells", self.cells),
            );
        }
        let start = two(self.bytes, pointer);
        if start < self.content || start >= usable {
            return broken(23, format!("cell {i} starts at byte {start}, outside the content, {} to {usable}", self.content));
        }
        let past = || Broken { rule: 23, how: format!("cell {i}, at byte {start}, runs past the page's {usable} usable bytes") };
        let mut cell = Cell { start, ..Cell::default() };
        let mut at = start;
        let number = |at: usize| varint(&self.bytes[at.min(usable)..]).ok_or_else(past);
        let link = |at: usize| self.bytes.get(at..at + 4).map(|bytes| four(bytes, 0)).ok_or_else(past);
        if !self.is_leaf() {
            cell.child = link(at)?;
            at += 4;
        }
        if self.kind != TABLE_INTERIOR {
            let (payload, length) = number(at)?;
            if payload as u64 > urkibasko::MAX_PAYLOAD as u64 {
                let most = thousands(urkibasko::MAX_PAYLOAD as u64);
                return broken(26, format!("cell {i} has a payload of {} bytes; {most} are the most that is read", thousands(payload as u64)));
            }
            cell.payload = payload as usize;
            at += length;
        }
        if self.kind == TABLE_INTERIOR || self.kind == TABLE_LEAF {
            let (key, length) = number(at)?;
            cell.key = key;
            at += length;
        }
        if self.kind != TABLE_INTERIOR {
            cell.local_at = at;
            cell.local = local_length(self.kind, usable, cell.payload);
            at += cell.local;
            if cell.local < cell.payload {
                cell.overflow = link(at)?;
                at += 4;
            }
        }
        cell.end = at.max(start + 4);
        if cell.end > usable {
            return Err(past());
        }
        Ok(cell)
    }

    /// The length that cell i gives its payload, whatever it is.
    pub fn payload_told(&self, i: usize) -> Option<u64> {
        let start = two(self.bytes, self.pointers + 2 * i) + if self.is_leaf() { 0 } else { 4 };
        varint(self.bytes.get(start..)?).map(|(payload, _)| payload as u64)
    }

    /// What is wrong with the page in a place that takes these types (22, 23, 26).
    pub fn test(&self, kinds: &[u8]) -> Result<(), Broken> {
        if !kinds.contains(&self.kind) {
            let wanted: Vec<String> = kinds.iter().map(|&kind| type_words(kind)).collect();
            return broken(22, format!("its type byte is {}; its place wants {}", type_words(self.kind), wanted.join(" or ")));
        }
        let usable = self.bytes.len();
        // Who has a byte: 0 no one, i + 1 cell i, FREE + b the freeblock at byte b.
        const FREE: usize = 1 << 20;
        let words = |who: usize| if who >= FREE { format!("the freeblock at byte {}", who - FREE) } else { format!("cell {}", who - 1) };
        let mut taken = vec![0; usable];
        let mut overlap = None;
        let mut take = |from: usize, to: usize, who: usize| {
            for byte in &mut taken[from..to] {
                if *byte != 0 && overlap.is_none() {
                    overlap = Some(format!("{} and {} have bytes in common", words(*byte), words(who)));
                }
                *byte = who;
            }
        };
        for i in 0..self.cells {
            let cell = self.cell(i)?;
            take(cell.start, cell.end, i + 1);
        }
        if self.content > usable {
            return broken(23, format!("its content would start at byte {}, past its {usable} usable bytes", self.content));
        }
        let array_end = self.pointers + 2 * self.cells;
        if array_end > self.content {
            return broken(23, format!("its cell pointers end at byte {array_end}, past the content's start at {}", self.content));
        }
        if self.fragments > 60 {
            return broken(23, format!("it counts {} fragments; 60 are the most", self.fragments));
        }
        let (mut before, mut block) = (0, self.freeblock);
        while block != 0 {
            if block <= before || block < self.content || block + 4 > usable {
                return broken(
                    23,
                    format!("a freeblock is said to stand at byte {block}: it must lie behind {before} and within {} to {usable}", self.content),
                );
            }
            let size = two(self.bytes, block + 2);
            if size < 4 || block + size > usable {
                return broken(23, format!("the freeblock at byte {block} has {size} bytes; it must have at least 4 and end by {usable}"));
            }
            take(block, block + size, FREE + block);
            before = block;
            block = two(self.bytes, block);
        }
        if let Some(overlap) = overlap {
            return broken(23, overlap);
        }
        let left = taken[self.content..].iter().filter(|&&who| who == 0).count();
        if left != self.fragments {
            return broken(23, format!("{left} bytes of its content lie in no cell and no freeblock; it counts {} such fragments", self.fragments));
        }
        Ok(())
    }
}
