//! One tree page: its cells and its soundness.

use crate::header::Header;
use crate::number::{be16, be32, read_varint, varint_len};
use crate::{Refusal, MAX_PAYLOAD};

pub const INDEX_INTERIOR: u8 = 2;
pub const TABLE_INTERIOR: u8 = 5;
pub const INDEX_LEAF: u8 = 10;
pub const TABLE_LEAF: u8 = 13;

/// A cell. What a kind of cell does not have is 0.
#[derive(Clone, Copy, Debug, Default, PartialEq, Eq)]
pub struct Cell {
    /// The left child on an interior page.
    pub child: u32,
    /// The row number or key on a table page.
    pub key: i64,
    /// P: the length of the payload.
    pub payload: usize,
    /// Where the local bytes of the payload begin on the page, and how many they are.
    pub local_at: usize,
    pub local: usize,
    /// The first page of the overflow chain, if `local` is less than `payload`.
    pub overflow: u32,
    /// One past the last byte of the cell.
    pub end: usize,
    /// How many of the payload's length and the key are not in their shortest spelling.
    pub long: u64,
}

/// How many of a payload's bytes are local on a page of a kind, for a usable size.
pub fn local_len(kind: u8, usable: usize, payload: usize) -> usize {
    let most = if kind == TABLE_LEAF { usable - 35 } else { (usable - 12) * 64 / 255 - 23 };
    let least = (usable - 12) * 32 / 255 - 23;
    if payload <= most {
        return payload;
    }
    let kept = least + (payload - least) % (usable - 4);
    if kept <= most {
        kept
    } else {
        least
    }
}

/// A field of a cell that would run past U.
const PAST: u32 = 23;

/// Reads the cell at `start`. `page` is the page's usable bytes: the refusals are 23 and 26, in the order of the fields.
pub(crate) fn read_cell(page: &[u8], kind: u8, start: usize) -> Result<Cell, u32> {
    let mut cell = Cell::default();
    let mut at = start;
    let four = |at: usize| page.get(at..at + 4).map(|bytes| be32(bytes, 0)).ok_or(PAST);
    let varint = |at: usize| read_varint(&page[at..]).ok_or(PAST);
    if kind == INDEX_INTERIOR || kind == TABLE_INTERIOR {
        cell.child = four(at)?;
        at += 4;
    }
    if kind != TABLE_INTERIOR {
        let (payload, len) = varint(at)?;
        if payload as u64 > MAX_PAYLOAD {
            return Err(26);
        }
        cell.payload = payload as usize;
        cell.long += u64::from(len > varint_len(payload));
        at += len;
    }
    if kind == TABLE_INTERIOR || kind == TABLE_LEAF {
        let (key, len) = varint(at)?;
        cell.key = key;
        cell.long += u64::from(len > varint_len(key));
        at += len;
    }
    if kind != TABLE_INTERIOR {
        cell.local_at = at;
        cell.local = local_len(kind, page.len(), cell.payload);
        at += cell.local;
        if cell.local < cell.payload {
            cell.overflow = four(at)?;
            at += 4;
        }
    }
    cell.end = at.max(start + 4);
    if cell.end > page.len() {
        return Err(PAST);
    }
    Ok(cell)
}

/// A tree page that is sound.
#[derive(Clone, Copy, Debug)]
pub struct TreePage<'a> {
    /// The usable bytes of the page.
    pub bytes: &'a [u8],
    pub kind: u8,
    /// The number of cells.
    pub cells: usize,
    /// The right child on an interior page.
    pub right: u32,
    /// Where the cell pointers begin.
    pointers: usize,
}

impl TreePage<'_> {
    pub fn is_leaf(&self) -> bool {
        self.kind == INDEX_LEAF || self.kind == TABLE_LEAF
    }

    /// Cell `i` of the page.
    pub fn cell(&self, i: usize) -> Cell {
        let start = usize::from(be16(self.bytes, self.pointers + 2 * i));
        read_cell(self.bytes, self.kind, start).expect("cells of a sound page read")
    }
}

/// The usable bytes of page `number`, from 1.
pub fn page_bytes<'a>(image: &'a [u8], header: &Header, number: u32) -> &'a [u8] {
    let start = (number as usize - 1) * header.page_size;
    &image[start..start + header.usable]
}

/// Which bytes of a page are taken: lent from page to page.
#[derive(Default)]
pub struct Marks(Vec<bool>);

impl Marks {
    fn clear(&mut self, len: usize) {
        self.0.clear();
        self.0.resize(len, false);
    }

    /// Takes the bytes; false where one is taken already.
    fn take(&mut self, start: usize, end: usize) -> bool {
        let bytes = &mut self.0[start..end];
        let free = !bytes.contains(&true);
        bytes.fill(true);
        free
    }

    fn free_from(&self, start: usize) -> usize {
        self.0[start..].iter().filter(|&&taken| !taken).count()
    }
}

/// Tests a tree page whose type must be one of `kinds`: 22, then 23 and 26.
pub fn tree_page<'a>(image: &'a [u8], header: &Header, number: u32, kinds: &[u8], marks: &mut Marks) -> Result<TreePage<'a>, Refusal> {
    let bytes = page_bytes(image, header, number);
    let refuse = |refusal| Refusal::new(refusal, number);
    let at = if number == 1 { 100 } else { 0 };
    let kind = bytes[at];
    if !kinds.contains(&kind) {
        return Err(refuse(22));
    }
    let interior = kind == INDEX_INTERIOR || kind == TABLE_INTERIOR;
    let page = TreePage {
        bytes,
        kind,
        cells: usize::from(be16(bytes, at + 3)),
        right: if interior { be32(bytes, at + 8) } else { 0 },
        pointers: at + if interior { 12 } else { 8 },
    };
    let content = match be16(bytes, at + 5) {
        0 => 65536,
        start => usize::from(start),
    };
    let first_freeblock = usize::from(be16(bytes, at + 1));
    let fragments = usize::from(bytes[at + 7]);
    sound(&page, content, first_freeblock, fragments, marks).map_err(refuse)?;
    Ok(page)
}

/// The cells in pointer order, then the rest of soundness.
fn sound(page: &TreePage, content: usize, first_freeblock: usize, fragments: usize, marks: &mut Marks) -> Result<(), u32> {
    let usable = page.bytes.len();
    marks.clear(usable);
    let mut apart = true;
    for i in 0..page.cells {
        let pointer = page.pointers + 2 * i;
        if pointer + 2 > usable {
            return Err(23);
        }
        let start = usize::from(be16(page.bytes, pointer));
        if start < content || start >= usable {
            return Err(23);
        }
        let cell = read_cell(page.bytes, page.kind, start)?;
        apart &= marks.take(start, cell.end);
    }
    if !apart || content > usable || page.pointers + 2 * page.cells > content || fragments > 60 {
        return Err(23);
    }
    let mut previous = 0;
    let mut block = first_freeblock;
    while block != 0 {
        if block <= previous || block < content || block + 4 > usable {
            return Err(23);
        }
        let size = usize::from(be16(page.bytes, block + 2));
        if size < 4 || block + size > usable || !marks.take(block, block + size) {
            return Err(23);
        }
        previous = block;
        block = usize::from(be16(page.bytes, block));
    }
    if marks.free_from(content) != fragments {
        return Err(23);
    }
    Ok(())
}
