//! The verdict: the walk over the whole image, which gives every page its kind, its namer and its step.

use std::cmp::Ordering;

use crate::header::{header, Header};
use crate::number::be32;
use crate::page::{page_bytes, tree_page, Cell, Marks, TreePage, INDEX_INTERIOR, INDEX_LEAF, TABLE_INTERIOR, TABLE_LEAF};
use crate::record::{column, columns, order, Column, Value};
use crate::{lock_page, Refusal, MAX_LEVELS};

pub const ROOT: u8 = 1;
pub const TRUNK: u8 = 2;
pub const FREE_LEAF: u8 = 3;
pub const FIRST_OVERFLOW: u8 = 4;
pub const LATER_OVERFLOW: u8 = 5;
pub const TREE: u8 = 6;
pub const POINTER_MAP: u8 = 7;
pub const LOCK_BYTE: u8 = 8;

const TABLE: [u8; 2] = [TABLE_INTERIOR, TABLE_LEAF];
const INDEX: [u8; 2] = [INDEX_INTERIOR, INDEX_LEAF];
const ANY: [u8; 4] = [INDEX_INTERIOR, TABLE_INTERIOR, INDEX_LEAF, TABLE_LEAF];

/// An accepted image: its number of pages, and of the numbers in cells of its tree pages that are not in their shortest spelling.
#[derive(Clone, Copy, Debug, PartialEq, Eq)]
pub struct Accepted {
    pub pages: usize,
    pub long_spellings: u64,
}

/// Judges an image. On acceptance the first N entries of the ledgers are the kinds, namers and steps of pages 1 to N. Refusals 1 to
/// 12 leave the ledgers as they were; later ones zero the first N entries.
pub fn verdict(image: &[u8], kinds: &mut [u8], namers: &mut [u32], steps: &mut [u32]) -> Result<Accepted, Refusal> {
    verdict_ordered(image, &[], kinds, namers, steps)
}

/// The same where the caller names roots of indexes whose keys are to rise: 34 right after 11, which leaves the ledgers as they were too, 33 in their trees, 35 last of all.
pub fn verdict_ordered(image: &[u8], ordered: &[u32], kinds: &mut [u8], namers: &mut [u32], steps: &mut [u32]) -> Result<Accepted, Refusal> {
    let header = header(image).map_err(Refusal::general)?;
    if !ordered.is_empty() && be32(image, 56) != 1 {
        return Err(Refusal::general(34));
    }
    let n = header.pages;
    let (Some(kinds), Some(namers), Some(steps)) = (kinds.get_mut(..n), namers.get_mut(..n), steps.get_mut(..n)) else {
        return Err(Refusal::general(12));
    };
    kinds.fill(0);
    namers.fill(0);
    steps.fill(0);
    let mut walk =
        Walk { image, header, ordered, kinds, namers, steps, roots: Vec::new(), payload: Vec::new(), marks: Marks::default(), long_spellings: 0 };
    let answer = walk.whole();
    if answer.is_err() {
        walk.kinds.fill(0);
        walk.namers.fill(0);
        walk.steps.fill(0);
    }
    let long_spellings = walk.long_spellings;
    answer.map(|()| Accepted { pages: header.pages, long_spellings })
}

struct Walk<'a, 'l> {
    image: &'a [u8],
    header: Header,
    /// The roots that the caller names.
    ordered: &'l [u32],
    kinds: &'l mut [u8],
    namers: &'l mut [u32],
    steps: &'l mut [u32],
    /// The roots that the schema names, each with the leaf that has its row.
    roots: Vec<(u32, u32)>,
    payload: Vec<u8>,
    marks: Marks,
    /// How many numbers met so far are not in their shortest spelling.
    long_spellings: u64,
}

/// What the walk keeps of the tree that it is in.
#[derive(Default)]
struct Tree {
    schema: bool,
    greatest_row: Option<i64>,
    greatest_key: Option<i64>,
    leaf_level: Option<u32>,
    /// The caller names its root.
    ordered: bool,
    /// The key before, in an index that the caller names.
    last_record: Option<Vec<u8>>,
}

impl<'a> Walk<'a, '_> {
    fn whole(&mut self) -> Result<(), Refusal> {
        self.kinds[0] = ROOT;
        for map in self.maps() {
            self.kinds[map - 1] = POINTER_MAP;
        }
        if let Some(lock) = self.kinds.get_mut(lock_page(self.header.page_size) - 1) {
            *lock = LOCK_BYTE;
        }
        let mut schema = Tree { schema: true, ..Tree::default() };
        self.page(1, 1, &TABLE, &mut schema)?;
        self.freelist()?;
        for (root, leaf) in std::mem::take(&mut self.roots) {
            self.name(leaf, root, ROOT)?;
            self.page(root, 1, &ANY, &mut Tree { ordered: self.ordered.contains(&root), ..Tree::default() })?;
        }
        if let Some(unnamed) = self.kinds.iter().position(|&kind| kind == 0) {
            return Err(Refusal::new(30, unnamed as u32 + 1));
        }
        self.pointer_maps()?;
        match self.ordered.iter().find(|&&name| !self.is_index_root(name)) {
            Some(&name) => Err(Refusal::new(35, name)),
            None => Ok(()),
        }
    }

    /// A root from page 2 on, which is no table's. Page 1, at whose start the header stands, is the schema's.
    fn is_index_root(&self, page: u32) -> bool {
        let known = page >= 2 && page as usize <= self.header.pages;
        known && self.kinds[page as usize - 1] == ROOT && INDEX.contains(&page_bytes(self.image, &self.header, page)[0])
    }

    /// The pointer maps, each as many pages on as the one before it has entries, and one more. One that would fall on the lock-byte page is the page after it.
    fn maps(&self) -> Vec<usize> {
        if be32(self.image, 52) == 0 {
            return Vec::new();
        }
        let lock = lock_page(self.header.page_size);
        let places = (2..=self.header.pages).step_by(self.header.usable / 5 + 1);
        places.map(|place| if place == lock { place + 1 } else { place }).filter(|&map| map <= self.header.pages).collect()
    }

    /// Each entry of each map against the ledgers; then the largest root.
    fn pointer_maps(&self) -> Result<(), Refusal> {
        let vacuum = be32(self.image, 52) as usize;
        if vacuum == 0 {
            return Ok(());
        }
        for map in self.maps() {
            let entries = page_bytes(self.image, &self.header, map as u32).chunks_exact(5);
            for (entry, page) in entries.zip(map + 1..=self.header.pages) {
                let namer = self.namers[page - 1];
                let wanted = match self.kinds[page - 1] {
                    ROOT => (1, 0),
                    TRUNK | FREE_LEAF => (2, 0),
                    FIRST_OVERFLOW => (3, namer),
                    LATER_OVERFLOW => (4, namer),
                    POINTER_MAP | LOCK_BYTE => continue,
                    _ => (5, namer),
                };
                if (entry[0], be32(entry, 1)) != wanted {
                    return Err(Refusal::new(31, page as u32));
                }
            }
        }
        if self.kinds.iter().rposition(|&kind| kind == ROOT) != Some(vacuum - 1) {
            return Err(Refusal::new(32, 1));
        }
        Ok(())
    }

    /// A page names another: its range, then whether it is named for the first time.
    fn name(&mut self, holder: u32, page: u32, kind: u8) -> Result<(), Refusal> {
        if page == 0 || page as usize > self.header.pages {
            return Err(Refusal::new(20, holder));
        }
        let entry = page as usize - 1;
        if self.kinds[entry] != 0 {
            return Err(Refusal::new(21, page));
        }
        self.kinds[entry] = kind;
        self.namers[entry] = holder;
        self.steps[entry] = self.steps[holder as usize - 1] + 1;
        Ok(())
    }

    fn page(&mut self, number: u32, level: u32, kinds: &[u8], tree: &mut Tree) -> Result<(), Refusal> {
        if level > MAX_LEVELS {
            return Err(Refusal::new(24, number));
        }
        let page = tree_page(self.image, &self.header, number, kinds, &mut self.marks)?;
        if page.is_leaf() {
            if *tree.leaf_level.get_or_insert(level) != level {
                return Err(Refusal::new(24, number));
            }
            for i in 0..page.cells {
                self.leaf_cell(number, &page, page.cell(i), tree)?;
            }
            return Ok(());
        }
        let family = if page.kind == TABLE_INTERIOR { &TABLE } else { &INDEX };
        for i in 0..page.cells {
            let cell = page.cell(i);
            self.long_spellings += cell.long;
            self.name(number, cell.child, TREE)?;
            self.page(cell.child, level + 1, family, tree)?;
            if page.kind == TABLE_INTERIOR {
                tree.key(cell.key).map_err(|refusal| Refusal::new(refusal, number))?;
            } else {
                self.record(number, &page, &cell)?;
                tree.record(&self.payload).map_err(|refusal| Refusal::new(refusal, number))?;
            }
        }
        self.name(number, page.right, TREE)?;
        self.page(page.right, level + 1, family, tree)
    }

    fn leaf_cell(&mut self, number: u32, page: &TreePage<'a>, cell: Cell, tree: &mut Tree) -> Result<(), Refusal> {
        self.long_spellings += cell.long;
        if page.kind == TABLE_LEAF {
            tree.row(cell.key).map_err(|refusal| Refusal::new(refusal, number))?;
        }
        self.record(number, page, &cell)?;
        if page.kind == INDEX_LEAF {
            tree.record(&self.payload).map_err(|refusal| Refusal::new(refusal, number))?;
        }
        if tree.schema {
            self.schema_row(number)?;
        }
        Ok(())
    }

    /// Names the pages of a cell's overflow chain.
    fn chain(&mut self, holder: u32, cell: &Cell) -> Result<(), Refusal> {
        let mut rest = cell.payload - cell.local;
        let mut holder = holder;
        let mut next = cell.overflow;
        let mut kind = FIRST_OVERFLOW;
        while rest > 0 {
            if next == 0 {
                return Err(Refusal::new(27, holder));
            }
            self.name(holder, next, kind)?;
            holder = next;
            next = be32(page_bytes(self.image, &self.header, holder), 0);
            rest = rest.saturating_sub(self.header.usable - 4);
            kind = LATER_OVERFLOW;
        }
        if kind == LATER_OVERFLOW && next != 0 {
            return Err(Refusal::new(27, holder));
        }
        Ok(())
    }

    /// Names the pages of a cell's chain, then gathers its payload, which must read as a record.
    fn record(&mut self, number: u32, page: &TreePage<'a>, cell: &Cell) -> Result<(), Refusal> {
        self.chain(number, cell)?;
        let payload = &mut self.payload;
        payload.clear();
        payload.extend_from_slice(&page.bytes[cell.local_at..cell.local_at + cell.local]);
        let mut next = cell.overflow;
        while payload.len() < cell.payload {
            let bytes = page_bytes(self.image, &self.header, next);
            let part = (cell.payload - payload.len()).min(bytes.len() - 4);
            payload.extend_from_slice(&bytes[4..4 + part]);
            next = be32(bytes, 0);
        }
        columns(payload).map(|_| ()).ok_or(Refusal::new(28, number))
    }

    /// Takes the payload gathered last as a schema row, and keeps its root.
    fn schema_row(&mut self, leaf: u32) -> Result<(), Refusal> {
        match schema_root(&self.payload, self.header.pages) {
            None => Err(Refusal::new(28, leaf)),
            Some(0) => Ok(()),
            Some(root) => {
                self.roots.push((root, leaf));
                Ok(())
            }
        }
    }

    fn freelist(&mut self) -> Result<(), Refusal> {
        let mut total = 0;
        let mut holder = 1;
        let mut next = be32(self.image, 32);
        while next != 0 {
            self.name(holder, next, TRUNK)?;
            holder = next;
            let trunk = page_bytes(self.image, &self.header, holder);
            let count = be32(trunk, 4) as usize;
            if count > self.header.usable / 4 - 2 {
                return Err(Refusal::new(29, holder));
            }
            for i in 0..count {
                self.name(holder, be32(trunk, 8 + 4 * i), FREE_LEAF)?;
            }
            total += 1 + count;
            next = be32(trunk, 0);
        }
        if total != be32(self.image, 36) as usize {
            return Err(Refusal::new(29, 1));
        }
        Ok(())
    }
}

/// The root that a schema row names, 0 for none. None where it is no schema row of an image of `pages` pages.
fn schema_root(payload: &[u8], pages: usize) -> Option<u32> {
    if columns(payload) != Some(5) {
        return None;
    }
    match column(payload, 4) {
        Column::Value(Value::Null) => Some(0),
        Column::Value(Value::Integer(root)) if root == 0 || (root >= 2 && root <= pages as i64) => Some(root as u32),
        _ => None,
    }
}

impl Tree {
    /// A row number exceeds every number before it.
    fn row(&mut self, row: i64) -> Result<(), u32> {
        if self.greatest_row.is_some_and(|before| row <= before) || self.greatest_key.is_some_and(|before| row <= before) {
            return Err(25);
        }
        self.greatest_row = Some(row);
        Ok(())
    }

    /// A key is no less than each row number and more than each key before it.
    fn key(&mut self, key: i64) -> Result<(), u32> {
        if self.greatest_row.is_some_and(|before| key < before) || self.greatest_key.is_some_and(|before| key <= before) {
            return Err(25);
        }
        self.greatest_key = Some(key);
        Ok(())
    }

    /// In an index that the caller names each key, on leaves and interior pages, is more than the one before it.
    fn record(&mut self, record: &[u8]) -> Result<(), u32> {
        if !self.ordered {
            return Ok(());
        }
        if self.last_record.as_ref().is_some_and(|before| order(before, record) != Ok(Ordering::Less)) {
            return Err(33);
        }
        self.last_record = Some(record.to_vec());
        Ok(())
    }
}
