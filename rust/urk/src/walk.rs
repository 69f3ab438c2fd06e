//! The walk over an image as the command does it itself, to find what the library's refusal does not tell: who names a page, which cell, which numbers. The library decides; where
//! this walk does not end at the library's rule and page, nothing of it is told.

use std::cmp::Ordering;
use std::collections::BTreeMap;

use urkibasko::{Record, Value};

use crate::header::{counted, four, thousands, Facts};
use crate::page::{type_name, Broken, Cell, Pages, TreePage, INDEX_INTERIOR, INDEX_LEAF, TABLE_INTERIOR, TABLE_LEAF};
use crate::show::{self, Encoding};

const TABLE: &[u8] = &[TABLE_INTERIOR, TABLE_LEAF];
const INDEX: &[u8] = &[INDEX_INTERIOR, INDEX_LEAF];
const ANY: &[u8] = &[INDEX_INTERIOR, TABLE_INTERIOR, INDEX_LEAF, TABLE_LEAF];
const LEVELS: u32 = 20;

/// Which of a page's pointers names another.
#[derive(Clone, Copy)]
enum Pointer {
    Right,
    Child(usize),
    Chain(usize),
    Next,
    FreeLeaf(usize),
    NextTrunk,
    Freelist,
    Root(usize),
}

impl Pointer {
    fn words(self) -> String {
        match self {
            Pointer::Right => "its right child".into(),
            Pointer::Child(i) => format!("the child in cell {i}"),
            Pointer::Chain(i) => format!("the overflow chain of cell {i}"),
            Pointer::Next => "the next page of an overflow chain".into(),
            Pointer::FreeLeaf(i) => format!("entry {i} of a freelist trunk"),
            Pointer::NextTrunk => "the next freelist trunk".into(),
            Pointer::Freelist => "the first freelist trunk, at offset 32".into(),
            Pointer::Root(i) => format!("the root in the schema row of cell {i}"),
        }
    }
}

/// Where a walk ended.
pub struct Fault {
    pub rule: u32,
    pub page: u32,
    /// What is wrong there, a line each.
    pub lines: Vec<String>,
    /// The root of the tree that was walked, 0 where it was none.
    pub root: u32,
    /// It is a limit that was come to, which need not be damage.
    pub limit: bool,
}

type Walked = Result<(), Fault>;

/// A page's name: who gave it, and by which pointer.
#[derive(Clone, Copy)]
struct Named {
    kind: u8,
    holder: u32,
    pointer: Pointer,
}

struct Walk<'a> {
    pages: Pages<'a>,
    facts: Facts,
    named: BTreeMap<u32, Named>,
    roots: Vec<(u32, u32, usize)>,
    root: u32,
    /// The roots of indexes whose keys are to rise.
    ordered: &'a [u32],
}

#[derive(Default)]
struct Tree {
    row: Option<i64>,
    key: Option<i64>,
    leaf: Option<(u32, u32)>,
    /// The key before: its page, its cell and its bytes.
    before: Option<(u32, usize, Vec<u8>)>,
}

/// Walks an image whose header is in order, and tells where that ends; in the trees at these roots with the order of keys.
pub fn fault(pages: Pages, facts: Facts, ordered: &[u32]) -> Option<Fault> {
    let mut walk = Walk { pages, facts, named: BTreeMap::new(), roots: Vec::new(), root: 0, ordered };
    walk.whole().err()
}

impl<'a> Walk<'a> {
    fn fail<T>(&self, rule: u32, page: u32, lines: Vec<String>) -> Result<T, Fault> {
        Err(Fault { rule, page, lines, root: self.root, limit: false })
    }

    fn whole(&mut self) -> Walked {
        let count = self.pages.count;
        self.named.insert(1, Named { kind: 1, holder: 0, pointer: Pointer::Freelist });
        for map in self.maps() {
            self.named.insert(map, Named { kind: 7, holder: 0, pointer: Pointer::Freelist });
        }
        if self.facts.lock_page() <= count {
            self.named.insert(self.facts.lock_page(), Named { kind: 8, holder: 0, pointer: Pointer::Freelist });
        }
        self.root = 1;
        self.page(1, 1, TABLE, &mut Tree::default())?;
        self.root = 0;
        self.freelist()?;
        for (root, leaf, cell) in std::mem::take(&mut self.roots) {
            self.root = root;
            self.name(leaf, root, 1, Pointer::Root(cell))?;
            self.page(root, 1, ANY, &mut Tree::default())?;
        }
        self.root = 0;
        let unnamed: Vec<u32> = (1..=count).filter(|page| !self.named.contains_key(page)).collect();
        if let Some(&first) = unnamed.first() {
            return self.fail(30, first, self.unnamed(&unnamed));
        }
        self.map_entries()
    }

    fn unnamed(&self, pages: &[u32]) -> Vec<String> {
        let first: Vec<String> = pages.iter().take(10).map(u32::to_string).collect();
        let more = if pages.len() > 10 { " .." } else { "" };
        let looks = pages.first().and_then(|&page| self.pages.tree(page)).and_then(|page| type_name(page.kind));
        vec![
            format!(
                "{} never named: {}{more}",
                if pages.len() == 1 { "1 page is".into() } else { format!("{} pages are", thousands(pages.len() as u64)) },
                first.join(", ")
            ),
            looks.map_or("the first of them is no tree page by its type byte".into(), |looks| {
                format!("the first of them looks like a page of type {looks}")
            }),
        ]
    }

    fn maps(&self) -> Vec<u32> {
        self.facts.maps(self.pages.count)
    }

    fn map_entries(&self) -> Walked {
        const KINDS: [&str; 5] = ["root", "free page", "first overflow page", "later overflow page", "tree page"];
        let words = |kind: u8| match kind {
            1..=5 => format!("{kind} ({})", KINDS[usize::from(kind) - 1]),
            other => other.to_string(),
        };
        if self.facts.largest_root == 0 {
            return Ok(());
        }
        for map in self.maps() {
            let entries = self.pages.bytes(map).unwrap_or(&[]).chunks_exact(5);
            for (entry, page) in entries.zip(map + 1..=self.pages.count) {
                let Some(named) = self.named.get(&page) else { continue };
                let wanted = match named.kind {
                    1 => (1, 0),
                    2 | 3 => (2, 0),
                    4 => (3, named.holder),
                    5 => (4, named.holder),
                    6 => (5, named.holder),
                    _ => continue,
                };
                let found = (entry[0], four(entry, 1));
                if found != wanted {
                    let lines = vec![format!(
                        "pointer map page {map} says of page {page}: kind {}, number {}; by the pages themselves it is kind {}, number {}",
                        words(found.0),
                        found.1,
                        words(wanted.0),
                        wanted.1
                    )];
                    return self.fail(31, page, lines);
                }
            }
        }
        let largest = self.named.iter().rev().find(|(_, named)| named.kind == 1).map_or(1, |(&page, _)| page);
        if largest != self.facts.largest_root {
            return self.fail(32, 1, vec![format!("offset 52 says {}; the largest root is page {largest}", self.facts.largest_root)]);
        }
        Ok(())
    }

    fn name(&mut self, holder: u32, page: u32, kind: u8, pointer: Pointer) -> Walked {
        let count = self.pages.count;
        if page == 0 || page > count {
            let lines = vec![format!("page {holder} names page {page} ({}); the database has {}", pointer.words(), counted(count.into(), "page"))];
            return self.fail(20, holder, lines);
        }
        if let Some(before) = self.named.get(&page) {
            let earlier = match before.holder {
                0 if page == 1 => "page 1 is the schema's root, which nothing names".into(),
                0 if page == self.facts.lock_page() => format!("page {page} is the lock-byte page, which nothing may name"),
                0 => format!("page {page} is a pointer map, which nothing names"),
                by => format!("page {by} named it before ({}){}", before.pointer.words(), self.tree_of(by)),
            };
            let lines = vec![format!("page {holder} names page {page} ({})", pointer.words()), earlier];
            return self.fail(21, page, lines);
        }
        self.named.insert(page, Named { kind, holder, pointer });
        Ok(())
    }

    /// The tree that a page of a walk belongs to, as far as that was come to.
    fn tree_of(&self, mut page: u32) -> String {
        for _ in 0..=self.pages.count {
            match self.named.get(&page) {
                Some(named) if named.kind == 1 => return format!(", in the tree at page {page}"),
                Some(named) if named.holder != 0 => page = named.holder,
                _ => break,
            }
        }
        String::new()
    }

    fn page(&mut self, number: u32, level: u32, kinds: &[u8], tree: &mut Tree) -> Walked {
        if level > LEVELS {
            let lines = vec![format!("it would be level {level}; {LEVELS} are the most that is read")];
            return Err(Fault { rule: 24, page: number, lines, root: self.root, limit: true });
        }
        let Some(page) = self.pages.tree(number) else { return self.fail(20, number, Vec::new()) };
        self.told(number, page.test(kinds))?;
        if page.is_leaf() {
            let (first, at) = *tree.leaf.get_or_insert((number, level));
            if at != level {
                let lines = vec![format!("it is a leaf at level {level}; the tree's first leaf, page {first}, is at level {at}")];
                return self.fail(24, number, lines);
            }
        }
        let family = if page.kind == TABLE_INTERIOR { TABLE } else { INDEX };
        for i in 0..page.cells {
            let cell = page.cell(i);
            let cell = self.told(number, cell)?;
            if page.is_leaf() {
                self.leaf_cell(number, &page, i, &cell, tree)?;
                continue;
            }
            self.name(number, cell.child, 6, Pointer::Child(i))?;
            self.page(cell.child, level + 1, family, tree)?;
            if page.kind == TABLE_INTERIOR {
                self.key(number, i, cell.key, tree)?;
            } else {
                self.payload(number, &page, i, &cell)?;
                self.entry(number, &page, i, &cell, tree)?;
            }
        }
        if page.is_leaf() {
            return Ok(());
        }
        self.name(number, page.right, 6, Pointer::Right)?;
        self.page(page.right, level + 1, family, tree)
    }

    fn told<T>(&self, page: u32, found: Result<T, Broken>) -> Result<T, Fault> {
        found.map_err(|broken| Fault { rule: broken.rule, page, lines: vec![broken.how], root: self.root, limit: false })
    }

    fn key(&self, number: u32, i: usize, key: i64, tree: &mut Tree) -> Walked {
        let lines = match (tree.row, tree.key) {
            (Some(row), _) if key < row => format!("the key in cell {i} is {key}, below row {row} on its left"),
            (_, Some(before)) if key <= before => format!("the key in cell {i} is {key}, not above the key {before} before it"),
            _ => {
                tree.key = Some(key);
                return Ok(());
            }
        };
        self.fail(25, number, vec![lines])
    }

    fn leaf_cell(&mut self, number: u32, page: &TreePage<'a>, i: usize, cell: &Cell, tree: &mut Tree) -> Walked {
        if page.kind == TABLE_LEAF {
            let before = tree.row.max(tree.key);
            if let Some(before) = before.filter(|&before| cell.key <= before) {
                let what = if tree.row == Some(before) { "row" } else { "key" };
                return self.fail(25, number, vec![format!("cell {i} has row number {}, not above the {what} {before} before it", cell.key)]);
            }
            tree.row = Some(cell.key);
        }
        self.payload(number, page, i, cell)?;
        if page.kind == INDEX_LEAF {
            self.entry(number, page, i, cell, tree)?;
        }
        if self.root == 1 {
            self.schema_row(number, page, i, cell)?;
        }
        Ok(())
    }

    fn payload(&mut self, number: u32, page: &TreePage<'a>, i: usize, cell: &Cell) -> Walked {
        self.chain(number, i, cell)?;
        match Record::new(&payload(&self.pages, page, cell)) {
            Some(_) => Ok(()),
            None => self.fail(28, number, vec![format!("the {} of cell {i} do not read as a record", counted(cell.payload as u64, "byte"))]),
        }
    }

    /// A key is more than the one before it, where the tree is one of those named.
    fn entry(&self, number: u32, page: &TreePage<'a>, i: usize, cell: &Cell, tree: &mut Tree) -> Walked {
        if !self.ordered.contains(&self.root) {
            return Ok(());
        }
        let bytes = payload(&self.pages, page, cell);
        if let (Some((on, at, before)), Some(key)) = (&tree.before, Record::new(&bytes)) {
            let lesser = Record::new(before).map_or(Ordering::Less, |before| before.order(&key));
            if lesser != Ordering::Less {
                let than = if lesser == Ordering::Equal { "the same as" } else { "less than" };
                let encoding = Encoding::of(self.pages.image);
                let lines = vec![
                    format!("the key in cell {i} is {than} the key before it, which stands in cell {at} of page {on}"),
                    format!("cell {at} of page {on}: {}", show::key(before, encoding)),
                    format!("cell {i} of page {number}: {}", show::key(&bytes, encoding)),
                ];
                return self.fail(33, number, lines);
            }
        }
        tree.before = Some((number, i, bytes));
        Ok(())
    }

    fn chain(&mut self, page: u32, i: usize, cell: &Cell) -> Walked {
        let rest = cell.payload - cell.local;
        let whole = rest.div_ceil(self.pages.usable - 4);
        let (mut holder, mut next) = (page, cell.overflow);
        for met in 0..whole {
            if next == 0 {
                let lines = vec![format!(
                    "the payload of cell {i} on page {page} needs {} of overflow; after {met} there is no next",
                    counted(whole as u64, "page")
                )];
                return self.fail(27, holder, lines);
            }
            let (kind, pointer) = if met == 0 { (4, Pointer::Chain(i)) } else { (5, Pointer::Next) };
            self.name(holder, next, kind, pointer)?;
            holder = next;
            next = self.pages.bytes(holder).map_or(0, |bytes| four(bytes, 0));
        }
        if whole > 0 && next != 0 {
            let lines =
                vec![format!("the payload of cell {i} on page {page} ends there, its overflow page {whole}, but a next page is named: {next}")];
            return self.fail(27, holder, lines);
        }
        Ok(())
    }

    fn schema_row(&mut self, leaf: u32, page: &TreePage<'a>, i: usize, cell: &Cell) -> Walked {
        let payload = payload(&self.pages, page, cell);
        let how = match Record::new(&payload) {
            None => "does not read as a record".into(),
            Some(record) if record.columns() != 5 => format!("is a record of {}; it must have 5", counted(record.columns(), "column")),
            Some(record) => match record.column(4) {
                Some(Value::Null | Value::Integer(0)) => return Ok(()),
                Some(Value::Integer(root)) if root >= 2 && root <= i64::from(self.pages.count) => {
                    self.roots.push((root as u32, leaf, i));
                    return Ok(());
                }
                Some(Value::Integer(root)) => format!("has {root} as its root; it must be 0 or a page from 2 to {}", self.pages.count),
                _ => "has a root that is no whole number".into(),
            },
        };
        self.fail(28, leaf, vec![format!("the schema row in cell {i} {how}")])
    }

    fn freelist(&mut self) -> Walked {
        let (mut total, mut holder, mut next, mut pointer) = (0u64, 1, self.facts.free_head, Pointer::Freelist);
        while next != 0 {
            self.name(holder, next, 2, pointer)?;
            holder = next;
            let trunk = self.pages.bytes(holder).unwrap_or(&[]);
            let (count, room) = (four(trunk, 4) as usize, self.pages.usable / 4 - 2);
            if count > room {
                return self.fail(
                    29,
                    holder,
                    vec![format!("the freelist trunk counts {} free pages; it has room for {room}", thousands(count as u64))],
                );
            }
            for i in 0..count {
                self.name(holder, four(trunk, 8 + 4 * i), 3, Pointer::FreeLeaf(i))?;
            }
            total += 1 + count as u64;
            next = four(trunk, 0);
            pointer = Pointer::NextTrunk;
        }
        if total != u64::from(self.facts.free_total) {
            let lines = vec![format!("offset 36 says {}; the freelist has {total}", counted(self.facts.free_total.into(), "free page"))];
            return self.fail(29, 1, lines);
        }
        Ok(())
    }
}

/// A cell's payload through its chain, as far as that goes.
pub fn payload(pages: &Pages, page: &TreePage, cell: &Cell) -> Vec<u8> {
    let mut payload = page.bytes.get(cell.local_at..cell.local_at + cell.local).unwrap_or(&[]).to_vec();
    let mut next = cell.overflow;
    while payload.len() < cell.payload {
        let Some(bytes) = pages.bytes(next) else { break };
        let part = (cell.payload - payload.len()).min(bytes.len() - 4);
        payload.extend_from_slice(&bytes[4..4 + part]);
        next = four(bytes, 0);
    }
    payload
}
