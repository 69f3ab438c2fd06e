//! The rows of a table tree one after the other, by a path that is handed back after each step.

use crate::header::{header, Header};
use crate::page::{tree_page, Marks, TreePage, TABLE_INTERIOR, TABLE_LEAF};
use crate::{Refusal, MAX_LEVELS};

/// Pages from the first down to a leaf, each with an index: of the child (the cell count for the right child), on the leaf of the cell. The end has none.
pub type Path = Vec<(u32, u32)>;

/// A leaf cell, and the path down to it.
#[derive(Clone, Debug, PartialEq, Eq)]
pub struct Row {
    pub page: u32,
    pub cell: usize,
    pub payload: usize,
    pub number: i64,
    pub path: Path,
}

/// Why there is no row.
#[derive(Clone, Copy, Debug, PartialEq, Eq)]
pub enum Stop {
    Refused(Refusal),
    /// More pages would be entered than the caller allows.
    Bound,
}

impl From<Refusal> for Stop {
    fn from(refusal: Refusal) -> Stop {
        Stop::Refused(refusal)
    }
}

/// The row, or none at the end.
pub type Answer = Result<Option<Row>, Stop>;

/// A page on the way, and the index of the child or cell that comes next.
struct Level<'a> {
    number: u32,
    page: TreePage<'a>,
    index: usize,
}

impl Level<'_> {
    /// The child at the index; the last is the right child.
    fn child(&self) -> Option<u32> {
        match self.index {
            i if i < self.page.cells => Some(self.page.cell(i).child),
            i if i == self.page.cells => Some(self.page.right),
            _ => None,
        }
    }
}

struct Walk<'a> {
    image: &'a [u8],
    header: Header,
    marks: Marks,
    /// How many more pages may be entered.
    left: u64,
    levels: Vec<Level<'a>>,
}

impl<'a> Walk<'a> {
    fn new(image: &'a [u8], most: u64) -> Result<Walk<'a>, Stop> {
        let header = header(image).map_err(Refusal::general)?;
        Ok(Walk { image, header, marks: Marks::default(), left: most, levels: Vec::new() })
    }

    fn in_range(&self, page: u32) -> bool {
        page >= 1 && page as usize <= self.header.pages
    }

    /// Tests a page and goes down to it: 24, then 22, 23 and 26.
    fn enter(&mut self, number: u32) -> Result<(), Stop> {
        if self.levels.len() == MAX_LEVELS as usize {
            return Err(Refusal::new(24, number).into());
        }
        self.left = self.left.checked_sub(1).ok_or(Stop::Bound)?;
        let page = tree_page(self.image, &self.header, number, &[TABLE_INTERIOR, TABLE_LEAF], &mut self.marks)?;
        self.levels.push(Level { number, page, index: 0 });
        Ok(())
    }

    /// Goes down to a child of the last page.
    fn enter_child(&mut self, holder: u32, child: u32) -> Result<(), Stop> {
        if !self.in_range(child) {
            return Err(Refusal::new(20, holder).into());
        }
        self.enter(child)
    }

    fn enter_root(&mut self, root: u32) -> Result<(), Stop> {
        if !self.in_range(root) {
            return Err(Refusal::general(20).into());
        }
        self.enter(root)
    }

    /// From where the walk stands on, left to right: the first row whose number is not below `least`.
    fn forward(&mut self, least: i64) -> Answer {
        while let Some(level) = self.levels.last_mut() {
            if level.page.is_leaf() {
                while level.index < level.page.cells {
                    let cell = level.page.cell(level.index);
                    if cell.key >= least {
                        let (page, index) = (level.number, level.index);
                        let path = self.levels.iter().map(|level| (level.number, level.index as u32)).collect();
                        return Ok(Some(Row { page, cell: index, payload: cell.payload, number: cell.key, path }));
                    }
                    level.index += 1;
                }
            } else if let Some(child) = level.child() {
                let holder = level.number;
                self.enter_child(holder, child)?;
                continue;
            }
            self.levels.pop();
            if let Some(above) = self.levels.last_mut() {
                above.index += 1;
            }
        }
        Ok(None)
    }

    /// Whether a stored path stands: each page passes its tests, leads to the next at its index, and the last is a leaf with that cell.
    fn follow(&mut self, path: &[(u32, u32)]) -> bool {
        for (depth, &(number, index)) in path.iter().enumerate() {
            if !self.in_range(number) || self.enter(number).is_err() {
                return false;
            }
            let level = self.levels.last_mut().expect("it was entered");
            level.index = index as usize;
            let stands = match path.get(depth + 1) {
                Some(&(next, _)) => !level.page.is_leaf() && level.child() == Some(next),
                None => level.page.is_leaf() && level.index < level.page.cells,
            };
            if !stands {
                return false;
            }
        }
        true
    }
}

/// The first row under `root`. `most` is how many pages may be entered.
pub fn first(image: &[u8], root: u32, most: u64) -> Answer {
    let mut walk = Walk::new(image, most)?;
    walk.enter_root(root)?;
    walk.forward(i64::MIN)
}

/// The first row whose number is not below `row`: down as lookup goes, then from left to right.
pub fn seek(image: &[u8], root: u32, row: i64, most: u64) -> Answer {
    let mut walk = Walk::new(image, most)?;
    walk.enter_root(root)?;
    while let Some(level) = walk.levels.last_mut().filter(|level| !level.page.is_leaf()) {
        level.index = (0..level.page.cells).find(|&i| level.page.cell(i).key >= row).unwrap_or(level.page.cells);
        let (holder, child) = (level.number, level.child().expect("a child"));
        walk.enter_child(holder, child)?;
    }
    walk.forward(row)
}

/// The row after the one at the end of a path. The pages of the path are not counted.
pub fn step(image: &[u8], path: &[(u32, u32)], most: u64) -> Answer {
    let mut walk = Walk::new(image, u64::MAX)?;
    if path.is_empty() {
        return Ok(None);
    }
    if !walk.follow(path) {
        return Err(Refusal::general(49).into());
    }
    walk.left = most;
    walk.levels.last_mut().expect("a leaf").index += 1;
    walk.forward(i64::MIN)
}

/// A cursor is so many 32-bit words in C: the number of levels, then a page and an index for each.
pub const WORDS: usize = 1 + 2 * MAX_LEVELS as usize;

/// The path that words hold; one that is too long is cut after a level too many.
pub fn path_in(words: &[u32]) -> Path {
    let levels = (words[0]).min(MAX_LEVELS + 1) as usize;
    (0..levels).map(|k| words.get(2 * k + 1..2 * k + 3).map_or((0, 0), |pair| (pair[0], pair[1]))).collect()
}

/// The words of a path.
pub fn words_of(path: &[(u32, u32)]) -> [u32; WORDS] {
    let mut words = [0; WORDS];
    words[0] = path.len() as u32;
    for (k, &(page, index)) in path.iter().enumerate() {
        words[2 * k + 1] = page;
        words[2 * k + 2] = index;
    }
    words
}
