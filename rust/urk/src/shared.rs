//! Pages that stand in the trees of two tables: what is read from them may be either table's.

use std::collections::{BTreeMap, BTreeSet, HashSet};

use crate::json::{self, Object};
use crate::page::{Pages, TreePage, INDEX_INTERIOR, INDEX_LEAF, TABLE_INTERIOR, TABLE_LEAF};
use crate::schema::{Entry, Schema};

/// Pages that are looked at, over all trees. Those of a whole file have no more than the file; in a damaged one each tree may have every page.
const MOST_LOOKED_AT: usize = 10_000_000;
/// So many are listed.
const MOST_LISTED: usize = 12;

/// Pages that rows were taken from, by the trees that have them: two or more.
pub struct Shared(BTreeMap<Vec<String>, BTreeSet<u32>>);

impl Shared {
    pub fn none() -> Shared {
        Shared(BTreeMap::new())
    }

    /// Of cells that rows were taken from, each by its page and its number.
    pub fn of(pages: &Pages, schema: &Schema, cells: &[(u32, u32)]) -> Shared {
        if cells.is_empty() {
            return Shared::none();
        }
        let mut asked: BTreeSet<u32> = cells.iter().map(|&(page, _)| page).collect();
        for &(page, cell) in cells {
            if let Some(tree) = pages.tree(page) {
                chain(pages, &tree, cell as usize, |page| asked.insert(page));
            }
        }
        let mut trees: BTreeMap<u32, Vec<String>> = BTreeMap::new();
        let (mut left, mut done) = (MOST_LOOKED_AT, HashSet::new());
        for entry in schema.0.iter().filter(|entry| entry.root != 0) {
            let words = format!("{} at page {}", entry.words(), entry.root);
            if !done.insert(words.clone()) {
                continue;
            }
            for page in tree_pages(pages, entry, &mut left).intersection(&asked) {
                trees.entry(*page).or_default().push(words.clone());
            }
        }
        let mut shared: BTreeMap<Vec<String>, BTreeSet<u32>> = BTreeMap::new();
        for (page, trees) in trees.into_iter().filter(|(_, trees)| trees.len() > 1) {
            shared.entry(trees).or_default().insert(page);
        }
        Shared(shared)
    }

    pub fn is_none(&self) -> bool {
        self.0.is_empty()
    }

    /// `page 8 is in the trees of table 'a' at page 2 and table 'b' at page 7`, for each set of trees.
    pub fn lines(&self) -> Vec<String> {
        let line = |(trees, pages): (&Vec<String>, &BTreeSet<u32>)| {
            let listed: Vec<String> = pages.iter().take(MOST_LISTED).map(u32::to_string).collect();
            let more = pages.len().saturating_sub(MOST_LISTED);
            let more = if more > 0 { format!(" and {more} more") } else { String::new() };
            let are = if pages.len() == 1 { "page {} is" } else { "pages {} are" }.replace("{}", &(listed.join(", ") + &more));
            format!("{are} in the trees of {}", trees.join(" and "))
        };
        self.0.iter().map(line).collect()
    }

    pub fn json(&self) -> String {
        json::array(self.0.iter().map(|(trees, pages)| {
            let trees = json::array(trees.iter().map(|tree| json::text(tree)));
            Object::new().field("trees", trees).field("pages", json::array(pages.iter().map(u32::to_string))).end()
        }))
    }
}

/// All pages of a tree that an entry of the schema names, and of its chains, as type bytes and pointers alone say.
fn tree_pages(pages: &Pages, entry: &Entry, left: &mut usize) -> BTreeSet<u32> {
    let kinds: &[u8] = match entry.kind.as_str() {
        "index" => &[INDEX_INTERIOR, INDEX_LEAF],
        _ => &[TABLE_INTERIOR, TABLE_LEAF, INDEX_INTERIOR, INDEX_LEAF],
    };
    let (mut entered, mut chained, mut next) = (BTreeSet::new(), BTreeSet::new(), vec![entry.root]);
    while let (Some(page), true) = (next.pop(), *left > 0) {
        let Some(tree) = pages.tree(page).filter(|tree| kinds.contains(&tree.kind)) else { continue };
        if !entered.insert(page) {
            continue;
        }
        *left -= 1;
        for i in 0..tree.cells.min(pages.page_size / 2) {
            if let (Ok(cell), false) = (tree.cell(i), tree.is_leaf()) {
                next.push(cell.child);
            }
            chain(pages, &tree, i, |page| {
                *left = left.saturating_sub(1);
                *left > 0 && chained.insert(page)
            });
        }
        if !tree.is_leaf() {
            next.push(tree.right);
        }
    }
    entered.append(&mut chained);
    entered
}

/// The pages of a cell's chain, as many as its payload needs; it ends before that where there is no such page, or where it is to go no further.
fn chain(pages: &Pages, tree: &TreePage, cell: usize, mut further: impl FnMut(u32) -> bool) {
    let Ok(cell) = tree.cell(cell) else { return };
    let (mut rest, mut page) = (cell.payload.saturating_sub(cell.local), cell.overflow);
    while rest > 0 {
        let Some(bytes) = pages.bytes(page) else { return };
        if !further(page) {
            return;
        }
        rest = rest.saturating_sub(bytes.len() - 4);
        page = crate::header::four(bytes, 0);
    }
}
