//! The verdict, held against the sqlite3 program's own account of every page.

use std::collections::HashMap;

use crate::corpus::Database;
use crate::reader::Reader;
use crate::sqlite;

const ROOT: u8 = 1;
const TRUNK: u8 = 2;
const FREE_LEAF: u8 = 3;
const FIRST_OVERFLOW: u8 = 4;
const LATER_OVERFLOW: u8 = 5;
const TREE: u8 = 6;
const POINTER_MAP: u8 = 7;
const LOCK_BYTE: u8 = 8;

/// What the sqlite3 program says of a database.
pub struct Account {
    pub pages: usize,
    pub free: usize,
    /// Whether it keeps pointer maps.
    pub vacuums: bool,
    /// The kind and the namer of each page that is in a tree; 0 where it is in none.
    pub kinds: Vec<u8>,
    pub namers: Vec<u32>,
}

struct Stat {
    table: String,
    path: String,
    page: u32,
    overflow: bool,
    cells: usize,
}

/// Asks for integrity, counts and dbstat.
pub fn account(database: &Database) -> Account {
    let printed = sqlite::run(
        &database.path,
        "PRAGMA integrity_check; PRAGMA page_count; PRAGMA freelist_count; PRAGMA auto_vacuum;
         SELECT name||'|'||path||'|'||pageno||'|'||pagetype||'|'||ncell FROM dbstat ORDER BY name, path;
         SELECT 'schema|'||rootpage FROM sqlite_schema ORDER BY rowid;",
    );
    let mut lines = printed.lines();
    assert_eq!(lines.next(), Some("ok"), "{}: integrity_check", database.name);
    let mut number = || lines.next().and_then(|line| line.parse::<usize>().ok()).expect("a count");
    let (pages, free, vacuums) = (number(), number(), number() != 0);
    let mut stats = Vec::new();
    let mut roots = Vec::new();
    for line in lines {
        let fields: Vec<&str> = line.split('|').collect();
        match fields[..] {
            ["schema", root] => roots.push(root.parse().unwrap_or(0)),
            [table, path, page, kind, cells] => stats.push(Stat {
                table: table.to_owned(),
                path: path.to_owned(),
                page: page.parse().expect("a page"),
                overflow: kind == "overflow",
                cells: cells.parse().expect("a cell count"),
            }),
            _ => panic!("{}: {line}", database.name),
        }
    }
    let mut account = Account { pages, free, vacuums, kinds: vec![0; pages], namers: vec![0; pages] };
    account.trees(&stats);
    account.roots(&stats, &roots);
    account
}

impl Account {
    /// Kinds and namers within the trees, by dbstat's paths: `/` is a root, `/1c2/000/` the child in cell 0 of page `/1c2/`, and
    /// `/1c2/000+000003` the fourth page of that cell's chain.
    fn trees(&mut self, stats: &[Stat]) {
        let pages: HashMap<(&str, &str), u32> = stats.iter().map(|s| ((s.table.as_str(), s.path.as_str()), s.page)).collect();
        for stat in stats {
            let table = stat.table.as_str();
            let (kind, namer) = if stat.overflow {
                let (cell, place) = stat.path.rsplit_once('+').expect("an overflow path");
                match usize::from_str_radix(place, 16).expect("a place in a chain") {
                    0 => (FIRST_OVERFLOW, pages[&(table, &cell[..=cell.rfind('/').expect("a page")])]),
                    place => (LATER_OVERFLOW, pages[&(table, format!("{cell}+{:06x}", place - 1).as_str())]),
                }
            } else if stat.path == "/" {
                (ROOT, 0)
            } else {
                let parent = stat.path[..stat.path.len() - 1].rfind('/').expect("a parent");
                (TREE, pages[&(table, &stat.path[..=parent])])
            };
            let entry = stat.page as usize - 1;
            assert_eq!(self.kinds[entry], 0, "dbstat has page {} once", stat.page);
            (self.kinds[entry], self.namers[entry]) = (kind, namer);
        }
    }

    /// A root's namer is the schema's leaf with its row: rows are dealt to the leaves by dbstat's cell counts.
    fn roots(&mut self, stats: &[Stat], roots: &[u32]) {
        let schema = |s: &&Stat| (s.table == "sqlite_schema" || s.table == "sqlite_master") && !s.overflow;
        let is_leaf = |leaf: &&Stat| !stats.iter().filter(schema).any(|s| s.path.len() > leaf.path.len() && s.path.starts_with(&leaf.path));
        let mut leaves = stats.iter().filter(schema).filter(is_leaf).flat_map(|leaf| std::iter::repeat_n(leaf.page, leaf.cells));
        for &root in roots {
            let leaf = leaves.next().expect("a leaf for each schema row");
            if root != 0 {
                assert_eq!(self.kinds[root as usize - 1], ROOT, "page {root} is a root");
                self.namers[root as usize - 1] = leaf;
            }
        }
        assert_eq!(leaves.next(), None, "as many schema rows as cells");
    }
}

/// The ledgers written as they are sent, and the checker's yes to them; its no to each of them changed at the end.
fn sent(reader: &dyn Reader, name: &str, image: &[u8], (kinds, namers, steps): (&[u8], &[u32], &[u32])) {
    let mut proposal = vec![0; 5 + 9 * kinds.len()];
    let written = reader.ledger_write(kinds.len() as u32, kinds, namers, steps, &mut proposal);
    assert_eq!((written.refusal, written.length as usize), (0, proposal.len()), "{name}: the ledgers are written");
    let ask = |proposal: &[u8]| reader.ledger_check(image, proposal, &mut kinds.to_vec(), &mut namers.to_vec(), &mut steps.to_vec());
    assert_eq!(ask(&proposal).yes, 1, "{name}: the checker says yes to its own ledger");
    let last = proposal.len() - 1;
    proposal[last] ^= 1;
    let answer = ask(&proposal);
    assert_eq!((answer.yes, answer.refusal, answer.page as usize), (0, 0, kinds.len()), "{name}: another step for the last page");
}

/// Holds the verdict against the account; answers kinds and namers.
pub fn verdict(reader: &dyn Reader, database: &Database, image: &[u8], account: &Account) -> (Vec<u8>, Vec<u32>) {
    let name = &database.name;
    let mut kinds = vec![0xaa; account.pages];
    let mut namers = vec![0xaaaa_aaaa; account.pages];
    let mut steps = vec![0xaaaa_aaaa; account.pages];
    let verdict = reader.check(image, &mut kinds, &mut namers, &mut steps);
    assert_eq!((verdict.refusal, verdict.page, verdict.pages as usize), (0, 0, account.pages), "{name}: the verdict");
    assert_eq!(verdict.long_spellings, 0, "{name}: sqlite3 spells every number as short as can be");
    // dbstat has neither free pages nor the lock-byte page nor pointer maps. Page 2 is the first map; the next is behind the pages that its entries of five bytes are about, or
    // one page further where that is the lock-byte page.
    let page_size = match u16::from_be_bytes([image[16], image[17]]) {
        1 => 65536,
        size => usize::from(size),
    };
    let between = (page_size - usize::from(image[20])) / 5 + 1;
    let lock = (1 << 30) / page_size + 1;
    let place = |page: usize| page >= 2 && (page - 2) % between == 0;
    let is_map = |page: usize| account.vacuums && if page == lock + 1 && place(lock) { true } else { page != lock && place(page) };
    for page in 1..=account.pages {
        let entry = page - 1;
        match account.kinds[entry] {
            0 if page == lock => assert_eq!((kinds[entry], namers[entry]), (LOCK_BYTE, 0), "{name}: page {page} is the lock-byte page"),
            0 if is_map(page) => assert_eq!((kinds[entry], namers[entry]), (POINTER_MAP, 0), "{name}: page {page} is a pointer map"),
            0 => assert!(matches!(kinds[entry], TRUNK | FREE_LEAF), "{name}: page {page} is free, kind {}", kinds[entry]),
            kind => {
                assert_eq!(kinds[entry], kind, "{name}: kind of page {page}");
                assert_eq!(namers[entry], account.namers[entry], "{name}: namer of page {page}");
            }
        }
    }
    let free = kinds.iter().filter(|kind| matches!(**kind, TRUNK | FREE_LEAF)).count();
    assert_eq!(free, account.free, "{name}: free pages");
    // A page's step is one more than its namer's, 0 where it has none.
    for page in 1..=account.pages {
        let step = match namers[page - 1] {
            0 => 0,
            namer => steps[namer as usize - 1] + 1,
        };
        assert_eq!(steps[page - 1], step, "{name}: step of page {page}");
    }
    sent(reader, name, image, (&kinds, &namers, &steps));
    (kinds, namers)
}
