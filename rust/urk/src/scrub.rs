//! `urk scrub`: a copy with zeroes on free leaf pages, in reserved ends of pages and in gaps, where no answer depends on what they hold.

use urkibasko::{Cell, Database, Kind, Unread};

use crate::database;
use crate::files;
use crate::header::{counted, four, thousands, two, Facts};
use crate::json::Object;
use crate::page::{Pages, TABLE_INTERIOR};
use crate::refused::{self, Asked};
use crate::words::Words;
use crate::{out, Done, Stop};

/// Places of one sort: how many, their bytes, and how many of these held something.
#[derive(Clone, Copy, Default)]
struct Places {
    places: u64,
    bytes: u64,
    held: u64,
}

impl Places {
    fn add(&mut self, bytes: &[u8]) {
        self.places += 1;
        self.bytes += bytes.len() as u64;
        self.held += bytes.iter().filter(|&&byte| byte != 0).count() as u64;
    }

    fn line(self, name: &str, hold: &str) -> String {
        format!("{name:<20} {} of {} {hold} something\n", thousands(self.held), counted(self.bytes, "byte"))
    }

    fn json(self) -> String {
        Object::new().field("places", self.places).field("bytes", self.bytes).field("held", self.held).end()
    }
}

pub fn run(words: &Words) -> Done {
    let Some(out_path) = words.value_path("--out") else { return Err(words.off("--out OUT is missing".into())) };
    let input = database::open_whole(words)?;
    if (input.image.len() as u64) < input.length {
        return Err(words.said(format!("{}: not supported: it is too long to be copied here", input.name), 3));
    }
    let stop = |refusal| refused::stop(&input, refusal, Asked::Whole, words.json());
    let database = Database::new(&input.image).map_err(stop)?;
    let mut clean = Vec::new();
    if clean.try_reserve_exact(input.image.len()).is_err() {
        return Err(Stop::File(format!("{}: there is not enough memory for it", input.name)));
    }
    clean.extend_from_slice(&input.image);
    let (mut free, mut tails, mut gaps) = (Places::default(), Places::default(), Places::default());
    for (unread, range) in database.unread() {
        let places = match unread {
            Unread::FreePage => &mut free,
            Unread::Tail => &mut tails,
            Unread::Gap => &mut gaps,
        };
        places.add(&clean[range.clone()]);
        clean[range].fill(0);
    }
    let Some(facts) = input.facts() else { return Err(Stop::File(format!("{} changed", input.name))) };
    // That these are the same is proved; a file that is to be trusted is compared all the same.
    let Some(cells) = Database::new(&clean).ok().and_then(|scrubbed| compared(&database, &scrubbed, facts)) else {
        return Err(Stop::File(format!("{}: its answers would not be the same: nothing is written, and urk is wrong", input.name)));
    };
    let left = left(&database, facts);
    files::write(files::create(out_path, &input.paths())?, out_path, &clean)?;
    let name = out_path.display().to_string();
    if words.json() {
        let object = Object::new()
            .text("out", &name)
            .text("file", &input.name)
            .field("length", clean.len())
            .field("pages", database.ledger().pages())
            .field("payloads_compared", cells)
            .field("free_leaf_pages", free.json())
            .field("tails", tails.json())
            .field("gaps", gaps.json());
        let left = left.iter().fold(Object::new(), |object, (name, places)| object.field(&name.replace([' ', '-'], "_"), places.json()));
        return out::print(&(object.field("left", left.end()).end() + "\n"));
    }
    let mut text = format!(
        "{name}: {}, {} scrubbed; its verdict, ledger and {} are the same\n",
        counted(clean.len() as u64, "byte"),
        input.name,
        counted(cells, "payload")
    );
    text += &(free.line("free leaf pages", "held") + &tails.line("reserved ends", "held") + &gaps.line("gaps", "held"));
    for (name, places) in left.iter().filter(|(_, places)| places.held > 0) {
        text += &places.line(&format!("left: {name}"), "hold");
    }
    out::print(&text)
}

/// Compares the ledgers, the rows under every root and the payload of every cell of two databases: how many payloads there are, or none where anything differs.
fn compared(one: &Database, two: &Database, facts: Facts) -> Option<u64> {
    if one.ledger() != two.ledger() {
        return None;
    }
    let pages = pages(one, facts);
    let (mut room, mut other) = (vec![0; urkibasko::MAX_PAYLOAD], vec![0; urkibasko::MAX_PAYLOAD]);
    let mut payloads = 0;
    for page in 1..=one.ledger().pages() {
        let kind = one.ledger().kind(page);
        if kind == Some(Kind::Root) && !one.rows(page).eq(two.rows(page)) {
            return None;
        }
        let Some(tree) = pages.tree(page).filter(|tree| matches!(kind, Some(Kind::Root | Kind::Tree)) && tree.kind != TABLE_INTERIOR) else {
            continue;
        };
        for cell in 0..tree.cells as u32 {
            let cell = Cell { page, cell, length: 0 };
            if one.payload(cell, &mut room).ok()? != two.payload(cell, &mut other).ok()? {
                return None;
            }
            payloads += 1;
        }
    }
    Some(payloads)
}

fn pages<'a>(database: &Database<'a>, facts: Facts) -> Pages<'a> {
    Pages { image: database.image(), page_size: facts.page_size, usable: facts.usable(), count: database.ledger().pages() }
}

/// What stays, though it may hold what was deleted: freeblocks, but for the four bytes that each begins with, and fragments; what follows the leaf numbers of a trunk, and the
/// payload's end on the last page of a chain; the lock-byte page; pages past those that count.
fn left(database: &Database, facts: Facts) -> [(&'static str, Places); 5] {
    let (image, ledger, pages) = (database.image(), database.ledger(), pages(database, facts));
    let (mut among, mut trunks, mut chains, mut lock, mut past) = Default::default();
    for page in 1..=ledger.pages() {
        let Some(bytes) = pages.bytes(page) else { continue };
        match ledger.kind(page) {
            Some(Kind::Root | Kind::Tree) => on_tree_page(&pages, page, &mut among, &mut chains),
            Some(Kind::Trunk) => Places::add(&mut trunks, &bytes[8 + 4 * four(bytes, 4) as usize..]),
            Some(Kind::LockByte) => Places::add(&mut lock, bytes),
            _ => {}
        }
    }
    let counted = ledger.pages() as usize * facts.page_size;
    if counted < image.len() {
        Places::add(&mut past, &image[counted..]);
    }
    [("freeblocks", among), ("trunk ends", trunks), ("chain ends", chains), ("lock-byte page", lock), ("uncounted", past)]
}

fn on_tree_page(pages: &Pages, page: u32, among: &mut Places, chains: &mut Places) {
    let Some(tree) = pages.tree(page) else { return };
    let mut spare = vec![true; tree.bytes.len()];
    for cell in (0..tree.cells).filter_map(|i| tree.cell(i).ok()) {
        spare[cell.start..cell.end].fill(false);
        let (mut rest, mut next) = (cell.payload - cell.local, cell.overflow);
        while rest > 0 {
            let Some(bytes) = pages.bytes(next) else { break };
            let here = rest.min(bytes.len() - 4);
            if here == rest && 4 + here < bytes.len() {
                chains.add(&bytes[4 + here..]);
            }
            (rest, next) = (rest - here, four(bytes, 0));
        }
    }
    let mut block = tree.freeblock;
    while block != 0 {
        spare[block..block + 4].fill(false);
        block = two(tree.bytes, block);
    }
    let bytes: Vec<u8> = (tree.content..tree.bytes.len()).filter(|&at| spare[at]).map(|at| tree.bytes[at]).collect();
    if !bytes.is_empty() {
        among.add(&bytes);
    }
}
