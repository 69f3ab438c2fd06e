//! Images past 1 GiB: the lock-byte page in the verdict, pointer maps around it, and the most pages. They are mapped; only their headers, freelist trunks and pointer maps are ever written.

use world::reader::{Plain, Reader};

use crate::guard::Mapped;
use crate::hold::{pattern, same, same_bytes, Held, Ledgers};
use crate::proved::Proved;
use crate::Met;

const MOST: u32 = 2_200_000;
/// Offices in the ledger; a trunk, 2, counts as free here.
const FREE: u8 = 3;
const POINTER_MAP: u8 = 7;
const LOCK_BYTE: u8 = 8;

/// A database whose pages are all free, but for page 1, an empty schema, and the pages that have their office by their place.
#[derive(Clone, Copy)]
pub struct Shape {
    size: usize,
    reserved: usize,
    pages: u32,
    vacuum: bool,
}

impl Shape {
    pub const fn new(size: usize, pages: u32) -> Shape {
        Shape { size, reserved: 0, pages, vacuum: false }
    }

    pub const fn vacuum(size: usize, reserved: usize, pages: u32) -> Shape {
        Shape { size, reserved, pages, vacuum: true }
    }

    fn usable(self) -> usize {
        self.size - self.reserved
    }

    fn lock(self) -> u32 {
        (1 << 30) / self.size as u32 + 1
    }

    /// The pointer maps, some of them perhaps past the last page.
    fn maps(self) -> Vec<u32> {
        let step = self.usable() as u32 / 5 + 1;
        let last = if self.vacuum { self.pages } else { 1 };
        (2..=last).step_by(step as usize).map(|map| map + u32::from(map == self.lock())).collect()
    }

    /// The pages that the freelist has to name.
    pub fn free(self) -> Vec<u32> {
        let maps = self.maps();
        (2..=self.pages).filter(|page| *page != self.lock() && maps.binary_search(page).is_err()).collect()
    }

    /// The image, with a freelist that names these pages in this order.
    pub fn naming(self, names: &[u32]) -> Image {
        let mut image = Image { mapped: Mapped::new(self.pages as usize * self.size), shape: self };
        image.put(1, 0, b"SQLite format 3\0");
        image.put(1, 16, &(self.size as u16).max(1).to_be_bytes());
        image.put(1, 18, &[1, 1, self.reserved as u8, 64, 32, 32]);
        for (at, number) in [(24, 1), (28, self.pages), (36, names.len() as u32), (44, 4), (52, u32::from(self.vacuum)), (56, 1), (92, 1)] {
            image.put(1, at, &number.to_be_bytes());
        }
        image.put(1, 100, &[13, 0, 0, 0, 0]);
        image.put(1, 105, &(self.usable() as u16).to_be_bytes());
        let mut before = (1, 32);
        for trunk in names.chunks(self.usable() / 4 - 1) {
            image.put(before.0, before.1, &trunk[0].to_be_bytes());
            before = (trunk[0], 0);
            image.put(trunk[0], 4, &(trunk.len() as u32 - 1).to_be_bytes());
            for (i, leaf) in trunk[1..].iter().enumerate() {
                image.put(trunk[0], 8 + 4 * i, &leaf.to_be_bytes());
            }
        }
        let maps = self.maps();
        for (i, &map) in maps.iter().enumerate() {
            let end = maps.get(i + 1).copied().unwrap_or(self.pages + 1);
            for page in map + 1..end {
                image.put(map, 5 * (page - map - 1) as usize, &[2]);
            }
        }
        image
    }

    pub fn good(self) -> Image {
        self.naming(&self.free())
    }

    /// The same, and these named at the end.
    fn and_naming(self, more: &[u32]) -> Image {
        self.naming(&[&self.free(), more].concat())
    }

    fn but_for(self, left_out: u32) -> Image {
        let names: Vec<u32> = self.free().into_iter().filter(|&page| page != left_out).collect();
        self.naming(&names)
    }
}

pub struct Image {
    pub mapped: Mapped,
    shape: Shape,
}

impl Image {
    fn put(&mut self, page: u32, at: usize, bytes: &[u8]) {
        let from = (page as usize - 1) * self.shape.size + at;
        // A map past the last page, and the last trunk of a list that names one, are left out.
        if let Some(to) = self.mapped.bytes_mut().get_mut(from..from + bytes.len()) {
            to.copy_from_slice(bytes);
        }
    }

    pub fn with(mut self, page: u32, at: usize, bytes: &[u8]) -> Image {
        self.put(page, at, bytes);
        self
    }

    /// Both readers' verdict and ledgers, which have entries past the last page, and the refusal and the page that are due.
    fn check(&self, met: &mut Met, what: &str, refusal: u32, page: u32) -> Result<Ledgers, String> {
        check(met, what, self.mapped.bytes(), self.shape.pages as usize + 3, refusal, page)
    }

    /// Accepted: these pages have these offices, and those that have one by their place no namer and step 0.
    fn accepted(&self, met: &mut Met, what: &str, offices: &[(u32, u8)]) -> Held {
        let Ledgers { kinds, namers, steps } = self.check(met, what, 0, 0)?;
        for &(page, office) in offices {
            let found = if kinds[page as usize - 1] == 2 { FREE } else { kinds[page as usize - 1] };
            same(&format!("{what}: the office of page {page}"), found, office)?;
        }
        let kinds = &kinds[..self.shape.pages as usize];
        same(what, kinds.iter().zip(namers.iter().zip(&steps)).all(|(&kind, (&namer, &step))| kind < POINTER_MAP || (namer, step) == (0, 0)), true)?;
        same(
            &format!("{what}: the lock-byte page"),
            kinds.iter().filter(|&&kind| kind == LOCK_BYTE).count(),
            usize::from(self.shape.lock() <= self.shape.pages),
        )
    }

    fn refused(&self, met: &mut Met, what: &str, refusal: u32, page: u32) -> Held {
        self.check(met, what, refusal, page).map(|_| ())
    }
}

fn check(met: &mut Met, what: &str, image: &[u8], entries: usize, refusal: u32, page: u32) -> Result<Ledgers, String> {
    let mut found = Ledgers { kinds: pattern(entries), namers: vec![0x5a5a_5a5a; entries], steps: vec![0xaaaa_aaaa; entries] };
    let mut expected = found.clone();
    let plain = Plain.check(image, &mut expected.kinds, &mut expected.namers, &mut expected.steps);
    same(what, Proved.check(image, &mut found.kinds, &mut found.namers, &mut found.steps), plain)?;
    expected.same(what, &found.kinds, &found.namers, &found.steps)?;
    same(&format!("{what}: refusal and page"), (plain.refusal, plain.page), (refusal, page))?;
    *met.entry(("check", plain.refusal)).or_default() += 1;
    if plain.refusal == 0 {
        sent(met, what, image, plain.pages, &found)?;
    }
    Ok(found)
}

/// The ledgers as they are sent, the checker's yes to them, and its no where the last page's step is another.
fn sent(met: &mut Met, what: &str, image: &[u8], pages: u32, found: &Ledgers) -> Held {
    let expected = plain::ledger::sent(pages as usize, &found.kinds, &found.namers, &found.steps).map_err(|refusal| format!("{what}: {refusal}"))?;
    let mut proposal = pattern(expected.len());
    let written = Proved.ledger_write(pages, &found.kinds, &found.namers, &found.steps, &mut proposal);
    same(what, (written.refusal, written.length as usize), (0, expected.len()))?;
    same_bytes(what, &proposal, &expected)?;
    let mut ask = |proposal: &[u8], answer: (u32, u32, u32)| {
        let mut lent = found.clone();
        let said = Proved.ledger_check(image, proposal, &mut lent.kinds, &mut lent.namers, &mut lent.steps);
        *met.entry(("ledger_check", if answer.0 == 1 { 1002 } else { 1001 })).or_default() += 1;
        same(what, (said.yes, said.refusal, said.page), answer).and_then(|()| found.same(what, &lent.kinds, &lent.namers, &lent.steps))
    };
    ask(&proposal, (1, 0, 0))?;
    proposal[expected.len() - 1] ^= 1;
    ask(&proposal, (0, 0, pages))
}

/// Pages of 65,536 bytes, where page 16385 is the lock-byte page.
fn large_pages(met: &mut Met) -> Held {
    const SIZE: usize = 65536;
    const LOCK: u32 = 16385;
    // A file of exactly 1 GiB has none; then it is the last page; then the last but one.
    let none = Shape::new(SIZE, LOCK - 1);
    none.good().accepted(met, "1 GiB", &[(LOCK - 1, FREE)])?;
    let holder = none.free()[..].chunks(SIZE / 4 - 1).last().map_or(0, |trunk| trunk[0]);
    none.and_naming(&[LOCK]).refused(met, "the page past 1 GiB is named", 20, holder)?;
    Shape::new(SIZE, LOCK).good().accepted(met, "the lock-byte page is the last", &[(LOCK, LOCK_BYTE)])?;
    let after = Shape::new(SIZE, LOCK + 1);
    after.good().accepted(met, "one page after it", &[(LOCK, LOCK_BYTE), (LOCK + 1, FREE)])?;
    // Its bytes are not read, and 30 passes over it.
    after.good().with(LOCK, 0, &[0xff; SIZE]).accepted(met, "its bytes", &[(LOCK, LOCK_BYTE)])?;
    after.but_for(LOCK + 1).refused(met, "30 after it", 30, LOCK + 1)?;
    after.but_for(LOCK - 1).refused(met, "30 before it", 30, LOCK - 1)?;
    // Named by a trunk as a leaf, by the header or a trunk as the next trunk, as a child, as a chain's first page and as a root.
    after.and_naming(&[LOCK]).refused(met, "a free leaf", 21, LOCK)?;
    after.naming(&[&[LOCK], &after.free()[..]].concat()).refused(met, "the first trunk", 21, LOCK)?;
    let mut names = after.free();
    names.insert(SIZE / 4 - 1, LOCK);
    after.naming(&names).refused(met, "the next trunk", 21, LOCK)?;
    let named = LOCK.to_be_bytes();
    let interior = [&[5, 0, 0, 0, 0, 0, 0, 0], &named[..]].concat();
    after.good().with(1, 100, &interior).refused(met, "a child", 21, LOCK)?;
    let row = |cell: &[u8]| {
        let at = SIZE - cell.len();
        let [high, low] = (at as u16).to_be_bytes();
        after.good().with(1, 100, &[13, 0, 0, 0, 1, high, low, 0, high, low]).with(1, at, cell)
    };
    // A payload of 65,502 bytes is one more than fits; 65,536 - 4 bytes are in a page of its chain, and 8,199 are local.
    let mut long = vec![0x83, 0xff, 0x5e, 1];
    long.resize(4 + 8199, 0);
    long.extend(named);
    row(&long).refused(met, "a chain", 21, LOCK)?;
    row(&[&[10, 1, 6, 0, 0, 0, 4, 0], &named[..]].concat()).refused(met, "a root", 21, LOCK)?;
    // Its entry in a map is not read; the one after it is.
    let mapped = Shape::vacuum(SIZE, 0, LOCK + 2);
    let entry = |page: u32| 5 * (page - 13110 - 1) as usize;
    mapped.good().with(13110, entry(LOCK), &[9; 5]).accepted(met, "its entry", &[(13110, POINTER_MAP), (LOCK, LOCK_BYTE)])?;
    mapped.good().with(13110, entry(LOCK + 1), &[9]).refused(met, "the entry after it", 31, LOCK + 1)?;
    mapped.good().with(13110, entry(LOCK - 1), &[9]).refused(met, "the entry before it", 31, LOCK - 1)?;
    // Lookup, cursor and payload read it as any other page.
    let leaf = [&[13, 0, 0, 0, 1, 0xff, 0xfc, 0, 0xff, 0xfc][..], &[0; SIZE - 14], &[2, 7, 2, 8]].concat();
    let image = after.good().with(LOCK, 0, &leaf);
    image.accepted(met, "a leaf there", &[(LOCK, LOCK_BYTE)])?;
    let bytes = image.mapped.bytes();
    let found = Plain.lookup(bytes, LOCK, 7);
    same("a row there", (found.refusal, found.found), (0, 1))?;
    same("urk_lookup there", Proved.lookup(bytes, LOCK, 7), found)?;
    same("urk_find there", Proved.find(bytes, LOCK, 7), found)?;
    let (mut room, mut expected) = (pattern(9), pattern(9));
    same("urk_payload_fetch there", Proved.payload_fetch(bytes, LOCK, 0, &mut room), Plain.payload_fetch(bytes, LOCK, 0, &mut expected))?;
    same_bytes("urk_payload_fetch's out there", &room, &expected)?;
    let (mut words, mut expected) = ([5; 41], [5; 41]);
    same("urk_rows_first there", Proved.rows_first(bytes, LOCK, &mut words), Plain.rows_first(bytes, LOCK, &mut expected))?;
    same_bytes("urk_rows_first's words there", &words, &expected)
}

/// Pages of 1,024 bytes: with 1,020 to 1,024 usable a map falls on page 1048577, the lock-byte page, and is the next page.
fn moved_maps(met: &mut Met) -> Held {
    const SIZE: usize = 1024;
    const LOCK: u32 = 1_048_577;
    const MAP: u32 = LOCK + 1;
    const NEXT: u32 = LOCK + 205;
    let offices = [(LOCK - 205, POINTER_MAP), (LOCK, LOCK_BYTE), (MAP, POINTER_MAP), (NEXT, POINTER_MAP)];
    let shape = Shape::vacuum(SIZE, 0, NEXT + 2);
    // What stands on the lock-byte page, and in the moved map's last entry, is not read.
    let junk = shape.good().with(LOCK, 0, &[9; SIZE]).with(MAP, 5 * 203, &[9; SIZE - 5 * 203]);
    junk.accepted(met, "a moved map", &offices)?;
    Shape::vacuum(SIZE, 4, NEXT + 2).good().accepted(met, "a moved map, 1,020 usable", &offices)?;
    // Its first entry is about the page after it, its last but one about the page before the next map, which stands where it did.
    for (map, page) in [(LOCK - 205, LOCK - 1), (MAP, MAP + 1), (MAP, NEXT - 1), (NEXT, NEXT + 1), (NEXT, NEXT + 2)] {
        let wrong = shape.good().with(map, 5 * (page - map - 1) as usize, &[1]);
        wrong.refused(met, "an entry around it", 31, page)?;
    }
    for page in [LOCK, MAP, NEXT] {
        shape.and_naming(&[page]).refused(met, "named by a pointer", 21, page)?;
    }
    // It is past the last page; it is the last; it has one entry that is read.
    Shape::vacuum(SIZE, 0, LOCK).good().accepted(met, "moved past the end", &[(LOCK, LOCK_BYTE)])?;
    Shape::vacuum(SIZE, 0, MAP).good().accepted(met, "moved to the end", &[(LOCK, LOCK_BYTE), (MAP, POINTER_MAP)])?;
    Shape::vacuum(SIZE, 0, MAP + 1).good().with(MAP, 0, &[3]).refused(met, "one entry", 31, MAP + 1)?;
    // No map falls there: with other usable sizes, or with no maps.
    let reserved = Shape::vacuum(SIZE, 24, LOCK + 300);
    let map = LOCK - 159;
    let image = reserved.good().with(map, 5 * 158, &[9; 5]);
    image.accepted(met, "1,000 usable", &[(map, POINTER_MAP), (LOCK, LOCK_BYTE), (MAP, FREE), (map + 201, POINTER_MAP)])?;
    Shape::new(SIZE, LOCK + 3).good().accepted(met, "no maps", &[(LOCK, LOCK_BYTE), (MAP, FREE)])
}

/// The most pages, of 512 bytes: page 2097153 is the lock-byte page.
fn most_pages(met: &mut Met) -> Held {
    const SIZE: usize = 512;
    const LOCK: u32 = 2_097_153;
    for shape in [Shape::new(SIZE, MOST), Shape::vacuum(SIZE, 0, MOST)] {
        shape.good().accepted(met, "the most pages", &[(LOCK, LOCK_BYTE), (LOCK + 1, FREE), (MOST, FREE)])?;
    }
    // One page more is present: it is not counted; counted; and the count does not hold.
    let one_more = Shape::new(SIZE, MOST + 1);
    let mut image = one_more.naming(&Shape::new(SIZE, MOST).free()).with(1, 28, &MOST.to_be_bytes());
    check(met, "one more is present", image.mapped.bytes(), MOST as usize + 1, 0, 0)?;
    image.put(1, 28, &(MOST + 2).to_be_bytes());
    image.refused(met, "two more are counted", 9, 0)?;
    image.put(1, 24, &[9]);
    image.refused(met, "no count holds", 5, 0)?;
    image.put(1, 24, &[0]);
    image.put(1, 28, &(MOST + 1).to_be_bytes());
    image.refused(met, "one more is counted", 5, 0)?;
    // The other functions refuse it too.
    let bytes = image.mapped.bytes();
    let mut refused = |function: &'static str, proved: u32, plain: u32| {
        *met.entry((function, plain)).or_default() += 1;
        same(function, proved, plain).and_then(|()| same(function, plain, 5))
    };
    let ledger_check = |reader: &dyn Reader| reader.ledger_check(bytes, &[], &mut [], &mut [], &mut []).refusal;
    refused("ledger_check", ledger_check(&Proved), ledger_check(&Plain))?;
    let named = |reader: &dyn Reader| reader.check_ordered(bytes, &[2], &mut [], &mut [], &mut []).refusal;
    refused("check_ordered", named(&Proved), named(&Plain))?;
    refused("lookup", Proved.lookup(bytes, 1, 1).refusal, Plain.lookup(bytes, 1, 1).refusal)?;
    refused("find", Proved.find(bytes, 1, 1).refusal, Plain.find(bytes, 1, 1).refusal)?;
    let (mut words, mut room) = ([0; 41], [0; 9]);
    refused("rows_first", Proved.rows_first(bytes, 1, &mut words).refusal, Plain.rows_first(bytes, 1, &mut words).refusal)?;
    refused("rows_seek", Proved.rows_seek(bytes, 1, 1, &mut words).refusal, Plain.rows_seek(bytes, 1, 1, &mut words).refusal)?;
    refused("rows_step", Proved.rows_step(bytes, &mut words).refusal, Plain.rows_step(bytes, &mut words).refusal)?;
    refused("payload_fetch", Proved.payload_fetch(bytes, 1, 0, &mut room).refusal, Plain.payload_fetch(bytes, 1, 0, &mut room).refusal)?;
    refused("payload_quick", Proved.payload_quick(bytes, 1, 0, &mut room).refusal, Plain.payload_quick(bytes, 1, 0, &mut room).refusal)?;
    refused("report", Proved.report(bytes, 1, 1, &mut room).refusal, Plain.report(bytes, 1, 1, &mut room).refusal)?;
    refused("log_page", Proved.log_page(&[], bytes, 1).refusal, Plain.log_page(&[], bytes, 1).refusal)?;
    let mut table = [7; 3];
    refused("log_fill", Proved.log_fill(&[], bytes, &mut table).refusal, Plain.log_fill(&[], bytes, &mut table).refusal)?;
    same("the table", table, [7; 3])?;
    refused("log_recover", Proved.log_recover(&[], bytes, &mut room).refusal, Plain.log_recover(&[], bytes, &mut room).refusal)?;
    let lent = image.mapped.bytes_mut();
    refused("row_set", Proved.row_set(lent, &[], 1, 1, &[1]).refusal, Plain.row_set(lent, &[], 1, 1, &[1]).refusal)?;
    same("the words and the room", (words, room), ([0; 41], [0; 9]))
}

pub fn aimed(met: &mut Met) -> Held {
    large_pages(met)?;
    moved_maps(met)?;
    most_pages(met)
}
