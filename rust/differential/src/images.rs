//! Images to damage, and the damage.

use plain::header::{header, Header};
use plain::number::write_varint;
use plain::page::{tree_page, Cell, Marks, TreePage};
use world::reader::{Plain, Reader};
use world::rng::Rng;

use crate::orders::{indexes, Index};
use crate::records::record_damage;
use crate::respell::respell;

pub const TREE_TYPES: [u8; 4] = [2, 5, 10, 13];

/// An image that is accepted, and what its pages are.
pub struct Base {
    pub name: String,
    pub image: Vec<u8>,
    kinds: Vec<u8>,
    pub indexes: Vec<Index>,
    /// Cells with an overflow chain: page and index.
    chained: Vec<(u32, u32)>,
}

impl Base {
    /// The kind of a page of 1 to N.
    pub fn kind(&self, page: u32) -> u8 {
        self.kinds[page as usize - 1]
    }

    pub fn new(name: &str, image: Vec<u8>) -> Base {
        let most = image.len() / 512;
        let mut kinds = vec![0; most];
        let pages = Plain.check(&image, &mut kinds, &mut vec![0; most], &mut [0; 4096]).pages;
        kinds.truncate(pages as usize);
        let chained = (1..=pages).filter(|&page| matches!(kinds[page as usize - 1], 1 | 6)).flat_map(|page| chained_cells(&image, page)).collect();
        let indexes = indexes(&image, &kinds);
        Base { name: name.to_owned(), image, kinds, indexes, chained }
    }

    /// Whether the image is a good one.
    pub fn accepted(&self) -> bool {
        !self.kinds.is_empty()
    }

    /// A cell with an overflow chain.
    pub fn chained_cell(&self, rng: &mut Rng) -> Option<(u32, u32)> {
        (!self.chained.is_empty()).then(|| *rng.pick(&self.chained))
    }

    /// A root.
    pub fn root(&self, rng: &mut Rng) -> Option<u32> {
        self.page_of_kind(rng, &[1])
    }

    /// The tree pages.
    pub fn trees(&self) -> impl Iterator<Item = u32> + '_ {
        (1..).zip(&self.kinds).filter(|(_, kind)| matches!(kind, 1 | 6)).map(|(page, _)| page)
    }

    fn page_of_kind(&self, rng: &mut Rng, wanted: &[u8]) -> Option<u32> {
        let pages: Vec<u32> = (1..).zip(&self.kinds).filter(|(_, kind)| wanted.contains(kind)).map(|(page, _)| page).collect();
        (!pages.is_empty()).then(|| *rng.pick(&pages))
    }
}

fn chained_cells(image: &[u8], page: u32) -> Vec<(u32, u32)> {
    let tree = header(image).ok().and_then(|shape| tree_page(image, &shape, page, &TREE_TYPES, &mut Marks::default()).ok());
    tree.map_or(Vec::new(), |tree| (0..tree.cells).filter(|&i| tree.cell(i).local < tree.cell(i).payload).map(|i| (page, i as u32)).collect())
}

/// A number that tests edges: of pages, of fields, of the page's size.
fn interesting(rng: &mut Rng, pages: usize, usable: usize) -> u32 {
    let pages = pages as u32;
    let any = [
        0,
        1,
        2,
        3,
        4,
        60,
        61,
        126,
        127,
        pages.wrapping_sub(1),
        pages,
        pages + 1,
        usable as u32 / 4 - 2,
        usable as u32 / 4 - 1,
        usable as u32 - 4,
        usable as u32 - 1,
        usable as u32,
        usable as u32 + 1,
        4096,
        65535,
        65536,
        1 << 31,
        u32::MAX,
    ];
    match rng.below(3) {
        0 => rng.below(pages as usize + 2) as u32,
        1 => rng.below(usable + 8) as u32,
        _ => *rng.pick(&any),
    }
}

pub fn put(image: &mut [u8], at: usize, bytes: &[u8]) {
    if let Some(to) = image.get_mut(at..at + bytes.len()) {
        to.copy_from_slice(bytes);
    }
}

/// A sound tree page of the image and one of its cells.
pub fn some_cell<'a>(image: &'a [u8], shape: &Header, page: u32, rng: &mut Rng) -> Option<(TreePage<'a>, usize, Cell, usize)> {
    let start = (page as usize).checked_sub(1)? * shape.page_size;
    if image.len() < start + shape.page_size {
        return None;
    }
    let tree = tree_page(image, shape, page, &TREE_TYPES, &mut Marks::default()).ok()?;
    if tree.cells == 0 {
        return None;
    }
    let index = rng.below(tree.cells);
    let at = start + if page == 1 { 100 } else { 0 } + if tree.is_leaf() { 8 } else { 12 } + 2 * index;
    let offset = usize::from(u16::from_be_bytes([image[at], image[at + 1]]));
    Some((tree, at, tree.cell(index), start + offset))
}

/// A row number that a cell of the image carries, or one beside it.
pub fn some_row(image: &[u8], rng: &mut Rng) -> i64 {
    let near = [0, 0, 0, 1, -1][rng.below(5)];
    let found = header(image).ok().and_then(|shape| {
        let page = 1 + rng.below(shape.pages) as u32;
        some_cell(image, &shape, page, rng).map(|(_, _, cell, _)| cell.key)
    });
    match found {
        Some(key) if rng.below(8) != 0 => key.wrapping_add(near),
        _ => *rng.pick(&[i64::MIN, -1, 0, 1, 2, 3, 1000, i64::MAX]),
    }
}

/// Damages an image once.
pub fn damage(base: &Base, image: &mut Vec<u8>, rng: &mut Rng) {
    let Ok(shape) = header(&base.image) else { return };
    let (size, usable, pages) = (shape.page_size, shape.usable, shape.pages);
    let length = image.len();
    if length < size {
        return;
    }
    let any_page = 1 + rng.below(length / size) as u32;
    let tree = base.page_of_kind(rng, &[1, 6]).unwrap_or(1);
    let start = |page: u32| (page as usize - 1) * size;
    let page_header = |page: u32| start(page) + if page == 1 { 100 } else { 0 };
    // Now and then a pointer map is named.
    let map = base.page_of_kind(rng, &[7]);
    let number = match map {
        Some(map) if rng.below(6) == 0 => map,
        _ => interesting(rng, pages, usable),
    };
    match rng.below(if map.is_some() { 31 } else { 27 }) {
        0 => image[rng.below(length)] = rng.byte(),
        1 => image[rng.below(length)] ^= 1 << rng.below(8),
        2 => {
            let at = *rng.pick(&[16, 18, 19, 20, 21, 22, 23, 24, 72, 80, 91, 92, 96]);
            image[at] = if rng.below(2) == 0 { rng.byte() } else { image[at].wrapping_add(1) };
        }
        3 => put(image, *rng.pick(&[28, 32, 36, 52, 56, 60, 64]), &number.to_be_bytes()),
        4 => put(image, page_header(tree) + 1 + 2 * rng.below(3), &(number as u16).to_be_bytes()),
        5 => put(image, page_header(tree) + *rng.pick(&[0, 0, 7]), &[*rng.pick(&[0, 1, 2, 5, 10, 13, 59, 60, 61, 255])]),
        6 => put(image, page_header(tree) + 8, &number.to_be_bytes()),
        7 => put(image, page_header(tree) + 8 + 2 * rng.below(12), &(number as u16).to_be_bytes()),
        8..=11 => cell_damage(image, &shape, tree, number, rng),
        12 | 20 => {
            if let Some(page) = base.page_of_kind(rng, &[4, 5]) {
                put(image, start(page), &number.to_be_bytes());
            }
        }
        13 => {
            if let Some(page) = base.page_of_kind(rng, &[2]) {
                put(image, start(page) + 4 * rng.below(4), &number.to_be_bytes());
            }
        }
        14 => {
            let other = 1 + rng.below(length / size) as u32;
            let (one, two) = (start(any_page), start(other));
            let copy = image[one..one + size].to_vec();
            if rng.below(2) == 0 {
                image.copy_within(two..two + size, one);
            }
            image[two..two + size].copy_from_slice(&copy);
        }
        15 => {
            image.truncate(rng.below(length + 1));
            if rng.below(5) != 0 {
                image.truncate(image.len() / size * size);
                let count = (image.len() / size) as u32;
                put(image, 28, &count.to_be_bytes());
            }
        }
        16 => {
            image.resize(length + size * (1 + rng.below(3)), 0);
            let count = (image.len() / size) as u32;
            put(image, 28, &count.to_be_bytes());
        }
        17 => rng.fill(&mut image[start(any_page) + if any_page == 1 { 100 } else { 0 }..start(any_page) + size]),
        21 => respell(image, &shape, tree, rng),
        18 => freeblock(image, page_header(tree), start(tree), usable, rng),
        22 => counts(image, size, rng),
        23 => {
            // Pages that are not counted, where the count holds.
            image.resize(length + size * (1 + rng.below(3)), 0);
            rng.fill(&mut image[length..]);
        }
        24..=26 => record_damage(image, &shape, tree, rng),
        27..=29 => {
            if let Some(map) = map {
                entry_damage(image, start(map), usable, number, rng);
            }
        }
        30 => {
            let near = base.page_of_kind(rng, &[1]).unwrap_or(1);
            put(image, 52, &(*rng.pick(&[near, near, near + 1, 0, 1, number])).to_be_bytes());
        }
        _ => {
            let from = rng.below(length);
            let to = (from + 1 + rng.below(64)).min(length);
            rng.fill(&mut image[from..to]);
        }
    }
}

/// The count at 28, right or not, with the numbers at 24 and 92 equal or not.
fn counts(image: &mut [u8], size: usize, rng: &mut Rng) {
    let present = (image.len() / size) as u32;
    let count = *rng.pick(&[0, 1, 2, present / 2, present - 1, present, present, present + 1, present + 2, 2_200_000, 2_200_001, u32::MAX]);
    put(image, 28, &count.to_be_bytes());
    let change = *rng.pick(&[0, 1, 7, 0x0100_0000, u32::MAX]);
    let since = if rng.below(3) != 0 { change } else { change ^ (1 << rng.below(32)) };
    put(image, 24, &change.to_be_bytes());
    put(image, 92, &since.to_be_bytes());
}

/// Damages a cell's pointer, its fields, its chain's first page, or the record in it.
fn cell_damage(image: &mut [u8], shape: &Header, page: u32, number: u32, rng: &mut Rng) {
    let found = some_cell(image, shape, page, rng).map(|(tree, pointer, cell, at)| (tree.is_leaf(), tree.kind, pointer, cell, at));
    let Some((leaf, kind, pointer, cell, at)) = found else { return };
    let start = (page as usize - 1) * shape.page_size;
    match rng.below(8) {
        0 => put(image, pointer, &(number as u16).to_be_bytes()),
        1 => {
            // Swapped with the pointer before it.
            let pair = [image[pointer], image[pointer + 1], image[pointer - 2], image[pointer - 1]];
            put(image, pointer - 2, &pair);
        }
        2 if !leaf => put(image, at, &number.to_be_bytes()),
        3 if cell.local < cell.payload => put(image, start + cell.local_at + cell.local, &number.to_be_bytes()),
        4 | 2 => {
            let mut varint = [0; 9];
            let value = *rng.pick(&[0, 1, 2, 127, 128, 477, 478, 65535, 65536, 65537, -1, i64::MIN, i64::MAX, 1 << 56]);
            let length = write_varint(value, &mut varint).unwrap_or(9);
            put(image, at + if leaf { 0 } else { 4 }, &varint[..length]);
        }
        5 => put(image, at + rng.below(12), &[rng.byte()]),
        6 if kind == 13 || kind == 5 => {
            // The last byte of the row number or key.
            let last = if kind == 13 { start + cell.local_at - 1 } else { start + cell.end - 1 };
            image[last] = if rng.below(2) == 0 { image[last] ^ 1 } else { (rng.byte() & 0x7f) | (image[last] & 0x80) };
        }
        _ if cell.local > 0 => {
            let place = start + cell.local_at + rng.below(cell.local.min(48));
            image[place] = *rng.pick(&[0, 1, 2, 3, 4, 5, 6, 7, 8, 9, 10, 11, 12, 13, 255]);
        }
        _ => image[at] = rng.byte(),
    }
}

/// Damages an entry of a pointer map, now and then one past those that are read: its type, its number, or both.
fn entry_damage(image: &mut [u8], map: usize, usable: usize, number: u32, rng: &mut Rng) {
    let entry = map + 5 * if rng.below(4) == 0 { rng.below(usable / 5 + 1) } else { rng.below(12) };
    let what = rng.below(3);
    if what != 1 {
        put(image, entry, &[*rng.pick(&[0, 1, 2, 3, 4, 5, 6, 255])]);
    }
    if what != 0 {
        put(image, entry + 1, &number.to_be_bytes());
    }
}

/// Takes room below the content of a page, right or nearly right: for a freeblock, for fragments, or for a freeblock down to the pointer array.
fn freeblock(image: &mut [u8], header_at: usize, start: usize, usable: usize, rng: &mut Rng) {
    if image.len() < start + usable {
        return;
    }
    let two = |image: &[u8], at: usize| usize::from(u16::from_be_bytes([image[at], image[at + 1]]));
    let (first, cells, content) = (two(image, header_at + 1), two(image, header_at + 3), two(image, header_at + 5));
    let array_end = header_at - start + if image[header_at] < 10 { 12 } else { 8 } + 2 * cells;
    if content > usable || content < array_end + 70 {
        return;
    }
    let fragments = usize::from(image[header_at + 7]);
    let at = match rng.below(4) {
        0 => {
            let taken = 58 + rng.below(6) - fragments.min(58);
            image[header_at + 7] = (fragments + taken) as u8;
            put(image, header_at + 5, &((content - taken) as u16).to_be_bytes());
            return;
        }
        1 => array_end + rng.below(5) - 2,
        _ => content - 3 - rng.below(8),
    };
    let size = content - at + *rng.pick(&[0, 0, 0, 0, 1]) - *rng.pick(&[0, 0, 0, 0, 1]);
    put(image, start + at, &(first as u16).to_be_bytes());
    put(image, start + at + 2, &(size as u16).to_be_bytes());
    put(image, header_at + 1, &(at as u16).to_be_bytes());
    put(image, header_at + 5, &(at as u16).to_be_bytes());
    if rng.below(3) == 0 {
        image[header_at + 7] = image[header_at + 7].wrapping_add(rng.below(4) as u8);
    }
}

/// A table of so many levels under page 2: interior pages without cells over an empty leaf.
fn tower(two_pages: &[u8], levels: usize) -> Vec<u8> {
    let mut image = two_pages[..512].to_vec();
    put(&mut image, 28, &(levels as u32 + 1).to_be_bytes());
    for level in 1..=levels {
        let mut page = vec![0; 512];
        put(&mut page, 5, &512u16.to_be_bytes());
        page[0] = if level < levels { 5 } else { 13 };
        if level < levels {
            put(&mut page, 8, &(level as u32 + 2).to_be_bytes());
        }
        image.extend(page);
    }
    image
}

/// Images that are refused and that cursors meet in ways of their own.
pub fn made_for_cursors(two_pages: &[u8]) -> Vec<Base> {
    let mut made = Vec::new();
    let tower = |levels: usize| tower(two_pages, levels);
    // A leaf with a row at level 2, and a page at level 21 to the right of it.
    let mut deep = tower(21);
    let last = deep.len() / 512 + 1;
    put(&mut deep, 28, &(last as u32).to_be_bytes());
    put(&mut deep, 512 + 3, &[0, 1, 1, 251]);
    put(&mut deep, 512 + 12, &507u16.to_be_bytes());
    put(&mut deep, 512 + 507, &[0, 0, 0, last as u8, 9]);
    let mut leaf = vec![0; 512];
    put(&mut leaf, 0, &[13, 0, 0, 0, 1, 1, 252, 0, 1, 252]);
    put(&mut leaf, 508, &[2, 1, 2, 8]);
    deep.extend(leaf);
    made.push(Base::new("row-before-level-21", deep));
    // Each page twice a child of the one before it, over an empty leaf: a cursor enters it once for each way down.
    for levels in [8, 20] {
        let mut ways = tower(levels);
        for level in 1..levels {
            put(&mut ways, 512 * level + 3, &[0, 1, 1, 251]);
            put(&mut ways, 512 * level + 12, &507u16.to_be_bytes());
            put(&mut ways, 512 * level + 507, &[0, 0, 0, level as u8 + 2, 9]);
        }
        made.push(Base::new(&format!("ways-{levels}"), ways));
    }
    assert!(made.iter().all(|base| !base.accepted()));
    made
}

/// Images that sqlite3 does not make: towers of interior pages without cells, a leaf too deep, leaves at unequal levels.
pub fn made_by_hand(two_pages: &[u8]) -> Vec<Base> {
    let tower = |levels: usize| tower(two_pages, levels);
    let mut made: Vec<Base> = [1, 2, 19, 20, 21, 22].iter().map(|&levels| Base::new(&format!("tower-{levels}"), tower(levels))).collect();
    // A tree with a leaf at level 2 and one at level 3.
    let mut uneven = tower(2);
    put(&mut uneven, 28, &5u32.to_be_bytes());
    let mut root = vec![0; 512];
    root[0] = 5;
    put(&mut root, 3, &1u16.to_be_bytes());
    put(&mut root, 5, &507u16.to_be_bytes());
    put(&mut root, 8, &4u32.to_be_bytes());
    put(&mut root, 12, &507u16.to_be_bytes());
    put(&mut root, 507, &[0, 0, 0, 3, 9]);
    uneven[512..1024].copy_from_slice(&root);
    let mut interior = vec![0; 512];
    interior[0] = 5;
    put(&mut interior, 5, &512u16.to_be_bytes());
    put(&mut interior, 8, &5u32.to_be_bytes());
    let leaf = uneven[1024..].to_vec();
    uneven.extend(interior);
    uneven.extend(leaf);
    made.push(Base::new("uneven", uneven));
    made
}

/// Some good ones with interior pages once more, with pages past their count up to 4 MiB: in images of that size the walk looks ahead.
pub fn padded(bases: &[Base], most: usize) -> Vec<Base> {
    const LARGE: usize = 4 << 20;
    let made: Vec<Base> = bases
        .iter()
        .filter(|base| base.kinds.len() >= 30 && base.kinds[1..].contains(&6))
        .filter_map(|base| {
            let mut image = base.image.clone();
            image.resize(LARGE, 0xa5);
            let padded = Base::new(&format!("padded-{}", base.name), image);
            (padded.kinds == base.kinds).then_some(padded)
        })
        .collect();
    assert!(made.len() >= most, "only {} images can be padded", made.len());
    let step = made.len() / most;
    made.into_iter().step_by(step).take(most).collect()
}

/// Large ones: a freelist of trunks alone, more pages present than counted, pages as full of cells as can be, at the deepest level.
pub fn large_made_by_hand(two_pages: &[u8], two_long_pages: &[u8]) -> Vec<Base> {
    let mut made = Vec::new();
    let mut trunks = two_pages.to_vec();
    trunks.resize(4096 * 512, 0);
    put(&mut trunks, 28, &4096u32.to_be_bytes());
    put(&mut trunks, 32, &3u32.to_be_bytes());
    put(&mut trunks, 36, &4094u32.to_be_bytes());
    for page in 3..4096 {
        put(&mut trunks, (page - 1) * 512, &(page as u32 + 1).to_be_bytes());
    }
    let trunks = Base::new("trunks", trunks);
    // More pages are present: of these two are counted; all that are named; one that is not; more than are present. Then the count does not hold.
    let present = |name: &str, image: &[u8], count: u32, since: u8| {
        let mut image = image.to_vec();
        image.resize(4100 * 512, 0xa5);
        put(&mut image, 28, &count.to_be_bytes());
        image[92] ^= since;
        Base::new(name, image)
    };
    made.push(present("counted-2", two_pages, 2, 0));
    made.push(present("counted-4096", &trunks.image, 4096, 0));
    made.push(present("counted-4097", &trunks.image, 4097, 0));
    made.push(present("counted-4101", &trunks.image, 4101, 0));
    made.push(present("stale-2", two_pages, 2, 1));
    made.push(trunks);

    const SIZE: usize = 65536;
    const CELLS: usize = (SIZE - 8) / 6;
    // Cells of four bytes: a payload of one byte with a row number of two, or a payload of two bytes and a byte of no use.
    let full = |kind: u8| {
        let mut page = vec![0; SIZE];
        page[0] = kind;
        put(&mut page, 3, &(CELLS as u16).to_be_bytes());
        put(&mut page, 5, &((SIZE - 4 * CELLS) as u16).to_be_bytes());
        page[7] = 0;
        for i in 0..CELLS {
            let at = SIZE - 4 * (i + 1);
            put(&mut page, 8 + 2 * i, &(at as u16).to_be_bytes());
            let row = 128 + i;
            put(&mut page, at, &if kind == 13 { [1, 0x80 | (row >> 7) as u8, (row & 0x7f) as u8, 1] } else { [2, 2, 8, 0] });
        }
        page
    };
    for (kind, interior) in [(13, 5), (10, 2)] {
        for levels in [1usize, 20, 21] {
            let mut image = two_long_pages[..SIZE].to_vec();
            put(&mut image, 28, &(levels as u32 + 1).to_be_bytes());
            for level in 1..levels {
                let mut page = vec![0; SIZE];
                page[0] = interior;
                put(&mut page, 8, &(level as u32 + 2).to_be_bytes());
                image.extend(page);
            }
            image.extend(full(kind));
            made.push(Base::new(&format!("full-{kind}-level-{levels}"), image));
        }
    }
    made
}
