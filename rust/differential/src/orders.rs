//! Records that are alike, and indexes that are named: right ones and others, with keys out of order or as they were.

use plain::header::{header, Header};
use plain::number::write_varint;
use plain::page::{tree_page, Marks, INDEX_INTERIOR, INDEX_LEAF};
use world::orders::{columns, keys, places};
use world::reader::{Plain, Reader};
use world::rng::Rng;

use crate::hold::{Held, Hold, Rooms};
use crate::images::{damage, put, Base};

/// A column's value: of a real its bits.
#[derive(Clone)]
enum Value {
    Null,
    Integer(i64),
    Real(u64),
    Text(Vec<u8>),
    Blob(Vec<u8>),
}

/// Integers where reals begin to leave some out, and where they end.
const EDGES: [i64; 12] = [0, 1, -1, 127, 1 << 52, 1 << 53, (1 << 53) + 1, -(1 << 53), 1 << 62, i64::MAX, i64::MIN, -(1 << 47)];
/// Zeros of both signs, the least real, the largest below the least with a whole exponent, infinities, NaNs.
const REALS: [u64; 9] = [
    0,
    1 << 63,
    1,
    0x000f_ffff_ffff_ffff,
    0x0010_0000_0000_0000,
    0x7ff0_0000_0000_0000,
    0xfff0_0000_0000_0000,
    0x7ff8_0000_0000_0000,
    0xfff0_0000_0000_0001,
];

fn some_value(rng: &mut Rng) -> Value {
    let any = rng.word();
    let most = *rng.pick(&[2, 5, 90]);
    let bytes = |rng: &mut Rng| (0..rng.below(most)).map(|_| *rng.pick(b"\0ab\xff")).collect();
    match rng.below(9) {
        0 => Value::Null,
        1 => Value::Integer(*rng.pick(&EDGES)),
        2 => Value::Integer(any as i64 >> rng.below(64)),
        3 => Value::Real(*rng.pick(&REALS)),
        4 => Value::Real(any),
        5 => Value::Real((*rng.pick(&EDGES) as f64).to_bits()),
        6 | 7 => Value::Text(bytes(rng)),
        _ => Value::Blob(bytes(rng)),
    }
}

/// The same value, or one that is hardly less or more: where a comparison by rounded values, by length or by kind alone goes wrong.
fn beside(value: &Value, rng: &mut Rng) -> Value {
    let by = rng.below(5) as u64;
    let nearly = |bytes: &[u8], rng: &mut Rng| {
        let mut bytes = bytes.to_vec();
        match rng.below(4) {
            0 => bytes.truncate(rng.below(bytes.len() + 1)),
            1 => bytes.push(*rng.pick(b"\0a\xff")),
            2 if !bytes.is_empty() => {
                let at = rng.below(bytes.len());
                bytes[at] ^= *rng.pick(&[1, 0x80]);
            }
            _ => {}
        }
        bytes
    };
    match value {
        Value::Null => {
            rng.pick(&[Value::Null, Value::Real(0x7ff8_0000_0000_0000), Value::Real(0xffff_ffff_ffff_ffff), Value::Integer(i64::MIN)]).clone()
        }
        Value::Integer(integer) if rng.below(3) == 0 => Value::Integer(integer.wrapping_add(by as i64 - 2)),
        Value::Integer(integer) => Value::Real((*integer as f64).to_bits().wrapping_add(by).wrapping_sub(2)),
        Value::Real(bits) => match rng.below(4) {
            0 => Value::Real(bits ^ 1 << 63),
            1 => Value::Real(bits.wrapping_add(by).wrapping_sub(2)),
            // A NaN is 0 here.
            _ => Value::Integer((f64::from_bits(*bits) as i64).wrapping_add(by as i64 - 2)),
        },
        Value::Text(bytes) if rng.below(6) == 0 => Value::Blob(bytes.clone()),
        Value::Blob(bytes) if rng.below(6) == 0 => Value::Text(bytes.clone()),
        Value::Text(bytes) => Value::Text(nearly(bytes, rng)),
        Value::Blob(bytes) => Value::Blob(nearly(bytes, rng)),
    }
}

/// A record of these values: integers in any width that holds them, types now and then spelled long.
fn spelled(values: &[Value], rng: &mut Rng) -> Vec<u8> {
    let (mut types, mut body) = (Vec::new(), Vec::new());
    for value in values {
        let serial = match value {
            Value::Null => 0,
            Value::Integer(integer @ (0 | 1)) if rng.below(2) == 0 => 8 + integer,
            Value::Integer(integer) => {
                let widths = [1usize, 2, 3, 4, 6, 8];
                let holds = |width: usize| (integer << (64 - 8 * width)) >> (64 - 8 * width) == *integer;
                let least = widths.iter().position(|&width| holds(width)).unwrap_or(5);
                let width = least + rng.below(6 - least);
                body.extend_from_slice(&integer.to_be_bytes()[8 - widths[width]..]);
                1 + width as i64
            }
            Value::Real(bits) => {
                body.extend(bits.to_be_bytes());
                7
            }
            Value::Text(bytes) => {
                body.extend(bytes);
                13 + 2 * bytes.len() as i64
            }
            Value::Blob(bytes) => {
                body.extend(bytes);
                12 + 2 * bytes.len() as i64
            }
        };
        if rng.below(16) == 0 {
            types.push(0x80);
        }
        let mut varint = [0; 9];
        let length = write_varint(serial, &mut varint).expect("room");
        types.extend(&varint[..length]);
    }
    let mut record = vec![types.len() as u8 + 1];
    record.extend(types);
    record.extend(body);
    record
}

/// Two records that are alike, both ways round.
pub fn alike(hold: &mut Hold, rng: &mut Rng) -> Held {
    let one: Vec<Value> = (0..rng.below(5)).map(|_| some_value(rng)).collect();
    let often = *rng.pick(&[1, 2, 4, 100]);
    let mut two: Vec<Value> = one.iter().map(|value| if rng.below(often) == 0 { beside(value, rng) } else { value.clone() }).collect();
    match rng.below(6) {
        0 => two.truncate(rng.below(two.len() + 1)),
        1 => two.push(some_value(rng)),
        _ => {}
    }
    let (one, two) = (spelled(&one, rng), spelled(&two, rng));
    hold.record_order(&one, &two)
}

/// An index of an image: its root, and the page and cell of each key, from left to right.
pub struct Index {
    pub root: u32,
    keys: Vec<(u32, u32)>,
}

/// The indexes of an accepted image.
pub fn indexes(image: &[u8], kinds: &[u8]) -> Vec<Index> {
    let Ok(shape) = header(image) else { return Vec::new() };
    let roots = (1u32..).zip(kinds).filter(|(page, kind)| **kind == 1 && *page > 1).map(|(page, _)| page);
    roots
        .filter(|&root| matches!(image[(root as usize - 1) * shape.page_size], INDEX_INTERIOR | INDEX_LEAF))
        .map(|root| {
            let mut found = Vec::new();
            keys(image, &shape, root, &mut found);
            Index { root, keys: found }
        })
        .collect()
}

/// Changes the keys of an index, which may be damaged already: their places on a page, their places in the tree, a bit of a value; or makes one another's copy.
fn key_damage(base: &Base, image: &mut [u8], shape: &Header, index: &Index, rng: &mut Rng) {
    if index.keys.is_empty() {
        return;
    }
    let one = rng.below(index.keys.len());
    let other = match rng.below(3) {
        0 => rng.below(index.keys.len()),
        1 => one.saturating_sub(1),
        _ => (one + 1).min(index.keys.len() - 1),
    };
    let (page, cell) = index.keys[one];
    // Where the keys stood before anything was changed.
    let at = |key: usize| places(&base.image, shape, index.keys[key]);
    match rng.below(7) {
        // Two cell pointers of one page, with their children on interior pages.
        0 => {
            let Ok(tree) = tree_page(&base.image, shape, page, &[INDEX_INTERIOR, INDEX_LEAF], &mut Marks::default()) else { return };
            let pointer = |cell: usize| (page as usize - 1) * shape.page_size + if tree.is_leaf() { 8 } else { 12 } + 2 * cell;
            let (a, b) = (pointer(cell as usize), pointer(if rng.below(2) == 0 { rng.below(tree.cells) } else { (cell as usize + 1) % tree.cells }));
            image.swap(a, b);
            image.swap(a + 1, b + 1);
        }
        // The payloads of two keys of one length, on interior pages and leaves.
        1 | 2 => {
            let (a, b) = (at(one), at(other));
            if a.len() == b.len() {
                a.iter().zip(&b).for_each(|(&a, &b)| image.swap(a, b));
            }
        }
        3 => {
            let (a, b) = (at(one), at(other));
            if a.len() == b.len() {
                a.iter().zip(&b).for_each(|(&a, &b)| image[a] = image[b]);
            }
        }
        // A bit of a value: the last one, or any.
        4 | 5 => {
            let spots = at(one);
            let record: Vec<u8> = spots.iter().map(|&spot| base.image[spot]).collect();
            let values: Vec<_> = columns(&record).into_iter().filter(|(_, _, length)| *length > 0).collect();
            if let Some(&(_, place, length)) = (!values.is_empty()).then(|| rng.pick(&values)) {
                let (back, bit) = if rng.below(2) == 0 { (0, 0) } else { (rng.below(length), rng.below(8)) };
                image[spots[place + length - 1 - back]] ^= 1 << bit;
            }
        }
        // The last byte of a payload, over a chain or not.
        _ => {
            if let Some(&last) = at(one).last() {
                image[last] = image[last].wrapping_add(*rng.pick(&[1, 255]));
            }
        }
    }
}

/// Names for an image: its indexes, some of them or one of them twice, and now and then a page that is none.
fn names(base: &Base, pages: usize, rng: &mut Rng) -> Vec<u32> {
    let roots: Vec<u32> = base.indexes.iter().map(|index| index.root).collect();
    let mut names: Vec<u32> = match rng.below(8) {
        0 => Vec::new(),
        1 => roots.iter().rev().copied().collect(),
        2 | 3 if !roots.is_empty() => vec![*rng.pick(&roots)],
        4 => roots.iter().copied().filter(|_| rng.below(2) == 0).collect(),
        5 => roots.iter().flat_map(|&root| [root, root]).collect(),
        _ => roots.clone(),
    };
    for _ in 0..*rng.pick(&[0, 0, 0, 0, 1, 1, 2]) {
        let page = rng.below(pages + 2) as u32;
        let root = base.root(rng).unwrap_or(1);
        let name = *rng.pick(&[0, 1, root, root, pages as u32, pages as u32 + 1, page, u32::MAX]);
        names.insert(rng.below(names.len() + 1), name);
    }
    names
}

/// An image with named indexes: as it is, with keys changed, with another encoding, or damaged otherwise.
pub fn case(base: &Base, hold: &mut Hold, rng: &mut Rng) -> Held {
    let mut image = base.image.clone();
    if let (Ok(shape), false) = (header(&base.image), base.indexes.is_empty()) {
        for _ in 0..*rng.pick(&[0, 1, 1, 1, 2]) {
            key_damage(base, &mut image, &shape, rng.pick(&base.indexes), rng);
        }
    }
    if rng.below(5) == 0 {
        damage(base, &mut image, rng);
    }
    if rng.below(16) == 0 {
        put(&mut image, 56, &(*rng.pick(&[0u32, 2, 3, 0x0100_0001, u32::MAX])).to_be_bytes());
    }
    let pages = header(&image).map_or(image.len() / 512, |shape| shape.pages);
    let names = names(base, pages, rng);
    let mut room = || match rng.below(60) {
        0 => pages.saturating_sub(1),
        1 => rng.below(pages + 1),
        2..=30 => pages,
        _ => pages + rng.below(9),
    };
    let rooms = Rooms { kinds: room(), namers: room(), steps: room() };
    hold.check_ordered(&image, &names, rooms)
}

/// Each index of an image by itself, all of them, and each page by itself.
pub fn exact(base: &Base, hold: &mut Hold) -> Held {
    let pages = base.image.len() / 512;
    let all: Vec<u32> = base.indexes.iter().map(|index| index.root).collect();
    hold.check_ordered(&base.image, &all, Rooms::all(pages))?;
    for &root in all.iter().take(20) {
        hold.check_ordered(&base.image, &[root], Rooms::all(pages))?;
    }
    for name in (0..=pages.min(8) as u32).chain([pages as u32, pages as u32 + 1, u32::MAX]) {
        hold.check_ordered(&base.image, &[name], Rooms::all(pages))?;
    }
    Ok(())
}

/// All indexes of a file that sqlite3 made.
pub fn exact_file(image: &[u8], hold: &mut Hold) -> Held {
    let pages = image.len() / 512;
    let mut kinds = vec![0; pages];
    let found = Plain.check(image, &mut kinds, &mut vec![0; pages], &mut vec![0; pages]).pages;
    let all: Vec<u32> = indexes(image, &kinds[..found as usize]).iter().map(|index| index.root).collect();
    hold.check_ordered(image, &all, Rooms::all(pages))
}

/// Of an image that the verdict refused with 33 at a page: the page's type, and whether the first key there that is not more than the one before it runs over a chain.
pub fn disorder(image: &[u8], names: &[u32], page: u32) -> Option<(u8, bool)> {
    let shape = header(image).ok()?;
    let kind = *image.get((page as usize).checked_sub(1)? * shape.page_size)?;
    let payload = |key: (u32, u32)| places(image, &shape, key).iter().map(|&spot| image[spot]).collect::<Vec<u8>>();
    for &root in names.iter().filter(|&&root| root > 1 && root as usize <= shape.pages) {
        let mut found = Vec::new();
        if !matches!(image[(root as usize - 1) * shape.page_size], INDEX_INTERIOR | INDEX_LEAF) {
            continue;
        }
        keys_known(image, &shape, root, 20, &mut found)?;
        let bad = found.windows(2).find(|pair| Plain.record_order(&payload(pair[0]), &payload(pair[1])).order != -1);
        if let Some(pair) = bad.filter(|pair| pair[1].0 == page) {
            let tree = tree_page(image, &shape, page, &[INDEX_INTERIOR, INDEX_LEAF], &mut Marks::default()).ok()?;
            let cell = tree.cell(pair[1].1 as usize);
            return Some((kind, cell.local < cell.payload));
        }
    }
    None
}

/// The keys under a page of an image that may be damaged; none where that is met first.
fn keys_known(image: &[u8], shape: &Header, page: u32, levels: u32, found: &mut Vec<(u32, u32)>) -> Option<()> {
    if page == 0 || page as usize > shape.pages || levels == 0 || found.len() > 10_000 {
        return None;
    }
    let tree = tree_page(image, shape, page, &[INDEX_INTERIOR, INDEX_LEAF], &mut Marks::default()).ok()?;
    for i in 0..tree.cells {
        if !tree.is_leaf() {
            keys_known(image, shape, tree.cell(i).child, levels - 1, found)?;
        }
        Plain.payload_fetch(image, page, i as u32, &mut vec![0; 65536]).refusal.eq(&0).then_some(())?;
        found.push((page, i as u32));
    }
    if !tree.is_leaf() {
        keys_known(image, shape, tree.right, levels - 1, found)?;
    }
    Some(())
}

/// Indexes with keys as long as can be, which differ in their last byte alone: on a leaf, and one of three on an interior page.
pub fn long_keys(two_pages: &[u8]) -> Vec<Base> {
    const SIZE: usize = 512;
    const REST: usize = SIZE - 4;
    // The schema's one row names page 2, whatever it is there.
    let made = |name: &str, length: usize, lasts: [u8; 3], inner: bool| {
        let mut image = two_pages[..SIZE].to_vec();
        let trees = if inner { 3 } else { 1 };
        let mut chains: Vec<u8> = Vec::new();
        let mut cells: Vec<Vec<u8>> = Vec::new();
        for last in lasts {
            let mut record = vec![4];
            let mut varint = [0; 9];
            let taken = write_varint(12 + 2 * (length as i64 - 4), &mut varint).expect("room");
            record.extend(&varint[..taken]);
            record.resize(length - 1, b'k');
            record.push(last);
            let local = plain::page::local_len(INDEX_LEAF, SIZE, length);
            let first = 1 + trees + chains.len() / SIZE + 1;
            let taken = write_varint(length as i64, &mut varint).expect("room");
            cells.push([&varint[..taken], &record[..local], &(first as u32).to_be_bytes()].concat());
            let parts: Vec<&[u8]> = record[local..].chunks(REST).collect();
            for (i, part) in parts.iter().enumerate() {
                let next = if i + 1 < parts.len() { first + i + 1 } else { 0 };
                chains.extend((next as u32).to_be_bytes());
                chains.extend(*part);
                chains.resize(chains.len().next_multiple_of(SIZE), 0);
            }
        }
        let page = |kind: u8, right: Option<u32>, cells: &[Vec<u8>]| {
            let mut page = vec![0; SIZE];
            let mut content = SIZE;
            for (i, cell) in cells.iter().enumerate() {
                content -= cell.len();
                put(&mut page, content, cell);
                put(&mut page, if right.is_some() { 12 } else { 8 } + 2 * i, &(content as u16).to_be_bytes());
            }
            page[0] = kind;
            put(&mut page, 3, &(cells.len() as u16).to_be_bytes());
            put(&mut page, 5, &(content as u16).to_be_bytes());
            if let Some(right) = right {
                put(&mut page, 8, &right.to_be_bytes());
            }
            page
        };
        if inner {
            let middle = [&3u32.to_be_bytes()[..], &cells[1]].concat();
            image.extend(page(INDEX_INTERIOR, Some(4), &[middle]));
            image.extend(page(INDEX_LEAF, None, &cells[..1]));
            image.extend(page(INDEX_LEAF, None, &cells[2..]));
        } else {
            image.extend(page(INDEX_LEAF, None, &cells));
        }
        image.extend(chains);
        let pages = (image.len() / SIZE) as u32;
        put(&mut image, 28, &pages.to_be_bytes());
        Base::new(name, image)
    };
    vec![
        made("long-keys", 65536, [1, 2, 3], false),
        made("long-keys-inner", 65536, [1, 2, 3], true),
        made("long-keys-equal", 65536, [1, 1, 3], false),
        made("long-keys-inner-equal", 65535, [1, 3, 3], true),
        made("long-keys-swapped", 66_000 - 465, [2, 1, 3], false),
        made("long-keys-inner-swapped", 65536, [2, 1, 3], true),
    ]
}
