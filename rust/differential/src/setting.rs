//! Rows set: records that fit, just fit and just do not, in images as sqlite3 made them and damaged, with ledgers that are theirs and that are not. Of an
//! image that was accepted all is asked again afterwards: verdict, ledgers, every row and its payload.

use plain::header::{header, Header};
use plain::number::varint_len;
use plain::page::{tree_page, Marks, TABLE_LEAF};
use plain::record;
use world::reader::{Plain, Reader};
use world::rng::Rng;

use crate::hold::{same, same_bytes, Held, Hold, Rooms};
use crate::images::{damage, put, some_row, Base};
use crate::proved::Proved;

/// What 53 and 54 are for; each has to be met by itself.
pub const GROUNDS: [u32; 6] = [530, 531, 532, 540, 541, 542];
/// Rows that are read again after a set.
const ROWS: usize = 400;

/// A record of a length from 0 on, where there is one.
fn of_length(length: usize, rng: &mut Rng) -> Vec<u8> {
    let mut made = match length {
        0 => return Vec::new(),
        1 => vec![1],
        2 => vec![2, *rng.pick(&[0, 8, 9])],
        _ => {
            // One text or blob behind nulls, so that every length is met.
            let types = |value: usize| varint_len(12 + 2 * value as i64);
            let mut value = length - 2;
            while varint_len(1 + types(value) as i64) + types(value) + value > length {
                value -= 1;
            }
            let nulls = length - value - types(value) - 1;
            let mut bytes = vec![(1 + nulls + types(value)) as u8];
            bytes.resize(1 + nulls, 0);
            let mut spelled = [0; 9];
            let n = plain::number::write_varint(12 + 2 * value as i64 + rng.below(2) as i64, &mut spelled).expect("nine bytes are enough");
            bytes.extend(&spelled[..n]);
            bytes
        }
    };
    let from = made.len();
    made.resize(length.max(from), 0);
    let filled = made.len().min(from + 300);
    rng.fill(&mut made[from..filled]);
    made
}

/// How long a record the row's page has room for, and the longest with no chain.
fn room(image: &[u8], shape: &Header, page: u32, cell: u32, row: i64) -> Option<(usize, usize)> {
    let leaf = tree_page(image, shape, page, &[TABLE_LEAF], &mut Marks::default()).ok()?;
    let start = |i: usize| usize::from(plain::number::be16(leaf.bytes, 8 + 2 * i));
    let others: usize = (0..leaf.cells).filter(|&i| i != cell as usize).map(|i| leaf.cell(i).end - start(i)).sum();
    let left = shape.usable.checked_sub(8 + 2 * leaf.cells + others + varint_len(row))?;
    let most = (0..=left).rev().find(|&length| length + varint_len(length as i64) <= left)?;
    Some((most, shape.usable - 35))
}

/// Why a set was refused with 53 or 54.
fn ground(image: &[u8], root: u32, row: i64, record: &[u8], refusal: u32) -> Option<u32> {
    let found = Plain.lookup(image, root, row);
    let shape = header(image).ok()?;
    let chained = |leaf: plain::page::TreePage| {
        let cell = leaf.cell(found.cell as usize);
        cell.local < cell.payload
    };
    Some(match refusal {
        53 if root == 1 => 530,
        53 if found.page == 1 => 532,
        53 => 531,
        54 if tree_page(image, &shape, found.page, &[TABLE_LEAF], &mut Marks::default()).is_ok_and(chained) => 540,
        54 if record.len() > shape.usable - 35 => 541,
        54 => 542,
        _ => return None,
    })
}

/// Sets a row with both: the answer, and every byte of the image, the kinds and the record. The image afterwards, where it was set.
fn held(hold: &mut Hold, image: &[u8], kinds: &[u8], root: u32, row: i64, record: &[u8]) -> Result<Option<Vec<u8>>, String> {
    let (refusal, set) = hold.row_set(image, kinds, root, row, record)?;
    if let Some(ground) = ground(image, root, row, record, refusal) {
        *hold.met.entry(("row_set, what 53 and 54 are for", ground)).or_default() += 1;
    }
    Ok(set)
}

/// Every row under a root, with its payload.
fn rows(image: &[u8], root: u32) -> Vec<(i64, u32, u32, Vec<u8>)> {
    let mut words = vec![0; 41];
    let mut listed = Vec::new();
    let mut out = vec![0; 65536];
    let mut row = Proved.rows_first(image, root, &mut words);
    while row.refusal == 0 && row.found == 1 && listed.len() < ROWS {
        let payload = Proved.payload_fetch(image, row.page, row.cell, &mut out);
        listed.push((row.row, row.page, row.cell, out[..payload.length as usize].to_vec()));
        row = Proved.rows_step(image, &mut words);
    }
    listed
}

/// An accepted image, and the same with a row set: same ledgers, a count that is lower by the cell's, the record, and every other payload.
fn after(base: &Base, image: &[u8], set: &[u8], root: u32, row: i64, record: &[u8], hold: &mut Hold) -> Held {
    let most = image.len() / 512;
    let told = |image: &[u8]| {
        let mut ledgers = (vec![0; most], vec![0; most], vec![0; most]);
        let verdict = Proved.check(image, &mut ledgers.0, &mut ledgers.1, &mut ledgers.2);
        (verdict, ledgers)
    };
    let ((before, ledgers), (verdict, again)) = (told(image), told(set));
    same("the verdict after a set", (verdict.refusal, verdict.pages), (0, before.pages))?;
    same("the ledgers after a set", again == ledgers, true)?;
    let shape = header(image).map_err(|refusal| format!("refused {refusal}"))?;
    let found = Plain.lookup(image, root, row);
    let leaf = tree_page(image, &shape, found.page, &[TABLE_LEAF], &mut Marks::default()).map_err(|refusal| format!("{refusal:?}"))?;
    let long = leaf.cell(found.cell as usize).long;
    same("the count of long spellings", verdict.long_spellings + long, before.long_spellings)?;
    *hold.met.entry(("row_set, long spellings of its cell", long as u32)).or_default() += 1;
    let mut out = vec![0; 65536];
    let answer = Proved.lookup(set, root, row);
    let fetched = Proved.payload_fetch(set, answer.page, answer.cell, &mut out);
    same("where the row is", (answer.page, answer.cell, answer.length as usize), (found.page, found.cell, record.len()))?;
    same_bytes("the record that was set", &out[..fetched.length as usize], record)?;
    for root in base.trees().filter(|&page| base.kind(page) == 1).take(30) {
        for ((number, page, cell, old), (again, page_again, cell_again, new)) in rows(image, root).into_iter().zip(rows(set, root)) {
            same("a row's place after a set", (again, page_again, cell_again), (number, page, cell))?;
            let here = (page, cell) == (found.page, found.cell);
            same_bytes(&format!("row {number} under {root}"), &new, if here { record } else { &old })?;
        }
        same("how many rows", rows(image, root).len(), rows(set, root).len())?;
    }
    hold.check(set, Rooms::all(most))
}

/// Two images that differ in what the row's page holds of it alone: the same image afterwards.
fn forgotten(image: &[u8], kinds: &[u8], root: u32, row: i64, record: &[u8], set: &[u8], rng: &mut Rng, hold: &mut Hold) -> Held {
    let other = of_length(rng.below(record.len() + 40), rng);
    let mut between = image.to_vec();
    if Proved.row_set(&mut between, kinds, root, row, &other).found == 1 {
        let answer = Proved.row_set(&mut between, kinds, root, row, record);
        same("set again", answer.found, 1)?;
        same_bytes("nothing is left of the record between", &between, set)?;
        *hold.met.entry(("row_set, forgotten", 0)).or_default() += 1;
    }
    Ok(())
}

/// An image, mostly as it was made; a row of it, mostly there; a record about as long as there is room for, or any.
pub fn case(base: &Base, hold: &mut Hold, rng: &mut Rng) -> Held {
    let mut image = base.image.clone();
    for _ in 0..*rng.pick(&[0, 0, 0, 0, 1, 1, 2]) {
        damage(base, &mut image, rng);
    }
    let most = image.len() / 512;
    let mut kinds = vec![0; most];
    let verdict = Plain.check(&image, &mut kinds, &mut vec![0; most], &mut vec![0; most]);
    if verdict.refusal == 0 {
        kinds.truncate(verdict.pages as usize);
    } else {
        kinds = (1..=base.trees().max().unwrap_or(0)).map(|page| base.kind(page)).collect();
    }
    let own = kinds.clone();
    match rng.below(12) {
        0 => kinds.truncate(rng.below(kinds.len() + 1)),
        1 if !kinds.is_empty() => {
            let at = rng.below(kinds.len());
            kinds[at] = *rng.pick(&[0, 1, 2, 6, 255]);
        }
        2 => kinds.resize(kinds.len() + rng.below(9), 1),
        _ => {}
    }
    let root = match rng.below(12) {
        0 => *rng.pick(&[0, 1, 1, 2, own.len() as u32 + 1, u32::MAX]),
        1 => 1 + rng.below(own.len().max(1)) as u32,
        _ => base.root(rng).unwrap_or(2),
    };
    // A row that is there, as the cursor shows it, or any.
    let mut words = vec![0; 41];
    let seek = some_row(&image, rng);
    let shown = plain::c::rows_seek(&image, root, seek, &mut words, 200).filter(|shown| shown.found == 1);
    let row = if rng.below(10) == 0 { seek } else { shown.map_or(seek, |shown| shown.row) };
    let found = Plain.lookup(&image, root, row);
    let rooms =
        header(&image).ok().filter(|_| found.found == 1 && found.page != 1).and_then(|shape| room(&image, &shape, found.page, found.cell, row));
    let near = |length: usize, rng: &mut Rng| (length + rng.below(4)).saturating_sub(2);
    let length = match (rng.below(8), rooms) {
        (0, Some((most, _))) => near(most, rng),
        (1, Some((_, local))) => near(local, rng),
        (2, Some((most, local))) => near(most.min(local), rng),
        (3, Some((most, _))) => rng.below(most + 1),
        (4, _) => 126 + rng.below(5),
        (5, _) => found.length as usize,
        _ => rng.below(60),
    };
    let mut record = of_length(length, rng);
    if rng.below(10) == 0 && !record.is_empty() {
        let at = rng.below(record.len().min(6));
        record[at] = rng.byte();
    }
    let Some(set) = held(hold, &image, &kinds, root, row, &record)? else { return Ok(()) };
    let cut = rooms.is_some_and(|(most, local)| record.len() == most.min(local));
    *hold.met.entry(("row_set, just fits", u32::from(cut))).or_default() += 1;
    forgotten(&image, &kinds, root, row, &record, &set, rng, hold)?;
    if verdict.refusal == 0 && own.get(root as usize - 1) == Some(&1) && image.len() <= 200_000 {
        after(base, &image, &set, root, row, &record, hold)?;
    }
    Ok(())
}

/// Inputs made by hand: the order of refusals, growth over each length of a length, and a leaf that is page 1.
pub fn by_hand(hold: &mut Hold) -> Held {
    let mut image = plain_file(65536, &[(1, of_length(127, &mut Rng::new(1))), (2, of_length(100, &mut Rng::new(2)))]);
    let kinds = [1, 1];
    let mut rng = Rng::new(3);
    for length in [127, 128, 16383, 16384, 32768, 40000, 32768, 128, 127, 3, 2, 1] {
        let record = of_length(length, &mut rng);
        image = held(hold, &image, &kinds, 2, 1, &record)?.ok_or(format!("{length} bytes are to be set"))?;
        hold.check(&image, Rooms::all(128))?;
    }
    let refused = |hold: &mut Hold, what: &str, wanted: (u32, u32), image: &[u8], kinds: &[u8], root, row, record: &[u8]| -> Held {
        let told = Plain.row_set(&mut image.to_vec(), kinds, root, row, record);
        same(what, (told.refusal, told.page, told.found, told.cell, told.length), (wanted.0, wanted.1, 0, 0, 0))?;
        held(hold, image, kinds, root, row, record).map(|_| ())
    };
    let no_record: &[u8] = &[5];
    refused(hold, "a root of 0 before all else", (20, 0), &image, &[], 0, 1, no_record)?;
    refused(hold, "nothing found before 53", (0, 0), &image, &[], 2, 9, no_record)?;
    refused(hold, "the schema's row, before 28", (53, 1), &image, &kinds, 1, 1, no_record)?;
    refused(hold, "no kind, before 28", (53, 2), &image, &[], 2, 1, no_record)?;
    refused(hold, "the ledger ends before it", (53, 2), &image, &[1], 2, 1, &[1])?;
    refused(hold, "another kind", (53, 2), &image, &[1, 6], 2, 1, &[1])?;
    let long = of_length(65536 - 34, &mut rng);
    let mut off = long.clone();
    off[0] = 9;
    refused(hold, "no record, before 54", (28, 0), &image, &kinds, 2, 1, &off)?;
    refused(hold, "no bytes", (28, 0), &image, &kinds, 2, 1, &[])?;
    refused(hold, "a byte too long for its page alone", (54, 2), &image, &kinds, 2, 1, &long)?;
    refused(hold, "no room beside the other row", (54, 2), &image, &kinds, 2, 1, &of_length(65536 - 35, &mut rng))?;
    // An interior page whose right child is page 1.
    let mut over = image.clone();
    let page = vec![0; 65536];
    put(&mut over, 65536, &page);
    put(&mut over, 65536, &[5, 0, 0, 0, 0, 0, 0, 0, 0, 0, 0, 1]);
    refused(hold, "the leaf is page 1", (53, 1), &over, &kinds, 2, 1, no_record)
}

/// A table at page 2, of one leaf, over pages of one size with none of their bytes reserved.
fn plain_file(size: usize, rows: &[(i64, Vec<u8>)]) -> Vec<u8> {
    let schema = [6, 0x17, 0x0f, 0x0f, 1, 0x0f].iter().chain(b"tablett").chain(&[2]).chain(b"x").copied().collect::<Vec<u8>>();
    assert_eq!(record::columns(&schema), Some(5), "the schema's record");
    let leaf = |at: usize, cells: &[(i64, Vec<u8>)]| {
        let mut page = vec![0; size];
        let mut end = size;
        page[at] = TABLE_LEAF;
        put(&mut page, at + 3, &(cells.len() as u16).to_be_bytes());
        for (i, (row, payload)) in cells.iter().enumerate() {
            let mut cell = Vec::new();
            for number in [payload.len() as i64, *row] {
                let mut varint = [0; 9];
                let n = plain::number::write_varint(number, &mut varint).expect("nine bytes are enough");
                cell.extend(&varint[..n]);
            }
            cell.extend(payload);
            cell.resize(cell.len().max(4), 0);
            end -= cell.len();
            put(&mut page, end, &cell);
            put(&mut page, at + 8 + 2 * i, &(end as u16).to_be_bytes());
        }
        put(&mut page, at + 5, &(end as u16).to_be_bytes());
        page
    };
    let mut image = leaf(100, &[(1, schema)]);
    put(&mut image, 0, b"SQLite format 3\0");
    put(&mut image, 16, &if size == 65536 { [0, 1] } else { (size as u16).to_be_bytes() });
    put(&mut image, 18, &[1, 1, 0, 64, 32, 32, 0, 0, 0, 1, 0, 0, 0, 2]);
    put(&mut image, 56, &[0, 0, 0, 1]);
    put(&mut image, 95, &[1]);
    image.extend(leaf(0, rows));
    image
}
