//! A fresh file from rows and one schema record, after docs/LAYOUT.md: pages of 1,024 bytes, the schema on page 1, one table whose
//! root is page 2, overflow chains behind the tree.

use crate::number::{varint_len, write_varint};
use crate::page::local_len;
use crate::record::{self, Column, Value};
use crate::MAX_PAYLOAD;

const SIZE: usize = 1024;
const LEAF: u8 = 13;
const INTERIOR: u8 = 5;
/// At most so many rows, and so many pages, whatever other limits are.
const MAX_ROWS: usize = 4096;
const MAX_PAGES: usize = 4096;
/// The longest schema record: its cell takes what page 1 has room for.
const MAX_SCHEMA: usize = 911;

fn varint(value: i64) -> Vec<u8> {
    let mut out = [0; 9];
    let n = write_varint(value, &mut out).expect("nine bytes are enough");
    out[..n].to_vec()
}

fn local(payload: usize) -> usize {
    local_len(LEAF, SIZE, payload)
}

/// How many overflow pages a payload takes.
fn links(payload: usize) -> usize {
    (payload - local(payload)).div_ceil(SIZE - 4)
}

fn leaf_cell(row: i64, payload: &[u8], first: u32) -> Vec<u8> {
    let mut cell = varint(payload.len() as i64);
    cell.extend(varint(row));
    let n = local(payload.len());
    cell.extend(&payload[..n]);
    if n < payload.len() {
        cell.extend(first.to_be_bytes());
    }
    while cell.len() < 4 {
        cell.push(0);
    }
    cell
}

/// A tree page: what stands before its header, the header, pointers, zeros, and the cells up to the page's end.
fn tree_page(front: &[u8], kind: u8, right: u32, cells: &[Vec<u8>]) -> Vec<u8> {
    let mut at = SIZE - cells.iter().map(Vec::len).sum::<usize>();
    let mut page = front.to_vec();
    page.extend([kind, 0, 0]);
    page.extend((cells.len() as u16).to_be_bytes());
    page.extend((at as u16).to_be_bytes());
    page.push(0);
    if kind == INTERIOR {
        page.extend(right.to_be_bytes());
    }
    let begin = at;
    for cell in cells {
        page.extend((at as u16).to_be_bytes());
        at += cell.len();
    }
    page.resize(begin, 0);
    for cell in cells {
        page.extend(cell);
    }
    page
}

/// Children, each a page and the largest row number under it, put on interior pages.
fn interior_groups(children: &[(u32, i64)]) -> Vec<Vec<(u32, i64)>> {
    let mut groups: Vec<Vec<(u32, i64)>> = Vec::new();
    let mut used = usize::MAX;
    for &(page, key) in children {
        let weight = 6 + varint_len(key);
        if used <= SIZE - 12 {
            groups.last_mut().expect("a group is open").push((page, key));
            used += weight;
        } else {
            groups.push(vec![(page, key)]);
            used = weight;
        }
    }
    let n = groups.len();
    if 1 < n && groups[n - 1].len() == 1 {
        let moved = groups[n - 2].pop().expect("no group is empty");
        groups[n - 1].insert(0, moved);
    }
    groups
}

fn interior_page(group: &[(u32, i64)]) -> Vec<u8> {
    let (last, others) = group.split_last().expect("no group is empty");
    let cells: Vec<Vec<u8>> = others.iter().map(|&(page, key)| [page.to_be_bytes().to_vec(), varint(key)].concat()).collect();
    tree_page(&[], INTERIOR, last.0, &cells)
}

fn numbered(first: usize, keys: &[i64]) -> Vec<(u32, i64)> {
    keys.iter().enumerate().map(|(i, &key)| ((first + i) as u32, key)).collect()
}

/// The interior pages, from page 2 on, above leaves with these largest row numbers.
fn interior_pages(keys: &[i64]) -> Vec<Vec<u8>> {
    if keys.len() < 2 {
        return Vec::new();
    }
    let low = interior_groups(&numbered(3, keys));
    if low.len() == 1 {
        return vec![interior_page(&low[0])];
    }
    let low = interior_groups(&numbered(3 + low.len(), keys));
    let tops: Vec<i64> = low.iter().map(|group| group[group.len() - 1].1).collect();
    let root = interior_groups(&numbered(3, &tops));
    root.iter().chain(&low).map(|group| interior_page(group)).collect()
}

/// The rows of each leaf: as many as fit before the next is begun.
fn leaf_groups(rows: &[(i64, &[u8])]) -> Vec<std::ops::Range<usize>> {
    let mut groups = Vec::new();
    let mut begin = 0;
    let mut used = 0;
    for (i, &(row, payload)) in rows.iter().enumerate() {
        let weight = 2 + leaf_cell(row, payload, 0).len();
        if SIZE - 8 < used + weight {
            groups.push(begin..i);
            begin = i;
            used = 0;
        }
        used += weight;
    }
    groups.push(begin..rows.len());
    groups
}

fn file_header(pages: usize) -> Vec<u8> {
    let mut head = b"SQLite format 3\0".to_vec();
    head.extend([4, 0, 1, 1, 0, 64, 32, 32]);
    for word in [1, pages as u32, 0, 0, 1, 4, 0, 0, 1, 0, 0, 0, 0, 0, 0, 0, 0, 1, 0] {
        head.extend(word.to_be_bytes());
    }
    head
}

/// Why the inputs are refused, if they are: 48, 26, 28.
fn refused(schema: &[u8], rows: &[i64], lengths: &[u32], payloads: &[u8]) -> Option<u32> {
    let total: u64 = lengths.iter().map(|&n| u64::from(n)).sum();
    if lengths.len() != rows.len() || MAX_ROWS < rows.len() || total != payloads.len() as u64 || rows.windows(2).any(|two| two[1] <= two[0]) {
        return Some(48);
    }
    if lengths.iter().any(|&n| MAX_PAYLOAD < u64::from(n)) {
        return Some(26);
    }
    let mut rest = payloads;
    for &n in lengths {
        let (payload, behind) = rest.split_at(n as usize);
        if record::columns(payload).is_none() {
            return Some(28);
        }
        rest = behind;
    }
    let fits = schema.len() <= MAX_SCHEMA && record::columns(schema) == Some(5) && record::column(schema, 4) == Column::Value(Value::Integer(2));
    (!fits).then_some(28)
}

/// Writes the image to the start of `out`; its number of pages. Refused, `out` stays as it was.
pub fn build(schema: &[u8], rows: &[i64], lengths: &[u32], payloads: &[u8], out: &mut [u8]) -> Result<usize, u32> {
    if let Some(number) = refused(schema, rows, lengths, payloads) {
        return Err(number);
    }
    let mut given = Vec::new();
    let mut rest = payloads;
    for (&row, &n) in rows.iter().zip(lengths) {
        let (payload, behind) = rest.split_at(n as usize);
        given.push((row, payload));
        rest = behind;
    }
    let groups = leaf_groups(&given);
    let keys: Vec<i64> = groups.iter().map(|group| group.clone().last().map_or(0, |i| given[i].0)).collect();
    let mut pages = interior_pages(&keys);
    let mut next = 2 + pages.len() + groups.len();
    let count = next - 1 + given.iter().map(|(_, payload)| links(payload.len())).sum::<usize>();
    if MAX_PAGES < count {
        return Err(5);
    }
    if out.len() < count * SIZE {
        return Err(44);
    }
    let mut chains = Vec::new();
    for group in groups {
        let mut cells = Vec::new();
        for &(row, payload) in &given[group] {
            cells.push(leaf_cell(row, payload, next as u32));
            let n = links(payload.len());
            for (k, chunk) in payload[local(payload.len())..].chunks(SIZE - 4).enumerate() {
                let after = if k + 1 == n { 0 } else { next + k + 1 };
                let mut page = (after as u32).to_be_bytes().to_vec();
                page.extend(chunk);
                page.resize(SIZE, 0);
                chains.push(page);
            }
            next += n;
        }
        pages.push(tree_page(&[], LEAF, 0, &cells));
    }
    let first = tree_page(&file_header(count), LEAF, 0, &[leaf_cell(1, schema, 0)]);
    let image = [vec![first], pages, chains].concat().concat();
    out[..image.len()].copy_from_slice(&image);
    Ok(count)
}
