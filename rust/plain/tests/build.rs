//! Fresh files, read back: the verdict's ledgers, each row and no other, refusals in their order, bytes behind the image.

use plain::build::build;
use plain::lookup::{lookup, payload};
use plain::number::write_varint;
use plain::verdict::verdict;

fn varint(value: i64) -> Vec<u8> {
    let mut out = [0; 9];
    let n = write_varint(value, &mut out).unwrap();
    out[..n].to_vec()
}

/// A record of one blob of n bytes.
fn blob(n: usize, byte: u8) -> Vec<u8> {
    let mut kind = varint(12 + 2 * n as i64);
    let mut record = varint(1 + kind.len() as i64);
    record.append(&mut kind);
    record.extend(std::iter::repeat(byte).take(n));
    record
}

/// A schema record: five columns, the fourth of one byte.
fn schema(root: u8, sql: usize) -> Vec<u8> {
    let mut types = vec![15, 15, 15, 1];
    types.extend(varint(13 + 2 * sql as i64));
    let mut record = vec![1 + types.len() as u8];
    record.extend(types);
    record.extend(*b"ttt");
    record.push(root);
    record.extend(std::iter::repeat(b'c').take(sql));
    record
}

fn joined(rows: &[(i64, Vec<u8>)]) -> (Vec<i64>, Vec<u32>, Vec<u8>) {
    let numbers = rows.iter().map(|row| row.0).collect();
    let lengths = rows.iter().map(|row| row.1.len() as u32).collect();
    (numbers, lengths, rows.iter().flat_map(|row| row.1.clone()).collect())
}

fn read_back(rows: &[(i64, Vec<u8>)]) -> usize {
    let (numbers, lengths, payloads) = joined(rows);
    let mut out = vec![0xaa; (payloads.len() / 900 + rows.len() + 8) * 1024];
    let pages = build(&schema(2, 20), &numbers, &lengths, &payloads, &mut out).unwrap();
    assert!(out[pages * 1024..].iter().all(|&byte| byte == 0xaa));
    // As docs/LAYOUT.md bounds it.
    assert!(pages <= rows.len() + rows.len() / 64 + payloads.len() / 990 + 4);
    let image = &out[..pages * 1024];
    let mut kinds = vec![0; pages];
    let mut namers = vec![0; pages];
    let mut steps = vec![0; pages];
    let accepted = verdict(image, &mut kinds, &mut namers, &mut steps).unwrap();
    assert_eq!((accepted.pages, accepted.long_spellings), (pages, 0));
    assert_eq!((kinds[0], kinds[1], namers[0], namers[1], steps[0], steps[1]), (1, 1, 0, 1, 0, 1));
    let tree = 1 + kinds.iter().rposition(|&kind| kind == 1 || kind == 6).unwrap();
    assert!(kinds[2..tree].iter().all(|&kind| kind == 6) && kinds[tree..].iter().all(|&kind| kind == 4 || kind == 5));
    let mut room = vec![0; 65536];
    for (row, bytes) in rows.iter().step_by(1 + rows.len() / 256) {
        let found = lookup(image, 2, *row).unwrap().unwrap();
        assert_eq!(found.payload, bytes.len());
        assert_eq!(payload(image, found.page, found.cell as u32, &mut room).unwrap(), bytes.len());
        assert_eq!(&room[..bytes.len()], &bytes[..]);
        for other in [row.checked_sub(1), row.checked_add(1)].into_iter().flatten() {
            assert_eq!(lookup(image, 2, other).unwrap().is_some(), numbers.binary_search(&other).is_ok());
        }
    }
    pages
}

#[test]
fn rows_read_back() {
    assert_eq!(read_back(&[]), 2);
    assert_eq!(read_back(&[(i64::MIN, blob(0, 1)), (-1, blob(1, 2)), (0, blob(2, 3)), (i64::MAX, blob(3, 4))]), 2);
    read_back(&(0..4096).map(|i| (i * 7 - 9000, blob(i as usize % 5, i as u8))).collect::<Vec<_>>());
    // each payload length around the edges of the page and of the split
    for n in (980..995).chain(1088..1100).chain(2000..2015).chain([3000, 65536 - 4]) {
        read_back(&[(1, blob(n, 5)), (2, blob(7, 6)), (3, blob(n, 7))]);
    }
    // as many leaves as an interior page holds, and one more; the one child alone
    for n in [1, 2, 67, 68, 69, 70, 136, 137, 138, 204, 205, 206, 1000] {
        read_back(&(0..n).map(|i| (i64::MIN + i, blob(960, i as u8))).collect::<Vec<_>>());
    }
}

/// The levels of the table at page 2.
fn levels(image: &[u8]) -> usize {
    let (mut page, mut levels) = (2, 1);
    while image[(page - 1) * 1024] == 5 {
        page = u32::from_be_bytes(image[(page - 1) * 1024 + 8..][..4].try_into().unwrap()) as usize;
        levels += 1;
    }
    levels
}

#[test]
fn levels_and_the_one_child_alone() {
    for (leaves, pages, deep, children) in
        [(1, 2, 1, 0), (2, 4, 2, 0), (68, 70, 2, 0), (69, 73, 3, 2), (70, 74, 3, 2), (71, 75, 3, 3), (137, 142, 3, 2)]
    {
        let rows: Vec<(i64, Vec<u8>)> = (0..leaves).map(|i| (i64::MIN + i, blob(960, 0))).collect();
        let (numbers, lengths, payloads) = joined(&rows);
        let mut out = vec![0; 4096 * 1024];
        assert_eq!(build(&schema(2, 20), &numbers, &lengths, &payloads, &mut out), Ok(pages));
        assert_eq!(levels(&out), deep, "{leaves} leaves");
        if deep == 3 {
            // The last interior page is the root's right child: its cells, and one more.
            let last = usize::from(out[1024 + 11]);
            assert_eq!(1 + usize::from(out[(last - 1) * 1024 + 4]), children, "{leaves} leaves");
            let first = 1 + usize::from(out[2 * 1024 + 4]);
            assert_eq!(first, if leaves == 69 { 67 } else { 68 });
            // The first child's key in the root is the largest row number under it, in nine bytes.
            let cell = usize::from(u16::from_be_bytes([out[1024 + 12], out[1024 + 13]]));
            assert_eq!(out[1024 + cell..][..4], [0, 0, 0, 3]);
            assert_eq!(&out[1024 + cell + 4..][..9], &varint(i64::MIN + first as i64 - 1)[..]);
        }
    }
}

/// The example of docs/LAYOUT.md: what its table says, and zeros elsewhere.
#[test]
fn the_layouts_example() {
    let layout = include_str!("../../../docs/LAYOUT.md");
    let (_, example) = layout.split_once("## An example").unwrap();
    let (example, _) = example.split_once("\n## ").unwrap();
    let mut expected = vec![0; 2048];
    let mut told = 0;
    for line in example.lines().filter(|line| line.starts_with("| ") && line.contains('`')) {
        let fields: Vec<&str> = line.split('|').map(str::trim).collect();
        let bytes: Vec<u8> = fields[2].trim_matches('`').split(' ').map(|byte| u8::from_str_radix(byte, 16).unwrap()).collect();
        let from: usize = fields[1].parse().unwrap();
        expected[from..from + bytes.len()].copy_from_slice(&bytes);
        told += 1;
    }
    assert_eq!(told, 9);
    let schema = [6, 15, 15, 15, 1, 15, b't', b't', b't', 2, b'c'];
    let mut out = vec![0xaa; 2048];
    assert_eq!(build(&schema, &[-1, 5], &[2, 1], &[2, 9, 1], &mut out), Ok(2));
    assert!(out == expected);
}

#[test]
fn refusals_in_order() {
    let try_with = |schema: &[u8], rows: &[i64], lengths: &[u32], payloads: &[u8], room: usize| {
        let mut out = vec![0xaa; room];
        let answer = build(schema, rows, lengths, payloads, &mut out);
        assert!(answer.is_ok() || out.iter().all(|&byte| byte == 0xaa));
        answer
    };
    let (good, bad, none) = (schema(2, 20), schema(3, 20), Vec::new());
    let long = vec![0; 65537];
    assert_eq!(try_with(&bad, &[2, 1], &[1, 1], &[1, 1], 0), Err(48));
    assert_eq!(try_with(&bad, &[1, 1], &[1, 1], &[1, 1], 0), Err(48));
    assert_eq!(try_with(&bad, &[1], &[1, 1], &[1, 1], 0), Err(48));
    assert_eq!(try_with(&bad, &[1], &[1], &[1, 1], 0), Err(48));
    assert_eq!(try_with(&bad, &(0..4097).collect::<Vec<_>>(), &vec![1; 4097], &vec![1; 4097], 0), Err(48));
    assert_eq!(try_with(&bad, &[1], &[65537], &long, 0), Err(26));
    assert_eq!(try_with(&good, &[1], &[0], &none, 0), Err(28));
    assert_eq!(try_with(&bad, &[1], &[1], &[1], 0), Err(28));
    assert_eq!(try_with(&schema(2, 912), &[1], &[1], &[1], 0), Err(28));
    let (rows, lengths, payloads) = joined(&(0..64).map(|i| (i, blob(65000, 1))).collect::<Vec<_>>());
    assert_eq!(try_with(&good, &rows, &lengths, &payloads, 0), Err(5));
    assert_eq!(try_with(&good, &[1], &[1], &[1], 2047), Err(44));
    assert_eq!(try_with(&good, &[1], &[1], &[1], 2048), Ok(2));
}
