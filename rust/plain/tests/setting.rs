//! A row set: the example of docs/LAYOUT.md byte for byte, and refusals in their order.

use plain::c::{urk_check, urk_row_set, Found};

const PAGE: usize = 512;

/// A file of two pages whose table, at page 2, has row 1 (`02 09`) and row 300 (two texts of a byte), with a freeblock and a fragment between them.
fn image() -> Vec<u8> {
    let mut image = vec![0; 2 * PAGE];
    let put = |image: &mut Vec<u8>, at: usize, bytes: &[u8]| image[at..at + bytes.len()].copy_from_slice(bytes);
    put(&mut image, 0, b"SQLite format 3\0\x02\0\x01\x01\0\x40\x20\x20\0\0\0\x01\0\0\0\x02");
    put(&mut image, 59, &[1]);
    put(&mut image, 95, &[1]);
    put(&mut image, 100, &[13, 0, 0, 0, 1, 1, 243, 0, 1, 243]);
    put(&mut image, PAGE - 13, &[11, 1, 6, 15, 15, 15, 1, 15, b't', b't', b't', 2, b'c']);
    // Row 1 at 480, spelled long; a freeblock of 8 at 485, a fragment at 493; row 300 at 494; a freeblock up to the end.
    put(&mut image, PAGE, &[13, 1, 229, 0, 2, 1, 224, 1, 1, 224, 1, 238]);
    put(&mut image, PAGE + 480, &[0x80, 2, 1, 2, 9, 1, 246, 0, 8, 0xaa, 0xaa, 0xaa, 0xaa, 0xbb]);
    put(&mut image, PAGE + 494, &[5, 0x82, 0x2c, 3, 15, 15, b'x', b'y', 0, 0, 0, 10, 0xcc, 0xcc]);
    image
}

fn accepted(image: &[u8]) -> (Vec<u8>, u64) {
    let mut kinds = vec![0; 2];
    let verdict = urk_check(image, &mut kinds, &mut [0; 2], &mut [0; 2]);
    assert_eq!(verdict.refusal, 0, "{verdict:?}");
    (kinds, verdict.long_spellings)
}

#[test]
fn the_page_of_the_layout() {
    let mut set = image();
    let (kinds, long) = accepted(&set);
    // Its length was spelled in two bytes.
    let answer = urk_row_set(&mut set, &kinds, 2, 1, &[1]);
    assert_eq!(answer, Found { refusal: 0, page: 2, found: 1, cell: 0, length: 1 });
    let (_, example) = include_str!("../../../docs/LAYOUT.md").split_once("## A row set in place").unwrap();
    let (mut page, mut told) = (vec![0; PAGE], 0);
    for line in example.lines().filter(|line| line.starts_with("| ") && line.contains('`')) {
        let fields: Vec<&str> = line.split('|').map(str::trim).collect();
        let from: usize = fields[1].parse().unwrap();
        for (i, byte) in fields[2].trim_matches('`').split(' ').enumerate() {
            page[from + i] = u8::from_str_radix(byte, 16).unwrap();
        }
        told += 1;
    }
    assert_eq!(told, 3);
    assert_eq!(set[..PAGE], image()[..PAGE]);
    assert_eq!(set[PAGE..], page);
    assert_eq!((long, accepted(&set)), (1, (kinds, 0)));
}

#[test]
fn refusals_in_their_order() {
    let long = blob(PAGE - 34);
    let cases: [(&[u8], u32, i64, &[u8], (u32, u32)); 10] = [
        (&[], 0, 1, &[], (20, 0)),
        (&[], 3, 1, &[], (20, 0)),
        (&[], 2, 2, &[], (0, 0)),
        (&[1, 1], 1, 1, &[], (53, 1)),
        (&[], 2, 1, &[], (53, 2)),
        (&[1], 2, 1, &[1], (53, 2)),
        (&[1, 6], 2, 1, &[1], (53, 2)),
        (&[1, 1], 2, 1, &[], (28, 0)),
        (&[1, 1], 2, 1, &[5; 478], (28, 0)),
        (&[1, 1], 2, 1, &long, (54, 2)),
    ];
    for (kinds, root, row, record, (refusal, page)) in cases {
        let mut set = image();
        assert_eq!(urk_row_set(&mut set, kinds, root, row, record), Found { refusal, page, ..Found::default() }, "root {root} row {row}");
        assert_eq!(set, image());
    }
}

/// A record of one blob, with so many bytes in all.
fn blob(length: usize) -> Vec<u8> {
    let kind = 12 + 2 * (length - 3);
    let mut record = vec![3, 0x80 | (kind >> 7) as u8, (kind & 0x7f) as u8];
    record.resize(length, 9);
    record
}

#[test]
fn just_fits() {
    let (kinds, _) = accepted(&image());
    let mut set = image();
    assert_eq!(urk_row_set(&mut set, &kinds, 2, 1, &blob(PAGE - 35)).length, 477);
    assert_eq!(accepted(&set), (kinds.clone(), 0));
    let refused = Found { refusal: 54, page: 2, ..Found::default() };
    assert_eq!(urk_row_set(&mut set, &kinds, 2, 1, &blob(PAGE - 34)), refused);
    // Beside it there are 512 - 8 - 4 - 480 bytes for the other row: a length, a row number of 2, 17.
    assert_eq!(urk_row_set(&mut set.clone(), &kinds, 2, 300, &[&[17][..], &[8; 16]].concat()).length, 17);
    assert_eq!(urk_row_set(&mut set, &kinds, 2, 300, &[&[18][..], &[8; 17]].concat()), refused);
}
