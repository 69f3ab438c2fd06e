//! The order of keys in indexes that a caller names: small images, page by page, and the exact order of integers and reals.

use std::cmp::Ordering;

use plain::c::{urk_check, urk_check_ordered, urk_record_order, Order, Verdict};

const SIZE: usize = 512;

/// A tree page: its type, its right child where it has one, its cells.
fn tree(kind: u8, right: Option<u32>, cells: &[Vec<u8>]) -> Vec<u8> {
    let mut page = vec![0; SIZE];
    laid(&mut page, 0, kind, right, cells);
    page
}

fn laid(page: &mut [u8], at: usize, kind: u8, right: Option<u32>, cells: &[Vec<u8>]) {
    let mut content = SIZE;
    let pointers = at + if right.is_some() { 12 } else { 8 };
    for (i, cell) in cells.iter().enumerate() {
        content -= cell.len().max(4);
        page[content..content + cell.len()].copy_from_slice(cell);
        page[pointers + 2 * i..pointers + 2 * i + 2].copy_from_slice(&(content as u16).to_be_bytes());
    }
    page[at] = kind;
    page[at + 3..at + 5].copy_from_slice(&(cells.len() as u16).to_be_bytes());
    page[at + 5..at + 7].copy_from_slice(&(content as u16).to_be_bytes());
    if let Some(right) = right {
        page[at + 8..at + 12].copy_from_slice(&right.to_be_bytes());
    }
}

fn leaf(keys: &[Vec<u8>]) -> Vec<u8> {
    tree(10, None, &keys.iter().map(|key| [&[key.len() as u8][..], key].concat()).collect::<Vec<_>>())
}

fn interior(cells: &[(u32, Vec<u8>)], right: u32) -> Vec<u8> {
    let cell = |(child, key): &(u32, Vec<u8>)| [&child.to_be_bytes()[..], &[key.len() as u8], key].concat();
    tree(2, Some(right), &cells.iter().map(cell).collect::<Vec<_>>())
}

/// An image whose schema names these roots.
fn image(roots: &[u8], pages: &[Vec<u8>]) -> Vec<u8> {
    let mut image = vec![0; SIZE];
    image[..24].copy_from_slice(b"SQLite format 3\0\x02\0\x01\x01\0@  ");
    for (at, number) in [(24, 1), (28, 1 + pages.len() as u32), (56, 1), (92, 1)] {
        image[at..at + 4].copy_from_slice(&u32::to_be_bytes(number));
    }
    let rows: Vec<Vec<u8>> = (1..).zip(roots).map(|(row, &root)| vec![7, row, 6, 0, 0, 0, 1, 0, root]).collect();
    laid(&mut image, 100, 13, None, &rows);
    image.extend(pages.iter().flatten());
    image
}

/// What is answered with these names, as refusal and page. The ledgers are tried too: filled, untouched or zeros, and never changed past the last page.
fn asked(image: &[u8], names: &[u32]) -> (u32, u32) {
    let pages = image.len() / SIZE;
    let (mut kinds, mut namers, mut steps) = (vec![9; pages + 1], vec![9; pages + 1], vec![9; pages + 1]);
    let answer = urk_check_ordered(image, names, &mut kinds, &mut namers, &mut steps);
    let all = [kinds.iter().map(|&kind| u32::from(kind)).collect(), namers, steps];
    match answer.refusal {
        0 => assert!(all[0][..pages].iter().all(|kind| (1..=6).contains(kind))),
        1..=12 | 34 => assert!(all.iter().all(|ledger| ledger.iter().all(|&entry| entry == 9)), "untouched"),
        _ => assert!(all.iter().all(|ledger| ledger[..pages].iter().all(|&entry| entry == 0)), "zeros"),
    }
    assert!(all.iter().all(|ledger| ledger[pages] == 9), "past the last page");
    (answer.refusal, answer.page)
}

fn integer(value: i64) -> Vec<u8> {
    [&[2, 6][..], &value.to_be_bytes()].concat()
}

fn real(bits: u64) -> Vec<u8> {
    [&[2, 7][..], &bits.to_be_bytes()].concat()
}

fn text(bytes: &[u8]) -> Vec<u8> {
    [&[2, 13 + 2 * bytes.len() as u8][..], bytes].concat()
}

#[test]
fn keys_on_a_leaf() {
    let keys = [integer(1), integer(2), text(b"a")];
    let good = image(&[2], &[leaf(&keys)]);
    assert_eq!((asked(&good, &[]), asked(&good, &[2]), asked(&good, &[2, 2])), ((0, 0), (0, 0), (0, 0)));
    for keys in [[integer(2), integer(1), text(b"a")], [integer(1), text(b"a"), integer(2)], [integer(1), integer(1), text(b"a")]] {
        let bad = image(&[2], &[leaf(&keys)]);
        assert_eq!((asked(&bad, &[]), asked(&bad, &[2])), ((0, 0), (33, 2)));
    }
    // 1 and 1.0, a NaN and a null, minus zero and zero are equal keys; one column more is more.
    for (a, b) in [(integer(1), real(1f64.to_bits())), (real(f64::NAN.to_bits()), vec![2, 0]), (real(1 << 63), vec![2, 8])] {
        assert_eq!(asked(&image(&[2], &[leaf(&[a.clone(), b.clone()])]), &[2]), (33, 2));
        assert_eq!(asked(&image(&[2], &[leaf(&[b, a])]), &[2]), (33, 2));
    }
    assert_eq!(asked(&image(&[2], &[leaf(&[vec![1], vec![2, 0], vec![3, 0, 0]])]), &[2]), (0, 0));
    assert_eq!(asked(&image(&[2], &[leaf(&[vec![3, 0, 0], vec![2, 0]])]), &[2]), (33, 2));
    // 9007199254740993 and 9007199254740992.0: by their exact values.
    let (whole, rounded) = (integer((1 << 53) + 1), real(((1i64 << 53) as f64).to_bits()));
    assert_eq!(asked(&image(&[2], &[leaf(&[rounded.clone(), whole.clone()])]), &[2]), (0, 0));
    assert_eq!(asked(&image(&[2], &[leaf(&[whole, rounded])]), &[2]), (33, 2));
}

#[test]
fn keys_through_a_tree() {
    let made = |left: i64, middle: i64, right: i64| {
        image(&[2], &[interior(&[(3, integer(middle))], 4), leaf(&[integer(1), integer(left)]), leaf(&[integer(right), integer(99)])])
    };
    assert_eq!(asked(&made(2, 3, 4), &[2]), (0, 0));
    // The key on the interior page comes after its child's keys and before those of the next.
    assert_eq!(asked(&made(3, 3, 4), &[2]), (33, 2));
    assert_eq!(asked(&made(4, 3, 5), &[2]), (33, 2));
    assert_eq!(asked(&made(2, 4, 4), &[2]), (33, 4));
    assert_eq!(asked(&made(2, 5, 4), &[2]), (33, 4));
    assert_eq!(asked(&made(1, 3, 4), &[2]), (33, 3));
    assert_eq!(asked(&made(2, 5, 4), &[]), (0, 0));
}

#[test]
fn order_starts_anew_with_each_root() {
    let two = image(&[3, 2], &[leaf(&[integer(5)]), leaf(&[integer(5)])]);
    assert_eq!(asked(&two, &[2, 3]), (0, 0));
    // Only the one named is put to the test.
    let bad = image(&[3, 2], &[leaf(&[integer(5), integer(4)]), leaf(&[integer(5)])]);
    assert_eq!((asked(&bad, &[3]), asked(&bad, &[3, 2])), ((0, 0), (33, 2)));
}

#[test]
fn names_that_are_no_index_roots() {
    // A table at page 3 with a row, an index at page 2 over pages 4 and 5.
    let table = tree(13, None, &[vec![2, 1, 2, 8]]);
    let good = image(&[2, 3], &[interior(&[(4, integer(3))], 5), table, leaf(&[integer(2)]), leaf(&[integer(4)])]);
    assert_eq!(asked(&good, &[2]), (0, 0));
    for name in [0, 1, 3, 4, 5, 6, u32::MAX] {
        assert_eq!((asked(&good, &[name]), asked(&good, &[2, name, 2, 0])), ((35, name), (35, name)), "page {name}");
    }
    // 35 comes last: after 33 and after a page that is never named.
    let mut bad = image(&[2], &[leaf(&[integer(5), integer(4)])]);
    assert_eq!((asked(&bad, &[1]), asked(&bad, &[1, 2])), ((35, 1), (33, 2)));
    bad = image(&[2], &[leaf(&[integer(4)]), leaf(&[])]);
    assert_eq!(asked(&bad, &[1]), (30, 3));
}

#[test]
fn another_encoding() {
    let mut other = image(&[2], &[leaf(&[integer(1)])]);
    for encoding in [0u32, 2, 3, 0x0100_0001] {
        other[56..60].copy_from_slice(&encoding.to_be_bytes());
        assert_eq!((asked(&other, &[]), asked(&other, &[2]), asked(&other, &[77])), ((0, 0), (34, 0), (34, 0)));
    }
    // After 11, before 12.
    assert_eq!(urk_check_ordered(&other, &[2], &mut [], &mut [], &mut []), Verdict { refusal: 34, ..Verdict::default() });
    assert_eq!(urk_check(&other, &mut [], &mut [], &mut []).refusal, 12);
    other[72] = 1;
    assert_eq!(asked(&other, &[2]), (11, 0));
}

#[test]
fn keys_over_chains() {
    // Records of one text of 1,000 bytes: 39 of its bytes, header and all, stand on the leaf, 964 on two pages of its chain.
    let record = |last: u8| {
        let mut record = vec![3, 0x8f, 0x5d];
        record.extend([b'k'; 999]);
        record.push(last);
        record
    };
    let made = |one: u8, two: u8| {
        let keys = [record(one), record(two)];
        let cell = |key: &[u8], first: u8| [&[0x87, 0x6b][..], &key[..39], &[0, 0, 0, first]].concat();
        let mut pages = vec![tree(10, None, &[cell(&keys[0], 3), cell(&keys[1], 5)])];
        for (key, next) in keys.iter().zip([4u8, 6]) {
            let rest = &key[39..];
            let (first, second) = rest.split_at(SIZE - 4);
            pages.push([&[0, 0, 0, next][..], first].concat());
            pages.push([&[0, 0, 0, 0][..], second, &vec![0; SIZE - 4 - second.len()]].concat());
        }
        image(&[2], &pages)
    };
    assert_eq!((asked(&made(b'a', b'b'), &[2]), asked(&made(b'b', b'a'), &[2]), asked(&made(b'a', b'a'), &[2])), ((0, 0), (33, 2), (33, 2)));
    // The chain comes first, then the record, then the order.
    let mut bad = made(b'b', b'a');
    bad[5 * SIZE + 3] = 1;
    assert_eq!(asked(&bad, &[2]), (27, 6));
    let mut bad = made(b'b', b'a');
    let at = SIZE + usize::from(bad[SIZE + 10]) * 256 + usize::from(bad[SIZE + 11]);
    bad[at + 2] = 4;
    assert_eq!((asked(&bad, &[]), asked(&bad, &[2])), ((28, 2), (28, 2)));
}

/// An integer against a real by whole numbers alone: the real is a whole number times a power of two.
fn exactly(integer: i64, bits: u64) -> Ordering {
    let (exponent, fraction) = (bits >> 52 & 0x7ff, bits & ((1 << 52) - 1));
    let size = if exponent == 0 { fraction } else { fraction | 1 << 52 };
    let signed = if bits >> 63 == 1 { -i128::from(size) } else { i128::from(size) };
    let power = exponent.max(1) as i64 - 1075;
    match power {
        // Past all integers, infinities too: at least 2^52 * 2^12.
        12.. => 0.cmp(&signed),
        0..=11 => i128::from(integer).cmp(&(signed << power)),
        -63..=-1 => (i128::from(integer) << -power).cmp(&signed),
        // Below 2^53 / 2^64: less than 1.
        _ if integer != 0 => integer.cmp(&0),
        _ => 0.cmp(&signed),
    }
}

#[test]
fn integers_beside_reals() {
    let mut seed = 1u64;
    let mut word = || {
        seed = seed.wrapping_mul(6_364_136_223_846_793_005).wrapping_add(1_442_695_040_888_963_407);
        seed ^ (seed >> 29)
    };
    let mut met = [0; 3];
    for case in 0..300_000u32 {
        let edge = match case % 3 {
            0 => [0, 1, -1, 1 << 52, 1 << 53, -(1 << 53), 1 << 62, i64::MAX, i64::MIN][word() as usize % 9],
            _ => word() as i64 >> (word() % 64),
        };
        let value = edge.wrapping_add(word() as i64 % 3);
        let bits = match case % 5 {
            0 => word(),
            1 => (word() % 3) | word() << 63,
            _ => (edge as f64).to_bits().wrapping_add(word() % 5).wrapping_sub(2),
        };
        if f64::from_bits(bits).is_nan() {
            continue;
        }
        let order = exactly(value, bits);
        met[(order as i32 + 1) as usize] += 1;
        let answer = |order: Ordering| Order { status: 0, order: order as i32 };
        assert_eq!(urk_record_order(&integer(value), &real(bits)), answer(order), "{value} and {bits:016x}");
        assert_eq!(urk_record_order(&real(bits), &integer(value)), answer(order.reverse()), "{bits:016x} and {value}");
    }
    assert!(met.iter().all(|&count| count > 10_000), "{met:?}");
}
