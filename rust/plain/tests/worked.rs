//! The worked examples of the rules.

use plain::c::{
    urk_journal_super, urk_record_column, urk_record_columns, urk_record_order, urk_varint_read, urk_varint_write, Column, Columns, Name, Order,
    Varint,
};
use plain::page::{local_len, INDEX_INTERIOR, INDEX_LEAF, TABLE_LEAF};

#[test]
fn varints() {
    for (bytes, value, length, shortest) in [
        (&[0x5b][..], 91, 1, 1),
        (&[0x84, 0x60], 608, 2, 1),
        (&[0x80, 0x01], 1, 2, 0),
        (&[0xff; 9], -1, 9, 1),
        (&[0xff, 0xff, 0xff, 0xff, 0xff, 0xff, 0xff, 0x7f], (1 << 56) - 1, 8, 1),
        (&[0x80, 0xbf, 0xff, 0xff, 0xff, 0xff, 0xff, 0xff, 0xff], (1 << 56) - 1, 9, 0),
        (&[0x80, 0xc0, 0x80, 0x80, 0x80, 0x80, 0x80, 0x80, 0x00], 1 << 56, 9, 1),
    ] {
        assert_eq!(urk_varint_read(bytes), Varint { length, shortest, value }, "{bytes:02x?}");
        assert_eq!(urk_varint_read(&bytes[..bytes.len() - 1]), Varint::default(), "{bytes:02x?} cut");
    }
    let mut out = [0xaa; 10];
    for (value, length) in [(0, 1), (127, 1), (128, 2), ((1 << 56) - 1, 8), (1 << 56, 9), (-1, 9), (i64::MIN, 9), (i64::MAX, 9)] {
        out.fill(0xaa);
        assert_eq!(urk_varint_write(value, &mut out), length);
        assert_eq!(urk_varint_read(&out), Varint { length, shortest: 1, value });
        assert!(out[length as usize..].iter().all(|&byte| byte == 0xaa));
        out.fill(0xaa);
        assert_eq!(urk_varint_write(value, &mut out[..length as usize - 1]), 0);
        assert_eq!(out, [0xaa; 10]);
    }
}

#[test]
fn payload_split() {
    for (payload, local) in [(477, 477), (478, 39), (547, 39), (600, 92)] {
        assert_eq!(local_len(TABLE_LEAF, 512, payload), local);
    }
    for kind in [INDEX_LEAF, INDEX_INTERIOR] {
        assert_eq!(local_len(kind, 512, 102), 102);
        assert_eq!(local_len(kind, 512, 103), 39);
    }
}

#[test]
fn records() {
    let missing = Column { status: 2, ..Column::default() };
    let unreadable = Column { status: 1, ..Column::default() };
    let record = [4, 0, 9, 15, b'x'];
    assert_eq!(urk_record_columns(&record), Columns { status: 0, count: 3 });
    assert_eq!(urk_record_column(&record, 0), missing);
    assert_eq!(urk_record_column(&record, 1), Column::default());
    assert_eq!(urk_record_column(&record, 2), Column { kind: 1, integer: 1, ..Column::default() });
    assert_eq!(urk_record_column(&record, 3), Column { kind: 3, place: 4, length: 1, ..Column::default() });
    assert_eq!(urk_record_column(&record, 4), missing);
    assert_eq!(urk_record_columns(&[1]), Columns { status: 0, count: 0 });
    for record in [
        &[][..],
        &[0],
        &[3, 0],
        &[2, 10],
        &[2, 11],
        &[4, 0, 9, 15],
        &[4, 0, 9, 15, b'x', b'y'],
        &[2, 0x80, 0x00],
        &[11, 0xff, 0xff, 0xff, 0xff, 0xff, 0xff, 0xff, 0xff, 0xff, 0],
    ] {
        assert_eq!(urk_record_columns(record), Columns { status: 1, count: 0 }, "{record:02x?}");
        assert_eq!(urk_record_column(record, 1), unreadable, "{record:02x?}");
    }
    let real = |bits: u64| [&[2, 7][..], &bits.to_be_bytes()].concat();
    assert_eq!(urk_record_column(&real(0x8000_0000_0000_0000), 1), Column { kind: 2, real: -0.0, ..Column::default() });
    assert_eq!(urk_record_column(&real(0x7ff8_0000_0000_0000), 1), Column::default());
    assert_eq!(urk_record_column(&real(0x7ff0_0000_0000_0000), 1), Column { kind: 2, real: f64::INFINITY, ..Column::default() });
}

#[test]
fn record_order() {
    let integer = |value: i64| [&[2, 6][..], &value.to_be_bytes()].concat();
    let real = |value: f64| [&[2, 7][..], &value.to_bits().to_be_bytes()].concat();
    let rising = [
        vec![1],
        vec![2, 0],
        real(f64::NEG_INFINITY),
        integer(i64::MIN),
        integer(-1),
        real(-5e-324),
        integer(0),
        real(5e-324),
        vec![2, 9],
        integer(9_007_199_254_740_992),
        integer(9_007_199_254_740_993),
        integer(i64::MAX),
        real(9_223_372_036_854_775_808.0),
        real(f64::INFINITY),
        vec![2, 13],
        vec![2, 15, b'a'],
        vec![3, 15, 0, b'a'],
        vec![2, 17, b'a', b'b'],
        vec![2, 12],
        vec![2, 14, 0],
    ];
    for (i, a) in rising.iter().enumerate() {
        for (j, b) in rising.iter().enumerate() {
            assert_eq!(urk_record_order(a, b), Order { status: 0, order: i.cmp(&j) as i32 }, "{a:02x?} {b:02x?}");
        }
    }
    let same = Order { status: 0, order: 0 };
    assert_eq!(urk_record_order(&real(9_007_199_254_740_992.0), &integer(9_007_199_254_740_992)), same);
    assert_eq!(urk_record_order(&real(-0.0), &[2, 8]), same);
    assert_eq!(urk_record_order(&real(f64::NAN), &[2, 0]), same);
    assert_eq!(urk_record_order(&[], &[]), Order { status: 1, order: 0 });
    assert_eq!(urk_record_order(&[1], &[2]), Order { status: 2, order: 0 });
}

/// A journal's end: a name, its length, a sum and the magic.
fn ending(before: &[u8], name: &[u8], length: u32, sum: u32) -> Vec<u8> {
    [before, name, &length.to_be_bytes(), &sum.to_be_bytes(), &[0xd9, 0xd5, 0x05, 0xf9, 0x20, 0xa1, 0x63, 0xd7]].concat()
}

#[test]
fn names_of_super_journals() {
    let (none, found) = (Name::default(), |start, length| Name { found: 1, start, length });
    assert_eq!(urk_journal_super(&ending(&[7, 7], b"a", 1, 97)), found(2, 1));
    assert_eq!(urk_journal_super(&ending(&[], b"a", 1, 97)), found(0, 1));
    assert_eq!(urk_journal_super(&ending(&[], b"a", 1, 98)), none);
    // A byte from 128 on counts as itself less 256.
    assert_eq!(urk_journal_super(&ending(&[], &[255], 1, u32::MAX)), found(0, 1));
    assert_eq!(urk_journal_super(&ending(&[], &[255], 1, 255)), none);
    assert_eq!(urk_journal_super(&ending(&[], "/é".as_bytes(), 3, (47 - 61 - 87i32) as u32)), found(0, 3));
    // A zero byte at its start, or later.
    assert_eq!(urk_journal_super(&ending(&[7], &[0, 97], 2, 97)), none);
    assert_eq!(urk_journal_super(&ending(&[7], &[97, 0], 2, 97)), found(1, 2));
    // Lengths: 1 to 512, and no more than stand before.
    for length in [0, 2, 512, 513, u32::MAX] {
        assert_eq!(urk_journal_super(&ending(&[], b"a", length, 97)), none, "{length}");
    }
    assert_eq!(urk_journal_super(&ending(&[9], &[1; 512], 512, 512)), found(1, 512));
    assert_eq!(urk_journal_super(&ending(&[9], &[1; 513], 513, 513)), none);
    // A byte of the magic; a byte behind; under 16 bytes.
    let whole = ending(&[], b"a", 1, 97);
    for at in 9..17 {
        let mut other = whole.clone();
        other[at] ^= 1;
        assert_eq!(urk_journal_super(&other), none, "{at}");
    }
    assert_eq!(urk_journal_super(&[&whole[..], &[0]].concat()), none);
    for length in 0..17 {
        assert_eq!(urk_journal_super(&whole[17 - length..][..length.min(16)]), none);
    }
}
