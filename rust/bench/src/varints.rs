//! Varints, one call each.

use std::hint::black_box;
use std::path::Path;

use crate::clock::{by_turns, way};
use crate::report::{Table, LIBRARY};

/// The library is called across a C interface, which nothing is inlined through: a call for a call.
#[inline(never)]
pub fn plain_read(bytes: &[u8]) -> Option<(i64, usize)> {
    plain::number::read_varint(bytes)
}

#[inline(never)]
fn plain_write(value: i64, out: &mut [u8]) -> Option<usize> {
    plain::number::write_varint(value, out)
}

/// A number of each length.
pub fn varints(_: &Path) {
    let mut table = Table::new("Varints", None, &["plain"]);
    for length in 1..=9 {
        let value = if length == 9 { -1 } else { (1i64 << (7 * length)) - 1 };
        let mut bytes = [0u8; 16];
        urkibasko::varint::write(value, &mut bytes);
        let mut again = bytes;
        let read = vec![
            way(LIBRARY, || {
                black_box(urkibasko::varint::read(black_box(&bytes)));
            }),
            way("plain", || {
                black_box(plain_read(black_box(&bytes)));
            }),
        ];
        table.row("read", &format!("read, {length} bytes"), None, &by_turns(read));
        let write = vec![
            way(LIBRARY, || {
                black_box(urkibasko::varint::write(black_box(value), black_box(&mut bytes)));
            }),
            way("plain", || {
                black_box(plain_write(black_box(value), black_box(&mut again)));
            }),
        ];
        table.row("write", &format!("write, {length} bytes"), None, &by_turns(write));
    }
}
