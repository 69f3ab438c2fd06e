//! Varints.

use crate::raw;

/// A varint as it was read.
#[derive(Clone, Copy, Debug, PartialEq, Eq, Hash)]
pub struct Varint {
    pub value: i64,
    /// How many bytes it has, 1 to 9.
    pub length: usize,
    /// Whether no spelling of the value is shorter.
    pub shortest: bool,
}

/// The varint at the start of `bytes`; none where the bytes end inside it.
#[inline]
pub fn read(bytes: &[u8]) -> Option<Varint> {
    // SAFETY: pointer and length are those of a slice.
    let answer = unsafe { raw::urk_varint_read(bytes.as_ptr(), bytes.len()) };
    (answer.length != 0).then_some(Varint { value: answer.value, length: answer.length as usize, shortest: answer.shortest == 1 })
}

/// Writes the shortest spelling to the start of `out` and answers its length; none, and nothing written, where there is no room.
#[inline]
pub fn write(value: i64, out: &mut [u8]) -> Option<usize> {
    // SAFETY: pointer and length are those of a slice.
    let length = unsafe { raw::urk_varint_write(value, out.as_mut_ptr(), out.len()) };
    (length != 0).then_some(length as usize)
}
