//! Big-endian numbers and varints.

/// The two bytes at `at`.
pub fn be16(bytes: &[u8], at: usize) -> u16 {
    u16::from_be_bytes([bytes[at], bytes[at + 1]])
}

/// The four bytes at `at`.
pub fn be32(bytes: &[u8], at: usize) -> u32 {
    u32::from_be_bytes([bytes[at], bytes[at + 1], bytes[at + 2], bytes[at + 3]])
}

/// A signed number of 1 to 8 bytes.
pub fn signed(bytes: &[u8]) -> i64 {
    let negative = bytes[0] >= 0x80;
    let start = if negative { -1 } else { 0 };
    bytes.iter().fold(start, |value, &byte| value << 8 | i64::from(byte))
}

/// The varint at the start of `bytes` and its length; none where the bytes end inside it.
pub fn read_varint(bytes: &[u8]) -> Option<(i64, usize)> {
    let mut value: u64 = 0;
    for (i, &byte) in bytes.iter().take(9).enumerate() {
        if i == 8 {
            return Some(((value << 8 | u64::from(byte)) as i64, 9));
        }
        value = value << 7 | u64::from(byte & 0x7f);
        if byte < 0x80 {
            return Some((value as i64, i + 1));
        }
    }
    None
}

/// The length of the shortest spelling.
pub fn varint_len(value: i64) -> usize {
    let value = value as u64;
    (1..9).find(|&len| value >> (7 * len) == 0).unwrap_or(9)
}

/// Writes the shortest spelling and answers its length; none, and nothing written, where there is no room.
pub fn write_varint(value: i64, out: &mut [u8]) -> Option<usize> {
    let len = varint_len(value);
    let out = out.get_mut(..len)?;
    let mut rest = value as u64;
    if len == 9 {
        out[8] = rest as u8;
        rest >>= 8;
    } else {
        out[len - 1] = (rest & 0x7f) as u8;
        rest >>= 7;
    }
    for byte in out[..len - 1].iter_mut().rev() {
        *byte = 0x80 | (rest & 0x7f) as u8;
        rest >>= 7;
    }
    Some(len)
}
