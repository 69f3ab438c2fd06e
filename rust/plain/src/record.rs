//! Records: a header of serial types, then the values; and the order of records in an index.

use std::cmp::Ordering;

use crate::number::{read_varint, signed};

/// A column's value. A text or a blob is `length` bytes at `place` of the record.
#[derive(Clone, Copy, Debug, PartialEq)]
pub enum Value {
    Null,
    Integer(i64),
    Real(f64),
    Text { place: usize, length: usize },
    Blob { place: usize, length: usize },
}

/// What was asked of a record.
#[derive(Clone, Copy, Debug, PartialEq)]
pub enum Column {
    Value(Value),
    Unreadable,
    Missing,
}

/// The bytes that a value of a serial type takes; none for a type that is refused.
fn value_len(serial: i64) -> Option<u64> {
    Some(match serial {
        0 | 8 | 9 => 0,
        1..=4 => serial as u64,
        5 => 6,
        6 | 7 => 8,
        12.. => (serial as u64 - 12) / 2,
        _ => return None,
    })
}

/// Reads the whole record: calls `column` with each column's serial type and place. None where the record does not read.
fn each_column(record: &[u8], mut column: impl FnMut(i64, usize)) -> Option<()> {
    let (header_len, mut at) = read_varint(record)?;
    let header_len = usize::try_from(header_len).ok()?;
    let header = record.get(..header_len)?;
    let mut place = header_len;
    if at > header_len {
        return None;
    }
    while at < header_len {
        let (serial, len) = read_varint(&header[at..])?;
        let length = value_len(serial)?;
        if length > (record.len() - place) as u64 {
            return None;
        }
        column(serial, place);
        at += len;
        place += length as usize;
    }
    (place == record.len()).then_some(())
}

/// The value of a serial type at a place.
fn value(record: &[u8], serial: i64, place: usize) -> Value {
    let length = value_len(serial).map_or(0, |length| length as usize);
    let bytes = &record[place..place + length];
    match serial {
        0 => Value::Null,
        1..=6 => Value::Integer(signed(bytes)),
        7 => {
            let real = f64::from_bits(signed(bytes) as u64);
            if real.is_nan() {
                Value::Null
            } else {
                Value::Real(real)
            }
        }
        8 => Value::Integer(0),
        9 => Value::Integer(1),
        _ if serial % 2 == 0 => Value::Blob { place, length },
        _ => Value::Text { place, length },
    }
}

/// The number of columns; none where the record does not read.
pub fn columns(record: &[u8]) -> Option<u64> {
    let mut count = 0;
    each_column(record, |_, _| count += 1)?;
    Some(count)
}

/// The value of a column, counted from 1.
pub fn column(record: &[u8], wanted: u64) -> Column {
    let mut count = 0;
    let mut found = None;
    let read = each_column(record, |serial, place| {
        count += 1;
        if count == wanted {
            found = Some((serial, place));
        }
    });
    match (read, found) {
        (None, _) => Column::Unreadable,
        (Some(()), None) => Column::Missing,
        (Some(()), Some((serial, place))) => Column::Value(value(record, serial, place)),
    }
}

/// The values of all columns; none where the record does not read.
fn values(record: &[u8]) -> Option<Vec<Value>> {
    let mut found = Vec::new();
    each_column(record, |serial, place| found.push((serial, place)))?;
    Some(found.into_iter().map(|(serial, place)| value(record, serial, place)).collect())
}

/// An integer against a real that is no NaN: the whole part first, then what is left of it.
fn integer_with_real(integer: i64, real: f64) -> Ordering {
    const PAST: f64 = 9_223_372_036_854_775_808.0;
    if real >= PAST {
        return Ordering::Less;
    }
    if real < -PAST {
        return Ordering::Greater;
    }
    let whole = real.trunc();
    let rest = real - whole;
    integer.cmp(&(whole as i64)).then(0.0.partial_cmp(&rest).expect("no NaN"))
}

fn value_order(a: (&[u8], Value), b: (&[u8], Value)) -> Ordering {
    use Value::{Blob, Integer, Null, Real, Text};
    let rank = |value| match value {
        Null => 0,
        Integer(_) | Real(_) => 1,
        Text { .. } => 2,
        Blob { .. } => 3,
    };
    let bytes = |record: &[u8], place: usize, length: usize| record[place..place + length].to_vec();
    match (a.1, b.1) {
        (Integer(x), Integer(y)) => x.cmp(&y),
        (Integer(x), Real(y)) => integer_with_real(x, y),
        (Real(x), Integer(y)) => integer_with_real(y, x).reverse(),
        (Real(x), Real(y)) => x.partial_cmp(&y).expect("no NaN"),
        (Text { place, length }, Text { place: other, length: long }) | (Blob { place, length }, Blob { place: other, length: long }) => {
            bytes(a.0, place, length).cmp(&bytes(b.0, other, long))
        }
        (x, y) => rank(x).cmp(&rank(y)),
    }
}

/// How two records compare in the order of an index. An error tells which of them does not read, the first (1) or the second (2).
pub fn order(a: &[u8], b: &[u8]) -> Result<Ordering, u32> {
    let (left, right) = (values(a).ok_or(1u32)?, values(b).ok_or(2u32)?);
    for (&x, &y) in left.iter().zip(&right) {
        let ordering = value_order((a, x), (b, y));
        if ordering != Ordering::Equal {
            return Ok(ordering);
        }
    }
    Ok(left.len().cmp(&right.len()))
}
