//! Records.

use std::cmp::Ordering;

use crate::raw;

/// A column's value. Texts and blobs are parts of the record; a text is in the database's encoding.
#[derive(Clone, Copy, Debug, PartialEq)]
pub enum Value<'a> {
    Null,
    Integer(i64),
    Real(f64),
    Text(&'a [u8]),
    Blob(&'a [u8]),
}

/// Bytes that read as a record.
///
/// ```
/// use urkibasko::{Record, Value};
/// let record = Record::new(&[4, 0, 9, 15, b'x']).expect("it reads");
/// assert_eq!(record.values().collect::<Vec<_>>(), [Value::Null, Value::Integer(1), Value::Text(b"x")]);
/// assert!(Record::new(&[4, 0]).is_none());
/// ```
#[derive(Clone, Copy, Debug)]
pub struct Record<'a> {
    bytes: &'a [u8],
    columns: u64,
}

impl<'a> Record<'a> {
    /// None where the bytes do not read as a record.
    pub fn new(bytes: &'a [u8]) -> Option<Record<'a>> {
        // SAFETY: pointer and length are those of a slice.
        let answer = unsafe { raw::urk_record_columns(bytes.as_ptr(), bytes.len()) };
        (answer.status == 0).then_some(Record { bytes, columns: answer.count })
    }

    /// The number of columns.
    pub fn columns(&self) -> u64 {
        self.columns
    }

    /// The value of a column, counted from 1; none for column 0 or one past the last.
    pub fn column(&self, column: u64) -> Option<Value<'a>> {
        // SAFETY: pointer and length are those of a slice.
        let answer = unsafe { raw::urk_record_column(self.bytes.as_ptr(), self.bytes.len(), column) };
        if answer.status != 0 {
            return None;
        }
        let bytes = || {
            let place = answer.place as usize;
            &self.bytes[place..place + answer.length as usize]
        };
        Some(match answer.kind {
            1 => Value::Integer(answer.integer),
            2 => Value::Real(answer.real),
            3 => Value::Text(bytes()),
            4 => Value::Blob(bytes()),
            _ => Value::Null,
        })
    }

    /// How this record compares with another in the order of an index with plain ascending columns: null, numbers by their exact values, text by bytes, blobs by bytes,
    /// column by column; a record that ends first, equal so far, is the lesser.
    ///
    /// ```
    /// use std::cmp::Ordering;
    /// use urkibasko::Record;
    /// // 9007199254740993, and 9007199254740992.0: as reals they would be the same.
    /// let integer = [2, 6, 0, 0x20, 0, 0, 0, 0, 0, 1];
    /// let real = [2, 7, 0x43, 0x40, 0, 0, 0, 0, 0, 0];
    /// let (integer, real) = (Record::new(&integer).expect("it reads"), Record::new(&real).expect("it reads"));
    /// assert_eq!(integer.order(&real), Ordering::Greater);
    /// assert_eq!(real.order(&integer), Ordering::Less);
    /// ```
    pub fn order(&self, other: &Record) -> Ordering {
        // SAFETY: pointers and lengths are those of slices.
        let answer = unsafe { raw::urk_record_order(self.bytes.as_ptr(), self.bytes.len(), other.bytes.as_ptr(), other.bytes.len()) };
        answer.order.cmp(&0)
    }

    /// The values of all columns.
    pub fn values(&self) -> impl Iterator<Item = Value<'a>> + '_ {
        (1..=self.columns).filter_map(|column| self.column(column))
    }
}
