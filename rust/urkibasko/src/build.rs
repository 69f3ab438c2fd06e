//! Fresh databases of one table.

use std::fmt;

use crate::{raw, varint, Record, Refusal, Rule, Value, MAX_PAYLOAD};

/// The most rows of a fresh database.
pub const BUILD_ROWS: usize = 4096;
/// The most bytes of a fresh database: 4,096 pages of 1,024 bytes. An output of so many is always enough.
pub const BUILD_MOST: usize = 4096 * 1024;
/// The most bytes of its schema record.
pub const BUILD_SCHEMA: usize = 911;

/// The values as a record, in the shortest form that the format has: of an integer the fewest bytes, none for 0 and 1. A NaN is a null, as it is where it is read.
///
/// ```
/// use urkibasko::{encode, Record, Value};
/// let bytes = encode(&[Value::Null, 1.into(), 300.into(), 2.5.into(), "text".into(), Value::Blob(&[0, 255])]);
/// assert_eq!(bytes[..7], [7, 0, 9, 2, 7, 21, 16]);
/// let record = Record::new(&bytes).expect("it reads");
/// assert_eq!(record.column(3), Some(Value::Integer(300)));
/// assert_eq!(record.column(5), Some(Value::Text(b"text")));
/// ```
pub fn encode(values: &[Value]) -> Vec<u8> {
    let (mut types, mut bytes) = (Vec::new(), Vec::new());
    for value in values {
        push_varint(&mut types, serial_type(value));
        match *value {
            Value::Integer(integer) => {
                let whole = integer.to_be_bytes();
                bytes.extend(&whole[8 - integer_length(integer)..]);
            }
            Value::Real(real) if !real.is_nan() => bytes.extend(real.to_bits().to_be_bytes()),
            Value::Text(text) => bytes.extend(text),
            Value::Blob(blob) => bytes.extend(blob),
            Value::Null | Value::Real(_) => {}
        }
    }
    // The header's length counts its own bytes.
    let mut header = types.len() + 1;
    while types.len() + varint_length(header as i64) != header {
        header += 1;
    }
    let mut record = Vec::with_capacity(header + bytes.len());
    push_varint(&mut record, header as i64);
    record.extend(types);
    record.extend(bytes);
    record
}

/// How many bytes an integer takes in a record: 0, 1, 2, 3, 4, 6 or 8.
fn integer_length(integer: i64) -> usize {
    let fits = |bytes: u32| -(1i64 << (8 * bytes - 1)) <= integer && integer < 1i64 << (8 * bytes - 1);
    match integer {
        0 | 1 => 0,
        _ => [1, 2, 3, 4, 6].into_iter().find(|&bytes| fits(bytes)).unwrap_or(8) as usize,
    }
}

fn serial_type(value: &Value) -> i64 {
    match *value {
        Value::Integer(0) => 8,
        Value::Integer(1) => 9,
        Value::Integer(integer) => match integer_length(integer) {
            6 => 5,
            8 => 6,
            bytes => bytes as i64,
        },
        Value::Real(real) if !real.is_nan() => 7,
        Value::Text(text) => 13 + 2 * text.len() as i64,
        Value::Blob(blob) => 12 + 2 * blob.len() as i64,
        Value::Null | Value::Real(_) => 0,
    }
}

fn push_varint(bytes: &mut Vec<u8>, value: i64) {
    let mut room = [0; 9];
    let length = varint::write(value, &mut room).expect("nine bytes are enough");
    bytes.extend(&room[..length]);
}

fn varint_length(value: i64) -> usize {
    varint::write(value, &mut [0; 9]).expect("nine bytes are enough")
}

impl From<i64> for Value<'_> {
    fn from(integer: i64) -> Self {
        Value::Integer(integer)
    }
}

impl From<f64> for Value<'_> {
    fn from(real: f64) -> Self {
        Value::Real(real)
    }
}

impl<'a> From<&'a str> for Value<'a> {
    fn from(text: &'a str) -> Self {
        Value::Text(text.as_bytes())
    }
}

impl<'a> From<&'a [u8]> for Value<'a> {
    fn from(blob: &'a [u8]) -> Self {
        Value::Blob(blob)
    }
}

/// The schema record of the table of a fresh database, whose root is page 2. `sql` is its `CREATE TABLE` text, and `name` the name in it.
pub fn schema_record(name: &str, sql: &str) -> Vec<u8> {
    encode(&["table".into(), name.into(), name.into(), 2.into(), sql.into()])
}

/// A fresh database as it was written: pages of 1,024 bytes, and bytes.
#[derive(Clone, Copy, Debug, PartialEq, Eq, Hash)]
pub struct Built {
    pub pages: u32,
    pub length: usize,
}

/// Builds a fresh database at the start of `out`, which is as it was on a refusal, and past the image's length: `payloads` has the rows' payloads one behind the other, `lengths` how long
/// each is. [`BUILD_MOST`] bytes are always enough. [`Builder`] is easier to use.
pub fn build_into(schema: &[u8], rows: &[i64], lengths: &[u32], payloads: &[u8], out: &mut [u8]) -> Result<Built, Refusal> {
    // SAFETY: pointers and lengths are those of slices, and the borrow checker keeps the lent one apart.
    let answer = unsafe {
        raw::urk_build(
            schema.as_ptr(),
            schema.len(),
            rows.as_ptr(),
            rows.len(),
            lengths.as_ptr(),
            lengths.len(),
            payloads.as_ptr(),
            payloads.len(),
            out.as_mut_ptr(),
            out.len(),
        )
    };
    Refusal::test(answer.refusal, 0)?;
    Ok(Built { pages: answer.pages, length: answer.length as usize })
}

/// Builds a fresh database from a schema record and rows, each a number and a payload that is a record.
///
/// ```
/// use urkibasko::{build, encode, schema_record, Database};
/// let schema = schema_record("t", "CREATE TABLE t(a, b)");
/// let (one, two) = (encode(&[1.into(), "one".into()]), encode(&[2.into(), "two".into()]));
/// let image = build(&schema, &[(-5, &one), (7, &two)])?;
/// let database = Database::new(&image)?;
/// assert_eq!(database.rows(2).map(|row| Ok(row?.number)).collect::<Result<Vec<_>, urkibasko::Refusal>>()?, [-5, 7]);
/// # Ok::<(), Box<dyn std::error::Error>>(())
/// ```
pub fn build(schema: &[u8], rows: &[(i64, &[u8])]) -> Result<Vec<u8>, NotBuilt> {
    let mut builder = Builder::with_schema(schema.to_vec());
    for (number, payload) in rows {
        builder.push_record(*number, payload)?;
    }
    builder.build()
}

/// Puts rows together for a fresh database of one table.
///
/// ```
/// use urkibasko::{Builder, Database, Record, Value};
/// let mut builder = Builder::new("reading", "CREATE TABLE reading(at INTEGER PRIMARY KEY, level, note)");
/// builder.push(10, &[Value::Null, 0.125.into(), "at dawn".into()])?;
/// builder.push(20, &[Value::Null, 0.25.into(), Value::Null])?;
/// let image = builder.build()?;
///
/// let database = Database::new(&image)?;
/// let cell = database.lookup(2, 10)?.expect("row 10 is there");
/// let mut room = vec![0; urkibasko::MAX_PAYLOAD];
/// let record = Record::new(database.payload(cell, &mut room)?).expect("it reads");
/// assert_eq!(record.column(2), Some(Value::Real(0.125)));
/// # Ok::<(), Box<dyn std::error::Error>>(())
/// ```
///
/// A row that cannot be built is told when it is pushed, and is not taken:
///
/// ```
/// # use urkibasko::Builder;
/// let mut builder = Builder::new("t", "CREATE TABLE t(a)");
/// builder.push(7, &["first".into()])?;
/// let refused = builder.push(7, &["again".into()]).expect_err("7 is not above 7");
/// assert_eq!(refused.rule.number(), 48);
/// assert_eq!(refused.to_string(), "refused 48: row 7 comes after row 7; row numbers have to rise");
/// assert_eq!(builder.rows(), 1);
/// # Ok::<(), urkibasko::NotBuilt>(())
/// ```
#[derive(Clone, Debug, Default)]
pub struct Builder {
    schema: Vec<u8>,
    rows: Vec<i64>,
    lengths: Vec<u32>,
    payloads: Vec<u8>,
}

impl Builder {
    /// A table by its name and its `CREATE TABLE` text, which stands in the schema as it is. Nothing is done by the text: an index that it asks for (`UNIQUE`, a `PRIMARY KEY` that is not
    /// `INTEGER`) is not there, and sqlite3 finds such a file malformed; a column that is the row number (`INTEGER PRIMARY KEY`) is null in each record.
    pub fn new(name: &str, sql: &str) -> Builder {
        Builder::with_schema(schema_record(name, sql))
    }

    /// A table by its schema record, of five columns with 2 in the fourth.
    pub fn with_schema(schema: Vec<u8>) -> Builder {
        Builder { schema, ..Builder::default() }
    }

    /// A row, above all before it, by its values.
    pub fn push(&mut self, number: i64, values: &[Value]) -> Result<(), NotBuilt> {
        self.push_record(number, &encode(values))
    }

    /// A row, above all before it, by its record.
    pub fn push_record(&mut self, number: i64, payload: &[u8]) -> Result<(), NotBuilt> {
        if let Some(&before) = self.rows.last().filter(|&&before| number <= before) {
            return Err(NotBuilt::wrong(Rule::BadRows, format!("row {number} comes after row {before}; row numbers have to rise")));
        }
        if self.rows.len() == BUILD_ROWS {
            return Err(NotBuilt::limit(Rule::BadRows, format!("row {number} is one too many: a fresh database has at most 4,096 rows")));
        }
        if payload.len() > MAX_PAYLOAD {
            return Err(NotBuilt::limit(Rule::LongPayload, format!("the record of row {number} has {} bytes; 65,536 are the most", payload.len())));
        }
        if Record::new(payload).is_none() {
            return Err(NotBuilt::wrong(Rule::BadRecord, format!("the payload of row {number} does not read as a record")));
        }
        self.rows.push(number);
        self.lengths.push(payload.len() as u32);
        self.payloads.extend(payload);
        Ok(())
    }

    /// How many rows were taken.
    pub fn rows(&self) -> usize {
        self.rows.len()
    }

    /// No image of these rows has more bytes.
    pub fn room(&self) -> usize {
        let pages = self.rows.len() + self.rows.len() / 64 + self.payloads.len() / 990 + 4;
        BUILD_MOST.min(pages * 1024)
    }

    /// The image.
    pub fn build(&self) -> Result<Vec<u8>, NotBuilt> {
        self.build_first(self.rows.len())
    }

    /// The image of the first so many rows; of all where there are fewer.
    pub fn build_first(&self, rows: usize) -> Result<Vec<u8>, NotBuilt> {
        let rows = rows.min(self.rows.len());
        let payloads = self.lengths[..rows].iter().map(|&length| length as usize).sum();
        let mut image = vec![0; self.room()];
        let built = build_into(&self.schema, &self.rows[..rows], &self.lengths[..rows], &self.payloads[..payloads], &mut image);
        let built = built.map_err(|refusal| self.not_built(refusal.rule))?;
        image.truncate(built.length);
        Ok(image)
    }

    /// Rows were tested when they were pushed: what is left is about the schema and the whole.
    fn not_built(&self, rule: Rule) -> NotBuilt {
        match rule {
            Rule::BadRecord if self.schema.len() > BUILD_SCHEMA => {
                NotBuilt::limit(rule, format!("the schema record has {} bytes; page 1 has room for 911", self.schema.len()))
            }
            Rule::BadRecord => NotBuilt::wrong(rule, "the schema record has not five columns with the integer 2 in the fourth".into()),
            Rule::TooManyPages => NotBuilt::limit(rule, "the rows take over 4,096 pages of 1,024 bytes".into()),
            _ => NotBuilt::wrong(rule, rule.text().into()),
        }
    }
}

/// Why a fresh database was not built: the rule, and what breaks it.
#[derive(Clone, Debug, PartialEq, Eq)]
pub struct NotBuilt {
    pub rule: Rule,
    /// What breaks the rule, in words.
    pub why: String,
    /// Whether that is a limit of fresh databases, and nothing is wrong with what was given.
    pub limit: bool,
}

impl NotBuilt {
    fn wrong(rule: Rule, why: String) -> NotBuilt {
        NotBuilt { rule, why, limit: false }
    }

    fn limit(rule: Rule, why: String) -> NotBuilt {
        NotBuilt { rule, why, limit: true }
    }
}

impl fmt::Display for NotBuilt {
    fn fmt(&self, f: &mut fmt::Formatter) -> fmt::Result {
        write!(f, "refused {}: {}", self.rule.number(), self.why)
    }
}

impl std::error::Error for NotBuilt {}
