//! Values for people.

use urkibasko::{Record, Value};

use crate::json;

/// How a database's texts are written.
#[derive(Clone, Copy)]
pub enum Encoding {
    Utf8,
    Utf16Le,
    Utf16Be,
}

impl Encoding {
    /// The encoding that an image's header tells.
    pub fn of(image: &[u8]) -> Encoding {
        match image.get(56..60) {
            Some([0, 0, 0, 2]) => Encoding::Utf16Le,
            Some([0, 0, 0, 3]) => Encoding::Utf16Be,
            _ => Encoding::Utf8,
        }
    }

    pub fn encode(self, text: &str) -> Vec<u8> {
        match self {
            Encoding::Utf8 => text.as_bytes().to_vec(),
            Encoding::Utf16Le => text.encode_utf16().flat_map(u16::to_le_bytes).collect(),
            Encoding::Utf16Be => text.encode_utf16().flat_map(u16::to_be_bytes).collect(),
        }
    }

    pub fn decode(self, bytes: &[u8]) -> String {
        let units = |of: fn([u8; 2]) -> u16| -> Vec<u16> { bytes.chunks_exact(2).map(|pair| of([pair[0], pair[1]])).collect() };
        match self {
            Encoding::Utf8 => String::from_utf8_lossy(bytes).into_owned(),
            Encoding::Utf16Le => String::from_utf16_lossy(&units(u16::from_le_bytes)),
            Encoding::Utf16Be => String::from_utf16_lossy(&units(u16::from_be_bytes)),
        }
    }
}

/// A value in one line. Control characters are escaped.
pub fn value(value: Value, encoding: Encoding) -> String {
    match value {
        Value::Null => "null".to_owned(),
        Value::Integer(integer) => integer.to_string(),
        Value::Real(real) => format!("{real:?}"),
        Value::Text(bytes) => {
            let text: String =
                encoding.decode(bytes).chars().flat_map(|c| if c.is_control() { c.escape_default().collect() } else { vec![c] }).collect();
            format!("'{text}'")
        }
        Value::Blob(bytes) => format!("x'{}'", bytes.iter().map(|byte| format!("{byte:02x}")).collect::<String>()),
    }
}

/// A key in one line: its columns, long ones cut.
pub fn key(bytes: &[u8], encoding: Encoding) -> String {
    const MOST: usize = 60;
    let Some(record) = Record::new(bytes) else { return "no record".into() };
    let values: Vec<String> = record
        .values()
        .map(|column| {
            let shown = value(column, encoding);
            let length = shown.chars().count();
            match length {
                0..=MOST => shown,
                _ => shown.chars().take(MOST).collect::<String>() + &format!(".. ({length} characters)"),
            }
        })
        .collect();
    values.join(" | ")
}

/// A value in JSON: a blob is an object with its bytes in hexadecimal, a real that is no finite number one with its name.
pub fn json(value: Value, encoding: Encoding) -> String {
    match value {
        Value::Null => "null".to_owned(),
        Value::Integer(integer) => integer.to_string(),
        Value::Real(real) => json::real(real),
        Value::Text(bytes) => json::text(&encoding.decode(bytes)),
        Value::Blob(bytes) => format!("{{\"blob\":\"{}\"}}", bytes.iter().map(|byte| format!("{byte:02x}")).collect::<String>()),
    }
}
