//! JSON, as far as it is written here.

/// A text in quotes.
pub fn text(text: &str) -> String {
    let mut quoted = String::with_capacity(text.len() + 2);
    quoted.push('"');
    for c in text.chars() {
        match c {
            '"' => quoted.push_str("\\\""),
            '\\' => quoted.push_str("\\\\"),
            c if c.is_control() => quoted.push_str(&format!("\\u{:04x}", c as u32)),
            c => quoted.push(c),
        }
    }
    quoted.push('"');
    quoted
}

/// Items that are JSON, as an array.
pub fn array(items: impl IntoIterator<Item = String>) -> String {
    format!("[{}]", items.into_iter().collect::<Vec<_>>().join(","))
}

/// A real: one that is no finite number is an object with its name.
pub fn real(real: f64) -> String {
    if real.is_finite() {
        format!("{real:?}")
    } else {
        format!("{{\"real\":\"{real}\"}}")
    }
}

/// An object, field by field.
#[derive(Default)]
pub struct Object(Vec<String>);

impl Object {
    pub fn new() -> Object {
        Object::default()
    }

    /// A field whose value is JSON, as a number's own text is.
    pub fn field(mut self, name: &str, value: impl ToString) -> Object {
        self.0.push(format!("{}:{}", text(name), value.to_string()));
        self
    }

    pub fn text(self, name: &str, value: &str) -> Object {
        let value = text(value);
        self.field(name, value)
    }

    /// A field that is null where there is no value.
    pub fn maybe(self, name: &str, value: Option<impl ToString>) -> Object {
        self.field(name, value.map_or("null".to_owned(), |value| value.to_string()))
    }

    pub fn end(self) -> String {
        format!("{{{}}}", self.0.join(","))
    }
}
