//! JSON, as far as it is read here: a line is one value.

/// A value. A number is kept as it is written.
#[derive(Clone, Debug, PartialEq)]
pub enum Json {
    Null,
    Bool(bool),
    Number(String),
    Text(String),
    Array(Vec<Json>),
    Object(Vec<(String, Json)>),
}

/// Values within values go no deeper.
const DEPTH: usize = 8;

/// The value that a text is, or what is wrong with it and at which character, counted from 1.
pub fn parse(text: &str) -> Result<Json, String> {
    let mut reader = Reader { chars: text.chars().collect(), at: 0 };
    let value = reader.value(DEPTH)?;
    reader.space();
    match reader.peek() {
        None => Ok(value),
        Some(_) => Err(reader.off("nothing more was wanted")),
    }
}

struct Reader {
    chars: Vec<char>,
    at: usize,
}

impl Reader {
    fn peek(&self) -> Option<char> {
        self.chars.get(self.at).copied()
    }

    fn off(&self, what: &str) -> String {
        format!("{what} (character {})", self.at + 1)
    }

    fn space(&mut self) {
        while self.peek().is_some_and(|c| matches!(c, ' ' | '\t' | '\r' | '\n')) {
            self.at += 1;
        }
    }

    /// The next character, if it is this one, behind spaces.
    fn take(&mut self, wanted: char) -> bool {
        self.space();
        let found = self.peek() == Some(wanted);
        self.at += usize::from(found);
        found
    }

    fn value(&mut self, depth: usize) -> Result<Json, String> {
        self.space();
        if depth == 0 {
            return Err(self.off("values stand too deep within each other"));
        }
        match self.peek() {
            Some('"') => Ok(Json::Text(self.text()?)),
            Some('[') => self.array(depth),
            Some('{') => self.object(depth),
            Some(c) if c == '-' || c.is_ascii_digit() => self.number(),
            Some(c) if c.is_ascii_alphabetic() => self.word(),
            _ => Err(self.off("a value is wanted")),
        }
    }

    fn word(&mut self) -> Result<Json, String> {
        let begin = self.at;
        while self.peek().is_some_and(|c| c.is_ascii_alphanumeric()) {
            self.at += 1;
        }
        match &self.chars[begin..self.at].iter().collect::<String>()[..] {
            "null" => Ok(Json::Null),
            "true" => Ok(Json::Bool(true)),
            "false" => Ok(Json::Bool(false)),
            word => {
                self.at = begin;
                Err(self.off(&format!("'{word}' is no value")))
            }
        }
    }

    fn digits(&mut self) -> Result<(), String> {
        let begin = self.at;
        while self.peek().is_some_and(|c| c.is_ascii_digit()) {
            self.at += 1;
        }
        if self.at == begin {
            return Err(self.off("a digit is wanted"));
        }
        Ok(())
    }

    fn number(&mut self) -> Result<Json, String> {
        let begin = self.at;
        self.at += usize::from(self.peek() == Some('-'));
        let first = self.at;
        self.digits()?;
        if self.at > first + 1 && self.chars[first] == '0' {
            return Err(self.off("a number has no zeros in front"));
        }
        if self.peek() == Some('.') {
            self.at += 1;
            self.digits()?;
        }
        if matches!(self.peek(), Some('e' | 'E')) {
            self.at += 1;
            self.at += usize::from(matches!(self.peek(), Some('+' | '-')));
            self.digits()?;
        }
        Ok(Json::Number(self.chars[begin..self.at].iter().collect()))
    }

    fn text(&mut self) -> Result<String, String> {
        let mut text = String::new();
        self.at += 1;
        loop {
            let Some(c) = self.peek() else { return Err(self.off("the text does not end")) };
            self.at += 1;
            match c {
                '"' => return Ok(text),
                '\\' => text.push(self.escape()?),
                c if (c as u32) < 32 => return Err(self.off("a control character stands in a text as it is")),
                c => text.push(c),
            }
        }
    }

    fn escape(&mut self) -> Result<char, String> {
        let Some(c) = self.peek() else { return Err(self.off("the text does not end")) };
        self.at += 1;
        Ok(match c {
            '"' | '\\' | '/' => c,
            'b' => '\u{8}',
            'f' => '\u{c}',
            'n' => '\n',
            'r' => '\r',
            't' => '\t',
            'u' => {
                let high = self.four()?;
                // Past 16 bits a character is written as two halves.
                let halves = (0xd800..0xdc00).contains(&high) && self.chars.get(self.at..self.at + 2) == Some(&['\\', 'u']);
                let code = if halves {
                    self.at += 2;
                    let low = self.four()?;
                    if !(0xdc00..0xe000).contains(&low) {
                        return Err(self.off("half a character"));
                    }
                    0x10000 + ((high - 0xd800) << 10) + (low - 0xdc00)
                } else {
                    high
                };
                char::from_u32(code).ok_or_else(|| self.off("half a character"))?
            }
            _ => return Err(self.off("no such escape")),
        })
    }

    fn four(&mut self) -> Result<u32, String> {
        let digits: Option<String> = self.chars.get(self.at..self.at + 4).map(|four| four.iter().collect());
        let code =
            digits.filter(|digits| digits.bytes().all(|byte| byte.is_ascii_hexdigit())).and_then(|digits| u32::from_str_radix(&digits, 16).ok());
        let code = code.ok_or_else(|| self.off("four hexadecimal digits are wanted"))?;
        self.at += 4;
        Ok(code)
    }

    fn array(&mut self, depth: usize) -> Result<Json, String> {
        let mut items = Vec::new();
        self.at += 1;
        if self.take(']') {
            return Ok(Json::Array(items));
        }
        loop {
            items.push(self.value(depth - 1)?);
            if self.take(']') {
                return Ok(Json::Array(items));
            }
            if !self.take(',') {
                return Err(self.off("a comma or ] is wanted"));
            }
        }
    }

    fn object(&mut self, depth: usize) -> Result<Json, String> {
        let mut fields = Vec::new();
        self.at += 1;
        if self.take('}') {
            return Ok(Json::Object(fields));
        }
        loop {
            self.space();
            if self.peek() != Some('"') {
                return Err(self.off("a name in quotes is wanted"));
            }
            let name = self.text()?;
            if !self.take(':') {
                return Err(self.off("a colon is wanted"));
            }
            fields.push((name, self.value(depth - 1)?));
            if self.take('}') {
                return Ok(Json::Object(fields));
            }
            if !self.take(',') {
                return Err(self.off("a comma or } is wanted"));
            }
        }
    }
}

#[cfg(test)]
mod tests {
    use super::{parse, Json};

    #[test]
    fn values() {
        let number = |text: &str| Json::Number(text.into());
        assert_eq!(parse(" null "), Ok(Json::Null));
        assert_eq!(parse("[1,-2.5e+3,true]"), Ok(Json::Array(vec![number("1"), number("-2.5e+3"), Json::Bool(true)])));
        assert_eq!(parse(r#""a\"\\\u00e9\ud83d\ude00\n""#), Ok(Json::Text("a\"\\é😀\n".into())));
        let object = Json::Object(vec![("row".into(), number("5")), ("columns".into(), Json::Array(Vec::new()))]);
        assert_eq!(parse(r#"{"row": 5, "columns": []}"#), Ok(object));
    }

    #[test]
    fn what_is_off_is_told() {
        for (text, why) in [
            ("", "a value is wanted (character 1)"),
            ("[1 2]", "a comma or ] is wanted (character 4)"),
            ("{\"a\"}", "a colon is wanted (character 5)"),
            ("{a:1}", "a name in quotes is wanted (character 2)"),
            ("\"a", "the text does not end (character 3)"),
            ("nul", "'nul' is no value (character 1)"),
            ("01", "a number has no zeros in front (character 3)"),
            ("1.", "a digit is wanted (character 3)"),
            ("\"\\ud83d\"", "half a character (character 8)"),
            ("1 1", "nothing more was wanted (character 3)"),
            ("[[[[[[[[[1]]]]]]]]]", "values stand too deep within each other (character 9)"),
        ] {
            assert_eq!(parse(text), Err(why.to_owned()), "{text}");
        }
    }
}
