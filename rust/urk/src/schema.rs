//! What the schema says: tables and indexes by name, and the columns that a table's own text gives. The library reads the rows; the text is read here, and only to name things.

use std::ffi::OsStr;

use urkibasko::{Record, Rows, Value};

use crate::show::Encoding;
use crate::words::Words;
use crate::Stop;

/// Pages that a step through a schema that was not judged may enter.
const MOST_PAGES: u64 = 100_000;

/// A row of the schema.
#[derive(Clone)]
pub struct Entry {
    /// `table`, `index`, `view` or `trigger`.
    pub kind: String,
    pub name: String,
    /// The table that it belongs to.
    pub table: String,
    /// 0 where it has none.
    pub root: u32,
    pub sql: String,
}

impl Entry {
    /// `table 'reading'`
    pub fn words(&self) -> String {
        format!("{} '{}'", self.kind, self.name.escape_debug())
    }

    pub fn columns(&self) -> Columns {
        Columns::of(&self.sql)
    }
}

/// The schema of an image, as far as it reads.
pub struct Schema(pub Vec<Entry>);

impl Schema {
    pub fn of(image: &[u8]) -> Schema {
        let encoding = Encoding::of(image);
        let mut entries =
            vec![Entry { kind: "table".into(), name: "sqlite_schema".into(), table: "sqlite_schema".into(), root: 1, sql: SCHEMA_SQL.into() }];
        let mut room = vec![0; urkibasko::MAX_PAYLOAD];
        for row in Rows::unchecked(image, 1, None, MOST_PAGES).into_iter().flatten() {
            let Ok(row) = row else { break };
            let Ok(payload) = urkibasko::payload(image, row.page, row.cell, &mut room) else { continue };
            let Some(record) = Record::new(payload) else { continue };
            let text = |column| match record.column(column) {
                Some(Value::Text(bytes)) => encoding.decode(bytes),
                _ => String::new(),
            };
            let root = match record.column(4) {
                Some(Value::Integer(root)) => u32::try_from(root).unwrap_or(0),
                _ => 0,
            };
            entries.push(Entry { kind: text(1), name: text(2), table: text(3), root, sql: text(5) });
        }
        Schema(entries)
    }

    pub fn at_root(&self, root: u32) -> Option<&Entry> {
        self.0.iter().find(|entry| entry.root == root && root != 0)
    }

    /// What a word names whose page is a root: by name, where two entries may have one page, else by the page.
    pub fn entry(&self, word: &OsStr, root: u32) -> Option<&Entry> {
        self.named(&word.to_string_lossy()).filter(|entry| entry.root == root).or_else(|| self.at_root(root))
    }

    /// A table or an index by name: as it is written, else in any case of letters.
    fn named(&self, name: &str) -> Option<&Entry> {
        let exactly = self.0.iter().find(|entry| entry.name == name);
        let old = if name.eq_ignore_ascii_case("sqlite_master") { self.0.first() } else { None };
        exactly.or(old).or_else(|| self.0.iter().find(|entry| entry.name.eq_ignore_ascii_case(name)))
    }

    /// The page of a word that is one, or of the table that it names.
    pub fn root(&self, words: &Words, word: &OsStr) -> Result<u32, Stop> {
        let text = word.to_string_lossy();
        if !text.is_empty() && text.bytes().all(|byte| byte.is_ascii_digit()) {
            return words.number("ROOT", word);
        }
        let missing = match self.named(&text) {
            Some(entry) if entry.root != 0 => return Ok(entry.root),
            Some(entry) => format!("{} has no rows of its own", entry.words()),
            None => {
                let tables: Vec<&str> =
                    self.0.iter().filter(|entry| entry.kind == "table" && entry.root != 0).map(|entry| entry.name.as_str()).collect();
                format!(
                    "'{}' is neither a page nor a table: there {} {}",
                    text.escape_debug(),
                    if tables.len() == 1 { "is" } else { "are" },
                    listed(&tables)
                )
            }
        };
        Err(words.said(format!("not there: {missing}"), 4))
    }

    /// The page of a word that is one, or of the index or WITHOUT ROWID table that it names; else what is not there.
    pub fn keys_root(&self, word: &str) -> Result<u32, String> {
        if let Ok(root) = word.parse() {
            return Ok(root);
        }
        match self.named(word) {
            Some(entry) if entry.root != 0 => Ok(entry.root),
            Some(entry) => Err(format!("{} has no keys of its own", entry.words())),
            None => {
                let indexes: Vec<&str> =
                    self.0.iter().filter(|entry| entry.kind == "index" && entry.root != 0).map(|entry| entry.name.as_str()).collect();
                let there = match indexes.len() {
                    0 => "there is no index".to_owned(),
                    1 => format!("there is {}", indexes[0].escape_debug()),
                    _ => format!("there are {}", listed(&indexes)),
                };
                Err(format!("'{}' is neither a page nor an index: {there}", word.escape_debug()))
            }
        }
    }

    /// The columns of the table at a root.
    pub fn columns(&self, root: u32) -> Columns {
        let table = self.0.iter().find(|entry| entry.root == root && root != 0 && entry.kind == "table");
        table.map(Entry::columns).unwrap_or_default()
    }
}

fn listed(names: &[&str]) -> String {
    let more = if names.len() > 12 { format!(" and {} more (see urk tables)", names.len() - 12) } else { String::new() };
    names.iter().take(12).copied().collect::<Vec<_>>().join(", ") + &more
}

const SCHEMA_SQL: &str = "CREATE TABLE sqlite_schema(type TEXT, name TEXT, tbl_name TEXT, rootpage INT, sql TEXT)";

/// A table's columns by name, as its text gives them.
#[derive(Default, Debug, PartialEq)]
pub struct Columns {
    names: Vec<String>,
    /// The column, from 1, that is the row number and is stored as null.
    pub row_number: Option<u64>,
    pub without_rowid: bool,
    /// Whether each column named is one of the record: none is generated.
    pub stored: bool,
}

impl Columns {
    /// The name of a column, counted from 1.
    pub fn name(&self, column: u64) -> Option<&str> {
        self.names.get((column as usize).checked_sub(1)?).map(String::as_str)
    }

    pub fn names(&self) -> &[String] {
        &self.names
    }

    /// Reads `CREATE TABLE name(..)`. Where the text is something else there are no names.
    pub fn of(sql: &str) -> Columns {
        let tokens = tokens(sql);
        let Some(open) = tokens.iter().position(|token| token.is("(")) else { return Columns::default() };
        let head = &tokens[..open];
        if !head.iter().any(|token| token.is("TABLE")) || head.iter().any(|token| token.is("VIRTUAL") || token.is("AS")) {
            return Columns::default();
        }
        let (parts, close) = parts(&tokens, open);
        let mut columns = Columns { stored: true, ..Columns::default() };
        let mut types: Vec<String> = Vec::new();
        for part in parts {
            let Some(first) = part.first() else { continue };
            if !first.quoted && ["CONSTRAINT", "PRIMARY", "UNIQUE", "CHECK", "FOREIGN"].iter().any(|word| first.is(word)) {
                columns.table_key(part, &types);
                continue;
            }
            let ends = ["CONSTRAINT", "PRIMARY", "NOT", "NULL", "UNIQUE", "CHECK", "DEFAULT", "COLLATE", "REFERENCES", "GENERATED", "AS"];
            let end = part[1..].iter().position(|token| !token.quoted && ends.iter().any(|word| token.is(word))).map_or(part.len(), |at| at + 1);
            columns.stored &= !part.iter().any(|token| token.is("GENERATED") || token.is("AS"));
            columns.names.push(first.text.clone());
            types.push(part[1..end].iter().map(|token| token.text.to_ascii_uppercase()).collect::<Vec<_>>().join(" "));
            let key = part.windows(2).position(|pair| pair[0].is("PRIMARY") && pair[1].is("KEY"));
            if let Some(at) = key.filter(|_| types.last().is_some_and(|kind| kind == "INTEGER")) {
                // A key that goes down is no row number: so it is in sqlite3.
                if !part.get(at + 2).is_some_and(|token| token.is("DESC")) {
                    columns.row_number = Some(columns.names.len() as u64);
                }
            }
        }
        columns.without_rowid = tokens[close..].windows(2).any(|pair| pair[0].is("WITHOUT") && pair[1].is("ROWID"));
        if columns.without_rowid {
            // Its columns are stored with the key's first.
            return Columns { without_rowid: true, ..Columns::default() };
        }
        columns
    }

    /// `PRIMARY KEY(a)` behind the columns.
    fn table_key(&mut self, part: &[Token], types: &[String]) {
        let Some(at) = part.windows(3).position(|three| three[0].is("PRIMARY") && three[1].is("KEY") && three[2].is("(")) else { return };
        let (keys, _) = parts(part, at + 2);
        let [key] = &keys[..] else { return };
        let column = key.first().and_then(|name| self.names.iter().position(|column| column.eq_ignore_ascii_case(&name.text)));
        if let Some(column) = column.filter(|&column| types[column] == "INTEGER") {
            self.row_number = Some(column as u64 + 1);
        }
    }
}

/// A word, with its first character's place in the text, and the place behind its last.
#[derive(Clone, Debug)]
pub struct Token {
    pub text: String,
    pub quoted: bool,
    pub start: usize,
    pub end: usize,
}

impl Token {
    pub fn is(&self, word: &str) -> bool {
        !self.quoted && self.text.eq_ignore_ascii_case(word)
    }

    /// Whether it is a name of something, quoted or not.
    pub fn names(&self, name: &str) -> bool {
        self.text.eq_ignore_ascii_case(name)
    }
}

/// The words of an SQL text: names, marks, quoted things; comments are passed over.
pub fn tokens(sql: &str) -> Vec<Token> {
    let chars: Vec<char> = sql.chars().collect();
    let (mut tokens, mut at) = (Vec::new(), 0);
    while at < chars.len() {
        let start = at;
        let (c, next) = (chars[at], chars.get(at + 1));
        if c.is_whitespace() {
            at += 1;
        } else if c == '-' && next == Some(&'-') {
            at = (at..chars.len()).find(|&i| chars[i] == '\n').unwrap_or(chars.len());
        } else if c == '/' && next == Some(&'*') {
            at = (at + 2..chars.len()).find(|&i| chars[i] == '/' && chars[i - 1] == '*' && i > at + 2).map_or(chars.len(), |end| end + 1);
        } else if let Some(close) = [('"', '"'), ('`', '`'), ('\'', '\''), ('[', ']')].iter().find(|pair| pair.0 == c).map(|pair| pair.1) {
            let mut text = String::new();
            at += 1;
            while at < chars.len() {
                if chars[at] == close {
                    if close != ']' && chars.get(at + 1) == Some(&close) {
                        at += 1;
                    } else {
                        break;
                    }
                }
                text.push(chars[at]);
                at += 1;
            }
            at += 1;
            tokens.push(Token { text, quoted: true, start, end: at.min(chars.len()) });
        } else if c.is_alphanumeric() || c == '_' || c == '$' || !c.is_ascii() {
            let end =
                (at..chars.len()).find(|&i| !(chars[i].is_alphanumeric() || "_$.".contains(chars[i]) || !chars[i].is_ascii())).unwrap_or(chars.len());
            tokens.push(Token { text: chars[at..end].iter().collect(), quoted: false, start, end });
            at = end;
        } else {
            tokens.push(Token { text: c.to_string(), quoted: false, start, end: at + 1 });
            at += 1;
        }
    }
    tokens
}

/// What stands between commas in the brackets that open at a token, and where they close.
pub fn parts(tokens: &[Token], open: usize) -> (Vec<&[Token]>, usize) {
    let (mut parts, mut depth, mut start) = (Vec::new(), 0, open + 1);
    for (i, token) in tokens.iter().enumerate().skip(open) {
        if token.is("(") {
            depth += 1;
        } else if token.is(")") {
            depth -= 1;
            if depth == 0 {
                parts.push(&tokens[start..i]);
                return (parts, i);
            }
        } else if token.is(",") && depth == 1 {
            parts.push(&tokens[start..i]);
            start = i + 1;
        }
    }
    // Brackets that do not close hold nothing that could be trusted.
    (Vec::new(), tokens.len())
}

#[cfg(test)]
mod tests {
    use super::Columns;

    fn read(sql: &str) -> (Vec<String>, Option<u64>, bool) {
        let columns = Columns::of(sql);
        (columns.names, columns.row_number, columns.without_rowid)
    }

    fn names(names: &[&str]) -> Vec<String> {
        names.iter().map(|name| name.to_string()).collect()
    }

    #[test]
    fn columns_of_tables() {
        assert_eq!(read("CREATE TABLE t(a, b)"), (names(&["a", "b"]), None, false));
        assert_eq!(
            read("CREATE TABLE \"t (x\"(id INTEGER PRIMARY KEY, [a b] TEXT DEFAULT (1, 2), 'c''d', `e`)"),
            (names(&["id", "a b", "c'd", "e"]), Some(1), false)
        );
        assert_eq!(read("CREATE TABLE t(a INT PRIMARY KEY, b DECIMAL(10, 2) NOT NULL)"), (names(&["a", "b"]), None, false));
        assert_eq!(read("CREATE TABLE t(a INTEGER PRIMARY KEY DESC)"), (names(&["a"]), None, false));
        assert_eq!(read("CREATE TABLE t(a, b integer, primary key(B))"), (names(&["a", "b"]), Some(2), false));
        assert_eq!(read("CREATE TABLE t(a, b INTEGER, PRIMARY KEY(a, b))"), (names(&["a", "b"]), None, false));
        assert_eq!(read("CREATE TABLE t(a /* , b */, -- , c\n d, CHECK (a > 0), CONSTRAINT u UNIQUE (a))"), (names(&["a", "d"]), None, false));
        assert_eq!(read("CREATE TABLE t(\"check\" TEXT, \"primary\")"), (names(&["check", "primary"]), None, false));
        assert_eq!(read("CREATE TABLE t(a PRIMARY KEY, b) WITHOUT ROWID"), (names(&[]), None, true));
        assert_eq!(read("CREATE VIRTUAL TABLE t USING fts5(a)"), (names(&[]), None, false));
        assert_eq!(read("CREATE TABLE t(a, b"), (names(&[]), None, false));
        assert_eq!(read(""), (names(&[]), None, false));
    }
}
