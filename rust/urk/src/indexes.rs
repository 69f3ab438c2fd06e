//! Which indexes are plain and ascending, by the texts of the schema: those whose keys rise as the library compares records. The library judges what is named; the texts are read here, and
//! what they do not tell for sure is left out, with the reason.

use crate::schema::{parts, tokens, Entry, Schema, Token};

/// The trees of keys in a schema: those that are plain and ascending, and those that are left out, with the reason.
#[derive(Default)]
pub struct Chosen {
    pub named: Vec<Entry>,
    pub left_out: Vec<(Entry, String)>,
}

/// Goes through the indexes and the WITHOUT ROWID tables of a schema.
pub fn chosen(schema: &Schema) -> Chosen {
    let mut chosen = Chosen::default();
    for entry in schema.0.iter().filter(|entry| entry.root > 1) {
        match why_not(schema, entry) {
            None => {}
            Some(Ok(())) => chosen.named.push(entry.clone()),
            Some(Err(why)) => chosen.left_out.push((entry.clone(), why)),
        }
    }
    chosen
}

/// Why an index, or a WITHOUT ROWID table, is not plain and ascending; none for what has no keys.
pub fn why_not(schema: &Schema, entry: &Entry) -> Option<Result<(), String>> {
    let table_of = |name: &str| schema.0.iter().find(|table| table.kind == "table" && table.name.eq_ignore_ascii_case(name));
    match entry.kind.as_str() {
        "table" => {
            let table = Table::of(&entry.sql)?;
            table.without_rowid.then(|| table.key_plain())
        }
        "index" => {
            let unread = || Err("the text of its table is not read".to_owned());
            let Some(table) = table_of(&entry.table).and_then(|table| Table::of(&table.sql)) else { return Some(unread()) };
            let plain = if entry.sql.is_empty() { table.automatic(schema, entry) } else { table.made(&entry.sql) };
            // The table's key stands behind the columns of each index.
            let behind = || if table.without_rowid { table.key_plain().map_err(|why| format!("{why} in the key of its table")) } else { Ok(()) };
            Some(plain.and_then(|()| behind()))
        }
        _ => None,
    }
}

/// The columns of an index, where its text, or its table's for one that a key made, tells them for sure: names alone, and all rows.
pub fn columns_of(schema: &Schema, entry: &Entry) -> Option<Vec<String>> {
    let table = schema.0.iter().find(|table| table.kind == "table" && table.name.eq_ignore_ascii_case(&entry.table))?;
    let table = Table::of(&table.sql)?;
    let parts =
        if entry.sql.is_empty() { table.own_key(schema, entry)?.parts.iter().map(|part| part.tokens.clone()).collect() } else { listed(&entry.sql)? };
    let name = |part: &Vec<Token>| {
        let (name, rest) = part.split_first()?;
        let mut rest = rest.iter();
        while let Some(token) = rest.next() {
            match token {
                _ if token.is("ASC") || token.is("DESC") => {}
                _ if token.is("COLLATE") => drop(rest.next()?),
                _ => return None,
            }
        }
        table.columns.iter().find(|column| name.names(&column.name)).map(|column| column.name.clone())
    };
    parts.iter().map(name).collect()
}

/// What stands between the commas of a CREATE INDEX text; none where it has a WHERE.
fn listed(sql: &str) -> Option<Vec<Vec<Token>>> {
    let tokens = tokens(sql);
    let on = tokens.iter().position(|token| token.is("ON"))?;
    let open = tokens[on..].iter().position(|token| token.is("("))? + on;
    let (parts, close) = parts(&tokens, open);
    (close + 1 == tokens.len()).then(|| parts.into_iter().map(<[Token]>::to_vec).collect())
}

struct Column {
    name: String,
    collate: Option<String>,
}

/// A column in a list of columns: its tokens, and an order that stands elsewhere.
struct Part {
    tokens: Vec<Token>,
    down: bool,
}

/// A PRIMARY KEY or UNIQUE that makes an index.
struct Key {
    primary: bool,
    parts: Vec<Part>,
}

#[derive(Default)]
struct Table {
    columns: Vec<Column>,
    keys: Vec<Key>,
    without_rowid: bool,
}

impl Table {
    /// Reads `CREATE TABLE name(..)`. None where the text is something else.
    fn of(sql: &str) -> Option<Table> {
        let tokens = tokens(sql);
        let open = tokens.iter().position(|token| token.is("("))?;
        let head = &tokens[..open];
        if !head.iter().any(|token| token.is("TABLE")) || head.iter().any(|token| token.is("VIRTUAL") || token.is("AS")) {
            return None;
        }
        let (parts, close) = parts(&tokens, open);
        let mut table =
            Table { without_rowid: tokens[close..].windows(2).any(|pair| pair[0].is("WITHOUT") && pair[1].is("ROWID")), ..Table::default() };
        // A key that is the row number makes no index; without row numbers its index comes last.
        let (mut types, mut last) = (Vec::new(), None);
        for part in parts {
            let Some(first) = part.first() else { continue };
            if ["CONSTRAINT", "PRIMARY", "UNIQUE", "CHECK", "FOREIGN"].iter().any(|word| first.is(word)) {
                for key in constraints(part) {
                    let column =
                        |part: &Part| table.columns.iter().position(|column| part.tokens.first().is_some_and(|name| name.names(&column.name)));
                    let whole = key.primary && key.parts.len() == 1 && column(&key.parts[0]).is_some_and(|column| types[column] == "INTEGER");
                    if whole {
                        last = Some(key);
                    } else {
                        table.keys.push(key);
                    }
                }
                continue;
            }
            let (column, kind, keys) = column(part);
            for key in keys {
                if key.primary && kind == "INTEGER" && !key.parts[0].down {
                    last = Some(key);
                } else {
                    table.keys.push(key);
                }
            }
            table.columns.push(column);
            types.push(kind);
        }
        // One that is like another before it makes no index of its own.
        let alike: Vec<Vec<(String, String)>> = table.keys.iter().map(|key| table.compared(key)).collect();
        let mut at = 0;
        table.keys.retain(|_| {
            at += 1;
            !alike[..at - 1].contains(&alike[at - 1])
        });
        table.keys.extend(last.filter(|_| table.without_rowid));
        (!table.columns.is_empty()).then_some(table)
    }

    /// The columns of a key, each with how it is compared.
    fn compared(&self, key: &Key) -> Vec<(String, String)> {
        let compared = |part: &Part| {
            let name = part.tokens.first().map_or("", |name| &name.text);
            let own = self.columns.iter().find(|column| column.name.eq_ignore_ascii_case(name)).and_then(|column| column.collate.as_deref());
            let given = part.tokens.windows(2).find(|pair| pair[0].is("COLLATE")).map(|pair| pair[1].text.as_str());
            (name.to_ascii_uppercase(), given.or(own).unwrap_or("BINARY").to_ascii_uppercase())
        };
        key.parts.iter().map(compared).collect()
    }

    /// Whether columns, as a list has them, are plain and ascending.
    fn plain(&self, parts: &[Part]) -> Result<(), String> {
        for part in parts {
            let expression = || "an expression".to_owned();
            let (name, mut rest) = part.tokens.split_first().ok_or_else(expression)?;
            let column = self.columns.iter().find(|column| name.names(&column.name)).ok_or_else(expression)?;
            let mut collate = column.collate.as_deref();
            let mut down = part.down;
            while let Some((first, more)) = rest.split_first() {
                rest = more;
                match rest.split_first() {
                    Some((name, more)) if first.is("COLLATE") => {
                        collate = Some(&name.text);
                        rest = more;
                    }
                    _ if first.is("DESC") => down = true,
                    _ if first.is("ASC") => {}
                    _ => return Err(expression()),
                }
            }
            if down {
                return Err("DESC".into());
            }
            if let Some(collate) = collate.filter(|collate| !collate.eq_ignore_ascii_case("BINARY")) {
                return Err(format!("COLLATE {}", collate.escape_debug()));
            }
        }
        Ok(())
    }

    fn key_plain(&self) -> Result<(), String> {
        let key = self.keys.iter().find(|key| key.primary).ok_or("a key that its text does not tell")?;
        self.plain(&key.parts)
    }

    /// An index with a text of its own.
    fn made(&self, sql: &str) -> Result<(), String> {
        let unread = || "a text that is not read".to_owned();
        let tokens = tokens(sql);
        let on = tokens.iter().position(|token| token.is("ON")).ok_or_else(unread)?;
        let open = tokens[on..].iter().position(|token| token.is("(")).ok_or_else(unread)? + on;
        let (parts, close) = parts(&tokens, open);
        if parts.is_empty() || close == tokens.len() {
            return Err(unread());
        }
        self.plain(&parts.into_iter().map(|part| Part { tokens: part.to_vec(), down: false }).collect::<Vec<_>>())
    }

    /// The key that made an index, where each has an index of its own.
    fn own_key(&self, schema: &Schema, entry: &Entry) -> Option<&Key> {
        let number = entry.name.rsplit('_').next().and_then(|number| number.parse::<usize>().ok())?;
        let own = schema.0.iter().filter(|other| other.kind == "index" && other.sql.is_empty() && other.table.eq_ignore_ascii_case(&entry.table));
        (own.count() + usize::from(self.without_rowid) == self.keys.len()).then(|| self.keys.get(number.checked_sub(1)?))?
    }

    /// An index that a PRIMARY KEY or UNIQUE made: by its number, where each of them has an index of its own; by all of them, where they are alike.
    fn automatic(&self, schema: &Schema, entry: &Entry) -> Result<(), String> {
        let number = entry.name.rsplit('_').next().and_then(|number| number.parse::<usize>().ok());
        let own = schema.0.iter().filter(|other| other.kind == "index" && other.sql.is_empty() && other.table.eq_ignore_ascii_case(&entry.table));
        if own.count() + usize::from(self.without_rowid) == self.keys.len() {
            if let Some(key) = number.and_then(|number| self.keys.get(number.checked_sub(1)?)) {
                return self.plain(&key.parts);
            }
        }
        if self.keys.is_empty() {
            return Err("a key that its table's text does not tell".into());
        }
        self.keys.iter().try_for_each(|key| self.plain(&key.parts)).map_err(|why| format!("{why} in a key of its table, which may be this index's"))
    }
}

/// A column's definition: the column, its type, and the indexes that it makes by itself.
fn column(part: &[Token]) -> (Column, String, Vec<Key>) {
    let name = &part[0];
    let ends = ["CONSTRAINT", "PRIMARY", "NOT", "NULL", "UNIQUE", "CHECK", "DEFAULT", "COLLATE", "REFERENCES", "GENERATED", "AS"];
    let end = part[1..].iter().position(|token| ends.iter().any(|word| token.is(word))).map_or(part.len(), |at| at + 1);
    let kind = part[1..end].iter().map(|token| token.text.to_ascii_uppercase()).collect::<Vec<_>>().join(" ");
    let (mut collate, mut keys, mut depth) = (None, Vec::new(), 0);
    for (i, token) in part.iter().enumerate().skip(1) {
        let next = part.get(i + 1);
        match token {
            _ if token.is("(") => depth += 1,
            _ if token.is(")") => depth -= 1,
            _ if depth > 0 => {}
            _ if token.is("COLLATE") => collate = next.map(|next| next.text.clone()),
            _ if token.is("PRIMARY") && next.is_some_and(|next| next.is("KEY")) => {
                let down = part.get(i + 2).is_some_and(|token| token.is("DESC"));
                keys.push(Key { primary: true, parts: vec![Part { tokens: vec![name.clone()], down }] });
            }
            _ if token.is("UNIQUE") => keys.push(Key { primary: false, parts: vec![Part { tokens: vec![name.clone()], down: false }] }),
            _ => {}
        }
    }
    (Column { name: name.text.clone(), collate }, kind, keys)
}

/// The indexes that constraints behind the columns make. No comma need stand between them.
fn constraints(part: &[Token]) -> Vec<Key> {
    let (mut keys, mut depth) = (Vec::new(), 0);
    for (i, token) in part.iter().enumerate() {
        let opens = |at: usize| part.get(at).is_some_and(|token| token.is("("));
        let open = match token {
            _ if depth > 0 => None,
            _ if token.is("PRIMARY") && opens(i + 2) => Some(i + 2),
            _ if token.is("UNIQUE") && opens(i + 1) => Some(i + 1),
            _ => None,
        };
        if let Some(open) = open {
            let listed = parts(part, open).0.into_iter().map(|part| Part { tokens: part.to_vec(), down: false }).collect();
            keys.push(Key { primary: token.is("PRIMARY"), parts: listed });
        }
        depth += i32::from(token.is("(")) - i32::from(token.is(")"));
    }
    keys
}

#[cfg(test)]
mod tests {
    use super::{chosen, Entry, Schema};

    fn schema(rows: &[(&str, &str, &str, &str)]) -> Schema {
        let entry = |(root, &(kind, name, table, sql)): (u32, &(&str, &str, &str, &str))| Entry {
            kind: kind.into(),
            name: name.into(),
            table: table.into(),
            root,
            sql: sql.into(),
        };
        Schema((2..).zip(rows).map(entry).collect())
    }

    /// What is said of the last row: nothing, plain, or why not.
    fn last(rows: &[(&str, &str, &str, &str)]) -> Option<Result<(), String>> {
        let root = rows.len() as u32 + 1;
        let chosen = chosen(&schema(rows));
        let named = chosen.named.iter().any(|entry| entry.root == root).then_some(Ok(()));
        named.or(chosen.left_out.into_iter().find(|(entry, _)| entry.root == root).map(|(_, why)| Err(why)))
    }

    fn index(table: &str, sql: &str) -> Option<Result<(), String>> {
        last(&[("table", "t", "t", table), ("index", "i", "t", sql)])
    }

    fn automatic(table: &str, count: usize, number: usize) -> Option<Result<(), String>> {
        let names: Vec<String> = (1..=count).map(|number| format!("sqlite_autoindex_t_{number}")).collect();
        let mut rows = vec![("table", "t", "t", table)];
        rows.extend(names.iter().enumerate().filter(|(i, _)| i + 1 != number).map(|(_, name)| ("index", name.as_str(), "t", "")));
        rows.push(("index", &names[number - 1], "t", ""));
        last(&rows)
    }

    fn off(why: &str) -> Option<Result<(), String>> {
        Some(Err(why.into()))
    }

    #[test]
    fn indexes_with_a_text() {
        let table = "CREATE TABLE t(a, b TEXT COLLATE NOCASE, \"c d\" INT DEFAULT (1 COLLATE NOCASE), e TEXT COLLATE binary)";
        assert_eq!(index(table, "CREATE INDEX i ON t(a)"), Some(Ok(())));
        assert_eq!(index(table, "CREATE UNIQUE INDEX IF NOT EXISTS i ON T ( A ASC, [c d], e ) WHERE a > 1"), Some(Ok(())));
        assert_eq!(index(table, "CREATE INDEX i ON t(b COLLATE BINARY)"), Some(Ok(())));
        assert_eq!(index(table, "CREATE INDEX i ON t(a, \"c d\" DESC)"), off("DESC"));
        assert_eq!(index(table, "CREATE INDEX i ON t(a COLLATE nocase)"), off("COLLATE nocase"));
        assert_eq!(index(table, "CREATE INDEX i ON t(b)"), off("COLLATE NOCASE"));
        assert_eq!(index(table, "CREATE INDEX i ON t(a, e COLLATE RTRIM ASC)"), off("COLLATE RTRIM"));
        for expression in ["a + 1", "abs(a)", "lower(b)", "(a)", "nothing", "'x'", "a || b", "1"] {
            assert_eq!(index(table, &format!("CREATE INDEX i ON t({expression})")), off("an expression"), "{expression}");
        }
        assert_eq!(index(table, "CREATE INDEX i ON t(a"), off("a text that is not read"));
        assert_eq!(index("CREATE VIRTUAL TABLE t USING fts5(a)", "CREATE INDEX i ON t(a)"), off("the text of its table is not read"));
        assert_eq!(last(&[("index", "i", "t", "CREATE INDEX i ON t(a)")]), off("the text of its table is not read"));
    }

    #[test]
    fn automatic_indexes() {
        assert_eq!(automatic("CREATE TABLE t(a UNIQUE, b)", 1, 1), Some(Ok(())));
        assert_eq!(automatic("CREATE TABLE t(a TEXT PRIMARY KEY COLLATE NOCASE)", 1, 1), off("COLLATE NOCASE"));
        assert_eq!(automatic("CREATE TABLE t(a INTEGER PRIMARY KEY, b UNIQUE, c COLLATE NOCASE UNIQUE)", 2, 1), Some(Ok(())));
        assert_eq!(automatic("CREATE TABLE t(a INTEGER PRIMARY KEY, b UNIQUE, c COLLATE NOCASE UNIQUE)", 2, 2), off("COLLATE NOCASE"));
        assert_eq!(automatic("CREATE TABLE t(a INTEGER PRIMARY KEY DESC)", 1, 1), off("DESC"));
        assert_eq!(automatic("CREATE TABLE t(a, b, PRIMARY KEY(a, b DESC) UNIQUE(b, a))", 2, 2), Some(Ok(())));
        assert_eq!(automatic("CREATE TABLE t(a, b, PRIMARY KEY(a, b DESC) UNIQUE(b, a))", 2, 1), off("DESC"));
        assert_eq!(
            automatic("CREATE TABLE t(a, b, CONSTRAINT u UNIQUE(a), CHECK (b > 0 AND (a = 1)), UNIQUE(b COLLATE NOCASE))", 2, 1),
            Some(Ok(()))
        );
        // Two that are one.
        let twice = "CREATE TABLE t(a UNIQUE, UNIQUE(A), b COLLATE NOCASE UNIQUE, UNIQUE(a COLLATE NOCASE))";
        assert_eq!((automatic(twice, 3, 1), automatic(twice, 3, 2)), (Some(Ok(())), off("COLLATE NOCASE")));
        assert_eq!(automatic(twice, 3, 3), off("COLLATE NOCASE"));
        // Where there are others than the text tells, it is not told which is whose.
        assert_eq!(automatic(twice, 2, 1), off("COLLATE NOCASE in a key of its table, which may be this index's"));
        assert_eq!(automatic("CREATE TABLE t(a UNIQUE, b UNIQUE)", 1, 1), Some(Ok(())));
    }

    #[test]
    fn tables_without_row_numbers() {
        let table = |sql: &str| last(&[("table", "t", "t", sql)]);
        assert_eq!(table("CREATE TABLE t(a PRIMARY KEY)"), None);
        assert_eq!(table("CREATE TABLE t(a PRIMARY KEY, b COLLATE NOCASE) WITHOUT ROWID"), Some(Ok(())));
        assert_eq!(table("CREATE TABLE t(a INTEGER PRIMARY KEY) WITHOUT ROWID, STRICT"), Some(Ok(())));
        assert_eq!(table("CREATE TABLE t(a, b, PRIMARY KEY(b, a)) STRICT, WITHOUT ROWID"), Some(Ok(())));
        assert_eq!(table("CREATE TABLE t(a COLLATE NOCASE, b, PRIMARY KEY(b, a)) WITHOUT ROWID"), off("COLLATE NOCASE"));
        assert_eq!(table("CREATE TABLE t(a, b, PRIMARY KEY(b DESC)) WITHOUT ROWID"), off("DESC"));
        // Their indexes have the key behind their columns.
        let on = |key: &str| index(&format!("CREATE TABLE t(a, b, PRIMARY KEY({key})) WITHOUT ROWID"), "CREATE INDEX i ON t(b)");
        assert_eq!((on("a"), on("a DESC")), (Some(Ok(())), off("DESC in the key of its table")));
        assert_eq!(automatic("CREATE TABLE t(a INTEGER PRIMARY KEY, b UNIQUE) WITHOUT ROWID", 1, 1), Some(Ok(())));
        assert_eq!(automatic("CREATE TABLE t(a INTEGER PRIMARY KEY, b COLLATE NOCASE UNIQUE, c UNIQUE) WITHOUT ROWID", 2, 2), Some(Ok(())));
    }
}
