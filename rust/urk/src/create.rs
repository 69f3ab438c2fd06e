//! `CREATE TABLE` statements, as far as a fresh file can have them: one table, no index.

use crate::schema::{tokens, Columns, Token};

/// A table for a fresh file.
#[derive(Debug)]
pub struct Table {
    pub name: String,
    /// The text as the schema has it: `CREATE TABLE`, and what follows from the name on.
    pub sql: String,
    pub columns: Columns,
}

/// Reads a statement. What a fresh file cannot have is told.
pub fn table(sql: &str) -> Result<Table, String> {
    let mut all = tokens(sql);
    while all.last().is_some_and(|token| token.is(";")) {
        all.pop();
    }
    if all.iter().any(|token| token.is(";")) {
        return Err("it has more than one statement".into());
    }
    let word = |at: usize, word: &str| all.get(at).is_some_and(|token| token.is(word));
    if !word(0, "CREATE") {
        return Err("it is no CREATE TABLE statement".into());
    }
    if word(1, "TEMP") || word(1, "TEMPORARY") {
        return Err("a temporary table is in no file".into());
    }
    if word(1, "VIRTUAL") {
        return Err("a virtual table has no rows of its own".into());
    }
    if !word(1, "TABLE") {
        return Err("it is no CREATE TABLE statement".into());
    }
    let at = if word(2, "IF") && word(3, "NOT") && word(4, "EXISTS") { 5 } else { 2 };
    let (name, start) = name(&all, at).ok_or("the table's name is missing")?;
    let end = all.last().map_or(start, |token| token.end);
    let text: String = sql.chars().skip(start).take(end - start).collect();
    let sql = format!("CREATE TABLE {text}");
    let columns = Columns::of(&sql);
    if columns.without_rowid {
        return Err("a table WITHOUT ROWID is kept as an index is".into());
    }
    if columns.names().is_empty() {
        return Err("its columns are not written out in brackets".into());
    }
    if name.to_ascii_lowercase().starts_with("sqlite_") {
        return Err(format!("the name '{name}' is kept for sqlite3 itself"));
    }
    let keyed = all.windows(2).any(|pair| pair[0].is("PRIMARY") && pair[1].is("KEY"));
    if all.iter().any(|token| token.is("UNIQUE")) || (keyed && columns.row_number.is_none()) {
        return Err("UNIQUE, or a PRIMARY KEY that is no INTEGER, asks for an index, and a fresh file has one tree".into());
    }
    if all.iter().any(|token| token.is("AUTOINCREMENT")) {
        return Err("AUTOINCREMENT asks for a second table, and a fresh file has one tree".into());
    }
    Ok(Table { name, sql, columns })
}

/// The table's name at a token, behind a schema's name where there is one, and where it begins.
fn name(all: &[Token], at: usize) -> Option<(String, usize)> {
    let token = all.get(at)?;
    let dot = |token: &Token| !token.quoted && token.text == ".";
    if token.quoted && all.get(at + 1).is_some_and(dot) {
        return name(all, at + 2);
    }
    if token.quoted {
        return Some((token.text.clone(), token.start));
    }
    match token.text.rsplit_once('.') {
        Some((_, "")) => name(all, at + 1),
        Some((before, last)) => Some((last.to_owned(), token.start + before.chars().count() + 1)),
        None if token.is("(") || token.is(")") => None,
        None => Some((token.text.clone(), token.start)),
    }
}

/// A name in quotes, as SQL has it.
pub fn quoted(name: &str) -> String {
    format!("\"{}\"", name.replace('"', "\"\""))
}

/// A name as SQL quotes it, in one line: control characters are escaped.
pub fn quoted_line(name: &str) -> String {
    quoted(name).chars().flat_map(|c| if c.is_control() { c.escape_default().collect() } else { vec![c] }).collect()
}

#[cfg(test)]
mod tests {
    use super::table;

    fn read(sql: &str) -> (String, String) {
        let table = table(sql).expect("a table");
        (table.name, table.sql)
    }

    #[test]
    fn tables() {
        let pair = |name: &str, sql: &str| (name.to_owned(), sql.to_owned());
        assert_eq!(read("CREATE TABLE t(a, b)"), pair("t", "CREATE TABLE t(a, b)"));
        assert_eq!(read(" create table\n t (a) ; "), pair("t", "CREATE TABLE t (a)"));
        assert_eq!(read("CREATE TABLE IF NOT EXISTS main.\"a b\"(x) -- end"), pair("a b", "CREATE TABLE \"a b\"(x)"));
        assert_eq!(read("/* first */ CREATE TABLE main.t(é TEXT)"), pair("t", "CREATE TABLE t(é TEXT)"));
        assert_eq!(read("CREATE TABLE \"main\".[t](a)"), pair("t", "CREATE TABLE [t](a)"));
        assert_eq!(read("CREATE TABLE t(a INTEGER PRIMARY KEY, b) STRICT"), pair("t", "CREATE TABLE t(a INTEGER PRIMARY KEY, b) STRICT"));
    }

    #[test]
    fn what_a_fresh_file_cannot_have() {
        for (sql, why) in [
            ("", "no CREATE TABLE"),
            ("CREATE INDEX i ON t(a)", "no CREATE TABLE"),
            ("CREATE TEMP TABLE t(a)", "temporary"),
            ("CREATE VIRTUAL TABLE t USING fts5(a)", "virtual"),
            ("CREATE TABLE", "name is missing"),
            ("CREATE TABLE (a)", "name is missing"),
            ("CREATE TABLE t AS SELECT 1", "brackets"),
            ("CREATE TABLE t(a", "brackets"),
            ("CREATE TABLE t(a); DROP TABLE t", "more than one"),
            ("CREATE TABLE t(a PRIMARY KEY) WITHOUT ROWID", "WITHOUT ROWID"),
            ("CREATE TABLE t(a TEXT PRIMARY KEY)", "asks for an index"),
            ("CREATE TABLE t(a, b, UNIQUE(a))", "asks for an index"),
            ("CREATE TABLE t(a INTEGER PRIMARY KEY AUTOINCREMENT)", "second table"),
            ("CREATE TABLE sqlite_x(a)", "kept for sqlite3"),
        ] {
            let told = table(sql).expect_err(sql);
            assert!(told.contains(why), "{sql}: {told}");
        }
    }
}
