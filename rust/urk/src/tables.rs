//! `urk tables` and `urk info`: what a file has.

use urkibasko::{Database, Kind, Ledger};

use crate::database;
use crate::header::what_else;
use crate::json::{self, Object};
use crate::page::{type_name, Pages, INDEX_INTERIOR, INDEX_LEAF};
use crate::refused::{self, Asked};
use crate::schema::Schema;
use crate::words::Words;
use crate::{out, Done, Stop};

/// The root of the tree that each page belongs to, 0 for none: a page is its namer's, up to a root. Entry 0 is unused.
pub fn owners(ledger: &Ledger) -> Vec<u32> {
    let mut owners = vec![0; ledger.pages() as usize + 1];
    for page in 1..=ledger.pages() {
        let mut at = page;
        // As many steps as there are pages: an accepted file needs fewer.
        for _ in 0..ledger.pages() {
            match ledger.kind(at) {
                Some(Kind::Root) => owners[page as usize] = at,
                Some(Kind::Tree | Kind::FirstOverflow | Kind::LaterOverflow) => match ledger.namer(at) {
                    Some(namer) if owners[namer as usize] != 0 => owners[page as usize] = owners[namer as usize],
                    Some(namer) => {
                        at = namer;
                        continue;
                    }
                    None => {}
                },
                _ => {}
            }
            break;
        }
    }
    owners
}

pub fn run(words: &Words) -> Done {
    let input = database::open(words)?;
    let stop = |refusal| refused::stop(&input, refusal, Asked::Whole, words.json());
    let database = Database::new(&input.image).map_err(stop)?;
    let ledger = database.ledger();
    let Some(facts) = input.facts() else { return Err(Stop::File(format!("{} changed", input.name))) };
    let pages = Pages { image: &input.image, page_size: facts.page_size, usable: facts.usable(), count: ledger.pages() };
    let owners = owners(ledger);
    let mut table = vec![["name", "kind", "root", "rows", "pages"].map(str::to_owned)];
    let mut objects = Vec::new();
    for entry in Schema::of(&input.image).0 {
        if entry.root == 0 {
            objects.push(Object::new().text("name", &entry.name).text("kind", &entry.kind).text("table", &entry.table).end());
            table.push([entry.name, entry.kind, "-".into(), "-".into(), "-".into()]);
            continue;
        }
        let own: Vec<u32> = (1..=ledger.pages()).filter(|&page| owners[page as usize] == entry.root).collect();
        let is_index = pages.tree(entry.root).is_some_and(|page| matches!(page.kind, INDEX_INTERIOR | INDEX_LEAF));
        let rows = if is_index {
            // Every cell of an index is an entry.
            own.iter()
                .filter(|&&page| matches!(ledger.kind(page), Some(Kind::Root | Kind::Tree)))
                .filter_map(|&page| pages.tree(page))
                .map(|page| page.cells)
                .sum()
        } else {
            database.rows(entry.root).filter(|row| row.is_ok()).count()
        };
        objects.push(
            Object::new()
                .text("name", &entry.name)
                .text("kind", &entry.kind)
                .text("table", &entry.table)
                .field("root", entry.root)
                .field("rows", rows)
                .field("pages", own.len())
                .text("type", pages.tree(entry.root).and_then(|page| type_name(page.kind)).unwrap_or(""))
                .end(),
        );
        table.push([entry.name.escape_debug().to_string(), entry.kind, entry.root.to_string(), rows.to_string(), own.len().to_string()]);
    }
    if words.json() {
        return out::print(&(json::array(objects) + "\n"));
    }
    out::print(&aligned(&table))
}

/// Columns side by side: the first two to the left, numbers to the right.
fn aligned(table: &[[String; 5]]) -> String {
    let mut widths = [0; 5];
    for row in table {
        for (width, cell) in widths.iter_mut().zip(row) {
            *width = cell.chars().count().max(*width);
        }
    }
    let line = |row: &[String; 5]| {
        let [a, b, c, d, e] = row;
        let [wa, wb, wc, wd, we] = widths;
        format!("{a:<wa$}  {b:<wb$}  {c:>wc$}  {d:>wd$}  {e:>we$}\n")
    };
    table.iter().map(line).collect()
}

pub fn info(words: &Words) -> Done {
    let input = database::open(words)?;
    let Some(facts) = input.facts() else {
        let what = what_else(&input.image, input.length)
            .map_or("no database of SQLite 3, or its header is damaged".into(), |what| format!("no database: it is {what}"));
        return Err(words.said(format!("{}: {what}", input.name), 1));
    };
    if words.json() {
        return out::print(&(facts.json().text("file", &input.name).end() + "\n"));
    }
    let lines: String = facts.lines().into_iter().map(|(name, fact)| format!("{name:<21} {fact}\n")).collect();
    out::print(&lines)
}
