//! `urk salvage`: a fresh database from the rows of a table that can still be read.
//!
//! The library's cursor reads them. Where it is refused, it is started again behind what was refused: at the keys of the tree's interior pages, which are read here, each tried once.

use std::collections::{BTreeMap, BTreeSet, HashSet};
use std::path::Path;

use urkibasko::{encode, Builder, Record, Refusal, Row, Rows, Value, BUILD_MOST, BUILD_ROWS, BUILD_SCHEMA};

use crate::create::{self, quoted};
use crate::database;
use crate::files::{Beside, Input};
use crate::header::{counted, Facts};
use crate::json::{self, Object};
use crate::page::{Pages, TABLE_INTERIOR};
use crate::refused::{self, Asked};
use crate::schema::{Entry, Schema};
use crate::shared::Shared;
use crate::show::Encoding;
use crate::words::Words;
use crate::{files, out, Done, Stop};

/// Pages that one step may enter, where the file has not more.
const MOST_PAGES: u64 = 100_000;
/// Rows that are looked at, taken or not.
const MOST_STEPS: usize = 1_000_000;
/// No longer file is put right, or filled up, in memory.
const MOST_FILLED: usize = 256 << 20;

pub fn run(words: &Words) -> Done {
    let out_path = words.value_path("--out").ok_or_else(|| words.off("--out OUT is missing".into()))?;
    let from = words.value("--from").map(|word| words.number("--from", word)).transpose()?;
    let mut input = database::open(words)?;
    let mended = mend(&mut input);
    let schema = Schema::of(&input.image);
    let root = schema.root(words, words.place(1))?;
    let new = files::create(out_path, &input.paths())?;
    // Nothing half done is left behind; the file is one that this command made.
    let undo = |stop| {
        let _ = std::fs::remove_file(out_path);
        stop
    };
    let mut taken = Taken::default();
    let whole = take(words, &input, root, from, &mut taken).map_err(undo)?;
    if let (true, Some((refusal, _))) = (taken.rows.is_empty(), taken.refused.first()) {
        return Err(undo(refused::stop(&input, *refusal, Asked::Root(root), words.json())));
    }
    let shared = input.facts().map_or(Shared::none(), |facts| Shared::of(&pages(&input, facts), &schema, &taken.cells));
    if !shared.is_none() && !words.has("--shared") {
        return Err(undo(ask(words, &input, &shared)));
    }
    let (builder, mut about) = table(schema.entry(words.place(1), root), &taken);
    if !matches!(Encoding::of(&input.image), Encoding::Utf8) {
        about += "; texts are in UTF-8 now";
    }
    let (image, count) = build(builder, &mut taken).map_err(|told| undo(words.said(told, 3)))?;
    files::write(new, out_path, &image)?;
    let report = Report { input: &input, mended, about, shared: &shared, taken: &taken, count, whole };
    report.print(words, out_path, &image)
}

/// Rows of two tables would stand under one name: whether that is wanted has to be said.
fn ask(words: &Words, input: &Input, shared: &Shared) -> Stop {
    let asks = "their rows are both tables': --shared takes them all the same";
    let text = match words.json() {
        true => Object::new().text("file", &input.name).field("shared", shared.json()).text("next", asks).field("status", 2).end() + "\n",
        false => shared.lines().iter().map(|line| format!("{}: {line}\n", input.name)).collect::<String>() + &format!("  {asks}\n"),
    };
    Stop::Said(text, 2)
}

/// Where the header refuses the whole file, what can be put right without touching a page is, in memory: told line by line.
fn mend(input: &mut Input) -> Vec<String> {
    let mut told = Vec::new();
    for _ in 0..4 {
        let Some(facts) = input.facts() else { break };
        let Err(Refusal { rule, page: None }) = urkibasko::lookup(&input.image, 1, 0) else { break };
        if input.image.len() > MOST_FILLED {
            break;
        }
        let size = facts.page_size;
        let mut image = input.image.to_vec();
        told.push(match rule.number() {
            4 => {
                image.resize(image.len().next_multiple_of(size), 0);
                "the last page is cut: the rest of it was taken as zeros".to_owned()
            }
            7 => {
                image[21..24].copy_from_slice(&[64, 32, 32]);
                "the payload fractions at 21 were taken as 64, 32, 32".to_owned()
            }
            9 if facts.count as usize <= MOST_FILLED / size => {
                image.resize(facts.count as usize * size, 0);
                format!("{} missing at the end: taken as zeros", are(facts.count - facts.present))
            }
            9 => {
                image[28..32].fill(0);
                "the page count at 28 is far too large: the pages present were taken".to_owned()
            }
            10 => {
                image[64..68].fill(0);
                "the number at 64 was taken as 0".to_owned()
            }
            11 => {
                image[72..92].fill(0);
                "the reserved bytes 72 to 91 were taken as 0".to_owned()
            }
            _ => break,
        });
        input.length = image.len() as u64;
        input.image = files::Bytes::Read(image);
    }
    told
}

fn are(pages: u64) -> String {
    format!("{} {}", counted(pages, "page"), if pages == 1 { "is" } else { "are" })
}

fn was(rows: usize) -> String {
    format!("{} {}", counted(rows as u64, "row"), if rows == 1 { "was" } else { "were" })
}

/// What was taken of a table, and what was not.
#[derive(Default)]
struct Taken {
    rows: BTreeMap<i64, Vec<u8>>,
    /// The page and the number of each cell that a row was taken from.
    cells: Vec<(u32, u32)>,
    bytes: usize,
    /// Pages that refused the cursor, each with the numbers of the rows read before and behind it.
    refused: Vec<(Refusal, (Option<i64>, Option<i64>))>,
    /// Rows that were met and not taken, and why.
    lost: Vec<(i64, String)>,
    out_of_order: usize,
    /// Rows that were met again in the very same cell.
    again: usize,
    /// The first row that a further file would have to begin with.
    rest: Option<i64>,
    widest: u64,
}

/// Takes rows by the cursor, started again behind each refusal. Answers whether all was looked at.
fn take(words: &Words, input: &Input, root: u32, from: Option<i64>, taken: &mut Taken) -> Result<bool, Stop> {
    let Some(facts) = input.facts() else {
        let refusal = urkibasko::lookup(&input.image, root, 0).err();
        return Err(
            refusal.map_or_else(|| words.said("no database".into(), 1), |refusal| refused::stop(input, refusal, Asked::Root(root), words.json()))
        );
    };
    let most = MOST_PAGES.max(2 * facts.pages());
    let listed = Rows::unchecked(&input.image, root, from, most);
    let first = listed.map_err(|bound| words.said(format!("{}: not read: {bound}", input.name), 1))?;
    let mut starts = keys(input, facts, root).into_iter().filter(|&key| from.is_none_or(|from| key > from)).peekable();
    let encoding = Encoding::of(&input.image);
    let mut rows = first.clone();
    let (mut met, mut steps, mut last) = (HashSet::new(), 0, None::<i64>);
    let mut room = vec![0; urkibasko::MAX_PAYLOAD];
    loop {
        // What the cursor has passed, or been refused at: it is started behind that.
        let (mut passed, mut refused) = (last, false);
        for row in &mut rows {
            steps += 1;
            let row = match row {
                Ok(row) => row,
                Err(refusal) => {
                    refused = true;
                    if taken.refused.last().is_none_or(|told| told.0 != refusal || told.1 .1.is_some()) {
                        taken.refused.push((refusal, (last, None)));
                    }
                    break;
                }
            };
            if steps > MOST_STEPS {
                taken.rest = Some(row.number);
                return Ok(false);
            }
            passed = passed.max(Some(row.number));
            if !met.insert((row.page, row.cell)) {
                taken.again += 1;
                continue;
            }
            if let Some((_, (_, behind @ None))) = taken.refused.last_mut() {
                *behind = Some(row.number);
            }
            taken.out_of_order += usize::from(last.is_some_and(|last| row.number < last));
            if taken.rows.len() == BUILD_ROWS || taken.bytes > BUILD_MOST {
                taken.rest = Some(row.number);
                return Ok(false);
            }
            taken.row(&input.image, &row, encoding, &mut room);
            last = Some(row.number);
        }
        let Some(start) = refused.then(|| starts.find(|&start| passed.is_none_or(|passed| start > passed))).flatten() else { return Ok(true) };
        rows = first.restarted(start);
    }
}

impl Taken {
    /// Nothing was refused, and each row came once, in its order.
    fn whole(&self) -> bool {
        self.refused.is_empty() && self.lost.is_empty() && self.out_of_order == 0 && self.again == 0
    }

    /// Takes a row, or tells why not.
    fn row(&mut self, image: &[u8], row: &Row, encoding: Encoding, room: &mut [u8]) {
        let number = row.number;
        if self.rows.contains_key(&number) {
            return self.lost.push((number, format!("met a second time, on page {}, cell {}; the first was taken", row.page, row.cell)));
        }
        let payload = match urkibasko::payload(image, row.page, row.cell, room) {
            Ok(payload) => payload,
            Err(refusal) => return self.lost.push((number, refusal.to_string())),
        };
        let Some(record) = Record::new(payload) else { return self.lost.push((number, "its payload does not read as a record".into())) };
        let payload = match encoding {
            Encoding::Utf8 => payload.to_vec(),
            _ => in_utf8(&record, encoding),
        };
        if payload.len() > urkibasko::MAX_PAYLOAD {
            return self.lost.push((number, "in UTF-8 its record has over 65,536 bytes".into()));
        }
        self.widest = self.widest.max(record.columns());
        self.bytes += payload.len();
        self.rows.insert(number, payload);
        self.cells.push((row.page, row.cell));
    }
}

/// A record with its texts in UTF-8, as a fresh file has them.
fn in_utf8(record: &Record, encoding: Encoding) -> Vec<u8> {
    let texts: Vec<String> = record.values().map(|value| if let Value::Text(text) = value { encoding.decode(text) } else { String::new() }).collect();
    let values: Vec<Value> =
        record.values().zip(&texts).map(|(value, text)| if let Value::Text(_) = value { text.as_str().into() } else { value }).collect();
    encode(&values)
}

fn pages(input: &Input, facts: Facts) -> Pages<'_> {
    Pages { image: &input.image, page_size: facts.page_size, usable: facts.usable(), count: u32::try_from(facts.pages()).unwrap_or(u32::MAX) }
}

/// Where a cursor can be started again: one past each key on the tree's interior pages, each page looked at once.
fn keys(input: &Input, facts: Facts, root: u32) -> BTreeSet<i64> {
    let pages = pages(input, facts);
    let (mut keys, mut seen, mut left) = (BTreeSet::new(), HashSet::from([root]), vec![root]);
    while let Some(page) = left.pop() {
        let Some(tree) = pages.tree(page).filter(|tree| tree.kind == TABLE_INTERIOR) else { continue };
        let cells: Vec<_> = (0..tree.cells.min(facts.page_size / 2)).filter_map(|i| tree.cell(i).ok()).collect();
        keys.extend(cells.iter().filter_map(|cell| cell.key.checked_add(1)));
        left.extend(cells.iter().map(|cell| cell.child).chain([tree.right]).filter(|&child| seen.insert(child)));
    }
    keys
}

/// The table of the fresh file: the schema's own row where a fresh file can have it, else one with the columns' names, or with names made up.
fn table(entry: Option<&Entry>, taken: &Taken) -> (Builder, String) {
    let fits = |name: &str, sql: &str| urkibasko::schema_record(name, sql).len() <= BUILD_SCHEMA;
    let entry = entry.filter(|entry| entry.kind == "table");
    let mut why = "no row of the schema names its root".to_owned();
    if let Some(entry) = entry {
        why = match create::table(&entry.sql) {
            Ok(table) if fits(&entry.name, &entry.sql) => {
                return (Builder::new(&table.name, &entry.sql), format!("the table is as {} has it", entry.words()))
            }
            Ok(_) => "its text is too long for page 1".to_owned(),
            Err(why) => why,
        };
    }
    let name = entry
        .map(|entry| entry.name.clone())
        .filter(|name| !name.is_empty() && name.len() < 200 && !name.to_ascii_lowercase().starts_with("sqlite_"));
    let name = name.unwrap_or("salvaged".into());
    let columns = entry.map(Entry::columns).unwrap_or_default();
    let number = |column: usize| if columns.row_number == Some(column as u64 + 1) { " INTEGER PRIMARY KEY" } else { "" };
    let named: Vec<String> = columns.names().iter().enumerate().map(|(i, column)| quoted(column) + number(i)).collect();
    let written = |list: &[String]| format!("CREATE TABLE {}({})", quoted(&name), list.join(","));
    if !named.is_empty() && fits(&name, &written(&named)) {
        return (Builder::new(&name, &written(&named)), format!("the table is written anew, without types and constraints: {why}"));
    }
    let mut made: Vec<String> = (1..=taken.widest.clamp(1, 300)).map(|i| format!("c{i}")).collect();
    while !fits(&name, &written(&made)) {
        made.pop();
    }
    let less = if (made.len() as u64) < taken.widest { format!("; of {} columns, as many as fit", taken.widest) } else { String::new() };
    (Builder::new(&name, &written(&made)), format!("the table is written anew, with {}{less}: {why}", counted(made.len() as u64, "column")))
}

/// The image of the rows, or of as many of the first as fit; how many that are.
fn build(mut builder: Builder, taken: &mut Taken) -> Result<(Vec<u8>, usize), String> {
    for (number, payload) in &taken.rows {
        builder.push_record(*number, payload).map_err(|refused| refused.to_string())?;
    }
    let all = builder.rows();
    match builder.build() {
        Ok(image) => return Ok((image, all)),
        Err(refused) if !refused.limit => return Err(refused.to_string()),
        Err(_) => {}
    }
    // More rows never take fewer pages: as many of the first as can be built.
    let (mut fit, mut many) = (0, all);
    while fit + 1 < many {
        let half = (fit + many) / 2;
        match builder.build_first(half) {
            Ok(_) => fit = half,
            Err(_) => many = half,
        }
    }
    taken.rest = taken.rows.keys().nth(fit).copied();
    builder.build_first(fit).map(|image| (image, fit)).map_err(|refused| refused.to_string())
}

struct Report<'a> {
    input: &'a Input,
    mended: Vec<String>,
    about: String,
    shared: &'a Shared,
    taken: &'a Taken,
    count: usize,
    whole: bool,
}

impl Report<'_> {
    fn print(self, words: &Words, out_path: &Path, image: &[u8]) -> Done {
        let taken = self.taken;
        let status = match taken.rest {
            Some(_) => 3,
            None if taken.whole() && self.mended.is_empty() && self.shared.is_none() => 0,
            None => 1,
        };
        let text = if words.json() { self.json(out_path, image) } else { self.text(words, out_path, image) };
        if status == 0 {
            return out::print(&text);
        }
        Err(Stop::Said(text, status))
    }

    fn text(&self, words: &Words, out_path: &Path, image: &[u8]) -> String {
        let taken = self.taken;
        let pages = counted((image.len() / 1024) as u64, "page");
        let mut text =
            format!("{}: {pages}, {} bytes: {} of {}\n", out_path.display(), image.len(), counted(self.count as u64, "row"), self.input.name);
        for line in &self.mended {
            text += &format!("{}: {line}\n", self.input.name);
        }
        text += &format!("{}\n", self.about);
        for line in self.shared.lines() {
            text += &format!("{line}: rows of both may be among these\n");
        }
        for (i, (refusal, (before, behind))) in taken.refused.iter().enumerate() {
            let before = before.map_or("before the first row".into(), |row| format!("after row {row}"));
            let last = i + 1 == taken.refused.len();
            let nothing = if last { "nothing more could be read" } else { "started again behind it" };
            let behind = behind.map_or(nothing.into(), |row| format!("went on at row {row}"));
            text += &format!("{before}: {refusal}; {behind}\n");
        }
        for (number, why) in &taken.lost {
            text += &format!("row {number} was not taken: {why}\n");
        }
        if taken.out_of_order > 0 {
            text += &format!("{} came after a row with a larger number: sorted in\n", counted(taken.out_of_order as u64, "row"));
        }
        if taken.again > 0 {
            text += &format!("{} met again, in the same cells: a page is named twice, and another perhaps by none\n", was(taken.again));
        }
        if let Some(rest) = taken.rest {
            let limit = if self.whole || taken.rows.len() >= BUILD_ROWS || taken.bytes > BUILD_MOST {
                "a fresh file takes no more"
            } else {
                "no more were looked at"
            };
            text += &format!("{limit}: urk salvage {} {} --from {rest} --out OTHER goes on\n", self.input.given(), words.place(1).to_string_lossy());
        }
        if let Some(side) = self.beside() {
            text += &format!("  urk recover {} --out NEW makes one file of it and {side}, with every table: that comes first\n", self.input.given());
        }
        text
    }

    /// There is something to recover.
    fn beside(&self) -> Option<&str> {
        match &self.input.beside {
            Beside::Nothing => None,
            Beside::LeftOut(side) | Beside::TakenIn(side) => Some(side),
        }
    }

    fn json(&self, out_path: &Path, image: &[u8]) -> String {
        let taken = self.taken;
        let refused = taken.refused.iter().map(|(refusal, (before, behind))| {
            Object::new()
                .field("number", refusal.rule.number())
                .text("name", refusal.rule.name())
                .maybe("page", refusal.page)
                .maybe("after_row", *before)
                .maybe("went_on_at_row", *behind)
                .end()
        });
        let lost = taken.lost.iter().map(|(number, why)| Object::new().field("row", number).text("why", why).end());
        Object::new()
            .text("out", &out_path.display().to_string())
            .field("length", image.len())
            .field("pages", image.len() / 1024)
            .field("rows", self.count)
            .text("file", &self.input.name)
            .field("mended", json::array(self.mended.iter().map(|line| json::text(line))))
            .text("table", &self.about)
            .field("shared", self.shared.json())
            .field("refused", json::array(refused))
            .field("not_taken", json::array(lost))
            .field("out_of_order", taken.out_of_order)
            .field("met_again", taken.again)
            .maybe("goes_on_from", taken.rest)
            .maybe("recover_first", self.beside().map(json::text))
            .end()
            + "\n"
    }
}
