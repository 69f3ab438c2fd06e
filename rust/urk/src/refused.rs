//! What is said of a refusal: the library's rule and page; beside them what the command finds itself from the same bytes, labelled so; whether that is damage, a limit of the library,
//! or about something that is not there; and what to do next.

use urkibasko::{Refusal, Rule};

use crate::create::quoted_line;
use crate::files::Input;
use crate::header::{self, counted, thousands, Facts};
use crate::json::{self, Object};
use crate::page::{Pages, INDEX_INTERIOR, INDEX_LEAF, TABLE_INTERIOR, TABLE_LEAF};
use crate::schema::Schema;
use crate::{indexes, tables, walk, Stop};

/// What a refusal says of a file; the exit status goes by it.
#[derive(Clone, Copy, PartialEq, Eq)]
pub enum Class {
    Damaged,
    /// Something else than a database.
    Else,
    NotSupported,
    NotThere,
}

impl Class {
    pub fn status(self) -> u8 {
        match self {
            Class::Damaged | Class::Else => 1,
            Class::NotSupported => 3,
            Class::NotThere => 4,
        }
    }

    fn words(self) -> &'static str {
        match self {
            Class::Damaged => "damaged",
            Class::Else => "no database",
            Class::NotSupported => "not supported",
            Class::NotThere => "not there",
        }
    }
}

/// What was asked of the library.
#[derive(Clone, Copy)]
pub enum Asked<'a> {
    Whole,
    /// The order of keys in these indexes too, which the caller named, or the schema's texts did.
    Ordered(&'a [u32], By),
    Root(u32),
    Cell(u32, u32),
}

/// Who named an index.
#[derive(Clone, Copy, PartialEq, Eq)]
pub enum By {
    Caller,
    Schema,
}

pub struct Told {
    pub refusal: Refusal,
    pub class: Class,
    pub found: Vec<String>,
    pub next: String,
}

impl Told {
    /// The refusal in lines; all but the first are indented.
    pub fn text(&self, name: &str) -> String {
        let mut text = format!("{name}: {}\n", self.refusal);
        if !self.found.is_empty() {
            text += "  found by urk itself, from the same bytes:\n";
        }
        for line in &self.found {
            text += &format!("    {line}\n");
        }
        text + &format!("  {}: {}\n", self.class.words(), self.next)
    }

    pub fn json(&self, name: &str) -> Object {
        let refusal = Object::new()
            .field("number", self.refusal.rule.number())
            .text("name", self.refusal.rule.name())
            .maybe("page", self.refusal.page)
            .text("text", self.refusal.rule.text())
            .end();
        Object::new()
            .text("file", name)
            .field("accepted", false)
            .text("because", self.class.words())
            .field("refusal", refusal)
            .field("found_by_urk", json::array(self.found.iter().map(|line| json::text(line))))
            .text("next", &self.next)
    }

    pub fn stop(&self, name: &str, as_json: bool) -> Stop {
        let text = if as_json { self.json(name).end() + "\n" } else { self.text(name) };
        Stop::Said(text, self.class.status())
    }
}

/// The library's refusal, of the bytes that were read, as one about the file. It differs only where the file is so long that its end was not read.
fn of_the_file(input: &Input, refusal: Refusal) -> Refusal {
    match input.facts() {
        Some(facts) if refusal.rule == Rule::BadPageCount && facts.count <= facts.present => Refusal { rule: Rule::TooManyPages, page: None },
        _ => refusal,
    }
}

/// What is told of a refusal about an image.
pub fn image(input: &Input, refusal: Refusal, asked: Asked) -> Told {
    let refusal = of_the_file(input, refusal);
    let number = refusal.rule.number();
    let facts = input.facts();
    let mut class = match number {
        5 | 8 | 13 | 26 | 34 | 42 => Class::NotSupported,
        46 => Class::NotThere,
        35 if matches!(asked, Asked::Ordered(_, By::Caller)) => Class::NotThere,
        1 | 2 if header::what_else(&input.image, input.length).is_some() => Class::Else,
        20 if refusal.page.is_none() => Class::NotThere,
        _ => Class::Damaged,
    };
    let mut found = header_found(input, number);
    if let (Some(facts), 20..=33 | 36..) = (facts, number) {
        let pages = Pages {
            image: &input.image,
            page_size: facts.page_size,
            usable: facts.usable(),
            count: u32::try_from(facts.pages()).unwrap_or(u32::MAX),
        };
        let more = pages_found(pages, facts, refusal, asked);
        found.extend(more.lines);
        class = more.class.unwrap_or(class);
        // A page of an accepted file that is asked for as what it is not.
        let whole = matches!(asked, Asked::Whole | Asked::Ordered(..));
        if class == Class::Damaged && !whole && urkibasko::check(&input.image).is_ok() {
            class = Class::NotThere;
        }
        found.extend(more.table.filter(|_| class != Class::NotThere));
    }
    let mut next = next(input, number, class);
    if let Some(order) = order_found(input, refusal, asked) {
        found.extend(order.lines);
        class = order.class.unwrap_or(class);
        next = order.next;
    }
    Told { refusal, class, found, next }
}

/// The stop that a refusal about an image makes.
pub fn stop(input: &Input, refusal: Refusal, asked: Asked, as_json: bool) -> Stop {
    image(input, refusal, asked).stop(&input.name, as_json)
}

/// The numbers in the header that a rule is about.
fn header_found(input: &Input, number: u32) -> Vec<String> {
    let (bytes, length) = (&input.image, input.length);
    let Some(facts) = input.facts() else {
        let mut found = Vec::new();
        match number {
            1 => found.push(format!("it has {}", counted(length, "byte"))),
            2 => found.push(format!("it begins with {}", bytes.iter().take(16).map(|byte| format!("{byte:02x}")).collect::<Vec<_>>().join(" "))),
            3 => found.push(format!("offset 16 holds {}", header::two(bytes, 16))),
            _ => {}
        }
        if number <= 2 {
            found.extend(header::what_else(bytes, length).map(|what| format!("it is {what}")));
        }
        return found;
    };
    let size = facts.page_size as u64;
    vec![match number {
        1 => format!("it has {}", counted(length, "byte")),
        4 => format!("{} are {} of {size} and {} more", counted(length, "byte"), counted(facts.present, "page"), length % size),
        5 if facts.holds && facts.count <= facts.present => {
            format!(
                "the header counts {}, and so many are there; the library was shown the first {}",
                counted(facts.count, "page"),
                counted((bytes.len() / facts.page_size) as u64, "page")
            )
        }
        5 => format!("the file has {}; its header's count does not hold", counted(facts.present, "page")),
        6 => format!("pages have {size} bytes, of which {} are reserved: {} are left", facts.reserved, size as i64 - facts.reserved as i64),
        7 => format!("they are {}, {}, {}", bytes[21], bytes[22], bytes[23]),
        8 => format!("the read version is {}", facts.read_version),
        9 => format!("offset 28 counts {}; {} there: {} missing", counted(facts.count, "page"), are(facts.present), are(facts.count - facts.present)),
        10 => format!("the number at 64 is {}", facts.incremental),
        11 => (72..92).find(|&at| bytes[at] != 0).map_or(String::new(), |at| format!("the first that is not zero is at {at}: {:#04x}", bytes[at])),
        _ => return Vec::new(),
    }]
}

struct Order {
    lines: Vec<String>,
    class: Option<Class>,
    next: String,
}

/// What the schema says of the index that one of the rules 33 to 35 is about.
fn order_found(input: &Input, refusal: Refusal, asked: Asked) -> Option<Order> {
    let Asked::Ordered(names, by) = asked else { return None };
    let schema = Schema::of(&input.image);
    let name = input.given();
    Some(match refusal.rule {
        Rule::KeyOrder => {
            let ledger = urkibasko::check(&input.image).ok()?;
            let root = tables::owners(&ledger).get(refusal.page? as usize).copied()?;
            let entry = schema.at_root(root)?;
            // A caller may name what does not go up.
            match indexes::why_not(&schema, entry) {
                Some(Err(why)) if by == By::Caller => Order {
                    lines: vec![format!("{} is not plain and ascending by its text: {why}", entry.words())],
                    class: Some(Class::NotSupported),
                    next: format!("its keys need not rise: urk check {name} --indexes names those that have to"),
                },
                _ if entry.kind == "table" => Order {
                    lines: Vec::new(),
                    class: None,
                    next: "a search in the table may miss rows: sqlite3's .dump reads it from end to end, to be loaded into a new file; or a copy from before".into(),
                },
                _ => Order {
                    lines: Vec::new(),
                    class: None,
                    next: format!(
                        "searches by the index may miss rows, and its table is untouched: sqlite3's REINDEX main.{} makes it anew",
                        quoted_line(&entry.name)
                    ),
                },
            }
        }
        Rule::TextEncoding => Order {
            lines: vec![format!(
                "the number at 56 is {}{}",
                header::four(&input.image, 56),
                match header::four(&input.image, 56) {
                    2 => ": UTF-16, little-endian",
                    3 => ": UTF-16, big-endian",
                    _ => ", which is no encoding",
                }
            )],
            class: (!matches!(header::four(&input.image, 56), 2 | 3)).then_some(Class::Damaged),
            next: format!("order is compared in UTF-8 alone: urk check {name} judges all else, and sqlite3's PRAGMA integrity_check the indexes"),
        },
        Rule::NoIndexRoot => {
            let page = refusal.page.unwrap_or(0);
            let ledger = urkibasko::check(&input.image).ok()?;
            let what = match (ledger.kind(page), schema.at_root(page)) {
                (None, _) => format!("page {page} is not there; the database has {}", counted(ledger.pages().into(), "page")),
                (Some(_), Some(entry)) if by == By::Schema => {
                    format!("the schema says that page {page} is the root of {}, and the page's type byte that it is a table's", entry.words())
                }
                (Some(_), Some(entry)) => format!("page {page} is the root of {}", entry.words()),
                (Some(_), None) => format!("page {page} is no root"),
            };
            let next = match by {
                By::Caller => {
                    format!("urk tables {name} lists the roots of the indexes; urk check {name} --indexes names all that are plain and ascending")
                }
                By::Schema => format!(
                    "the schema and the page contradict each other, with {} named: take a copy from before",
                    counted(names.len() as u64, "page")
                ),
            };
            Order { lines: vec![what], class: None, next }
        }
        _ => return None,
    })
}

fn are(count: u64) -> String {
    format!("{} {}", thousands(count), if count == 1 { "is" } else { "are" })
}

#[derive(Default)]
struct More {
    lines: Vec<String>,
    table: Option<String>,
    class: Option<Class>,
}

/// What the pages say of a refusal: by a walk, where that ends at the same rule and page, else by the page alone.
fn pages_found(pages: Pages, facts: Facts, refusal: Refusal, asked: Asked) -> More {
    let number = refusal.rule.number();
    let mut more = More::default();
    let Some(page) = refusal.page else {
        more.lines.extend(match (number, asked) {
            (20, Asked::Root(root)) => Some(format!("page {root} was asked for; the database has {}", counted(pages.count.into(), "page"))),
            (46, Asked::Cell(page, _)) if page == 0 || page > pages.count => {
                Some(format!("page {page} was asked for; the database has {}", counted(pages.count.into(), "page")))
            }
            (46, Asked::Cell(page, cell)) => pages
                .tree(page)
                .map(|tree| format!("cell {cell} was asked for, counted from 0; page {page} has {}", counted(tree.cells as u64, "cell"))),
            _ => None,
        });
        return more;
    };
    let mut root = 0;
    let ordered = if let Asked::Ordered(names, _) = asked { names } else { &[] };
    match walk::fault(pages, facts, ordered).filter(|fault| (fault.rule, fault.page) == (number, page)) {
        Some(fault) => {
            root = fault.root;
            more.lines = fault.lines;
            more.class = fault.limit.then_some(Class::NotSupported);
        }
        None => {
            let kinds: &[u8] = match asked {
                Asked::Whole | Asked::Ordered(..) => &[INDEX_INTERIOR, TABLE_INTERIOR, INDEX_LEAF, TABLE_LEAF],
                Asked::Root(_) => &[TABLE_INTERIOR, TABLE_LEAF],
                Asked::Cell(..) => &[INDEX_INTERIOR, INDEX_LEAF, TABLE_LEAF],
            };
            let broken = pages.tree(page).and_then(|tree| tree.test(kinds).err());
            more.lines.extend(broken.filter(|broken| broken.rule == number).map(|broken| broken.how));
        }
    }
    if number == 26 {
        let longest = pages.tree(page).and_then(|tree| (0..tree.cells).filter_map(|i| tree.payload_told(i)).max());
        if longest.is_some_and(|longest| longest > facts.length) {
            more.lines.push("no payload of a file this long can have so many".into());
            more.class = Some(Class::Damaged);
        }
    }
    if root > 1 || number != 30 {
        let schema = Schema::of(pages.image);
        let named = schema.at_root(if root == 0 { page } else { root });
        more.table = named.filter(|entry| entry.root > 1).map(|entry| format!("it is in the tree of {} at page {}", entry.words(), entry.root));
    }
    more
}

/// One line on what to do. Where there is something to recover that comes first.
fn next(input: &Input, number: u32, class: Class) -> String {
    let name = input.given();
    let first = if class == Class::Damaged { input.recover_first() } else { String::new() };
    first + &match (class, number) {
        (Class::NotThere, 22) => "a table's root is wanted, or a cell of a table or an index: urk tables FILE lists the roots".into(),
        (Class::NotThere, _) => "urk tables FILE and urk map FILE show what there is".into(),
        (Class::NotSupported, 5) => "a limit of this library, and no fault of the file; sqlite3's PRAGMA integrity_check judges larger ones".into(),
        (Class::NotSupported, 8) => "a version of the format that is not known here; or the byte is damaged".into(),
        (Class::NotSupported, _) => "a limit of this library, which need not be a fault of the file; ask sqlite3's PRAGMA integrity_check".into(),
        (Class::Else, _) => "give the database itself".into(),
        (_, 1 | 2) => "this is no database, or its start is lost: take a copy from before, or one that was not encrypted or packed".into(),
        (_, 4 | 9) => {
            "the file was cut, or copied while it was written: copy it again, with its -wal or -journal; urk recover takes them together".into()
        }
        (_, 3..=11) => format!("the header is damaged: urk info {name} shows it all; take a copy from before"),
        (_, 30) => {
            "nothing that is reached is touched by it: sqlite3's VACUUM INTO makes a file without such pages; what they hold is lost to the tables"
                .into()
        }
        (_, 29) => "what is free is miscounted, and rows are untouched: sqlite3's VACUUM INTO makes a file with a right freelist".into(),
        (_, 31 | 32) => {
            "only what auto-vacuum goes by is wrong, and rows are untouched: sqlite3's VACUUM INTO makes a file with right pointer maps".into()
        }
        _ => format!("urk rows {name} TABLE --unchecked reads what can be read, urk salvage {name} TABLE --out OUT makes a new file of it, urk map {name} --svg OUT shows the page; else a copy from before"),
    }
}

/// What a refusal of a log or journal by itself says, and what to do.
pub fn by_itself(refusal: Refusal) -> (Class, &'static str) {
    match refusal.rule.number() {
        40 => (Class::NotSupported, "a version of the log that is not known here"),
        42 => (Class::NotSupported, "a limit of this library, and no fault of the files; sqlite3 itself recovers them when it opens the database"),
        45 => (Class::Damaged, "the journal contradicts itself; sqlite3 would lay down the later of the two"),
        // No command appends to a log yet: these are about what a writer has.
        50 => (Class::NotThere, "there is no log that can be appended to: one is begun anew"),
        51 => (Class::NotThere, "no fault of the files: a commit is to name pages that it may hold, and have their bytes"),
        // No log or journal is refused with these: they are about a row to be set.
        53 => (Class::NotThere, "the schema's own rows are not set: a table's root is wanted"),
        54 => (Class::NotSupported, "a limit of setting in place, and no fault of the file: sqlite3 itself sets such a row"),
        _ => (Class::Damaged, "take the file together with its log or journal from before"),
    }
}

/// What is told of a refusal by recovery, and of which file: the image (1 to 5), or the log or journal.
pub fn recovery(input: &Input, side: &str, refusal: Refusal) -> (String, Told) {
    let number = refusal.rule.number();
    if number < 40 {
        return (input.name.clone(), image(input, refusal, Asked::Whole));
    }
    let (class, next) = match number {
        43 => (Class::Damaged, format!("{} may not be the file that it was written for, or was cut", input.name)),
        _ => {
            let (class, next) = by_itself(refusal);
            (class, next.to_owned())
        }
    };
    (side.to_owned(), Told { refusal, class, found: Vec::new(), next })
}
