//! `urk check`: is a file a whole, consistent database?

use std::path::Path;

use urkibasko::{Ledger, Refusal};

use crate::database::{self, Place, Together, ALONE};
use crate::files::{self, Input};
use crate::header::{counted, thousands, Facts};
use crate::json::{self, Object};
use crate::refused::{self, Asked, By, Told};
use crate::schema::Schema;
use crate::sides::Side;
use crate::words::Words;
use crate::{indexes, out, Done, Stop};

/// What acceptance covers, in one line.
pub const COVERS: &str =
    "accepted covers the header, every page's place, what tree pages hold, overflow chains, freelist, row order, pointer maps, and that every record reads; \
                          not the order of index keys, nor that an index fits its table";
const COVERS_ORDER: &str = "accepted covers the header, every page's place, what tree pages hold, overflow chains, freelist, row order, pointer maps, that every record reads, and the order of keys \
                            in the indexes that were named; not that an index fits its table";

/// Which indexes are to have their keys in order.
enum Wanted {
    None,
    /// By name or root page.
    These(Vec<String>),
    /// All that are plain and ascending.
    All,
}

impl Wanted {
    fn of(words: &Words) -> Result<Wanted, Stop> {
        let these: Vec<String> = words.values("--ordered").iter().map(|word| word.to_string_lossy().into_owned()).collect();
        match (words.has("--indexes"), these.is_empty()) {
            (true, false) => Err(words.off("--indexes or --ordered, not both".into())),
            (true, true) => Ok(Wanted::All),
            (false, false) => Ok(Wanted::These(these)),
            (false, true) => Ok(Wanted::None),
        }
    }
}

/// What was named: each by what it is called and its root page; what was left out, with the reason.
struct Named {
    by: By,
    roots: Vec<(String, u32)>,
    left_out: Vec<(String, u32, String)>,
}

impl Named {
    /// None where nothing was asked for.
    fn new(input: &Input, wanted: &Wanted) -> Result<Option<Named>, String> {
        let schema = Schema::of(&input.image);
        Ok(match wanted {
            Wanted::None => None,
            Wanted::These(these) => {
                let mut roots = Vec::new();
                for word in these {
                    let root = schema.keys_root(word)?;
                    let called = schema.at_root(root).map_or(format!("page {root}"), |entry| entry.name.escape_debug().to_string());
                    roots.push((called, root));
                }
                Some(Named { by: By::Caller, roots, left_out: Vec::new() })
            }
            Wanted::All => {
                let chosen = indexes::chosen(&schema);
                let roots = chosen.named.iter().map(|entry| (entry.name.escape_debug().to_string(), entry.root)).collect();
                let left_out = chosen.left_out.into_iter().map(|(entry, why)| (entry.words(), entry.root, why)).collect();
                Some(Named { by: By::Schema, roots, left_out })
            }
        })
    }

    fn text(&self) -> String {
        let called: Vec<&str> = self.roots.iter().map(|(called, _)| called.as_str()).collect();
        let mut text = match called.len() {
            0 => "no index was named: there is none that is plain and ascending\n".to_owned(),
            1 => format!("keys rise in 1 index: {}\n", called[0]),
            count => format!("keys rise in {count} indexes: {}\n", called.join(", ")),
        };
        for (called, root, why) in &self.left_out {
            text += &format!("left out: {called} at page {root}, for {why}\n");
        }
        text
    }

    fn json(&self, object: Object) -> Object {
        let named = self.roots.iter().map(|(called, root)| Object::new().text("name", called).field("root", root).end());
        let left_out = self.left_out.iter().map(|(called, root, why)| Object::new().text("what", called).field("root", root).text("why", why).end());
        object.field("ordered", json::array(named)).field("left_out", json::array(left_out))
    }
}

/// A verdict on an image, or what is told of its refusal.
pub struct Judged {
    name: String,
    verdict: Result<Ledger, Told>,
    facts: Option<Facts>,
    named: Option<Named>,
}

impl Judged {
    /// With no index named.
    pub fn plain(input: &Input) -> Judged {
        let verdict = urkibasko::check(&input.image).map_err(|refusal: Refusal| refused::image(input, refusal, Asked::Whole));
        Judged { name: input.name.clone(), verdict, facts: input.facts(), named: None }
    }

    fn new(input: &Input, wanted: &Wanted, words: &Words) -> Result<Judged, Stop> {
        let judged = |verdict, named| Ok(Judged { name: input.name.clone(), verdict, facts: input.facts(), named });
        let told = |refusal: Refusal, asked: Asked| refused::image(input, refusal, asked);
        let named = match Named::new(input, wanted) {
            Ok(named) => named,
            // What is not there in a damaged file may have been.
            Err(missing) => match urkibasko::check(&input.image) {
                Ok(_) => return Err(words.said(format!("not there: {missing}"), 4)),
                Err(refusal) => return judged(Err(told(refusal, Asked::Whole)), None),
            },
        };
        let roots: Vec<u32> = named.iter().flat_map(|named| &named.roots).map(|(_, root)| *root).collect();
        let verdict = urkibasko::check_ordered(&input.image, &roots)
            .map_err(|refusal| told(refusal, named.as_ref().map_or(Asked::Whole, |named| Asked::Ordered(&roots, named.by))));
        judged(verdict, named)
    }

    fn covers(&self) -> &'static str {
        match &self.named {
            Some(named) if !named.roots.is_empty() => COVERS_ORDER,
            _ => COVERS,
        }
    }

    /// What acceptance covers, behind all else.
    fn tail(&self) -> String {
        self.verdict.as_ref().map_or_else(|_| String::new(), |_| format!("  {}\n", self.covers()))
    }

    pub fn status(&self) -> u8 {
        self.verdict.as_ref().map_or_else(|told| told.class.status(), |_| 0)
    }

    /// Pages that the file has past those that it counts.
    fn past(&self, ledger: &Ledger) -> u64 {
        self.facts.map_or(0, |facts| facts.present.saturating_sub(ledger.pages().into()))
    }

    /// The verdict in a few words.
    fn line(&self) -> String {
        match &self.verdict {
            Ok(ledger) => format!("accepted, {} of {} bytes", counted(ledger.pages().into(), "page"), self.facts.map_or(0, |facts| facts.page_size)),
            Err(told) => told.refusal.to_string(),
        }
    }

    pub fn text(&self) -> String {
        let ledger = match &self.verdict {
            Ok(ledger) => ledger,
            Err(told) => return told.text(&self.name),
        };
        let mut text = format!("{}: {}\n", self.name, self.line());
        let past = self.past(ledger);
        if past > 0 {
            text += &format!("{} past those that its header counts {} not read\n", counted(past, "page"), if past == 1 { "was" } else { "were" });
        }
        match ledger.long_spellings() {
            0 => {}
            1 => text += "1 number in its cells is not in its shortest spelling: see urk map\n",
            long => text += &format!("{} numbers in its cells are not in their shortest spelling: see urk map\n", thousands(long)),
        }
        text + &self.named.as_ref().map_or(String::new(), Named::text)
    }

    pub fn json(&self) -> Object {
        let object = match &self.verdict {
            Ok(ledger) => Object::new()
                .text("file", &self.name)
                .field("accepted", true)
                .field("pages", ledger.pages())
                .field("page_size", self.facts.map_or(0, |facts| facts.page_size))
                .field("pages_past_the_count", self.past(ledger))
                .field("long_spellings", ledger.long_spellings())
                .text("covers", self.covers()),
            Err(told) => told.json(&self.name),
        };
        match &self.named {
            Some(named) => named.json(object),
            None => object,
        }
    }
}

pub fn run(words: &Words) -> Done {
    let wanted = Wanted::of(words)?;
    let path = words.path(0);
    if words.has(ALONE.name) {
        return alone(words, path, &wanted);
    }
    let place = Place::look(path)?;
    let in_force = place.in_force()?;
    place.tell(in_force);
    let input = database::file(path, in_force)?;
    let pair = in_force.map(|side| Pair::new(&input, side, &wanted, words)).transpose()?;
    // Where something is in force the file alone is not the database.
    let file = match &pair {
        Some(_) => Judged::plain(&input),
        None => Judged::new(&input, &wanted, words)?,
    };
    let judged = pair.as_ref().map_or(&file, |pair| &pair.judged);
    let status = judged.status();
    if words.json() {
        let object = judged.json().field("beside", json::array(place.sides.iter().map(Side::json)));
        let object = match &pair {
            Some(pair) => object.field("changes_the_file", pair.changes).field("alone", file.json().end()),
            None => object,
        };
        return said(object.field("status", status).end() + "\n", status);
    }
    let mut text = judged.text();
    if let Some(pair) = &pair {
        let which = if pair.changes { "which is not the database" } else { "which is the same database" };
        text += &format!("{} alone, {which}: {}\n", input.name, file.line());
    }
    for side in &place.sides {
        let state = match (side.live(), &pair) {
            (false, Some(_)) => "is not in force",
            (false, None) => "is not in force: the file alone is the database",
            (true, Some(Pair { changes: false, .. })) => "is in force and changes nothing: all of it stands in the file",
            (true, _) => "is in force: the database is what the two together are (--alone judges the file by itself)",
        };
        text += &format!("{} stands beside it and {state}\n", side.name);
        for line in side.lines() {
            text += &format!("  {line}\n");
        }
        if let Some(line) = side.found() {
            text += &format!("  found by urk itself: {line}\n");
        }
    }
    said(text + &judged.tail(), status)
}

/// FILE by itself, whatever stands beside it.
fn alone(words: &Words, path: &Path, wanted: &Wanted) -> Done {
    let judged = Judged::new(&database::alone(path, Input::image)?, wanted, words)?;
    let status = judged.status();
    let beside = files::sides(path);
    if words.json() {
        let unread = json::array(beside.iter().map(|(side, _)| json::text(&side.display().to_string())));
        return said(judged.json().field("beside", "[]").field("beside_and_not_read", unread).field("status", status).end() + "\n", status);
    }
    let unread: String = beside.iter().map(|(side, _)| format!("{} stands beside it and was not read\n", side.display())).collect();
    said(judged.text() + &unread + &judged.tail(), status)
}

fn said(text: String, status: u8) -> Done {
    match status {
        0 => out::print(&text),
        _ => Err(Stop::Said(text, status)),
    }
}

/// The database that a file and what stands beside it make.
struct Pair {
    judged: Judged,
    /// It is not what the file alone is. A log all of whose pages stand in the file already changes nothing.
    changes: bool,
}

impl Pair {
    fn new(input: &Input, side: &Side, wanted: &Wanted, words: &Words) -> Result<Pair, Stop> {
        let with = match database::together(input, side)? {
            Together::Is(with, _) => with,
            Together::Refused(name, told) => {
                return Ok(Pair { judged: Judged { name, verdict: Err(*told), facts: None, named: None }, changes: true });
            }
        };
        let pages = input.facts().map_or(0, |facts| facts.pages().saturating_mul(facts.page_size as u64));
        let changes = with.image.len() as u64 != pages || !input.image.starts_with(&with.image);
        Ok(Pair { judged: Judged::new(&with, wanted, words)?, changes })
    }
}
