//! What each page of a file is: as a table, as a picture, and as a page for a browser.

use std::collections::{BTreeMap, BTreeSet};
use std::fmt::Write as _;

use urkibasko::{Kind, Ledger};

use crate::database;
use crate::files::{self, Input};
use crate::header::counted;
use crate::json::{self, Object};
use crate::page::{type_name, Pages, INDEX_INTERIOR, INDEX_LEAF, TABLE_INTERIOR, TABLE_LEAF};
use crate::refused::{self, Asked, Class, Told};
use crate::schema::Schema;
use crate::spelling;
use crate::words::Words;
use crate::{html, out, tables, Done, Stop};

/// The kinds with their names; the colours are those of pages that belong to no tree.
const KINDS: [(Kind, &str, &str); 8] = [
    (Kind::Root, "root", ""),
    (Kind::Tree, "tree", ""),
    (Kind::FirstOverflow, "first overflow", ""),
    (Kind::LaterOverflow, "later overflow", ""),
    (Kind::Trunk, "trunk", "#7f7f7f"),
    (Kind::FreeLeaf, "free leaf", "#d9d9d9"),
    (Kind::PointerMap, "pointer map", "#30302f"),
    (Kind::LockByte, "lock-byte", "#5b2a86"),
];

/// Hues of the trees with most pages; red is for what is refused.
const HUES: [u32; 12] = [210, 30, 130, 285, 50, 180, 320, 95, 250, 155, 70, 300];
const REFUSED: &str = "#e00000";
/// Above so many pages links are left out, and so they are from a page with over so many children.
const MOST_LINKED: usize = 300;
const MOST_CHILDREN: usize = 24;
/// A page for a browser lists every page: so many, and no more.
const MOST_LISTED: usize = 20_000;
/// Above so many pages neighbours that look the same are one shape.
const MOST_SHAPES: usize = 10_000;

fn described(kind: Kind) -> (&'static str, &'static str) {
    KINDS.iter().find(|entry| entry.0 == kind).map_or(("other", "#ffffff"), |entry| (entry.1, entry.2))
}

/// A page on the map.
pub struct Shown {
    pub page: u32,
    pub kind: String,
    /// The table or index that it belongs to.
    pub of: String,
    pub namer: Option<u32>,
    colour: String,
    white_ink: bool,
    root: bool,
    pub refused: bool,
    /// It is drawn with a line from its namer.
    linked: bool,
    /// Numbers in its cells that are not in their shortest spelling.
    long: u64,
}

impl Shown {
    pub fn title(&self) -> String {
        let of = if self.of.is_empty() { String::new() } else { format!(" of {}", self.of) };
        let by = self.namer.map_or(String::new(), |namer| format!(", named by page {namer}"));
        let long = if self.long == 0 { String::new() } else { format!(", {} spelled long", self.long) };
        format!("page {}: {}{of}{by}{long}", self.page, self.kind)
    }

    fn looks_like(&self, other: &Shown) -> bool {
        self.colour == other.colour
            && self.kind == other.kind
            && self.of == other.of
            && !self.root
            && !other.root
            && !self.refused
            && !other.refused
            && self.long == other.long
    }
}

/// A line of the legend: colours, and what they stand for.
struct Legend {
    colours: Vec<String>,
    text: String,
}

pub struct Map {
    pub title: String,
    /// Of a damaged file: the refusal, in lines.
    pub refusal: Option<String>,
    pub pages: Vec<Shown>,
    legend: Vec<Legend>,
}

pub fn escape(text: &str) -> String {
    let mut escaped = String::with_capacity(text.len());
    for c in text.chars() {
        match c {
            '&' => escaped.push_str("&amp;"),
            '<' => escaped.push_str("&lt;"),
            '>' => escaped.push_str("&gt;"),
            '"' => escaped.push_str("&quot;"),
            c if c.is_control() => escaped.push('\u{fffd}'),
            c => escaped.push(c),
        }
    }
    escaped
}

pub fn run(words: &Words) -> Done {
    let input = database::open(words)?;
    let (map, told) = match urkibasko::check(&input.image) {
        Ok(ledger) => (Map::accepted(&input, &ledger)?, None),
        Err(refusal) => {
            let told = refused::image(&input, refusal, Asked::Whole);
            if told.class != Class::Damaged || input.facts().is_none() || input.facts().is_some_and(|facts| facts.present == 0 || facts.reserved > 32)
            {
                return Err(told.stop(&input.name, words.json()));
            }
            (Map::damaged(&input, &told), Some(told))
        }
    };
    if words.has("--html") && map.pages.len() > MOST_LISTED {
        return Err(words.said(format!("{}: not supported: --html lists every page, and stops at {MOST_LISTED}; --svg goes on", input.name), 3));
    }
    let mut written = Vec::new();
    for option in ["--svg", "--html"] {
        if let Some(path) = words.value_path(option) {
            let file = files::create(path, &input.paths())?;
            let text = if option == "--svg" { map.svg() } else { html::page(&map, &input) };
            files::write(file, path, text.as_bytes())?;
            written.push(format!("{}: {}\n", path.display(), counted(map.pages.len() as u64, "page")));
        }
    }
    let mut text = match (words.json(), written.is_empty()) {
        (true, _) => map.json(&input.name, told.is_none()) + "\n",
        (false, true) => map.text(),
        (false, false) => written.concat(),
    };
    let Some(told) = told else { return out::print(&text) };
    if !words.json() {
        text += &told.text(&input.name);
    }
    Err(Stop::Said(text, told.class.status()))
}

/// A hue as the colour of a root, another tree page, an overflow page.
fn shades(hue: Option<u32>) -> [String; 3] {
    match hue {
        Some(hue) => [format!("hsl({hue},65%,30%)"), format!("hsl({hue},55%,55%)"), format!("hsl({hue},60%,82%)")],
        None => ["#5e5348".into(), "#a08f7d".into(), "#ddd3c8".into()],
    }
}

impl Map {
    fn accepted(input: &Input, ledger: &Ledger) -> Result<Map, Stop> {
        let facts = input.facts().ok_or_else(|| Stop::File(format!("{} changed", input.name)))?;
        let schema = Schema::of(&input.image);
        let owners = tables::owners(ledger);
        // Trees by their pages, the largest first.
        let mut trees: BTreeMap<u32, [u64; 3]> = BTreeMap::new();
        let part = |kind| match kind {
            Kind::Root => Some(0),
            Kind::Tree => Some(1),
            Kind::FirstOverflow | Kind::LaterOverflow => Some(2),
            _ => None,
        };
        let kinds = || (1..=ledger.pages()).filter_map(|page| Some((page, ledger.kind(page)?)));
        for (page, kind) in kinds() {
            if let Some(part) = part(kind) {
                trees.entry(owners[page as usize]).or_default()[part] += 1;
            }
        }
        let mut order: Vec<u32> = trees.keys().copied().collect();
        order.sort_by_key(|root| (std::cmp::Reverse(trees[root].iter().sum::<u64>()), *root));
        let hue = |root: u32| order.iter().position(|&tree| tree == root).and_then(|at| HUES.get(at).copied());
        let hues: BTreeMap<u32, Option<u32>> = order.iter().map(|&root| (root, hue(root))).collect();
        let name = |root: u32| schema.at_root(root).map_or_else(|| format!("page {root}"), |entry| entry.name.escape_debug().to_string());

        let mut children: BTreeMap<u32, usize> = BTreeMap::new();
        for (page, kind) in kinds() {
            if matches!(kind, Kind::Tree | Kind::FirstOverflow | Kind::LaterOverflow) {
                *children.entry(ledger.namer(page).unwrap_or(0)).or_default() += 1;
            }
        }
        let pages = kinds().map(|(page, kind)| {
            let (kind_name, colour) = described(kind);
            let root = owners[page as usize];
            let colour = part(kind).map_or(colour.to_owned(), |part| shades(hues.get(&root).copied().flatten())[part].clone());
            let namer = ledger.namer(page);
            let linked = part(kind).is_some_and(|part| part > 0) && children.get(&namer.unwrap_or(0)).is_some_and(|&count| count <= MOST_CHILDREN);
            Shown {
                page,
                kind: kind_name.into(),
                of: if root == 0 { String::new() } else { name(root) },
                namer,
                colour,
                white_ink: matches!(kind, Kind::Root | Kind::Trunk | Kind::PointerMap | Kind::LockByte),
                root: kind == Kind::Root,
                refused: false,
                linked,
                long: match kind {
                    Kind::Root | Kind::Tree if ledger.long_spellings() > 0 => spelling::on_page(&input.image, facts.page_size, page),
                    _ => 0,
                },
            }
        });
        let pages: Vec<Shown> = pages.collect();

        let mut legend = Vec::new();
        for &root in order.iter().take(HUES.len()) {
            let [roots, tree, overflow] = trees[&root];
            let shades = shades(hues[&root]);
            let mut text = format!("{}: {}", name(root), counted(roots + tree + overflow, "page"));
            if overflow > 0 {
                text += &format!(", {overflow} of them overflow");
            }
            let colours = shades.into_iter().zip([roots, tree, overflow]).filter(|(_, count)| *count > 0).map(|(colour, _)| colour).collect();
            legend.push(Legend { colours, text });
        }
        if order.len() > HUES.len() {
            let rest = &order[HUES.len()..];
            let count: u64 = rest.iter().flat_map(|root| trees[root]).sum();
            legend.push(Legend { colours: shades(None)[..2].to_vec(), text: format!("{} other trees: {}", rest.len(), counted(count, "page")) });
        }
        for (kind, kind_name, colour) in KINDS.into_iter().filter(|entry| !entry.2.is_empty()) {
            let count = kinds().filter(|page| page.1 == kind).count() as u64;
            if count > 0 {
                legend.push(Legend { colours: vec![colour.into()], text: counted(count, kind_name).replace("leafs", "leaves") });
            }
        }
        let title = format!("{}: {} of {} bytes", input.short_name(), counted(pages.len() as u64, "page"), facts.page_size);
        Ok(Map { title, refusal: None, pages, legend })
    }

    /// What each page says by itself, and the page that is refused.
    fn damaged(input: &Input, told: &Told) -> Map {
        let facts = input.facts();
        let page_size = facts.map_or(512, |facts| facts.page_size);
        let usable = facts.map_or(512, |facts| facts.usable());
        let count = (input.image.len() / page_size).min(facts.map_or(0, |facts| facts.pages()) as usize) as u32;
        let pages = Pages { image: &input.image, page_size, usable, count };
        let maps: BTreeSet<u32> = facts.map_or_else(BTreeSet::new, |facts| facts.maps(count).into_iter().collect());
        let lock = facts.map_or(0, |facts| facts.lock_page());
        let mut counts: BTreeMap<(usize, &str, &str), u64> = BTreeMap::new();
        let mut shown = Vec::new();
        for page in 1..=count {
            let Some(tree) = pages.tree(page) else { continue };
            let (order, looks, colour) = match tree.kind {
                _ if maps.contains(&page) => (4, "pointer map by its place", "#30302f"),
                _ if page == lock => (4, "lock-byte page by its place", "#5b2a86"),
                TABLE_LEAF => (0, "table leaf", "hsl(210,55%,62%)"),
                TABLE_INTERIOR => (1, "table interior", "hsl(210,65%,35%)"),
                INDEX_LEAF => (2, "index leaf", "hsl(130,40%,62%)"),
                INDEX_INTERIOR => (3, "index interior", "hsl(130,50%,30%)"),
                _ if tree.bytes.iter().all(|&byte| byte == 0) => (6, "zeros", "#f0f0f0"),
                _ => (5, "no tree page: overflow, free, or lost", "#c9c2b8"),
            };
            let fault = type_name(tree.kind).filter(|_| order < 4).and_then(|_| tree.test(&[tree.kind]).err());
            let refused = told.refusal.page == Some(page);
            let article = if looks.starts_with('i') { "an" } else { "a" };
            let kind = match fault {
                Some(fault) => format!("says it is {article} {looks}, but {}", fault.how),
                None if order < 4 => format!("says it is {article} {looks}"),
                None => looks.to_owned(),
            };
            *counts.entry((order, looks, colour)).or_default() += 1;
            shown.push(Shown {
                page,
                kind,
                of: String::new(),
                namer: None,
                colour: if refused { REFUSED.into() } else { colour.into() },
                white_ink: refused || matches!(order, 1 | 3 | 4),
                root: false,
                refused,
                linked: false,
                long: 0,
            });
        }
        let mut legend: Vec<Legend> = counts
            .into_iter()
            .map(|((_, looks, colour), count)| Legend { colours: vec![colour.into()], text: format!("{looks}: {count}") })
            .collect();
        if let Some(page) = told.refusal.page {
            legend.insert(0, Legend { colours: vec![REFUSED.into()], text: format!("page {page}: refused {}", told.refusal.rule.number()) });
        }
        let title =
            format!("{}: damaged. What each of {} of {page_size} bytes says by itself", input.short_name(), counted(shown.len() as u64, "page"));
        Map { title, refusal: Some(told.text(&input.name)), pages: shown, legend }
    }

    fn text(&self) -> String {
        if self.refusal.is_some() {
            let mut text = String::from("page  by itself\n");
            for page in &self.pages {
                let _ = writeln!(text, "{:<5} {}{}", page.page, if page.refused { "REFUSED: " } else { "" }, page.kind);
            }
            return text;
        }
        let mut text = String::from("page  kind            named by  of\n");
        for page in &self.pages {
            let namer = page.namer.map_or("-".to_owned(), |namer| namer.to_string());
            let long = if page.long == 0 { String::new() } else { format!("  {} spelled long", page.long) };
            let line = format!("{:<5} {:<15} {namer:<9} {}{long}", page.page, page.kind, page.of);
            let _ = writeln!(text, "{}", line.trim_end());
        }
        for (_, name, _) in KINDS {
            let count = self.pages.iter().filter(|page| page.kind == name).count();
            if count > 0 {
                let _ = writeln!(text, "{count} {name}");
            }
        }
        let long: u64 = self.pages.iter().map(|page| page.long).sum();
        if long > 0 {
            let _ = writeln!(text, "{long} spelled long");
        }
        text
    }

    fn json(&self, name: &str, accepted: bool) -> String {
        let pages = self.pages.iter().map(|page| {
            let object = Object::new().field("page", page.page);
            match accepted {
                true => object.text("kind", &page.kind).maybe("namer", page.namer).text("of", &page.of).field("long_spellings", page.long).end(),
                false => object.text("by_itself", &page.kind).field("refused", page.refused).end(),
            }
        });
        let object = Object::new().text("file", name).field("accepted", accepted).field("pages", json::array(pages));
        object.maybe("refusal", self.refusal.as_deref().map(json::text)).end()
    }

    /// A grid of squares, one a page, from left to right; at each line's start the number of its first page.
    pub fn svg(&self) -> String {
        let count = self.pages.len();
        let links = count <= MOST_LINKED;
        let (columns, side) = match count {
            0..=256 => (16, 44),
            257..=1024 => (32, 24),
            1025..=4096 => (64, 13),
            _ => ((count as f64).sqrt().ceil() as usize, (1024.0 / (count as f64).sqrt()).max(1.0) as usize),
        };
        let gap = if links && self.pages.iter().any(|page| page.linked) { 26 } else { 0 };
        // What to do is too long a line for a picture.
        let mut notes: Vec<&str> = self.refusal.as_deref().unwrap_or("").lines().collect();
        notes.pop();
        let (left, top) = (64, 56 + 18 * notes.len() + gap);
        let place = |at: usize| (left + at % columns * side, top + at / columns * (side + gap));
        let grid_end = place(count.saturating_sub(1)).1 + side;
        let width = (left + columns * side + 20).max(760);
        let rows = self.legend.len().div_ceil(2);
        let height = grid_end + 44 + 22 * rows;

        let mut svg = format!(
            "<svg xmlns=\"http://www.w3.org/2000/svg\" width=\"{width}\" height=\"{height}\" viewBox=\"0 0 {width} {height}\" font-family=\"sans-serif\" font-size=\"13\">\n\
             <rect width=\"100%\" height=\"100%\" fill=\"white\"/>\n<text x=\"20\" y=\"32\" font-size=\"16\">{}</text>\n",
            escape(&self.title),
        );
        for (i, note) in notes.iter().enumerate() {
            let indent = 20 + 6 * note.bytes().take_while(|&byte| byte == b' ').count();
            let _ = writeln!(
                svg,
                "<text x=\"{indent}\" y=\"{}\" font-size=\"12\" fill=\"{}\">{}</text>",
                54 + 18 * i,
                if i == 0 { REFUSED } else { "#444" },
                escape(note.trim())
            );
        }
        for first in (0..count).step_by(columns * if side < 10 { 10 } else { 1 }) {
            let (_, y) = place(first);
            let _ = writeln!(
                svg,
                "<text x=\"{}\" y=\"{}\" text-anchor=\"end\" font-size=\"11\" fill=\"#444\">{}</text>",
                left - 8,
                y + side.min(20) * 3 / 4 + 2,
                first + 1
            );
        }
        let mut at = 0;
        while at < count {
            let page = &self.pages[at];
            let (x, y) = place(at);
            let in_row = columns - at % columns;
            let like =
                if count > MOST_SHAPES { (1..in_row.min(count - at)).take_while(|&i| page.looks_like(&self.pages[at + i])).count() } else { 0 };
            let inset = if side > 4 { side / 12 + 1 } else { 0 };
            let title = if like > 0 { format!("pages {} to {}: {}", page.page, page.page as usize + like, page.title()) } else { page.title() };
            let border = match page.long {
                0 if page.root && side > 8 => " stroke=\"black\" stroke-width=\"2\"",
                0 => "",
                // A number that is spelled long.
                _ => " stroke=\"red\" stroke-width=\"2\"",
            };
            let _ = writeln!(
                svg,
                "<rect class=\"p\" data-page=\"{}\" x=\"{x}\" y=\"{y}\" width=\"{}\" height=\"{}\" fill=\"{}\"{border}><title>{}</title></rect>",
                page.page,
                (like + 1) * side - inset,
                side - inset,
                page.colour,
                escape(&title)
            );
            if side >= 24 {
                let ink = if page.white_ink { "white" } else { "black" };
                let size = if side > 30 { 12 } else { 9 };
                let _ = writeln!(
                    svg,
                    "<text x=\"{}\" y=\"{}\" fill=\"{ink}\" font-size=\"{size}\" pointer-events=\"none\">{}</text>",
                    x + 3,
                    y + side - inset - 5,
                    page.page
                );
            }
            at += like + 1;
        }
        if links {
            self.links(&mut svg, &place, side, gap);
        }
        for (i, legend) in self.legend.iter().enumerate() {
            let (mut x, y) = (20 + i / rows * width / 2, grid_end + 30 + i % rows * 22);
            for colour in &legend.colours {
                let _ = writeln!(svg, "<rect x=\"{x}\" y=\"{y}\" width=\"13\" height=\"13\" fill=\"{colour}\"/>");
                x += 14;
            }
            let _ = writeln!(svg, "<text x=\"{}\" y=\"{}\">{}</text>", x + 5, y + 11, escape(&legend.text));
        }
        svg.push_str("</svg>\n");
        svg
    }

    /// Lines from a page to those that it names in its tree or chain, in the gaps between the rows.
    fn links(&self, svg: &mut String, place: &dyn Fn(usize) -> (usize, usize), side: usize, gap: usize) {
        for (at, page) in self.pages.iter().enumerate().filter(|(_, page)| page.linked) {
            let Some(namer) = page.namer.and_then(|namer| self.pages.iter().position(|page| page.page == namer)) else { continue };
            let ((x1, y1), (x2, y2)) = (place(namer), place(at));
            let (x1, x2) = (x1 + side * 3 / 5, x2 + side * 2 / 5);
            // Up from both squares into the gap above the upper one.
            let over = y1.min(y2) as i64 - 2 * gap as i64 + 12;
            let _ = writeln!(
                svg,
                "<path d=\"M {x1} {y1} Q {} {over} {x2} {y2}\" fill=\"none\" stroke=\"#444\" stroke-width=\"1.5\" stroke-opacity=\"0.7\" pointer-events=\"none\"/>\
                 <circle cx=\"{x2}\" cy=\"{y2}\" r=\"3\" fill=\"black\" pointer-events=\"none\"/>",
                (x1 + x2) / 2
            );
        }
    }
}
