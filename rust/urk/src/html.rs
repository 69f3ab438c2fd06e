//! The map as one file for a browser: the picture, a table of the pages, and each page's cells on a click. Nothing is fetched from anywhere.

use urkibasko::Record;

use crate::files::Input;
use crate::header::two;
use crate::json::{self, Object};
use crate::map::{escape, Map};
use crate::page::{type_name, Cell, Pages, TreePage, TABLE_INTERIOR, TABLE_LEAF};
use crate::show::{self, Encoding};
use crate::walk;

/// So many cells of a page are told, and so many in all.
const MOST_CELLS: usize = 300;
const MOST_IN_ALL: usize = 150_000;
/// A record is shown so far.
const MOST_CHARACTERS: usize = 80;

const STYLE: &str = "\
body { font-family: sans-serif; margin: 0; color: #222; }
main { display: grid; grid-template-columns: minmax(0, 3fr) minmax(24rem, 2fr); gap: 1rem; padding: 1rem; }
#picture { overflow: auto; max-height: 96vh; } #picture svg { max-width: 100%; height: auto; }
#side { overflow: auto; max-height: 96vh; }
table { border-collapse: collapse; font-size: 13px; } td, th { padding: 2px 8px; text-align: left; border-bottom: 1px solid #ddd; vertical-align: top; }
td.n { text-align: right; font-variant-numeric: tabular-nums; } tr.pick { cursor: pointer; } tr.pick:hover { background: #eef; } .refused { color: #e00000; }
rect.p { cursor: pointer; } rect.chosen { stroke: black; stroke-width: 3; } pre { white-space: pre-wrap; }
@media (max-width: 60rem) { main { grid-template-columns: 1fr; } }";

const SCRIPT: &str = r#"
const data = JSON.parse(document.getElementById('data').textContent);
const pages = new Map(data.pages.map(p => [p.page, p]));
const cellsOf = document.getElementById('cells');
function line(row, kind, values) { for (const v of values) { const c = document.createElement(kind); c.textContent = v === null || v === undefined ? '' : v;
  if (typeof v === 'number') c.className = 'n'; row.appendChild(c); } return row; }
function choose(number) {
  const p = pages.get(number); if (!p) return;
  document.querySelectorAll('rect.chosen').forEach(r => r.classList.remove('chosen'));
  document.querySelectorAll('rect.p[data-page="' + number + '"]').forEach(r => r.classList.add('chosen'));
  cellsOf.replaceChildren();
  const head = document.createElement('h2'); head.textContent = p.title; cellsOf.appendChild(head);
  for (const fact of p.facts) { const f = document.createElement('p'); f.textContent = fact; cellsOf.appendChild(f); }
  if (p.cells.length) {
    const t = document.createElement('table'); t.appendChild(line(document.createElement('tr'), 'th', ['cell', 'bytes', 'row or key', 'child', 'payload', 'chain', 'record']));
    for (const c of p.cells) { const r = line(document.createElement('tr'), 'td', c);
      for (const at of [3, 5]) if (c[at]) { r.children[at].style.textDecoration = 'underline'; r.children[at].style.cursor = 'pointer'; r.children[at].onclick = () => choose(c[at]); }
      t.appendChild(r); }
    cellsOf.appendChild(t);
  }
  location.hash = 'page-' + number;
}
const list = document.getElementById('pages');
for (const p of data.pages) { const r = line(document.createElement('tr'), 'td', [p.page, p.kind, p.of, p.namer]); r.className = 'pick' + (p.refused ? ' refused' : '');
  r.onclick = () => choose(p.page); list.appendChild(r); }
document.querySelectorAll('rect.p').forEach(r => r.onclick = () => choose(Number(r.dataset.page)));
const asked = /^#page-(\d+)$/.exec(location.hash);
choose(asked ? Number(asked[1]) : (data.pages.find(p => p.refused) || data.pages[0] || {}).page);
"#;

pub fn page(map: &Map, input: &Input) -> String {
    let mut left = MOST_IN_ALL;
    let facts = input.facts();
    let (page_size, usable) = facts.map_or((512, 512), |facts| (facts.page_size, facts.usable()));
    let pages = Pages { image: &input.image, page_size, usable, count: map.pages.len() as u32 };
    let encoding = Encoding::of(&input.image);
    let objects = map.pages.iter().map(|shown| {
        // Of an accepted file the cells of tree pages alone are cells; of a damaged one whatever looks so.
        let is_tree = map.refusal.is_some() || matches!(shown.kind.as_str(), "root" | "tree");
        let tree = pages.tree(shown.page).filter(|tree| is_tree && type_name(tree.kind).is_some());
        let (facts, cells) = match tree {
            Some(tree) => (tree_facts(&tree), cells(&pages, &tree, encoding, &mut left)),
            None => (vec![beginning(&pages, shown.page)], Vec::new()),
        };
        Object::new()
            .field("page", shown.page)
            .text("title", &shown.title())
            .text("kind", &shown.kind)
            .text("of", &shown.of)
            .maybe("namer", shown.namer)
            .field("refused", shown.refused)
            .field("facts", json::array(facts.iter().map(|fact| json::text(fact))))
            .field("cells", json::array(cells))
            .end()
    });
    // No text of the file can end the element that it stands in.
    let data = Object::new().field("pages", json::array(objects)).end().replace('<', "\\u003c");
    let refusal = map.refusal.as_deref().map_or(String::new(), |refusal| format!("<pre class=\"refused\">{}</pre>", escape_lines(refusal)));
    format!(
        "<!DOCTYPE html>\n<html lang=\"en\"><head><meta charset=\"utf-8\"><title>{title}</title>\n<style>\n{STYLE}\n</style></head>\n<body><main>\n\
         <div id=\"picture\">\n{svg}</div>\n<div id=\"side\">{refusal}<div id=\"cells\"></div>\n<h2>Pages</h2>\n\
         <table><thead><tr><th>page</th><th>kind</th><th>of</th><th>named by</th></tr></thead><tbody id=\"pages\"></tbody></table>\n\
         <p>What pages are and who names them is the library's verdict, where the file was accepted; cells and records are shown as urk reads them.</p></div>\n</main>\n\
         <script type=\"application/json\" id=\"data\">{data}</script>\n<script>{SCRIPT}</script>\n</body></html>\n",
        title = escape(&map.title),
        svg = map.svg(),
    )
}

fn escape_lines(text: &str) -> String {
    text.lines().map(|line| escape(line) + "\n").collect()
}

fn tree_facts(tree: &TreePage) -> Vec<String> {
    let mut facts = vec![format!(
        "type {} ({}), {} cells, content from byte {}, {} fragment bytes",
        tree.kind,
        type_name(tree.kind).unwrap_or("none"),
        tree.cells,
        tree.content,
        tree.fragments
    )];
    if !tree.is_leaf() {
        facts.push(format!("right child: page {}", tree.right));
    }
    let (mut block, mut blocks) = (tree.freeblock, Vec::new());
    while block != 0 && blocks.len() < 100 && block + 4 <= tree.bytes.len() {
        blocks.push(format!("{} bytes at {block}", two(tree.bytes, block + 2)));
        let next = two(tree.bytes, block);
        block = if next > block { next } else { 0 };
    }
    if !blocks.is_empty() {
        facts.push(format!("freeblocks: {}", blocks.join(", ")));
    }
    if tree.cells > MOST_CELLS {
        facts.push(format!("the first {MOST_CELLS} cells are shown"));
    }
    facts
}

/// The first bytes of a page that is no tree page.
fn beginning(pages: &Pages, page: u32) -> String {
    let bytes = pages.bytes(page).unwrap_or(&[]);
    format!("begins with {}", bytes.iter().take(32).map(|byte| format!("{byte:02x}")).collect::<Vec<_>>().join(" "))
}

/// `[cell, bytes, row or key, child, payload, chain, record]` of each cell, as far as they read.
fn cells(pages: &Pages, tree: &TreePage, encoding: Encoding, left: &mut usize) -> Vec<String> {
    let most = tree.cells.min(MOST_CELLS).min(*left).min(tree.bytes.len() / 2);
    *left -= most;
    let cell = |i: usize| {
        let cell = match tree.cell(i) {
            Ok(cell) => cell,
            Err(broken) => {
                return json::array([
                    i.to_string(),
                    "null".into(),
                    "null".into(),
                    "null".into(),
                    "null".into(),
                    "null".into(),
                    json::text(&broken.how),
                ])
            }
        };
        let number = |on: bool, number: i64| if on { number.to_string() } else { "null".into() };
        let keyed = matches!(tree.kind, TABLE_LEAF | TABLE_INTERIOR);
        let loaded = tree.kind != TABLE_INTERIOR;
        json::array([
            i.to_string(),
            json::text(&format!("{} to {}", cell.start, cell.end - 1)),
            // A number that JavaScript would round is given as a text.
            if cell.key.unsigned_abs() >= 1 << 53 { json::text(&cell.key.to_string()) } else { number(keyed, cell.key) },
            number(!tree.is_leaf(), cell.child.into()),
            number(loaded, cell.payload as i64),
            number(loaded && cell.local < cell.payload, cell.overflow.into()),
            if loaded { json::text(&record(pages, tree, &cell, encoding)) } else { "null".into() },
        ])
    };
    (0..most).map(cell).collect()
}

fn record(pages: &Pages, tree: &TreePage, cell: &Cell, encoding: Encoding) -> String {
    let payload = walk::payload(pages, tree, cell);
    let Some(record) = Record::new(&payload) else { return "does not read as a record".into() };
    let mut text = String::new();
    for value in record.values() {
        if text.chars().count() > MOST_CHARACTERS {
            break;
        }
        if !text.is_empty() {
            text += " | ";
        }
        text += &show::value(value, encoding);
    }
    match text.char_indices().nth(MOST_CHARACTERS) {
        Some((at, _)) => text[..at].to_owned() + " ..",
        None => text,
    }
}
