//! `urk log` and `urk journal`: the frames of a log and the records of a journal that count, and the first that does not.

use urkibasko::{LogStop, LogSummary};

use crate::header::four;
use crate::json::{self, Object};
use crate::refused::{self, Class};
use crate::sides::{Said, Side};
use crate::supers::Settle;
use crate::words::Words;
use crate::{out, Done, Stop};

pub fn log(words: &Words) -> Done {
    let side = Side::read(words.path(0), true, Settle::Not)?;
    let Said::Log(told) = side.said else { unreachable!("a log was read") };
    let frames = frames(&side, &told);
    if words.json() {
        let fields = |frame: &Frame| {
            let object = Object::new().field("frame", frame.number).field("page", frame.page).maybe("commit", frame.commit);
            object
                .field("salts", json::array(frame.salts.iter().map(|salt| json::text(&format!("{salt:08x}")))))
                .maybe("fails", frame.fails.map(json::text))
                .end()
        };
        return ended(&side, words, "frames", json::array(frames.iter().map(fields)));
    }
    let mut text = String::new();
    if !frames.is_empty() {
        text += "frame  page     commit   salts\n";
    }
    for frame in &frames {
        let commit = frame.commit.map_or("-".to_owned(), |size| size.to_string());
        let [first, second] = frame.salts;
        text += format!("{:<6} {:<8} {commit:<8} {first:08x} {second:08x}", frame.number, frame.page).trim_end();
        text += &frame.fails.map_or(String::new(), |why| format!("  fails: {why}"));
        text += "\n";
    }
    ended(&side, words, "", text)
}

pub fn journal(words: &Words) -> Done {
    let side = Side::read(words.path(0), false, Settle::Not)?;
    let Said::Journal(told) = side.said else { unreachable!("a journal was read") };
    let records = if told.page_size == 0 { Vec::new() } else { side.records(&told).0 };
    let numbered = || (1u64..).zip(&records);
    if words.json() {
        let items = numbered().map(|(number, record)| {
            let object = Object::new().field("record", number).field("segment", record.segment).text("nonce", &format!("{:08x}", record.nonce));
            object.field("page", record.page).field("laid", record.page <= told.pages).end()
        });
        return ended(&side, words, "records", json::array(items));
    }
    let mut text = String::new();
    if !records.is_empty() {
        text += "record  segment  nonce     page\n";
    }
    for (number, record) in numbered() {
        let skipped = if record.page <= told.pages { "" } else { "  skipped: above the number of pages" };
        text += &format!("{number:<7} {:<8} {:08x}  {}{skipped}\n", record.segment, record.nonce, record.page);
    }
    ended(&side, words, "", text)
}

struct Frame {
    number: u64,
    page: u32,
    commit: Option<u32>,
    salts: [u32; 2],
    /// Why it does not count.
    fails: Option<&'static str>,
}

/// The frames that count, and the one that the scan stopped at where it is whole.
fn frames(side: &Side, told: &LogSummary) -> Vec<Frame> {
    let stride = 24 + told.page_size as usize;
    let listed = match told.stop {
        _ if told.page_size == 0 => 0,
        LogStop::End | LogStop::Cut => told.counting,
        _ => told.counting + 1,
    };
    (0..listed)
        .map(|i| {
            let at = 32 + i as usize * stride;
            let [page, commit, first, second] = [0, 4, 8, 12].map(|field| four(&side.bytes, at + field));
            let fails = (i == told.counting).then(|| told.stop.text());
            Frame { number: i + 1, page, commit: (commit != 0).then_some(commit), salts: [first, second], fails }
        })
        .collect()
}

/// The list, and then what the whole says of itself. Nothing to recover is status 4, as it is of `urk recover`.
fn ended(side: &Side, words: &Words, name: &str, list: String) -> Done {
    let refusal = side.refusal();
    let status = match refusal {
        Some(refusal) => refused::by_itself(refusal).0.status(),
        None if side.live() => 0,
        None => Class::NotThere.status(),
    };
    let text = if words.json() {
        Object::new().text("file", &side.name).field(name, list).field("said", side.json()).field("status", status).end() + "\n"
    } else {
        let mut text = list;
        for line in side.lines() {
            text += &format!("{}: {line}\n", side.name);
        }
        if let Some(line) = side.found() {
            text += &format!("  found by urk itself: {line}\n");
        }
        match refusal {
            Some(refusal) => text += &format!("{}: {refusal}\n", side.name),
            None if !side.live() => text += &format!("{}: nothing to recover\n", side.name),
            None => {}
        }
        text
    };
    match status {
        0 => out::print(&text),
        _ => Err(Stop::Said(text, status)),
    }
}
