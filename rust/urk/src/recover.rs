//! `urk recover`: the database that a file and its log or journal make, as a new file.

use std::path::Path;

use crate::check::Judged;
use crate::database::{self, Place, Together};
use crate::files::{self, Beside, Input};
use crate::header::counted;
use crate::json::Object;
use crate::sides::Side;
use crate::supers::{Settle, GONE, PRESENT};
use crate::words::Words;
use crate::{out, Done, Stop};

/// The log or journal that is to be used: the one that is given, else the one that is in force beside the file, or would be.
fn chosen(words: &Words, file: &Path) -> Result<Side, Stop> {
    match (words.value_path("--log"), words.value_path("--journal")) {
        (Some(_), Some(_)) => Err(words.off("--log or --journal, not both".into())),
        (Some(log), None) => by_hand(words, log, true),
        (None, Some(journal)) => by_hand(words, journal, false),
        (None, None) => {
            if let Some(said) = said_of_a_super_journal(words)? {
                return Err(words.off(format!("{said} is said of a JOURNAL that is given by --journal")));
            }
            let place = Place::look(file)?;
            let in_force = place.in_force()?.map(|side| side.name.clone());
            place.tell(None);
            // Where none is in force one of them says why.
            let committed = place.sides.iter().find(|side| side.is_committed()).map(|side| side.name.clone());
            let name = in_force.or(committed);
            let mut sides = place.sides.into_iter();
            let side = sides.find(|side| name.as_ref().is_none_or(|name| side.name == *name));
            side.ok_or_else(|| words.said(format!("{}: nothing to recover: neither a log nor a journal stands beside it", file.display()), 4))
        }
    }
}

/// The option that says whether a super-journal was there, if one was given.
fn said_of_a_super_journal(words: &Words) -> Result<Option<&'static str>, Stop> {
    match (words.has(PRESENT.name), words.has(GONE.name)) {
        (true, true) => Err(words.off(format!("{} or {}, not both", PRESENT.name, GONE.name))),
        (true, false) => Ok(Some(PRESENT.name)),
        (false, true) => Ok(Some(GONE.name)),
        (false, false) => Ok(None),
    }
}

fn by_hand(words: &Words, path: &Path, is_log: bool) -> Result<Side, Stop> {
    let said = said_of_a_super_journal(words)?;
    let settle = said.map_or(Settle::ByHand, |said| Settle::Said(said == PRESENT.name));
    let side = Side::read(path, is_log, settle)?;
    match (&side.super_journal, said) {
        (None, Some(said)) => return Err(words.off(format!("{} names no super-journal, of which {said} could be said", side.name))),
        (Some(one), _) if one.there.is_none() => {
            return Err(Stop::File(format!(
                "{} names the super-journal {}, and whether that was there when it was copied is not known: {}; \
                 say {} (then it is in force) or {} (then its transaction was committed)",
                side.name,
                one.name.display(),
                one.unsettled(),
                PRESENT.name,
                GONE.name
            )))
        }
        _ => {}
    }
    Ok(side)
}

pub fn run(words: &Words) -> Done {
    let path = words.path(0);
    let Some(out_path) = words.value_path("--out") else { return Err(words.off("--out OUT is missing".into())) };
    let side = chosen(words, path)?;
    let live = side.live();
    let new = files::create(out_path, &[path, &side.path])?;
    // Nothing half done is left behind; the file is one that this command made.
    let undo = |stop| {
        let _ = std::fs::remove_file(out_path);
        stop
    };
    let input = Input { beside: Beside::Nothing, ..database::file(path, Some(&side)).map_err(undo)? };
    let (result, recovered) = match database::together(&input, &side).map_err(undo)? {
        Together::Is(result, recovered) => (result, recovered),
        Together::Refused(name, told) => return Err(undo(told.stop(&name, words.json()))),
    };
    if (input.image.len() as u64) < input.length && !live {
        return Err(undo(words.said(format!("{}: nothing to recover, and the file is too long to be copied here", side.name), 4)));
    }
    files::write(new, out_path, &result.image)?;
    let name = out_path.display().to_string();
    let result = Input { name: name.clone(), path: Some(out_path.to_owned()), beside: Beside::Nothing, ..result };
    let judged = Judged::plain(&result);
    // Where the two together are refused and the file alone is not, the two may not belong together.
    let stranger = live && judged.status() != 0 && Judged::plain(&input).status() == 0;
    let status = if live { judged.status() } else { 4 };
    let text = if words.json() {
        Object::new()
            .text("out", &name)
            .field("length", recovered.length)
            .field("pages", recovered.pages)
            .text("file", &input.name)
            .field("by", side.json())
            .field("nothing_to_recover", !live)
            .field("result", judged.json().end())
            .field("may_belong_to_another_database", stranger)
            .field("status", status)
            .end()
            + "\n"
    } else {
        let mut text = format!("{name}: {} bytes, {} by {}\n", recovered.length, input.name, side.name);
        for line in side.lines() {
            text += &format!("  {line}\n");
        }
        if let Some(line) = side.found() {
            text += &format!("  found by urk itself in the {}: {line}\n", side.word());
        }
        if !live {
            text += &format!("  nothing to recover: {name} is {} as it is, {}\n", input.name, counted(input.length, "byte"));
        }
        text += &judged.text();
        if stranger {
            text += &format!("  {} alone is accepted: the {} may belong to another database\n", input.name, side.word());
        }
        text
    };
    match status {
        0 => out::print(&text),
        _ => Err(Stop::Said(text, status)),
    }
}
