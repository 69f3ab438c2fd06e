//! `urk ledger`: ledgers to be sent, and ledgers made elsewhere.

use urkibasko::Proposal;

use crate::database;
use crate::files;
use crate::header::counted;
use crate::json::Object;
use crate::refused::{self, Asked};
use crate::words::Words;
use crate::{out, Done, Stop};

pub fn run(words: &Words) -> Done {
    match (words.value_path("--out"), words.value_path("--check")) {
        (Some(_), Some(_)) => Err(words.off("--out or --check, not both".into())),
        (None, None) => Err(words.off("--out OUT or --check PROPOSAL is missing".into())),
        (Some(_), None) => write(words),
        (None, Some(_)) => check(words),
    }
}

/// Writes the ledger of an accepted image as a new file.
fn write(words: &Words) -> Done {
    let Some(out_path) = words.value_path("--out") else { return Ok(()) };
    let input = database::open(words)?;
    let ledger = urkibasko::check(&input.image).map_err(|refusal| refused::stop(&input, refusal, Asked::Whole, words.json()))?;
    let bytes = ledger.to_bytes();
    files::write(files::create(out_path, &input.paths())?, out_path, &bytes)?;
    let name = out_path.display().to_string();
    out::print(&match words.json() {
        true => Object::new().text("out", &name).field("length", bytes.len()).field("pages", ledger.pages()).end() + "\n",
        false => format!("{name}: {}, the ledger of {}\n", counted(bytes.len() as u64, "byte"), counted(ledger.pages().into(), "page")),
    })
}

/// Says whether a proposal is the ledger of an image that is accepted.
fn check(words: &Words) -> Done {
    let Some(path) = words.value_path("--check") else { return Ok(()) };
    let input = database::open(words)?;
    let bytes = std::fs::read(path).map_err(|error| Stop::File(format!("{}: {error}", path.display())))?;
    let found = urkibasko::check_proposal(&input.image, &bytes).map_err(|refusal| refused::stop(&input, refusal, Asked::Whole, words.json()))?;
    let name = path.display().to_string();
    let (yes, why, page) = match found {
        Proposal::Is => (true, String::new(), None),
        Proposal::Malformed => (false, "its length or version is wrong".to_owned(), None),
        Proposal::Differs(page) => (false, format!("it differs at page {page}"), Some(page)),
    };
    let text = match (words.json(), yes) {
        (true, _) => Object::new().text("proposal", &name).field("yes", yes).text("why", &why).maybe("page", page).end() + "\n",
        (false, true) => format!("{name}: yes, the ledger of {}\n", input.name),
        (false, false) => format!("{name}: no, {why}\n"),
    };
    match yes {
        true => out::print(&text),
        false => Err(Stop::Said(text, 1)),
    }
}
