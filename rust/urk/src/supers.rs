//! The super-journal that a journal names: its transaction was over several files, and is committed once that one is gone.

use std::ffi::OsString;
use std::io::ErrorKind;
use std::os::unix::ffi::OsStringExt;
use std::path::{Path, PathBuf};

use crate::json::{self, Object};
use crate::words::Choice;

pub const PRESENT: Choice = Choice {
    name: "--super-journal-present",
    value: "",
    about: "the super-journal that JOURNAL names was there when JOURNAL was copied: it is in force",
};
pub const GONE: Choice =
    Choice { name: "--super-journal-gone", value: "", about: "it was gone: the transaction was committed, and nothing goes back" };

/// How it is settled whether the file is there.
#[derive(Clone, Copy, PartialEq, Eq)]
pub enum Settle {
    /// It is not: only the name is told.
    Not,
    /// It is looked for as sqlite3 does that opens the database beside which the journal stands.
    Beside,
    /// It is looked for where that says something of a journal that was given by hand.
    ByHand,
    /// Whoever gave the journal says so.
    Said(bool),
}

pub struct SuperJournal {
    pub name: PathBuf,
    /// None where it is not settled.
    pub there: Option<bool>,
    /// What is said of it, behind its name.
    says: String,
}

impl SuperJournal {
    /// The one that a journal names, if it names one.
    pub fn of(path: &Path, journal: &[u8], settle: Settle) -> Option<SuperJournal> {
        let name = urkibasko::journal_super(journal)?;
        // sqlite3 takes it as a text of C.
        let name = name.split(|&byte| byte == 0).next().unwrap_or_default();
        let name = PathBuf::from(OsString::from_vec(name.to_vec()));
        let (there, says) = match settle {
            Settle::Not => (None, "it is in force while that file is there; once it is gone its transaction was committed".to_owned()),
            Settle::Said(true) => (Some(true), format!("taken to be there, as {} says", PRESENT.name)),
            Settle::Said(false) => (Some(false), format!("taken to be gone, as {} says: its transaction was committed", GONE.name)),
            Settle::Beside | Settle::ByHand => looked_for(path, &name, settle == Settle::ByHand),
        };
        Some(SuperJournal { name, there, says })
    }

    pub fn is_gone(&self) -> bool {
        self.there == Some(false)
    }

    pub fn line(&self) -> String {
        match self.there {
            None => format!("it names the super-journal {}: {}", self.name.display(), self.says),
            Some(_) => format!("its super-journal {} is {}", self.name.display(), self.says),
        }
    }

    /// Why it is not settled.
    pub fn unsettled(&self) -> &str {
        &self.says
    }

    pub fn json(&self) -> String {
        Object::new().text("name", &self.name.to_string_lossy()).maybe("there", self.there).field("says", json::text(&self.line())).end()
    }
}

/// Whether it is there, and what is said of that. sqlite3 asks for the name as it stands, so that a relative one is taken from the folder of the process.
fn looked_for(journal: &Path, name: &Path, by_hand: bool) -> (Option<bool>, String) {
    if by_hand && name.is_relative() {
        return (None, "its name is relative, and from which folder is not known of a journal that is given by hand".into());
    }
    let here = std::env::current_dir().ok().filter(|_| name.is_relative());
    let from = here.map_or_else(String::new, |folder| format!(" (from the folder {})", folder.display()));
    match is_there(name) {
        Ok(true) => return (Some(true), format!("there{from}: its transaction was not committed")),
        Err(error) => return (None, error.to_string()),
        Ok(false) => {}
    }
    let committed = format!("gone{from}: its transaction was committed");
    let folder = name.parent().filter(|folder| !folder.as_os_str().is_empty() && !folder.is_dir());
    match (folder, moved(journal, name)) {
        (_, Some(moved)) if by_hand => (None, format!("it is not there, but {} has its name: all may have been moved", moved.display())),
        (Some(folder), _) if by_hand => (None, format!("its folder {} is not on this machine", folder.display())),
        (_, Some(moved)) => (Some(false), format!("{committed}, unless all was moved: {} has its name", moved.display())),
        (Some(_), _) => (Some(false), format!("{committed}, unless all is from another machine: its folder is not on this one")),
        _ => (Some(false), committed),
    }
}

/// As sqlite3 finds it: a file of no bytes is none.
fn is_there(name: &Path) -> std::io::Result<bool> {
    match std::fs::metadata(name) {
        Ok(metadata) => Ok(!metadata.is_file() || metadata.len() > 0),
        Err(error) if matches!(error.kind(), ErrorKind::NotFound | ErrorKind::NotADirectory | ErrorKind::InvalidFilename) => Ok(false),
        Err(error) => Err(error),
    }
}

/// A file of its name that stands beside the journal.
fn moved(journal: &Path, name: &Path) -> Option<PathBuf> {
    let beside = journal.parent()?.join(name.file_name()?);
    is_there(&beside).is_ok_and(|there| there).then_some(beside)
}
