//! `urk`: checks, maps, recovers and reads SQLite 3 files.

#![deny(unsafe_code)]

mod build;
mod check;
mod create;
mod database;
mod files;
mod header;
mod html;
mod indexes;
mod json;
mod ledger;
mod listing;
mod map;
#[allow(unsafe_code)]
mod mapped;
mod out;
mod page;
mod parse;
mod read;
mod recover;
mod refused;
mod report;
mod rows;
mod salvage;
mod schema;
mod scrub;
mod set;
mod shared;
mod show;
mod sides;
mod spelling;
mod supers;
mod tables;
mod walk;
mod words;

use std::ffi::{OsStr, OsString};
use std::process::ExitCode;

use database::ALONE;
use words::{Choice, Command, Words};

const JSON: Choice = Choice { name: "--json", value: "", about: "answer in JSON" };
const SVG: Choice = Choice { name: "--svg", value: "OUT", about: "a picture, as the new file OUT" };

const COMMANDS: &[Command] = &[
    Command {
        name: "check",
        places: &["FILE"],
        choices: &[
            ALONE,
            Choice { name: "--recovered", value: "", about: "taken, and does nothing: what the two together are is judged in any case" },
            Choice { name: "--indexes", value: "", about: "test the order of keys too, in every index that is plain and ascending" },
            Choice { name: "--ordered", value: "ROOT..", about: "test it in this index, by name or root page; can be given more than once" },
            JSON,
        ],
        about: "Whether FILE is a whole, consistent database",
        more: "Where a log or a journal beside FILE is in force, the database is what the two together are: that is judged, and then FILE alone.\n\
               Plain and ascending: no DESC, no COLLATE but BINARY, no expression, in the index or its columns;\na WITHOUT ROWID table whose PRIMARY KEY is so is such an index. Texts must be UTF-8.",
        run: check::run,
    },
    Command {
        name: "info",
        places: &["FILE"],
        choices: &[ALONE, JSON],
        about: "The facts in FILE's header, as they stand there",
        more: "In brackets is the offset of each. Nothing is judged.",
        run: tables::info,
    },
    Command {
        name: "tables",
        places: &["FILE"],
        choices: &[ALONE, JSON],
        about: "Tables and indexes: name, kind, root page, rows (of an index its entries), pages",
        more: "FILE is checked first. Rows are those that a cursor shows; entries and pages are counted by urk.",
        run: tables::run,
    },
    Command {
        name: "map",
        places: &["FILE"],
        choices: &[SVG, Choice { name: "--html", value: "OUT", about: "a page for a browser, as the new file OUT: the picture, all pages, and the cells of each" }, ALONE, JSON],
        about: "What each page is, and which page names it",
        more: "Of a damaged FILE it shows what each page says by itself, and the page that is refused.",
        run: map::run,
    },
    Command {
        name: "ledger",
        places: &["FILE"],
        choices: &[
            Choice { name: "--out", value: "OUT", about: "kind, namer and step of each page as the new file OUT, to be sent" },
            Choice { name: "--check", value: "PROPOSAL", about: "whether PROPOSAL, made elsewhere, is the ledger of FILE" },
            ALONE,
            JSON,
        ],
        about: "The ledger of FILE, to be sent or compared",
        more: "FILE is checked first. A proposal is compared byte for byte; the lowest page that differs is told.",
        run: ledger::run,
    },
    Command {
        name: "recover",
        places: &["FILE"],
        choices: &[
            Choice { name: "--log", value: "LOG", about: "a write-ahead log" },
            Choice { name: "--journal", value: "JOURNAL", about: "a rollback journal" },
            supers::PRESENT,
            supers::GONE,
            Choice { name: "--out", value: "OUT", about: "the new file; needed" },
            JSON,
        ],
        about: "The database that a log or a rollback journal makes of FILE, as the new file OUT",
        more: "Without --log and --journal, the FILE-wal or FILE-journal beside it. It says how far they were read and why no further,\nand judges OUT. With nothing to recover OUT is FILE as it is, and the status is 4.\nA JOURNAL of a transaction over several files names a super-journal, and is in force only while that is there. urk looks for it;\nwhere that says nothing of a JOURNAL given by --journal (a relative name, a folder that is not here) one of the two options has to.",
        run: recover::run,
    },
    Command {
        name: "scrub",
        places: &["FILE"],
        choices: &[Choice { name: "--out", value: "OUT", about: "the new file; needed" }, ALONE, JSON],
        about: "FILE with zeroes on free leaf pages, in reserved ends of pages and in gaps, as the new file OUT",
        more: "FILE is checked first, and refused as by urk check. These bytes, which no answer depends on, are zeroes in OUT; verdict, ledger and every row are compared.\n\
               Freeblocks, which lie among a page's cells, the ends of trunk pages and other places that may hold deleted rows too stay as they are: how much they hold is told.",
        run: scrub::run,
    },
    Command {
        name: "set",
        places: &["FILE", "TABLE", "ROW"],
        choices: &[
            Choice { name: "--json", value: "RECORD", about: "the columns, as urk rows --json prints them; needed" },
            Choice { name: "--out", value: "OUT", about: "the new file; needed" },
            ALONE,
        ],
        about: "FILE with a row set to another record, as the new file OUT",
        more: "RECORD is [1,2.5,\"text\",null,{\"blob\":\"00ff\"}], or {\"bytes\":\"0209\"} with the record itself, in hexadecimal. The row number stays, and its own column is null.\n\
               FILE is checked first, and so is OUT. Of the row's page nothing depends on what the row held; what else held it (an index, a log, a free page) stays.\n\
               Nothing ties an index to its table: the indexes that this leaves stale are told, and sqlite3's REINDEX makes them anew.\n\
               A row that has an overflow chain, or would need one, or for which its page has no room is not set (status 3): sqlite3 does that.",
        run: set::run,
    },
    Command {
        name: "log",
        places: &["LOG"],
        choices: &[JSON],
        about: "The frames of a write-ahead log that count, and the first that does not, with the reason",
        more: "Of each the page, the size of the database after a commit, and the salts. With nothing to recover the status is 4.",
        run: listing::log,
    },
    Command {
        name: "journal",
        places: &["JOURNAL"],
        choices: &[JSON],
        about: "The records of a rollback journal that count, and why there are no more",
        more: "Of each the segment, its nonce, and the page. With nothing to recover the status is 4.",
        run: listing::journal,
    },
    Command {
        name: "salvage",
        places: &["FILE", "ROOT"],
        choices: &[
            Choice { name: "--from", value: "ROW", about: "from this row number on" },
            Choice { name: "--shared", value: "", about: "take rows too from pages that stand in the trees of two tables" },
            Choice { name: "--out", value: "OUT", about: "the new file; needed" },
            ALONE,
            JSON,
        ],
        about: "The rows of a damaged table that can still be read, as the new database OUT of that table alone",
        more: "ROOT is the table's name or its root page. Rows are those that a cursor shows; where a page refuses it, it is started again behind that page.\nThe table's text is FILE's own, where a file of one tree can have it; else one with its columns' names.\nOUT has up to 4,096 rows and 4,096 pages of 1,024 bytes; --from goes on where one file is not enough (status 3).\nStatus 1: something was refused, or not taken; it is told.\nRows on a page that two tables have are not taken before that is asked for: --shared (status 2 names pages and tables).\nWith something to recover urk recover comes first.",
        run: salvage::run,
    },
    Command {
        name: "build",
        places: &[],
        choices: &[
            Choice { name: "--schema", value: "SQL", about: "the table: a CREATE TABLE statement that asks for no index; needed" },
            Choice { name: "--rows", value: "ROWS", about: "a file with a row a line, or - for standard input; needed" },
            Choice { name: "--out", value: "OUT", about: "the new file; needed" },
            JSON,
        ],
        about: "A fresh database of one table, as the new file OUT",
        more: "A line of ROWS is as urk rows --json prints it, {\"row\":7,\"columns\":[1,2.5,\"text\",null,{\"blob\":\"00ff\"}]}, by rising row number;\nwithout \"row\" it is one more than the row before. {\"row\":7,\"bytes\":\"0209\"} has the record itself, in hexadecimal.\nValues are kept as they are given, whatever the column's type: true and false as 1 and 0, {\"real\":\"inf\"} as that real.\nUp to 4,096 rows, records of 65,536 bytes, and 4,096 pages of 1,024 bytes.",
        run: build::run,
    },
    Command {
        name: "lookup",
        places: &["FILE", "ROOT", "ROW"],
        choices: &[ALONE, JSON],
        about: "A row of a table by its number",
        more: "ROOT is the table's name or its root page (sqlite_schema is page 1). Only the pages on the way are tested.",
        run: read::lookup,
    },
    Command {
        name: "rows",
        places: &["FILE", "ROOT"],
        choices: &[
            Choice { name: "--from", value: "ROW", about: "from this row number on" },
            Choice { name: "--unchecked", value: "", about: "read what can be read of a damaged FILE" },
            ALONE,
            JSON,
        ],
        about: "All rows of a table, a line each: the row number, then the columns as they are stored",
        more: "ROOT is the table's name or its root page. FILE is checked first.",
        run: rows::run,
    },
    Command {
        name: "report",
        places: &["FILE", "ROOT", "COLUMN"],
        choices: &[SVG, ALONE, JSON],
        about: "The reals in a column of a table: count, least, greatest, sum, mean, and a plot",
        more: "ROOT is the table's name or its root page, COLUMN a column's name or number from 1. FILE is checked first.",
        run: report::run,
    },
    Command {
        name: "record",
        places: &["[FILE", "[PAGE", "[CELL]]]"],
        choices: &[Choice { name: "--hex", value: "BYTES", about: "a record that is given in hexadecimal, instead of FILE PAGE CELL" }, ALONE, JSON],
        about: "The record in a cell, counted from 0",
        more: "",
        run: read::record,
    },
];

const STATUSES: &str = "\
FILE may be - for standard input. ROOT is a table's name or its root page.
Where a log or a journal beside FILE is in force, what the two together are is read; --alone reads FILE by itself.
Exit status: 0 fine; 1 damaged, or no database; 2 usage, a file that cannot be read or written, or something that has to be said first;
3 not supported; 4 nothing to recover, or not found.
urk COMMAND --help says more of a command, urk --version which version this is.
";

fn usage() -> String {
    let mut usage = String::new();
    for command in COMMANDS {
        usage += &format!("{}\n    {}\n", command.form(), command.about);
    }
    usage + "\n" + STATUSES
}

/// Why a command stops.
pub enum Stop {
    /// Words that are off, and the form that they should have.
    Usage(String, String),
    File(String),
    /// An answer that is no success: its text, and the exit status.
    Said(String, u8),
    /// Whoever reads standard output has gone.
    Pipe,
}

pub type Done = Result<(), Stop>;

fn main() -> ExitCode {
    let words: Vec<OsString> = std::env::args_os().skip(1).collect();
    let words: Vec<&OsStr> = words.iter().map(OsString::as_os_str).collect();
    let done = match run(&words) {
        Err(Stop::Said(text, status)) => out::print(&text).map(|()| status),
        done => done.map(|()| 0),
    };
    match done {
        Ok(status) => ExitCode::from(status),
        Err(stop) => stopped(stop),
    }
}

fn stopped(stop: Stop) -> ExitCode {
    match stop {
        Stop::File(text) => out::complain(&format!("urk: {text}")),
        Stop::Usage(text, form) => out::complain(&format!("urk: {text}\nusage: {form}\n(urk --help tells all)")),
        // As a shell tells the end by a closed pipe.
        Stop::Pipe => return ExitCode::from(141),
        Stop::Said(_, status) => return ExitCode::from(status),
    }
    ExitCode::from(2)
}

fn run(words: &[&OsStr]) -> Done {
    let all = || "urk COMMAND ..".to_owned();
    let Some((first, rest)) = words.split_first() else { return Err(Stop::Usage("a command is missing".into(), all())) };
    let named = |name: &OsStr| COMMANDS.iter().find(|command| name == command.name);
    match (first.to_str(), rest) {
        (Some("--version" | "-V"), []) => out::print(&format!("urk {}\n", env!("CARGO_PKG_VERSION"))),
        (Some("help"), [name]) if named(name).is_some() => out::print(&named(name).map(Command::help).unwrap_or_default()),
        (Some("help" | "--help" | "-h"), []) => out::print(&usage()),
        (Some("help" | "--help" | "-h" | "--version" | "-V"), [word, ..]) => {
            Err(Stop::Usage(format!("'{}' is one word too many", word.to_string_lossy()), all()))
        }
        _ => {
            let Some(command) = named(first) else {
                let names: Vec<&str> = COMMANDS.iter().map(|command| command.name).collect();
                return Err(Stop::Usage(format!("'{}' is no command: there are {}", first.to_string_lossy(), names.join(", ")), all()));
            };
            let words = Words::new(command, rest)?;
            if words.help {
                return out::print(&(command.help() + "\n" + STATUSES));
            }
            (command.run)(&words)
        }
    }
}
