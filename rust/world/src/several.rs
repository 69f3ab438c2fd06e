//! Transactions over two files that sqlite3 is killed in at every stage: whether a journal whose end names a super-journal is in force.

use std::ffi::OsStr;
use std::os::unix::ffi::OsStrExt;
use std::os::unix::process::ExitStatusExt;
use std::path::{Path, PathBuf};
use std::process::{Command, Stdio};

use crate::reader::Reader;
use crate::sqlite;

/// Ends sqlite3 before one of its calls that change a file.
const KILLER: &str = include_str!("../../../tests/killed.c");
/// No transaction here has as many.
const MOST_CALLS: usize = 2000;
const FILES: [&str; 2] = ["main.db", "other.db"];
/// Of every so manieth moment copies are left in the folder.
const KEPT: usize = 4;

/// The two files, and what is set of both before the transaction.
const SHAPES: [(&str, &str); 6] = [
    ("delete", "PRAGMA main.journal_mode=DELETE; PRAGMA o.journal_mode=DELETE;"),
    ("truncate", "PRAGMA main.journal_mode=TRUNCATE; PRAGMA o.journal_mode=TRUNCATE;"),
    // An older transaction's journal is longer: it has to be cut behind the name.
    ("persist", "PRAGMA main.journal_mode=PERSIST; PRAGMA o.journal_mode=PERSIST; UPDATE t SET b=b||'x'; UPDATE o.t SET b=b||'x';"),
    ("mixed", "PRAGMA main.journal_mode=PERSIST; PRAGMA o.journal_mode=DELETE; UPDATE t SET b=b||'x' WHERE a<9;"),
    // The name stands right behind the records, and not at a sector's start.
    ("normal", "PRAGMA main.synchronous=NORMAL; PRAGMA o.synchronous=NORMAL;"),
    // The files are written to before the journals have a name.
    ("spilled", "PRAGMA main.cache_size=2; PRAGMA o.cache_size=2; PRAGMA main.cache_spill=1; PRAGMA o.cache_spill=1;"),
];

/// What was met.
#[derive(Debug, Default)]
pub struct Counts {
    /// Moments at which sqlite3 was killed.
    pub stages: usize,
    /// Files whose journal names no super-journal, names one that is there, and names one that is gone.
    pub unnamed: usize,
    pub there: usize,
    pub gone: usize,
}

/// A folder's files, by name.
type Files = Vec<(PathBuf, Vec<u8>)>;

fn read(dir: &Path) -> Files {
    let mut files: Files = std::fs::read_dir(dir)
        .expect("the folder is there")
        .map(|entry| entry.expect("an entry").path())
        .map(|path| (path.clone(), std::fs::read(path).expect("the file is read")))
        .collect();
    files.sort();
    files
}

fn write(dir: &Path, files: &Files) {
    let _ = std::fs::remove_dir_all(dir);
    std::fs::create_dir_all(dir).expect("the folder comes");
    for (path, bytes) in files {
        std::fs::write(path, bytes).expect("the file is written");
    }
}

/// As sqlite3 looks for a super-journal: a file of no bytes is none.
fn is_there(name: &[u8]) -> bool {
    let name = name.split(|&byte| byte == 0).next().unwrap_or_default();
    std::fs::metadata(OsStr::from_bytes(name)).is_ok_and(|metadata| !metadata.is_file() || metadata.len() > 0)
}

/// What a database is, as a reader and a look for the super-journal say.
fn said(reader: &dyn Reader, path: &Path, counts: &mut Counts) -> Vec<u8> {
    let image = std::fs::read(path).expect("the file is read");
    let Ok(journal) = std::fs::read(beside(path)) else { return image };
    let name = reader.journal_super(&journal);
    if name.found == 1 {
        let (start, end) = (name.start as usize, (name.start + name.length) as usize);
        assert!(journal[start..end].starts_with(path.parent().expect("a folder").as_os_str().as_bytes()), "a whole path");
        if !is_there(&journal[start..end]) {
            counts.gone += 1;
            return image;
        }
        counts.there += 1;
    } else {
        counts.unnamed += 1;
    }
    let mut out = vec![0; image.len() + journal.len()];
    let recovered = reader.journal_recover(&journal, &image, &mut out);
    assert_eq!(recovered.refusal, 0, "{}", path.display());
    out.truncate(recovered.length as usize);
    out
}

fn beside(path: &Path) -> PathBuf {
    let mut name = path.as_os_str().to_owned();
    name.push("-journal");
    name.into()
}

/// What sqlite3 makes of a database, and what its counter says then.
fn by_sqlite(path: &Path) -> (Vec<u8>, String) {
    let counter = sqlite::run(path, "PRAGMA synchronous=OFF; SELECT value FROM counter;");
    (std::fs::read(path).expect("the file is read"), counter)
}

/// Runs the transaction and kills it before its call number `at`; whether it came to its end before that.
fn killed(killer: &Path, main: &Path, script: &str, at: usize) -> bool {
    let status = Command::new("sqlite3")
        .args(["-batch", "-bail", main.to_str().expect("the path is text"), script])
        .env("LD_PRELOAD", killer)
        .env("KILL_AT", at.to_string())
        .stdout(Stdio::null())
        .status()
        .expect("sqlite3 runs");
    assert!(status.success() || status.signal() == Some(9), "sqlite3: {status}");
    status.success()
}

/// All shapes and stages: of each file a reader says what sqlite3 then makes of it, whichever it opens first. Copies of some are left in the folder.
pub fn compare(reader: &dyn Reader, dir: &Path) -> Counts {
    let killer = dir.join("killed.so");
    let source = dir.join("killed.c");
    std::fs::write(&source, KILLER).expect("the source is written");
    let built = Command::new("cc").args(["-O1", "-shared", "-fPIC", "-o"]).args([&killer, &source]).arg("-ldl").status().expect("cc runs");
    assert!(built.success(), "cc: {built}");
    let mut counts = Counts::default();
    for (shape, settings) in SHAPES {
        stages(reader, dir, &killer.canonicalize().expect("it is there"), shape, settings, &mut counts);
    }
    assert!(counts.unnamed > 0 && counts.there > 0 && counts.gone > 0, "{counts:?}");
    counts
}

fn stages(reader: &dyn Reader, dir: &Path, killer: &Path, shape: &str, settings: &str, counts: &mut Counts) {
    let folder = dir.canonicalize().expect("it is there").join(format!("several-{shape}"));
    let [main, other] = FILES.map(|name| folder.join(name));
    write(&folder, &Vec::new());
    for (path, page_size) in [(&main, 512), (&other, 1024)] {
        let script = format!(
            "PRAGMA page_size={page_size}; PRAGMA synchronous=OFF; CREATE TABLE counter(value); INSERT INTO counter VALUES(40);
             CREATE TABLE t(a INTEGER PRIMARY KEY, b); {} INSERT INTO t SELECT x, printf('%0200d', x) FROM c;",
            crate::torn::numbers(14)
        );
        sqlite::run(path, &script);
    }
    let attach = format!("ATTACH '{}' AS o; {settings}", other.display());
    // What the settings change of the files is there before.
    sqlite::run(&main, &format!(".output /dev/null\nPRAGMA synchronous=OFF; {attach}"));
    let before = read(&folder);
    let script = format!(
        "{} BEGIN; UPDATE counter SET value=41; UPDATE o.counter SET value=41; UPDATE t SET b='short' WHERE a%3=1; DELETE FROM o.t WHERE a%4=2; COMMIT;",
        attach.split("UPDATE").next().expect("what stands before")
    );
    for at in 0..MOST_CALLS {
        write(&folder, &before);
        let over = killed(killer, &main, &script, at);
        let left = read(&folder);
        counts.stages += 1;
        let what = format!("{shape}, killed at {at}");
        for order in [[&main, &other], [&other, &main]] {
            // sqlite3 deletes a super-journal when it has rolled back the last file: either may be the first.
            write(&folder, &left);
            let says = order.map(|path| said(reader, path, counts));
            let [first, second] = order.map(|path| by_sqlite(path));
            assert!(says == [first.0, second.0], "{what}: other files than sqlite3's, {} first", order[0].display());
            assert_eq!(first.1, second.1, "{what}: one file is of before, the other of after");
        }
        for (name, path) in FILES.iter().zip([&main, &other]).filter(|_| at % KEPT == 0) {
            keep(reader, dir, &format!("several-{shape}-{name}.{at}"), path, &left);
        }
        if over {
            return;
        }
    }
    panic!("{shape}: over {MOST_CALLS} calls");
}

/// Puts a database and its journal, if that names a super-journal, beside the other files that were caught.
fn keep(reader: &dyn Reader, dir: &Path, name: &str, path: &Path, files: &Files) {
    let file = |path: &Path| files.iter().find(|(other, _)| other == path).map(|(_, bytes)| bytes);
    let named = file(&beside(path)).filter(|journal| reader.journal_super(journal).found == 1);
    if let (Some(image), Some(journal)) = (file(path), named) {
        std::fs::write(dir.join(name), image).expect("the copy is written");
        std::fs::write(dir.join(format!("{name}-journal")), journal).expect("the copy is written");
    }
}
