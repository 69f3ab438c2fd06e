//! Commits appended to logs: sqlite3's own written again byte for byte; others behind them, and behind logs that a reader began, opened and read by sqlite3,
//! cut at and around every border of a frame; checkpoints torn and done.

use std::path::{Path, PathBuf};

use crate::reader::Reader;
use crate::rng::Rng;
use crate::torn::{caught_logs, numbers, resum, Kind, Torn};
use crate::{sqlite, PAGE_SIZES};

const SEED: u64 = 20240607;
const HEADER: usize = 32;
const FRAME_HEADER: usize = 24;
const WORDS: usize = 8;
/// Behind a frame's border, cuts at so many bytes; and one byte before it.
const AROUND: [usize; 3] = [0, 1, FRAME_HEADER];

/// What was compared.
#[derive(Clone, Copy, Debug, Default)]
pub struct Counts {
    /// Logs of sqlite3's, and commits in them, that were written again.
    pub logs: usize,
    pub again: usize,
    /// Commits appended by the reader and by sqlite3.
    pub commits: usize,
    pub frames: usize,
    pub by_sqlite: usize,
    /// Cut logs and whole ones that sqlite3 opened.
    pub opened: usize,
}

fn be32(bytes: &[u8], at: usize) -> u32 {
    u32::from_be_bytes(bytes[at..at + 4].try_into().expect("four bytes"))
}

/// The tail of a log that has one.
fn tail_of(reader: &dyn Reader, name: &str, log: &[u8]) -> [u32; WORDS] {
    let mut tail = [7; WORDS];
    let told = reader.log_tail(log, &mut tail);
    assert_eq!((told.refusal, told.page_size, told.frames, told.pages), (0, tail[0], tail[6], tail[7]), "{name}: the tail");
    tail
}

/// Writes a log of sqlite3's again, commit by commit: the same header, the same frames, and each tail is that of the log cut there.
fn again(reader: &dyn Reader, torn: &Torn, counts: &mut Counts) {
    let (name, log) = (&torn.name, &torn.side);
    if log.len() < HEADER {
        assert_eq!(reader.log_tail(log, &mut [0; WORDS]).refusal, 50, "{name}: no header");
        return;
    }
    let (mut header, mut begun) = ([0; HEADER], [0; WORDS]);
    let fields = [8, 12, 16, 20].map(|at| be32(log, at));
    let answer = reader.log_begin(fields[0], fields[1], [fields[2], fields[3]], &mut begun, &mut header);
    assert_eq!((answer.refusal, answer.at, answer.length), (0, 0, 32), "{name}: a header");
    let mut tail = tail_of(reader, name, &log[..HEADER]);
    if tail[1] == 0 {
        assert!(header == log[..HEADER] && begun == tail, "{name}: sqlite3's header");
    }
    let unit = FRAME_HEADER + fields[0] as usize;
    let in_force = reader.log_inspect(log).in_force as usize;
    let mut start = HEADER;
    let (mut listed, mut pages) = (Vec::new(), Vec::new());
    for frame in log[HEADER..].chunks_exact(unit).take(in_force) {
        listed.push(be32(frame, 0));
        pages.extend(&frame[FRAME_HEADER..]);
        let n = be32(frame, 4);
        if n != 0 {
            let mut out = vec![0; listed.len() * unit];
            let answer = reader.log_append(&mut tail, &listed, &pages, n, &mut out);
            assert_eq!((answer.refusal, answer.at as usize, answer.length as usize), (0, start, out.len()), "{name}: the commit at {start}");
            let end = start + out.len();
            assert!(out == log[start..end], "{name}: sqlite3's frames at {start}");
            assert_eq!(tail, tail_of(reader, name, &log[..end]), "{name}: the tail at {end}");
            (listed, pages, start) = (Vec::new(), Vec::new(), end);
            counts.again += 1;
        }
    }
    assert_eq!(tail, tail_of(reader, name, log), "{name}: the tail of all of it");
    counts.logs += 1;
}

/// Runs lines of the sqlite3 program over files with logs beside them, in one run; what it prints.
struct Run<'d> {
    dir: &'d Path,
    paths: Vec<PathBuf>,
    lines: String,
}

fn wal(path: &Path) -> PathBuf {
    PathBuf::from(format!("{}-wal", path.display()))
}

impl<'d> Run<'d> {
    fn new(dir: &'d Path) -> Run<'d> {
        Run { dir, paths: Vec::new(), lines: String::new() }
    }

    /// Opens an image with a log, which may be none.
    fn open(&mut self, image: &[u8], log: Option<&[u8]>) -> &mut Run<'d> {
        let path = self.dir.join(format!("opened.{}", self.paths.len()));
        std::fs::write(&path, image).expect("the image is written");
        if let Some(log) = log {
            std::fs::write(wal(&path), log).expect("the log is written");
        }
        self.lines += &format!(".open '{}'\n", path.display());
        self.paths.push(path);
        self.quiet("PRAGMA synchronous=OFF; PRAGMA wal_autocheckpoint=0;")
    }

    fn quiet(&mut self, sql: &str) -> &mut Run<'d> {
        self.lines += &format!(".output /dev/null\n{sql}\n.output stdout\n");
        self
    }

    fn line(&mut self, line: &str) -> &mut Run<'d> {
        self.lines += &format!("{line}\n");
        self
    }

    /// Copies the file that is open, and its log, as they are at this moment.
    fn catch(&mut self) -> &mut Run<'d> {
        let path = self.paths.last().expect("a file is open").display();
        self.lines += &format!(".shell cp '{path}' '{path}.caught'; cp '{path}-wal' '{path}.caught-wal'\n");
        self
    }

    /// What is printed; and each file as it is when sqlite3 has closed it, with its log laid down.
    fn done(&self) -> (String, Vec<Vec<u8>>) {
        let printed = sqlite::run_named(":memory:", &self.lines);
        (printed, self.paths.iter().map(|path| std::fs::read(path).expect("the file is there")).collect())
    }

    /// The file and the log that were caught.
    fn caught(&self) -> (Vec<u8>, Vec<u8>) {
        let path = PathBuf::from(format!("{}.caught", self.paths.last().expect("a file was open").display()));
        let read = |path: &Path| std::fs::read(path).expect("the copy is there");
        (read(&path), read(&wal(&path)))
    }
}

impl Drop for Run<'_> {
    fn drop(&mut self) {
        for path in &self.paths {
            for ending in ["", "-wal", "-shm", ".caught", ".caught-wal"] {
                let _ = std::fs::remove_file(format!("{}{ending}", path.display()));
            }
        }
    }
}

/// What is asked of a database before its log is laid down.
fn asked<'r, 'd>(run: &'r mut Run<'d>) -> &'r mut Run<'d> {
    run.line("PRAGMA integrity_check;").line(".dump")
}

/// A database and its log, to which commits are appended.
struct Growing<'a> {
    reader: &'a dyn Reader,
    dir: &'a Path,
    name: String,
    page_size: usize,
    image: Vec<u8>,
    log: Vec<u8>,
    /// The database that the two show.
    shown: Vec<u8>,
    tail: [u32; WORDS],
    rng: Rng,
    counts: Counts,
}

impl<'a> Growing<'a> {
    /// By the log's own tail.
    fn new(reader: &'a dyn Reader, dir: &'a Path, torn: &Torn) -> Growing<'a> {
        let Torn { name, image, side, .. } = torn.clone();
        let tail = tail_of(reader, &name, &side);
        let shown = torn.by_reader(reader).unwrap_or_else(|refusal| panic!("{name}: refused with {refusal}"));
        Growing {
            reader,
            dir,
            page_size: tail[0] as usize,
            image,
            log: side,
            shown,
            tail,
            rng: Rng::new(SEED + name.len() as u64 + u64::from(tail[4])),
            counts: Counts::default(),
            name,
        }
    }

    fn unit(&self) -> usize {
        FRAME_HEADER + self.page_size
    }

    /// What a reader makes of the image with a log.
    fn read(&self, log: &[u8]) -> Vec<u8> {
        self.read_over(&self.image, log)
    }

    fn read_over(&self, image: &[u8], log: &[u8]) -> Vec<u8> {
        let torn = Torn { name: self.name.clone(), kind: Kind::Log, image: image.to_vec(), side: log.to_vec() };
        torn.by_reader(self.reader).unwrap_or_else(|refusal| panic!("{}: refused with {refusal}", self.name))
    }

    /// The pages that differ, and all new ones, in any order; before some of them other bytes for the same page.
    fn difference(&mut self, next: &[u8]) -> (Vec<u32>, Vec<u8>) {
        let size = self.page_size;
        let mut listed: Vec<(u32, Vec<u8>)> = (1..)
            .zip(next.chunks_exact(size))
            .filter(|(number, page)| self.shown.get((number - 1) as usize * size..*number as usize * size) != Some(page))
            .map(|(number, page)| (number, page.to_vec()))
            .collect();
        for i in (1..listed.len()).rev() {
            listed.swap(i, self.rng.below(i + 1));
        }
        for _ in 0..listed.len().min(2) {
            let at = self.rng.below(listed.len());
            let mut other = vec![0; size];
            self.rng.fill(&mut other);
            listed.insert(self.rng.below(at + 1), (listed[at].0, other));
        }
        (listed.iter().map(|(number, _)| *number).collect(), listed.into_iter().flat_map(|(_, page)| page).collect())
    }

    /// sqlite3 changes a copy of what is shown; the change is appended, and the log cut in it. What is shown is the old file or, with its last byte, the
    /// new one.
    fn commit(&mut self, sql: &str) {
        let mut run = Run::new(self.dir);
        let (printed, files) = asked(run.open(&self.shown, None).quiet(sql)).done();
        let next = &files[0];
        let (listed, pages) = self.difference(next);
        let n = (next.len() / self.page_size) as u32;
        let length = listed.len() * self.unit();
        let mut out = vec![0xaa; length + 3];
        let mut tail = [&self.tail[..], &[7, 7]].concat();
        let answer = self.reader.log_append(&mut tail, &listed, &pages, n, &mut out);
        let name = &self.name.clone();
        let at = HEADER + self.tail[6] as usize * self.unit();
        assert_eq!((answer.refusal, answer.at as usize, answer.length as usize), (0, at, length), "{name}: {sql}");
        assert_eq!((&tail[WORDS..], &out[length..]), (&[7, 7][..], &[0xaa; 3][..]), "{name}: past what is written");
        let base = self.log[..at].to_vec();
        let whole = [&base, &out[..length]].concat();

        let borders = (0..=length).step_by(self.unit());
        let mut cuts: Vec<usize> = borders.flat_map(|border| AROUND.map(|over| border + over).into_iter().chain(border.checked_sub(1))).collect();
        cuts.retain(|&cut| cut < length);
        cuts.sort_unstable();
        cuts.dedup();
        let mut opened = Run::new(self.dir);
        for &cut in &cuts {
            let log = &whole[..at + cut];
            assert!(self.read(log) == self.shown, "{name}: {sql}: cut at {cut} of {length}");
            assert_eq!(tail_of(self.reader, name, log), self.tail, "{name}: the tail, cut at {cut}");
            opened.open(&self.image, Some(log)).quiet(LAID_DOWN);
        }
        asked(opened.open(&self.image, Some(&whole))).quiet("PRAGMA wal_checkpoint(TRUNCATE);");
        let (read, mut files) = opened.done();
        assert!(read.starts_with("ok\n"), "{name}: {sql}: integrity_check says {}", read.lines().next().unwrap_or_default());
        assert!(read == printed, "{name}: {sql}: sqlite3 reads what was written");
        assert!(files.pop().as_ref() == Some(next), "{name}: {sql}: sqlite3's checkpoint");
        for (cut, file) in cuts.iter().zip(&files) {
            assert!(file == &self.shown, "{name}: {sql}: sqlite3's checkpoint, cut at {cut} of {length}");
        }
        self.counts.opened += cuts.len() + 1;

        assert!(self.read(&whole) == *next, "{name}: {sql}: the new file");
        assert_eq!(tail_of(self.reader, name, &whole), tail[..WORDS], "{name}: {sql}: the tail behind it");
        self.counts.commits += 1;
        self.counts.frames += listed.len();
        // Whatever stands behind it the commit is in force, and the next one comes there.
        let mut behind = vec![0; self.rng.below(3 * self.unit())];
        self.rng.fill(&mut behind);
        let longer = [&whole[..], &behind].concat();
        assert!(self.read(&longer) == *next, "{name}: {sql}: with other bytes behind it");
        self.shown.clone_from(next);
        self.tail.copy_from_slice(&tail[..WORDS]);
        self.log = longer;
    }

    /// sqlite3 appends to the log, which ends behind its last commit.
    fn commit_by_sqlite(&mut self, sql: &str) {
        let end = HEADER + self.tail[6] as usize * self.unit();
        self.log.truncate(end);
        let mut run = Run::new(self.dir);
        let (_, files) = run.open(&self.image, Some(&self.log)).quiet(sql).catch().done();
        let (image, log) = run.caught();
        let name = &self.name.clone();
        assert!(image == self.image && log.starts_with(&self.log) && log.len() > end, "{name}: {sql}: sqlite3 appends to the log");
        assert!(self.read(&log) == files[0], "{name}: {sql}: what sqlite3 appended");
        self.tail = tail_of(self.reader, name, &log);
        (self.log, self.shown) = (log, files.into_iter().next().expect("the file"));
        self.counts.by_sqlite += 1;
    }

    /// A checkpoint: of an image that is torn on pages that the log has, and past n, the same is shown; and by the whole file with no log, a header alone,
    /// and the old log under a fresh header that is torn anywhere.
    fn checkpoint(&mut self) {
        let (name, size) = (&self.name.clone(), self.page_size);
        self.log.truncate(HEADER + self.tail[6] as usize * (FRAME_HEADER + size));
        let frames = self.log[HEADER..].chunks_exact(FRAME_HEADER + size);
        let mut held: Vec<usize> = frames.map(|frame| be32(frame, 0) as usize).collect();
        held.sort_unstable();
        held.dedup();
        let mut torn = self.image.clone();
        for number in held {
            let page = (number - 1) * size..number * size;
            if number > 1 && page.end <= torn.len() {
                let from = page.start + self.rng.below(size);
                self.rng.fill(&mut torn[from..page.end]);
            }
        }
        let n = self.tail[7] as usize;
        if torn.len() >= n * size {
            torn.truncate(n * size + self.rng.below(2) * size);
        }
        let mut run = Run::new(self.dir);
        run.open(&torn, Some(&self.log)).quiet(LAID_DOWN);
        assert!(self.read_over(&torn, &self.log) == self.shown, "{name}: a torn checkpoint");

        let (mut header, salts) = ([0; HEADER], [self.tail[2].wrapping_add(1), self.rng.word() as u32]);
        let answer = self.reader.log_begin(size as u32, be32(&self.log, 12).wrapping_add(1), salts, &mut [0; WORDS], &mut header);
        assert_eq!(answer.refusal, 0, "{name}: a fresh header");
        for cut in 0..=HEADER {
            let laid = [&header[..cut], &self.log[cut..]].concat();
            for log in [&laid, &header[..cut]] {
                assert!(self.read_over(&self.shown, log) == self.shown, "{name}: a fresh header cut at {cut}");
            }
            if [0, 1, 15, 16, 19, 20, 24, 31, 32].contains(&cut) {
                run.open(&self.shown, Some(&laid)).quiet(LAID_DOWN);
                run.open(&self.shown, Some(&header[..cut])).quiet(LAID_DOWN);
            }
        }
        let (_, files) = run.done();
        self.counts.opened += files.len();
        assert!(files.iter().all(|file| file == &self.shown), "{name}: sqlite3 shows the same after a checkpoint");
        // The old log under another salt says nothing of an image of before either.
        let laid = [&header[..], &self.log[HEADER..]].concat();
        assert!(self.read(&laid) == self.image, "{name}: frames of other salts");
        self.log = laid;
        self.image.clone_from(&self.shown);
        self.tail = tail_of(self.reader, name, &self.log);
        assert_eq!((self.tail[6], self.tail[7]), (0, 0), "{name}: nothing in force");
    }

    fn add_to(&self, counts: &mut Counts) {
        counts.commits += self.counts.commits;
        counts.frames += self.counts.frames;
        counts.by_sqlite += self.counts.by_sqlite;
        counts.opened += self.counts.opened;
    }
}

/// Commits behind a log of sqlite3's.
fn grown(reader: &dyn Reader, dir: &Path, torn: &Torn, shrinks: bool, counts: &mut Counts) {
    let mut growing = Growing::new(reader, dir, torn);
    growing.commit(UPDATE);
    growing.commit(&grow(growing.page_size));
    if shrinks {
        growing.commit(SHRINK);
    }
    growing.checkpoint();
    growing.add_to(counts);
}

/// A log that the reader begins, beside a database that has none: appended to by it and by sqlite3, by turns, in either order of bytes. Its last state is
/// left in the folder.
fn begun(reader: &dyn Reader, dir: &Path, page_size: usize, big_endian: bool, counts: &mut Counts) {
    let name = format!("log-begun-{page_size}{}", if big_endian { "-big-endian" } else { "" });
    let path = dir.join(format!("{name}.db"));
    let fill = page_size * 2 / 5;
    sqlite::run(
        &path,
        &format!(
            ".output /dev/null\nPRAGMA page_size={page_size}; PRAGMA synchronous=OFF; PRAGMA journal_mode=WAL; CREATE TABLE t(a INTEGER PRIMARY KEY, b);
             CREATE INDEX i ON t(b); {} INSERT INTO t SELECT x, printf('%0{fill}d', x) FROM c;",
            numbers(12)
        ),
    );
    let image = std::fs::read(&path).expect("the database is there");
    let (mut header, mut tail) = ([0; HEADER], [0; WORDS]);
    let answer = reader.log_begin(page_size as u32, 7, [page_size as u32, !0], &mut tail, &mut header);
    assert_eq!((answer.refusal, answer.at, answer.length), (0, 0, HEADER as u64), "{name}: a header");
    assert_eq!(tail, tail_of(reader, &name, &header), "{name}: its tail");
    if big_endian {
        resum(&mut header, true);
    }
    let mut run = Run::new(dir);
    for cut in 0..=HEADER {
        let torn = Torn { name: name.clone(), kind: Kind::Log, image: image.clone(), side: header[..cut].to_vec() };
        assert!(torn.by_reader(reader).as_ref() == Ok(&image), "{name}: a header cut at {cut}");
        run.open(&image, Some(&header[..cut])).quiet(LAID_DOWN);
    }
    let (_, files) = run.done();
    counts.opened += files.len();
    assert!(files.iter().all(|file| file == &image), "{name}: sqlite3 shows the image alone beside a header");

    // Behind a header alone sqlite3 begins the log anew.
    let mut run = Run::new(dir);
    run.open(&image, Some(&header)).quiet("INSERT INTO t(b) VALUES('anew');").catch().done();
    assert!(run.caught().1[16..24] != header[16..24], "{name}: other salts");

    let mut growing = Growing::new(reader, dir, &Torn { name: name.clone(), kind: Kind::Log, image, side: header.to_vec() });
    growing.commit(UPDATE);
    growing.commit_by_sqlite("INSERT INTO t(b) VALUES('by sqlite3'); UPDATE t SET b=b||'x' WHERE a%5=1;");
    growing.commit(&grow(page_size));
    growing.commit_by_sqlite("BEGIN; DELETE FROM t WHERE a%4=1; INSERT INTO t(b) VALUES('again'); COMMIT;");
    growing.commit(SHRINK);
    growing.commit_by_sqlite("CREATE TABLE last(x); INSERT INTO last VALUES(1);");
    growing.checkpoint();
    growing.commit(UPDATE);
    growing.commit_by_sqlite("INSERT INTO last VALUES(2);");
    std::fs::write(dir.join(format!("{name}.db.left")), &growing.image).expect("the image is written");
    std::fs::write(dir.join(format!("{name}.db.left-wal")), &growing.log).expect("the log is written");
    growing.add_to(counts);
}

/// Without a file of shared memory, which takes time.
const LAID_DOWN: &str = "PRAGMA locking_mode=EXCLUSIVE; PRAGMA wal_checkpoint(TRUNCATE);";
const UPDATE: &str = "UPDATE t SET b='appended '||b WHERE a%7=1 OR a=(SELECT max(a) FROM t);";
const SHRINK: &str = "DELETE FROM t WHERE a%2=0; VACUUM;";

/// New pages: of an overflow chain, of a new table, perhaps of `t`.
fn grow(page_size: usize) -> String {
    format!("INSERT INTO t(b) SELECT hex(a)||b FROM t LIMIT 2; CREATE TABLE more(x); INSERT INTO more VALUES(zeroblob({})), ('more');", 2 * page_size)
}

/// Logs of sqlite3's that commits are appended to: what stands behind their last commit is nothing, an open transaction, an older log.
const GROWN: [&str; 4] = ["three-commits", "open-transaction", "leftovers", "shrunk"];

/// Logs of sqlite3's, in a folder that is made anew.
pub fn caught(dir: &Path) -> Vec<Torn> {
    if dir.exists() {
        std::fs::remove_dir_all(dir).expect("the old folder goes");
    }
    std::fs::create_dir_all(dir).expect("the new folder comes");
    caught_logs(dir)
}

/// Everything above, at every page size and in both orders of bytes. Panics where anything differs.
pub fn compare(reader: &dyn Reader, dir: &Path, caught: &[Torn]) -> Counts {
    let mut counts = Counts::default();
    let turned = |torn: &Torn| {
        let mut side = torn.side.clone();
        resum(&mut side, true);
        torn.with_side("in the other word order", side)
    };
    for torn in caught.iter().filter(|torn| torn.kind == Kind::Log) {
        again(reader, torn, &mut counts);
        again(reader, &turned(torn), &mut counts);
    }
    for page_size in PAGE_SIZES {
        for label in GROWN {
            let name = format!("log-{page_size} {label}");
            let torn = caught.iter().find(|torn| torn.name == name).expect("the log was caught");
            grown(reader, dir, torn, label == "shrunk", &mut counts);
            if ["open-transaction", "leftovers"].contains(&label) {
                grown(reader, dir, &turned(torn), false, &mut counts);
            }
        }
        for big_endian in [false, true] {
            begun(reader, dir, page_size, big_endian, &mut counts);
        }
    }
    counts
}
