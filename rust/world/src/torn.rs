//! Logs and journals caught in mid-write, and what the sqlite3 program itself makes of them.

use std::path::{Path, PathBuf};

use crate::reader::Reader;
use crate::rng::Rng;
use crate::sqlite;
use crate::PAGE_SIZES;

#[derive(Clone, Copy, Debug, PartialEq, Eq)]
pub enum Kind {
    Log,
    Journal,
}

/// An image with the log or journal that stood beside it.
#[derive(Clone, Debug)]
pub struct Torn {
    pub name: String,
    pub kind: Kind,
    pub image: Vec<u8>,
    /// The log or the journal.
    pub side: Vec<u8>,
}

impl Torn {
    fn suffix(&self) -> &'static str {
        match self.kind {
            Kind::Log => "-wal",
            Kind::Journal => "-journal",
        }
    }

    /// The same with another log or journal.
    pub fn with_side(&self, name: &str, side: Vec<u8>) -> Torn {
        Torn { name: format!("{} {name}", self.name), side, ..self.clone() }
    }

    /// What the sqlite3 program makes of the pair: a checkpoint of the log, or a rollback by the journal.
    pub fn by_sqlite(&self, dir: &Path) -> Vec<u8> {
        let path = dir.join("recovered.db");
        let side = dir.join(format!("recovered.db{}", self.suffix()));
        for file in ["recovered.db-wal", "recovered.db-shm", "recovered.db-journal"] {
            let _ = std::fs::remove_file(dir.join(file));
        }
        std::fs::write(&path, &self.image).expect("the image is written");
        std::fs::write(&side, &self.side).expect("the log or journal is written");
        let script = match self.kind {
            Kind::Log => "PRAGMA synchronous=OFF; PRAGMA wal_checkpoint(TRUNCATE);",
            Kind::Journal => "PRAGMA synchronous=OFF; SELECT count(*) FROM sqlite_schema;",
        };
        // A rollback that lays down a damaged page 1 is done before sqlite3 complains about that page.
        if let Err(error) = sqlite::attempt(path.to_str().expect("the path is text"), script) {
            assert!(self.kind == Kind::Journal && !side.exists(), "{}: {error}", self.name);
        }
        std::fs::read(&path).expect("the recovered image is there")
    }

    /// What a reader makes of the pair; the refusal's number where it refuses.
    pub fn by_reader(&self, reader: &dyn Reader) -> Result<Vec<u8>, u32> {
        const ROOM: usize = 64;
        // Each page stands in one of the two files, but for the lock-byte page.
        let mut out = vec![0xaa; self.image.len() + self.side.len() + 65536 + ROOM];
        let answer = match self.kind {
            Kind::Log => reader.log_recover(&self.side, &self.image, &mut out),
            Kind::Journal => reader.journal_recover(&self.side, &self.image, &mut out),
        };
        if answer.refusal != 0 {
            return Err(answer.refusal);
        }
        let length = answer.length as usize;
        assert!(out[length..length + ROOM].iter().all(|&byte| byte == 0xaa), "{}: nothing past the end", self.name);
        out.truncate(length);
        if self.kind == Kind::Log {
            self.by_table(reader, &out);
        }
        Ok(out)
    }

    /// Page by page, by a table of frames, it is the same file.
    fn by_table(&self, reader: &dyn Reader, file: &[u8]) {
        let mut table = vec![7; (self.image.len() + self.side.len()) / 512 + 1];
        let filled = reader.log_fill(&self.side, &self.image, &mut table);
        assert_eq!((filled.refusal, filled.pages as usize * filled.page_size as usize), (0, file.len()), "{}: a table is filled", self.name);
        for (page, bytes) in (1..).zip(file.chunks_exact(filled.page_size as usize)) {
            let part = reader.log_page_by(&self.side, &self.image, &table, filled.pages, filled.page_size, page);
            let from = if part.from_log == 1 { &self.side } else { &self.image };
            let absent = page as usize == plain::lock_page(bytes.len()) && page as usize * bytes.len() > self.image.len();
            let shown = &from[part.start as usize..][..part.length as usize];
            assert!(if absent { part.refusal == 46 } else { shown == bytes }, "{}: page {page} by a table", self.name);
        }
    }
}

/// Runs a script over a fresh database. Lines `@NAME` catch the database and its log or journal as they are at that moment.
pub(crate) fn caught(dir: &Path, name: &str, kind: Kind, uri: &str, script: &str) -> Vec<Torn> {
    let path = dir.join(format!("{name}.db"));
    let shown = path.to_str().expect("the path is text");
    let suffix = if kind == Kind::Log { "-wal" } else { "-journal" };
    let mut names = Vec::new();
    let mut lines = String::from(".output /dev/null\n");
    for line in script.lines().map(str::trim) {
        match line.strip_prefix('@') {
            Some(label) => {
                lines += &format!(".shell cp '{shown}' '{shown}.{label}'\n.shell cp '{shown}{suffix}' '{shown}.{label}{suffix}' 2>/dev/null || : > '{shown}.{label}{suffix}'\n");
                names.push(label.to_owned());
            }
            None => lines += &format!("{line}\n"),
        }
    }
    sqlite::run_named(&format!("file:{shown}{uri}"), &lines);
    let read = |path: String| std::fs::read(PathBuf::from(path)).expect("what was caught is there");
    names
        .iter()
        .map(|label| Torn {
            name: format!("{name} {label}"),
            kind,
            image: read(format!("{shown}.{label}")),
            side: read(format!("{shown}.{label}{suffix}")),
        })
        .collect()
}

/// Numbers from 1 to `n`, as a table `c(x)`.
pub(crate) fn numbers(n: usize) -> String {
    format!("WITH RECURSIVE c(x) AS (SELECT 1 UNION ALL SELECT x+1 FROM c WHERE x<{n})")
}

/// Logs: commits, an open transaction that spilled, leftovers of an older log behind a newer one, a file that shrinks.
fn logs(dir: &Path, page_size: usize) -> Vec<Torn> {
    let rows = if page_size > 8192 { 12 } else { 40 };
    let fill = page_size * 2 / 5;
    let script = format!(
        "PRAGMA page_size={page_size}; PRAGMA synchronous=OFF; PRAGMA journal_mode=WAL; PRAGMA wal_autocheckpoint=0;
         @opened
         CREATE TABLE t(a INTEGER PRIMARY KEY, b); CREATE INDEX i ON t(b);
         @one-commit
         {n} INSERT INTO t SELECT x, printf('%0{fill}d', x) FROM c;
         UPDATE t SET b='short' WHERE a%3=0;
         @three-commits
         PRAGMA cache_size=2; BEGIN; UPDATE t SET b=printf('%0{fill}d', a+1);
         INSERT INTO t(b) SELECT b||'x' FROM t;
         @open-transaction
         ROLLBACK;
         @rolled-back
         INSERT INTO t(b) VALUES('after');
         PRAGMA wal_checkpoint(PASSIVE);
         @checkpointed
         INSERT INTO t(b) VALUES('new log');
         @leftovers
         BEGIN; DELETE FROM t WHERE a%5<>0; INSERT INTO t(b) VALUES(zeroblob({fill})); COMMIT;
         @more
         VACUUM;
         @shrunk
         DROP TABLE t; VACUUM; CREATE TABLE u(a); INSERT INTO u VALUES(1);
         @small\n",
        n = numbers(rows),
    );
    caught(dir, &format!("log-{page_size}"), Kind::Log, "", &script)
}

/// Journals: of counted records and of all records, in one segment and in several, of a growing file and of a file that was empty; and what an older
/// journal left behind a newer one.
fn journals(dir: &Path, page_size: usize) -> Vec<Torn> {
    let rows = if page_size > 8192 { 12 } else { 40 };
    let fill = page_size * 2 / 5;
    let base = format!(
        "PRAGMA page_size={page_size}; PRAGMA synchronous=OFF; CREATE TABLE t(a INTEGER PRIMARY KEY, b); CREATE INDEX i ON t(b);
         {n} INSERT INTO t SELECT x, printf('%0{fill}d', x) FROM c; DELETE FROM t WHERE a%4=1; PRAGMA cache_size=2;",
        n = numbers(rows),
    );
    let mut made = Vec::new();
    // Without syncs a journal has all its records in one segment; with them each spill of the cache ends a segment, and the next has a header of its own.
    for (name, uri, settings) in [
        ("all", "", "synchronous=OFF"),
        ("all-sector-4096", "?psow=0", "synchronous=OFF"),
        ("counted", "", "synchronous=FULL; PRAGMA cache_size=12"),
        ("counted-later", "", "synchronous=FULL; PRAGMA cache_size=40"),
        ("counted-sector-4096", "?psow=0", "synchronous=FULL; PRAGMA cache_size=25"),
        ("small-cache-sector-4096", "?psow=0", "synchronous=NORMAL; PRAGMA cache_size=2"),
    ] {
        let mut script = format!("{base}\nPRAGMA {settings};\nBEGIN;\n");
        for step in 0..6 {
            script += &format!("UPDATE t SET b=printf('%0{fill}d', a+{step}) WHERE a%6={step};\n@update-{step}\n");
        }
        script += "INSERT INTO t(b) SELECT b||'x' FROM t;\n@grown\nROLLBACK;\n@rolled-back\n";
        script += "PRAGMA journal_mode=PERSIST; UPDATE t SET b=1 WHERE a=3;\n@persist\n";
        if settings.contains("cache_size") {
            script += &format!("UPDATE t SET b=printf('%0{fill}d', a+7);\nBEGIN;\n");
            for step in 0..3 {
                script += &format!("UPDATE t SET b=printf('%0{fill}d', a+{step}) WHERE a%4={step};\n@leftovers-{step}\n");
            }
            script += "ROLLBACK;\n";
        }
        made.extend(caught(dir, &format!("journal-{name}-{page_size}"), Kind::Journal, uri, &script));
    }
    let script = format!(
        "PRAGMA page_size={page_size}; PRAGMA synchronous=OFF; PRAGMA cache_size=2; BEGIN; CREATE TABLE t(a, b);
         {n} INSERT INTO t SELECT x, printf('%0{fill}d', x) FROM c;
         @grown\nROLLBACK;\n",
        n = numbers(rows),
    );
    made.extend(caught(dir, &format!("journal-of-empty-{page_size}"), Kind::Journal, "", &script));
    made
}

fn be32(bytes: &[u8], at: usize) -> u32 {
    bytes.get(at..at + 4).map_or(0, |four| u32::from_be_bytes(four.try_into().expect("four bytes")))
}

/// A journal's segment: where its header stands, where each of its whole records does, and where the last of them ends.
#[derive(Clone, Debug)]
pub struct Segment {
    pub header: usize,
    pub records: Vec<usize>,
    pub end: usize,
}

/// sqlite3 reads no journal that has fewer bytes; 28 are enough by the rules.
const LEAST: usize = 512;
const MAGIC: [u8; 8] = [0xd9, 0xd5, 0x05, 0xf9, 0x20, 0xa1, 0x63, 0xd7];

/// The segments of a journal that nobody damaged: told from magic and counts alone.
pub fn segments(journal: &[u8]) -> Vec<Segment> {
    let mut found = Vec::new();
    let (sector, step) = (be32(journal, 20) as usize, be32(journal, 24) as usize + 8);
    let mut header = 0;
    while journal.len() >= header + 28 && journal[header..header + 8] == MAGIC && sector > 0 {
        let first = header + sector;
        let whole = journal.len().saturating_sub(first) / step;
        let records: Vec<usize> = (0..whole.min(be32(journal, header + 8) as usize)).map(|i| first + i * step).collect();
        let end = first + records.len() * step;
        found.push(Segment { header, records, end });
        header = end.next_multiple_of(sector);
    }
    found
}

/// The logs alone.
pub fn caught_logs(dir: &Path) -> Vec<Torn> {
    PAGE_SIZES.iter().flat_map(|&page_size| logs(dir, page_size)).collect()
}

/// Everything that was caught, at every page size.
pub fn caught_everywhere(dir: &Path) -> Vec<Torn> {
    PAGE_SIZES.iter().flat_map(|&page_size| [logs(dir, page_size), journals(dir, page_size)].concat()).collect()
}

/// Makes all sums of a log anew, in a word order; leftover frames of an older log get matching sums too.
pub fn resum(log: &mut [u8], big_endian: bool) {
    let page_size = be32(log, 8) as usize;
    if log.len() < 32 {
        return;
    }
    log[3] = if big_endian { 0x83 } else { 0x82 };
    let word = |bytes: &[u8]| {
        let four = bytes.try_into().expect("four bytes");
        if big_endian {
            u32::from_be_bytes(four)
        } else {
            u32::from_le_bytes(four)
        }
    };
    let mut sums = (0u32, 0u32);
    let add = |(s0, s1): &mut (u32, u32), bytes: &[u8]| {
        for pair in bytes.chunks_exact(8) {
            *s0 = s0.wrapping_add(word(&pair[..4])).wrapping_add(*s1);
            *s1 = s1.wrapping_add(word(&pair[4..])).wrapping_add(*s0);
        }
    };
    let put = |to: &mut [u8], (s0, s1): (u32, u32)| {
        to[..4].copy_from_slice(&s0.to_be_bytes());
        to[4..8].copy_from_slice(&s1.to_be_bytes());
    };
    add(&mut sums, &log[..24]);
    put(&mut log[24..], sums);
    for frame in log[32..].chunks_exact_mut(24usize.saturating_add(page_size)) {
        add(&mut sums, &frame[..8]);
        add(&mut sums, &frame[24..]);
        put(&mut frame[16..], sums);
    }
}

/// Variants of a caught pair that the sqlite3 program has an answer for: cut logs and journals, changed bytes, the other word order.
pub fn variants(torn: &Torn, rng: &mut Rng, count: usize) -> Vec<Torn> {
    let mut made = vec![torn.clone()];
    let length = torn.side.len();
    if length < 32 {
        return made;
    }
    let segments = if torn.kind == Kind::Journal { segments(&torn.side) } else { Vec::new() };
    let (first, borders) = match torn.kind {
        Kind::Log => (32, (32..=length).step_by(be32(&torn.side, 8) as usize + 24).collect()),
        Kind::Journal => (be32(&torn.side, 20) as usize, borders(&segments)),
    };
    if borders.is_empty() || first >= length {
        return made;
    }
    for _ in 0..count {
        let border = *rng.pick(&borders);
        let cut = match rng.below(4) {
            0 => first + rng.below(length - first + 1),
            1 => border,
            2 => border.saturating_sub(1),
            _ => border + 1,
        };
        let cut = cut.min(length);
        let cut = if torn.kind == Kind::Journal && (28..LEAST).contains(&cut) { LEAST } else { cut };
        made.push(torn.with_side(&format!("cut at {cut}"), torn.side[..cut].to_vec()));
        let at = if rng.below(2) == 0 { border + rng.below(24) } else { rng.below(length) };
        // Counts and sizes are left alone here, where sqlite3 may read on (see `damaged_headers`), and the original size: pages may then be nowhere (43).
        let settled = segments.iter().any(|one| [8..12, 20..28].iter().any(|field| field.contains(&at.wrapping_sub(one.header))));
        let original_size = torn.kind == Kind::Journal && (16..20).contains(&at);
        if at < length && !settled && !original_size {
            let mut side = torn.side.clone();
            side[at] ^= 1 << rng.below(8);
            made.push(torn.with_side(&format!("byte {at} changed"), side));
        }
    }
    if torn.kind == Kind::Log {
        let mut side = torn.side.clone();
        resum(&mut side, torn.side[3] & 1 == 0);
        made.push(torn.with_side("in the other word order", side));
    }
    made
}

/// Where headers and records begin and end.
fn borders(segments: &[Segment]) -> Vec<usize> {
    segments.iter().flat_map(|one| [one.header, one.end].into_iter().chain(one.records.iter().copied())).collect()
}

/// A journal cut at and around each border of a header or a record.
pub fn cut_everywhere(torn: &Torn) -> Vec<Torn> {
    let mut cuts: Vec<usize> =
        borders(&segments(&torn.side)).iter().flat_map(|border| [0, 1, 2, 28, 29].map(|over| (border + over).saturating_sub(1))).collect();
    cuts.retain(|cut| (LEAST..=torn.side.len()).contains(cut));
    cuts.sort();
    cuts.dedup();
    cuts.iter().map(|&cut| torn.with_side(&format!("cut at {cut}"), torn.side[..cut].to_vec())).collect()
}

/// A journal with the lock-byte page's number in one of its records, in any segment: it ends there, by sqlite3 too.
pub fn lock_record(torn: &Torn, rng: &mut Rng) -> Option<Torn> {
    let records: Vec<usize> = segments(&torn.side).into_iter().flat_map(|one| one.records).collect();
    if records.is_empty() {
        return None;
    }
    let record = *rng.pick(&records);
    let lock = plain::lock_page(be32(&torn.side, 24) as usize) as u32;
    let mut side = torn.side.clone();
    side[record..record + 4].copy_from_slice(&lock.to_be_bytes());
    Some(torn.with_side(&format!("the lock-byte page at {record}"), side))
}

/// A journal of several segments with one of its later headers damaged. Each comes with the pair that sqlite3 is to be asked about. It is the same, but
/// in two cases where sqlite3 reads on and the rules end the journal: behind a header with other sizes, as behind a wrong magic; and at a record past the
/// counted ones whose number is above the original size, where sqlite3 tests no sum: as if the file ended there.
pub fn damaged_headers(torn: &Torn, rng: &mut Rng) -> Vec<(Torn, Torn)> {
    let segments = segments(&torn.side);
    if segments.len() < 2 {
        return Vec::new();
    }
    let chosen = &segments[1 + rng.below(segments.len() - 1)];
    let at = chosen.header;
    let field = |offset: usize| be32(&torn.side, at + offset);
    let with = |what: &str, offset: usize, number: u32| {
        let mut side = torn.side.clone();
        side[at + offset..at + offset + 4].copy_from_slice(&number.to_be_bytes());
        torn.with_side(&format!("{what} {number} in the header at {at}"), side)
    };
    let mut pairs = Vec::new();
    for one in [
        with("magic", 0, field(0) ^ 1 << rng.below(32)),
        with("magic's end", 4, 0x20a1_63d6),
        with("nonce", 12, field(12) ^ 1 << rng.below(32)),
        with("nonce", 12, be32(&torn.side, 12)),
        with("original size", 16, 0),
        with("original size", 16, u32::MAX),
        with("count", 8, 0),
        with("count", 8, field(8).saturating_sub(1)),
    ] {
        pairs.push((one.clone(), one));
    }
    for one in [with("count", 8, field(8) + 1), with("count", 8, u32::MAX)] {
        let cut = one.with_side("cut behind its records", one.side[..chosen.end].to_vec());
        pairs.push((one, cut));
    }
    for one in [with("sector size", 20, field(20) ^ 1536), with("page size", 24, field(24) ^ 1536), with("page size", 24, 0)] {
        pairs.push((one, with("magic", 0, 0)));
    }
    pairs
}
