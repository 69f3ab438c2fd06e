//! A log or a journal: what the library says of it, in words, and what the two files make together.

use std::path::{Path, PathBuf};

use urkibasko::{JournalHeader, JournalStop, JournalSummary, LogHeader, LogStop, LogSummary, Recovered, Refusal, Rule};

use crate::header::{counted, four, is_image, is_journal, is_log, is_page_size, thousands, what_else};
use crate::json::{self, Object};
use crate::supers::{Settle, SuperJournal};
use crate::{files, Stop};

/// What the library says.
pub enum Said {
    Log(LogSummary),
    Journal(JournalSummary),
}

/// What stands beside a database.
pub struct Side {
    pub name: String,
    pub path: PathBuf,
    /// Its bytes, or as many from its start as can matter.
    pub bytes: Vec<u8>,
    /// Its whole length.
    pub length: u64,
    pub said: Said,
    /// The super-journal that it names.
    pub super_journal: Option<SuperJournal>,
}

/// A record of a journal: the number of its segment, from 1, with the nonce, and its page.
pub struct Record {
    pub segment: u64,
    pub nonce: u32,
    pub page: u32,
}

impl Side {
    pub fn read(path: &Path, is_log: bool, settle: Settle) -> Result<Side, Stop> {
        let (bytes, length) = files::read_side(path)?;
        let said = if is_log { Said::Log(urkibasko::log_inspect(&bytes)) } else { Said::Journal(urkibasko::journal_inspect(&bytes)) };
        // What has no header says nothing by its end either.
        let super_journal = match said {
            Said::Journal(told) if !told.nothing_to_recover() => SuperJournal::of(path, &bytes, settle),
            _ => None,
        };
        Ok(Side { name: path.display().to_string(), path: path.to_owned(), bytes, length, said, super_journal })
    }

    pub fn word(&self) -> &'static str {
        match self.said {
            Said::Log(_) => "log",
            Said::Journal(_) => "journal",
        }
    }

    /// What recovery refuses it for, whatever the image.
    pub fn refusal(&self) -> Option<Refusal> {
        let rule = match self.said {
            Said::Log(told) => told.refusal,
            Said::Journal(told) => told.refusal,
        };
        rule.map(|rule| Refusal { rule, page: None })
    }

    /// It changes what the database is, or is refused: a log with a commit, or a journal with a header whose super-journal, if it names one, is not gone.
    pub fn live(&self) -> bool {
        match self.said {
            Said::Log(told) => !told.nothing_to_recover(),
            Said::Journal(told) => !told.nothing_to_recover() && !self.is_committed(),
        }
    }

    /// Its super-journal is gone.
    pub fn is_committed(&self) -> bool {
        self.super_journal.as_ref().is_some_and(SuperJournal::is_gone)
    }

    /// The database that this and an image make.
    pub fn recovered(&self, image: &[u8]) -> Result<Result<(Vec<u8>, Recovered), Refusal>, Stop> {
        let is_log = matches!(self.said, Said::Log(_));
        let page_size = four(&self.bytes, if is_log { 8 } else { 24 });
        let most = urkibasko::MAX_PAGES.saturating_mul(if is_page_size(page_size) { page_size as usize } else { 0 });
        // A recovered database has no page that is in neither of the two, but for a lock-byte page.
        let room = image.len().saturating_add(self.bytes.len()).saturating_add(65536).min(most).max(image.len());
        let mut out = Vec::new();
        if out.try_reserve_exact(room).is_err() {
            return Err(Stop::File("there is not enough memory for what is recovered".into()));
        }
        out.resize(room, 0);
        let recover = if is_log { urkibasko::log_recover } else { urkibasko::journal_recover };
        // The library goes back by any journal: of one that is not in force it is shown nothing.
        let bytes = if self.is_committed() { &[] } else { &self.bytes[..] };
        Ok(recover(bytes, image, &mut out).map(|recovered| {
            out.truncate(recovered.length);
            (out, recovered)
        }))
    }

    /// Whole frames of a log. The library sees no more of a long one than can matter.
    pub fn whole_frames(&self, told: &LogSummary) -> u64 {
        match told.page_size {
            0 => 0,
            size => (self.length - 32) / (24 + u64::from(size)),
        }
    }

    /// The records of a journal that count, and where they end.
    pub fn records(&self, told: &JournalSummary) -> (Vec<Record>, u64) {
        let (sector, size) = (told.sector_size as usize, told.page_size as usize);
        let mut records = Vec::new();
        let mut at = sector;
        for segment in 1..=u64::from(told.segments) {
            let header = at - sector;
            let [count, nonce] = [8, 12].map(|field| four(&self.bytes, header + field));
            let mut read = 0;
            while (count == u32::MAX || read < count) && (records.len() as u64) < told.counting {
                records.push(Record { segment, nonce, page: four(&self.bytes, at) });
                at += size + 8;
                read += 1;
            }
            // The last segment's end is where the records end.
            if segment < u64::from(told.segments) {
                at = at.next_multiple_of(sector) + sector;
            }
        }
        (records, at as u64)
    }

    /// What it says, a line each.
    pub fn lines(&self) -> Vec<String> {
        match &self.said {
            Said::Log(told) => self.log_lines(told),
            Said::Journal(told) => self.journal_lines(told),
        }
    }

    fn log_lines(&self, told: &LogSummary) -> Vec<String> {
        let header = match told.header {
            LogHeader::Accepted => None,
            LogHeader::Short => Some(format!("it has {}; a log's header has 32", counted(self.length, "byte"))),
            LogHeader::Magic => Some("it does not begin as a log does".to_owned()),
            LogHeader::Sums => Some("the sums in its header are wrong: the log counts as empty".to_owned()),
            _ => Some(told.header.text().to_owned()),
        };
        if let Some(line) = header {
            return vec![line];
        }
        if let Some(Rule::LogVersion | Rule::RecoverySize) = told.refusal {
            return vec![format!("its version is {} and its page size {}", four(&self.bytes, 4), four(&self.bytes, 8))];
        }
        let whole = self.whole_frames(told);
        let (count, are) = (if told.counting == 1 { "counts" } else { "count" }, if told.in_force == 1 { "is" } else { "are" });
        let mut lines = vec![format!(
            "{} of {}-byte pages: {} {count}, {} {are} in force",
            counted(whole, "whole frame"),
            told.page_size,
            thousands(told.counting),
            thousands(told.in_force)
        )];
        if told.in_force > 0 {
            lines.push(format!("the last commit is frame {}: a database of {}", thousands(told.in_force), counted(told.pages.into(), "page")));
        }
        if told.in_force < told.counting {
            let behind = if told.in_force > 0 { "behind the last commit" } else { "without a commit" };
            let show = if told.counting - told.in_force == 1 { "does" } else { "do" };
            lines.push(format!("{} {behind} {show} not show", counted(told.counting - told.in_force, "frame")));
        }
        lines.extend(self.log_stop(told));
        lines
    }

    /// Why the scan stopped, and what was ignored; none where the log ends there.
    pub fn log_stop(&self, told: &LogSummary) -> Option<String> {
        let (frame, stride) = (told.counting + 1, 24 + u64::from(told.page_size));
        let because = match told.stop {
            LogStop::End => return None,
            LogStop::Cut => {
                let there = self.length - 32 - told.counting * stride;
                return Some(format!("frame {} is cut: {} of its {} bytes are there", thousands(frame), thousands(there), thousands(stride)));
            }
            LogStop::Salts => "salts of an older log, or damaged".to_owned(),
            LogStop::Sums => format!("the sums of frame {} do not match", thousands(frame)),
            LogStop::ZeroNumber => format!("the page number of frame {} is 0", thousands(frame)),
            _ => format!("the page number of frame {} is the lock-byte page's", thousands(frame)),
        };
        let ignored = self.whole_frames(told) - told.counting;
        Some(format!("{} ignored, from frame {} on: {because}", counted(ignored, "frame"), thousands(frame)))
    }

    fn journal_lines(&self, told: &JournalSummary) -> Vec<String> {
        let zeros = !self.bytes.is_empty() && self.bytes.iter().take(28).all(|&byte| byte == 0);
        let header = match told.header {
            JournalHeader::There => None,
            JournalHeader::Short => Some(format!("it has {}; a journal's header has 28", counted(self.length, "byte"))),
            _ if zeros => Some("its header is zeros: sqlite3 put it out of force".to_owned()),
            _ => Some("it does not begin as a journal does".to_owned()),
        };
        if let Some(line) = header {
            return vec![line];
        }
        if told.refusal == Some(Rule::RecoverySize) {
            let sizes = format!("its sector size is {} and its page size {}", four(&self.bytes, 20), four(&self.bytes, 24));
            return self.super_journal.iter().map(SuperJournal::line).chain([sizes]).collect();
        }
        let (laid, takes) = if self.is_committed() { ("would be laid down", "would take") } else { ("laid down", "takes") };
        let mut lines: Vec<String> = self.super_journal.iter().map(SuperJournal::line).collect();
        lines.push(format!(
            "{} of {}-byte pages in {}: {} {laid}",
            counted(told.counting, "record"),
            told.page_size,
            counted(told.segments.into(), "segment"),
            thousands(told.laid)
        ));
        lines.push(format!("it {takes} the file back to {}", counted(told.pages.into(), "page")));
        lines.extend(self.journal_stop(told));
        lines
    }

    /// Why reading stopped, and what was ignored; none where nothing is left.
    pub fn journal_stop(&self, told: &JournalSummary) -> Option<String> {
        let record = thousands(told.counting + 1);
        let because = match told.stop {
            JournalStop::End | JournalStop::All => return None,
            JournalStop::Magic | JournalStop::Sizes => told.stop.text().to_owned(),
            JournalStop::Cut => format!("record {record} is cut"),
            stop => format!("record {record} ends the journal, {}", stop.text()),
        };
        let ignored = self.length.saturating_sub(self.records(told).1);
        Some(format!("{} ignored: {because}", counted(ignored, "byte")))
    }

    /// What it is instead, where it does not begin as it should. The command finds this itself.
    pub fn found(&self) -> Option<String> {
        let (begins, is_log_wanted) = match self.said {
            Said::Log(told) => (told.header != LogHeader::Magic && told.header != LogHeader::Short, true),
            Said::Journal(told) => (told.header == JournalHeader::There, false),
        };
        match &self.bytes {
            _ if begins => None,
            bytes if is_log_wanted && is_journal(bytes) => Some("it is a rollback journal: --journal takes it".to_owned()),
            bytes if !is_log_wanted && is_log(bytes) => Some("it is a write-ahead log: --log takes it".to_owned()),
            bytes if is_image(bytes) => Some("it is a database".to_owned()),
            bytes => what_else(bytes, self.length).filter(|what| *what == "a text").map(|what| format!("it is {what}")),
        }
    }

    pub fn json(&self) -> String {
        let object = Object::new().text("file", &self.name).text("kind", self.word()).field("in_force", self.live());
        let refusal = self.refusal().map(|refusal| refusal.rule.number());
        let object = match &self.said {
            Said::Log(told) => object
                .text("header", told.header.text())
                .maybe("refusal", refusal)
                .field("page_size", told.page_size)
                .field("pages", told.pages)
                .field("whole_frames", self.whole_frames(told))
                .field("counting", told.counting)
                .field("frames_in_force", told.in_force)
                .maybe("stop", (told.page_size != 0).then(|| json::text(told.stop.text())))
                .maybe("ignored", self.log_stop(told).map(|line| json::text(&line))),
            Said::Journal(told) => object
                .text("header", told.header.text())
                .maybe("refusal", refusal)
                .field("page_size", told.page_size)
                .field("sector_size", told.sector_size)
                .field("pages", told.pages)
                .field("segments", told.segments)
                .field("counting", told.counting)
                .field("laid", told.laid)
                .maybe("stop", (told.page_size != 0).then(|| json::text(told.stop.text())))
                .maybe("ignored", self.journal_stop(told).map(|line| json::text(&line)))
                .maybe("super_journal", self.super_journal.as_ref().map(SuperJournal::json)),
        };
        object.maybe("found_by_urk", self.found().map(|line| json::text(&line))).end()
    }
}
