//! What the first bytes of a file say, as the command reads them itself.

use urkibasko::MAX_PAGES;

use crate::json::Object;

/// The length of an image's header.
pub const LENGTH: usize = 100;
const MAGIC: &[u8] = b"SQLite format 3\0";

/// Four bytes as a number; 0 where they are not there.
pub fn four(bytes: &[u8], at: usize) -> u32 {
    bytes.get(at..at + 4).map_or(0, |four| u32::from_be_bytes([four[0], four[1], four[2], four[3]]))
}

pub fn two(bytes: &[u8], at: usize) -> usize {
    bytes.get(at..at + 2).map_or(0, |two| usize::from(two[0]) * 256 + usize::from(two[1]))
}

/// The varint at the start of bytes and its length; none where they end inside it.
pub fn varint(bytes: &[u8]) -> Option<(i64, usize)> {
    let mut value = 0u64;
    for (i, &byte) in bytes.iter().take(9).enumerate() {
        if i == 8 {
            return Some(((value << 8 | u64::from(byte)) as i64, 9));
        }
        value = value << 7 | u64::from(byte & 127);
        if byte < 128 {
            return Some((value as i64, i + 1));
        }
    }
    None
}

pub fn is_image(bytes: &[u8]) -> bool {
    bytes.starts_with(MAGIC)
}

/// A page or sector size of a log or journal.
pub fn is_page_size(size: u32) -> bool {
    (512..=65536).contains(&size) && size.is_power_of_two()
}

pub fn is_log(bytes: &[u8]) -> bool {
    bytes.len() >= 32 && four(bytes, 0) | 1 == 0x377f_0683
}

pub fn is_journal(bytes: &[u8]) -> bool {
    bytes.len() >= 28 && bytes.starts_with(&[0xd9, 0xd5, 0x05, 0xf9, 0x20, 0xa1, 0x63, 0xd7])
}

/// A number with its thousands apart.
pub fn thousands(number: u64) -> String {
    let digits = number.to_string();
    let mut text = String::new();
    for (i, digit) in digits.chars().enumerate() {
        if i > 0 && (digits.len() - i) % 3 == 0 {
            text.push(',');
        }
        text.push(digit);
    }
    text
}

/// `1 page`, `2 pages`
pub fn counted(count: u64, what: &str) -> String {
    format!("{} {what}{}", thousands(count), if count == 1 { "" } else { "s" })
}

/// The fields of an image's header, of a page size that can be.
#[derive(Clone, Copy)]
pub struct Facts {
    pub page_size: usize,
    pub reserved: usize,
    pub length: u64,
    /// Whole pages in the file.
    pub present: u64,
    /// The count at 28, and whether it holds.
    pub count: u64,
    pub holds: bool,
    pub write_version: u8,
    pub read_version: u8,
    pub change_counter: u32,
    pub valid_for: u32,
    pub free_head: u32,
    pub free_total: u32,
    pub schema_cookie: u32,
    pub schema_format: u32,
    pub cache_size: u32,
    pub largest_root: u32,
    pub encoding: u32,
    pub user_version: u32,
    pub incremental: u32,
    pub application: u32,
    pub library: u32,
}

impl Facts {
    /// None where the bytes are no image, or its page size is none.
    pub fn of(head: &[u8], length: u64) -> Option<Facts> {
        if head.len() < LENGTH || !is_image(head) {
            return None;
        }
        let page_size = match two(head, 16) {
            1 => 65536,
            size if size >= 512 && size.is_power_of_two() => size,
            _ => return None,
        };
        let count = u64::from(four(head, 28));
        Some(Facts {
            page_size,
            reserved: usize::from(head[20]),
            length,
            present: length / page_size as u64,
            count,
            holds: count != 0 && head[24..28] == head[92..96],
            write_version: head[18],
            read_version: head[19],
            change_counter: four(head, 24),
            valid_for: four(head, 92),
            free_head: four(head, 32),
            free_total: four(head, 36),
            schema_cookie: four(head, 40),
            schema_format: four(head, 44),
            cache_size: four(head, 48),
            largest_root: four(head, 52),
            encoding: four(head, 56),
            user_version: four(head, 60),
            incremental: four(head, 64),
            application: four(head, 68),
            library: four(head, 96),
        })
    }

    /// N: the count where it holds, else the pages present.
    pub fn pages(&self) -> u64 {
        if self.holds {
            self.count
        } else {
            self.present
        }
    }

    /// The lock-byte page's number: that of the page which holds byte 1073741824, whether or not the file goes so far.
    pub fn lock_page(&self) -> u32 {
        lock_page(self.page_size)
    }

    /// The pointer maps among the first pages: page 2, then each behind the pages that one is about. One that would be the lock-byte page stands a page on.
    pub fn maps(&self, count: u32) -> Vec<u32> {
        if self.largest_root == 0 {
            return Vec::new();
        }
        let places = (2..=count).step_by(self.usable() / 5 + 1);
        places.map(|page| if page == self.lock_page() { page + 1 } else { page }).filter(|&page| page <= count).collect()
    }

    /// U.
    pub fn usable(&self) -> usize {
        self.page_size - self.reserved
    }

    /// How many of the file's bytes can matter: the pages that it counts, or one more than the library takes; and as many bytes as lie behind the last whole page.
    pub fn worth_reading(&self) -> u64 {
        let most = MAX_PAGES as u64 + 1;
        let pages = if self.holds { self.count.min(most) } else { most };
        self.present.min(pages) * self.page_size as u64 + self.length % self.page_size as u64
    }

    pub fn encoding_name(&self) -> &'static str {
        match self.encoding {
            1 => "UTF-8",
            2 => "UTF-16, little end first",
            3 => "UTF-16, big end first",
            _ => "none that there is",
        }
    }

    pub fn library_version(&self) -> String {
        format!("{}.{}.{}", self.library / 1_000_000, self.library / 1000 % 1000, self.library % 1000)
    }

    fn format(version: u8) -> String {
        match version {
            1 => "1, rollback journal".into(),
            2 => "2, write-ahead log".into(),
            other => format!("{other}, which is not known here"),
        }
    }

    /// The facts, each with a name and, in brackets, where it stands.
    pub fn lines(&self) -> Vec<(&'static str, String)> {
        let holds = match (self.holds, self.count) {
            (true, _) => "it holds",
            (false, 0) => "none is given: the pages present count",
            (false, _) => "stale, since the numbers at 24 and 92 differ: the pages present count",
        };
        let vacuum = match (self.largest_root, self.incremental) {
            (0, 0) => "none".to_owned(),
            (0, _) => format!("none, but the number at 64 is {}", self.incremental),
            (root, 0) => format!("full; the largest root is page {root}"),
            (root, _) => format!("incremental; the largest root is page {root}"),
        };
        let free = match self.free_total {
            0 => "none".to_owned(),
            total => format!("{}, from trunk page {} on", counted(total.into(), "page"), self.free_head),
        };
        let library = match self.library {
            0 => "not told".to_owned(),
            _ => self.library_version(),
        };
        vec![
            ("file", counted(self.length, "byte")),
            ("page size (16)", counted(self.page_size as u64, "byte")),
            ("reserved (20)", counted(self.reserved as u64, "byte") + " at the end of each page"),
            (
                "pages present",
                thousands(self.present)
                    + &match self.length % self.page_size as u64 {
                        0 => String::new(),
                        rest => format!(", and {} more", counted(rest, "byte")),
                    },
            ),
            ("page count (28)", format!("{}: {holds}", thousands(self.count))),
            ("free pages (32, 36)", free),
            ("auto-vacuum (52, 64)", vacuum),
            ("write version (18)", Facts::format(self.write_version)),
            ("read version (19)", Facts::format(self.read_version)),
            ("change counter (24)", format!("{}, and {} when the count was written (92)", self.change_counter, self.valid_for)),
            ("schema cookie (40)", self.schema_cookie.to_string()),
            ("schema format (44)", self.schema_format.to_string()),
            ("cache size (48)", (self.cache_size as i32).to_string()),
            ("text encoding (56)", format!("{}, {}", self.encoding, self.encoding_name())),
            ("user version (60)", (self.user_version as i32).to_string()),
            ("application (68)", format!("{:#010x}", self.application)),
            ("written by (96)", format!("SQLite {library}")),
        ]
    }

    pub fn json(&self) -> Object {
        Object::new()
            .field("length", self.length)
            .field("page_size", self.page_size)
            .field("reserved", self.reserved)
            .field("pages_present", self.present)
            .field("page_count", self.count)
            .field("page_count_holds", self.holds)
            .field("freelist_first", self.free_head)
            .field("freelist_pages", self.free_total)
            .field("largest_root", self.largest_root)
            .field("incremental_vacuum", self.incremental)
            .field("write_version", self.write_version)
            .field("read_version", self.read_version)
            .field("change_counter", self.change_counter)
            .field("version_valid_for", self.valid_for)
            .field("schema_cookie", self.schema_cookie)
            .field("schema_format", self.schema_format)
            .field("cache_size", self.cache_size as i32)
            .field("text_encoding", self.encoding)
            .field("user_version", self.user_version as i32)
            .field("application_id", self.application)
            .field("sqlite_version", self.library)
    }
}

/// What a file is that is no database of this format; none where its bytes do not tell.
pub fn what_else(head: &[u8], length: u64) -> Option<&'static str> {
    if length == 0 {
        return Some("an empty file, which sqlite3 takes for a database without tables; here it is none");
    }
    if is_log(head) {
        return Some("a write-ahead log: the database is the file of the same name without -wal");
    }
    if is_journal(head) {
        return Some("a rollback journal: the database is the file of the same name without -journal");
    }
    if head.starts_with(b"** This file contains an SQLite 2") {
        return Some("a database of SQLite version 2, an older format");
    }
    if head.len() >= 512 && head[..512].iter().all(|&byte| byte == 0) {
        return Some("zeros, as a journal that was put out of force begins, or a file whose start was lost");
    }
    if head.starts_with(&[0x1f, 0x8b])
        || head.starts_with(b"PK\x03\x04")
        || head.starts_with(&[0xfd, b'7', b'z', b'X', b'Z'])
        || head.starts_with(&[0x28, 0xb5, 0x2f, 0xfd])
    {
        return Some("a compressed file: unpack it first");
    }
    // A text may be cut inside a character at the end of what was read.
    let text = match std::str::from_utf8(head) {
        Ok(text) => Some(text),
        Err(error) if error.error_len().is_none() => std::str::from_utf8(&head[..error.valid_up_to()]).ok(),
        Err(_) => None,
    };
    let text = text.filter(|text| !text.is_empty() && text.chars().all(|c| !c.is_control() || c.is_whitespace()))?;
    let sql = ["PRAGMA", "BEGIN", "CREATE", "INSERT", "--"].iter().any(|word| text.trim_start().to_ascii_uppercase().starts_with(word));
    Some(if sql { "a text, as sqlite3's .dump writes it: sqlite3 NEW < FILE makes a database of it" } else { "a text" })
}

#[cfg(test)]
mod tests {
    use super::{thousands, varint};

    #[test]
    fn numbers() {
        assert_eq!(varint(&[0x5b, 7]), Some((91, 1)));
        assert_eq!(varint(&[0x84, 0x60]), Some((608, 2)));
        assert_eq!(varint(&[0x80, 0x01]), Some((1, 2)));
        assert_eq!(varint(&[0xff; 12]), Some((-1, 9)));
        assert_eq!((varint(&[0x84]), varint(&[]), varint(&[0xff; 8])), (None, None, None));
        assert_eq!([0, 999, 1000, 1234567].map(thousands), ["0", "999", "1,000", "1,234,567"]);
    }
}

/// The number of the lock-byte page, at a page size.
pub fn lock_page(page_size: usize) -> u32 {
    (1_073_741_824 / page_size) as u32 + 1
}
