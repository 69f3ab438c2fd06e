//! Files in and out. Of no file more is read than can matter, and none is written over.

use std::fs::{File, OpenOptions};
use std::io::{BufReader, IsTerminal, Read, Write};
use std::path::{Path, PathBuf};

use crate::header::{self, Facts};
use crate::mapped::Mapped;
use crate::{out, Stop};

/// The largest page.
const MOST_PAGE: u64 = 65536;
/// No page that is looked at lies past these bytes.
const MOST: u64 = urkibasko::MAX_PAGES as u64 * MOST_PAGE;
/// What has no length of its own (a pipe, a device) is read so far and no further.
const MOST_STREAM: u64 = if MOST < 1 << 30 { MOST } else { 1 << 30 };
/// As much is read of what is no database: enough to say what it is.
const LOOK: u64 = 65536;
/// A longer file is mapped instead of being read.
const MOST_READ: u64 = 1 << 30;
/// Longer reads tell how far they are.
const LONG: u64 = 64 << 20;
const STDIN: &str = "standard input";
const PIECE: u64 = 1 << 20;

/// Bytes that were read, or those of a file too long to be read whole, where its pages come as they are looked at.
pub enum Bytes {
    Read(Vec<u8>),
    Mapped(Mapped),
}

impl std::ops::Deref for Bytes {
    type Target = [u8];

    fn deref(&self) -> &[u8] {
        match self {
            Bytes::Read(bytes) => bytes,
            Bytes::Mapped(mapped) => mapped.bytes(),
        }
    }
}

/// A database image as it was read.
pub struct Input {
    /// What it is called in messages.
    pub name: String,
    /// Its file, where it is not standard input.
    pub path: Option<PathBuf>,
    /// Its bytes, or as many from its start as can matter.
    pub image: Bytes,
    /// Its whole length.
    pub length: u64,
    pub beside: Beside,
}

/// The log or journal that stands beside an image's file, by its name, where recovery comes before anything else.
#[derive(Clone, Default)]
pub enum Beside {
    #[default]
    Nothing,
    /// It was left out.
    LeftOut(String),
    /// The image is what recovery shows.
    TakenIn(String),
}

impl Input {
    /// An image in a file, or on standard input (`-`).
    pub fn image(path: &Path) -> Result<Input, Stop> {
        Input::read(path, |head, length| match Facts::of(head, length) {
            Some(facts) => facts.worth_reading(),
            None => LOOK.min(length),
        })
    }

    /// An image for recovery, which takes pages from it by another size than its own.
    pub fn for_recovery(path: &Path) -> Result<Input, Stop> {
        Input::read(path, |head, length| {
            let page_size = Facts::of(head, length).map_or(1, |facts| facts.page_size as u64);
            match length {
                0..=MOST => length,
                // The refusals about an image alone see the same: too many pages, and as many bytes behind the last whole one.
                _ => (MOST / page_size + 1) * page_size + length % page_size,
            }
        })
    }

    fn read(path: &Path, worth: impl Fn(&[u8], u64) -> u64) -> Result<Input, Stop> {
        let (name, mut source) = open(path)?;
        let mut image = Vec::new();
        take(&name, &mut source.file, header::LENGTH as u64, None, &mut image)?;
        let length = match source.length {
            Some(length) => length,
            None => return Input::stream(name, source, image),
        };
        let worth = worth(&image, length);
        if let (true, Some(path)) = (worth > MOST_READ, &source.path) {
            let file = File::open(path).map_err(|error| failed(&name, error))?;
            let mapped = Mapped::new(&file, worth as usize).map_err(|error| failed(&name, error))?;
            return Ok(Input { name, path: source.path, image: Bytes::Mapped(mapped), length, beside: Beside::Nothing });
        }
        take(&name, &mut source.file, worth.saturating_sub(image.len() as u64), Some(worth), &mut image)?;
        // A file that was cut while it was read is as long as what was read.
        let length = if (image.len() as u64) < worth { image.len() as u64 } else { length };
        Ok(Input { name, path: source.path, image: Bytes::Read(image), length, beside: Beside::Nothing })
    }

    /// What has no length of its own is read to its end, unless that is too far, or it is no database.
    fn stream(name: String, mut source: Source, mut image: Vec<u8>) -> Result<Input, Stop> {
        let most = if header::is_image(&image) { MOST_STREAM } else { LOOK };
        take(&name, &mut source.file, most + 1 - image.len() as u64, None, &mut image)?;
        if image.len() as u64 > MOST_STREAM {
            return Err(Stop::Said(
                format!("{name}: not supported: what is no file is read up to {} bytes, and this goes on\n", header::thousands(MOST_STREAM)),
                3,
            ));
        }
        image.truncate(most as usize);
        let length = image.len() as u64;
        Ok(Input { name, path: None, image: Bytes::Read(image), length, beside: Beside::Nothing })
    }

    /// The header's facts; none where this is no image.
    pub fn facts(&self) -> Option<Facts> {
        Facts::of(&self.image, self.length)
    }

    /// Its name without folders.
    pub fn short_name(&self) -> String {
        let short = |path: &Path| path.file_name().map(|name| name.to_string_lossy().into_owned());
        match (self.path.as_deref().and_then(short), &self.beside) {
            (None, _) => self.name.clone(),
            (Some(name), Beside::TakenIn(side)) => format!("{name} with {}", short(Path::new(side)).unwrap_or_default()),
            (Some(name), _) => name,
        }
    }

    /// As it is given to a command.
    pub fn given(&self) -> String {
        match &self.path {
            Some(path) => path.display().to_string(),
            None if self.name == STDIN => "-".to_owned(),
            None => self.name.clone(),
        }
    }

    /// What to do first where there is something to recover, in front of other advice.
    pub fn recover_first(&self) -> String {
        match &self.beside {
            Beside::Nothing => String::new(),
            Beside::LeftOut(side) | Beside::TakenIn(side) => {
                format!("first urk recover {} --out NEW, which makes one file of it and {side}; then ", self.given())
            }
        }
    }

    /// Its path, as an input that is not to be written over.
    pub fn paths(&self) -> Vec<&Path> {
        self.path.iter().map(PathBuf::as_path).collect()
    }
}

/// Something open to be read, and its length where it has one.
struct Source {
    file: Box<dyn Read>,
    length: Option<u64>,
    path: Option<PathBuf>,
}

fn failed(name: &str, error: std::io::Error) -> Stop {
    Stop::File(format!("{name}: {error}"))
}

fn open(path: &Path) -> Result<(String, Source), Stop> {
    if path.as_os_str() == "-" {
        return Ok((STDIN.into(), Source { file: Box::new(std::io::stdin()), length: None, path: None }));
    }
    let name = path.display().to_string();
    let file = File::open(path).map_err(|error| failed(&name, error))?;
    let metadata = file.metadata().map_err(|error| failed(&name, error))?;
    if metadata.is_dir() {
        return Err(Stop::File(format!("{name} is a folder")));
    }
    let length = metadata.is_file().then_some(metadata.len());
    Ok((name, Source { file: Box::new(file), length, path: Some(path.to_owned()) }))
}

/// Reads up to so many bytes on. Want of memory is told, not died of.
fn take(name: &str, file: &mut dyn Read, most: u64, of: Option<u64>, bytes: &mut Vec<u8>) -> Result<(), Stop> {
    let room = |bytes: &mut Vec<u8>, more: u64| {
        let more = usize::try_from(more).map_err(|_| ()).and_then(|more| bytes.try_reserve(more).map_err(|_| ()));
        more.map_err(|()| Stop::File(format!("{name}: there is not enough memory for it")))
    };
    if of.is_some() {
        room(bytes, most)?;
    }
    let tell = of.filter(|&of| of > LONG && std::io::stderr().is_terminal());
    let end = bytes.len() as u64 + most;
    while (bytes.len() as u64) < end {
        let piece = PIECE.min(end - bytes.len() as u64);
        room(bytes, piece)?;
        let read = file.take(piece).read_to_end(bytes).map_err(|error| failed(name, error))?;
        if let Some(of) = tell {
            eprint_part(name, bytes.len() as u64 * 100 / of);
        }
        if read == 0 {
            break;
        }
    }
    if tell.is_some() {
        out::complain("");
    }
    Ok(())
}

fn eprint_part(name: &str, percent: u64) {
    let _ = write!(std::io::stderr().lock(), "\r{name}: {percent} %");
}

/// A text, to be read line by line, and what it is called in messages.
pub fn lines(path: &Path) -> Result<(String, BufReader<Box<dyn Read>>), Stop> {
    let (name, source) = open(path)?;
    Ok((name, BufReader::new(source.file)))
}

/// Reads a log or a journal. Where it is neither, only its start is read. Of a log the frames are read up to the first whose salts are not its header's:
/// the scan stops there at the latest, and what lies behind is shown nowhere. Its whole length is told beside.
pub fn read_side(path: &Path) -> Result<(Vec<u8>, u64), Stop> {
    let (bytes, length) = read_side_of(path)?;
    let read = bytes.len() as u64;
    // A file that grew or was cut while it was read is as long as what was read.
    Ok((bytes, length.map_or(read, |length| length.max(read))))
}

fn read_side_of(path: &Path) -> Result<(Vec<u8>, Option<u64>), Stop> {
    let (name, mut source) = open(path)?;
    let mut bytes = Vec::new();
    take(&name, &mut source.file, 32, None, &mut bytes)?;
    let log = header::is_log(&bytes);
    let sizes = log && header::is_page_size(header::four(&bytes, 8));
    if !sizes && !header::is_journal(&bytes) {
        take(&name, &mut source.file, LOOK - 32, None, &mut bytes)?;
        return Ok((bytes, source.length));
    }
    let most = source.length.unwrap_or(MOST_STREAM);
    if !log {
        take(&name, &mut source.file, most.saturating_sub(bytes.len() as u64), source.length, &mut bytes)?;
        return Ok((bytes, source.length));
    }
    let frame = 24 + header::four(&bytes, 8) as usize;
    let mut at = 32;
    loop {
        let before = bytes.len();
        take(&name, &mut source.file, PIECE.max(frame as u64).min(most.saturating_sub(before as u64)), None, &mut bytes)?;
        while at + 24 <= bytes.len() && bytes[at + 8..at + 16] == bytes[16..24] {
            at += frame;
        }
        if bytes.len() == before {
            return Ok((bytes, None));
        }
        if at.saturating_add(frame) <= bytes.len() {
            return Ok((bytes, source.length));
        }
    }
}

/// The logs and the journals that stand beside a database and are not empty, the logs first; whether each is a log. Where the database is a link, sqlite3
/// looks beside what it leads to: both names are looked at.
pub fn sides(path: &Path) -> Vec<(PathBuf, bool)> {
    // Nothing stands beside standard input.
    if path.as_os_str() == "-" {
        return Vec::new();
    }
    let real = path.canonicalize().ok().filter(|real| real.file_name() != path.file_name() || path.is_symlink());
    let mut found: Vec<(PathBuf, bool)> = Vec::new();
    for (suffix, is_log) in [("-wal", true), ("-journal", false)] {
        for base in [Some(path), real.as_deref()].into_iter().flatten() {
            let mut name = base.as_os_str().to_owned();
            name.push(suffix);
            let side = PathBuf::from(name);
            let new = found.iter().all(|(other, _)| other.canonicalize().ok() != side.canonicalize().ok());
            if new && std::fs::metadata(&side).is_ok_and(|metadata| metadata.len() > 0) {
                found.push((side, is_log));
            }
        }
    }
    found
}

/// What stands beside standard input, where that is a file, and that file.
pub fn beside_stdin(path: &Path) -> Vec<(PathBuf, PathBuf)> {
    let real = Path::new("/dev/stdin").canonicalize().ok().filter(|real| path.as_os_str() == "-" && real.is_file());
    real.iter().flat_map(|real| sides(real).into_iter().map(|(side, _)| (side, real.clone()))).collect()
}

/// Makes a new file. One that is there already is never written over, an input least of all; and none is made where a log or a journal of before would be
/// taken for its own.
pub fn create(path: &Path, inputs: &[&Path]) -> Result<File, Stop> {
    for input in inputs {
        let same = path.canonicalize().is_ok_and(|path| input.canonicalize().is_ok_and(|input| input == path));
        if same || path == *input {
            return Err(Stop::File(format!("{} is an input", path.display())));
        }
    }
    if let (Some((side, _)), false) = (sides(path).first(), path.exists()) {
        return Err(Stop::File(format!("{} is there already, and would be read with {}", side.display(), path.display())));
    }
    OpenOptions::new().write(true).create_new(true).open(path).map_err(|error| failed(&path.display().to_string(), error))
}

/// Writes a new file, down to the disk. Where that fails nothing half done is left behind.
pub fn write(mut file: File, path: &Path, bytes: &[u8]) -> Result<(), Stop> {
    let written = file.write_all(bytes).and_then(|()| file.sync_all());
    written.map_err(|error| {
        let _ = std::fs::remove_file(path);
        failed(&path.display().to_string(), error)
    })
}
