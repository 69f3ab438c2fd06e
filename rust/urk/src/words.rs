//! The words of a command line: a command, its places and its options.

use std::ffi::OsStr;
use std::os::unix::ffi::OsStrExt;
use std::path::Path;

use crate::json::Object;
use crate::{Done, Stop};

/// An option: its name, what its value is called (nothing where it takes none; with two dots behind it where it may be given more than once), and what it does.
pub struct Choice {
    pub name: &'static str,
    pub value: &'static str,
    pub about: &'static str,
}

/// A command.
pub struct Command {
    pub name: &'static str,
    /// What its places are called; those in brackets may be left out.
    pub places: &'static [&'static str],
    pub choices: &'static [Choice],
    /// One line, and more for `--help`.
    pub about: &'static str,
    pub more: &'static str,
    pub run: fn(&Words) -> Done,
}

impl Command {
    /// `urk rows FILE ROOT [--from ROW]`
    pub fn form(&self) -> String {
        let mut form = format!("urk {}", self.name);
        for place in self.places {
            form = form + " " + place;
        }
        for choice in self.choices {
            let space = if choice.value.is_empty() { "" } else { " " };
            form += &format!(" [{}{space}{}]", choice.name, choice.value);
        }
        form
    }

    /// What `--help` prints.
    pub fn help(&self) -> String {
        let mut help = format!("{}\n\n{}.\n", self.form(), self.about);
        for line in self.more.lines() {
            help = help + line + "\n";
        }
        if !self.choices.is_empty() {
            help += "\n";
        }
        for choice in self.choices {
            help += &format!("  {:<18} {}\n", format!("{} {}", choice.name, choice.value).trim_end(), choice.about);
        }
        help
    }
}

/// What was given with a command.
pub struct Words<'a> {
    command: &'static Command,
    places: Vec<&'a OsStr>,
    options: Vec<(&'static str, &'a OsStr)>,
    /// `--help` was among them.
    pub help: bool,
}

impl<'a> Words<'a> {
    /// Sorts the words that follow a command's name. What is off is told by the word.
    pub fn new(command: &'static Command, given: &[&'a OsStr]) -> Result<Words<'a>, Stop> {
        let mut words = Words { command, places: Vec::new(), options: Vec::new(), help: false };
        let mut given = given.iter();
        let mut options_over = false;
        while let Some(&word) = given.next() {
            let bytes = word.as_bytes();
            let is_option = !options_over && bytes.len() > 1 && bytes[0] == b'-' && !bytes[1].is_ascii_digit();
            if !is_option {
                words.places.push(word);
                continue;
            }
            match bytes {
                b"--" => options_over = true,
                b"--help" | b"-h" => words.help = true,
                _ => words.option(word, &mut given)?,
            }
        }
        if words.help {
            return Ok(words);
        }
        if let Some(extra) = words.places.get(command.places.len()) {
            return Err(words.off(format!("'{}' is one word too many", extra.to_string_lossy())));
        }
        match command.places.get(words.places.len()) {
            Some(missing) if !missing.starts_with('[') => Err(words.off(format!("{missing} is missing"))),
            _ => Ok(words),
        }
    }

    fn option(&mut self, word: &'a OsStr, given: &mut std::slice::Iter<&'a OsStr>) -> Result<(), Stop> {
        let bytes = word.as_bytes();
        let (name, joined) = match bytes.iter().position(|&byte| byte == b'=') {
            Some(at) => (&bytes[..at], Some(OsStr::from_bytes(&bytes[at + 1..]))),
            None => (bytes, None),
        };
        let Some(choice) = self.command.choices.iter().find(|choice| choice.name.as_bytes() == name) else {
            return Err(self.off(format!("'{}' is no option of urk {}", OsStr::from_bytes(name).to_string_lossy(), self.command.name)));
        };
        if !choice.value.ends_with("..") && self.options.iter().any(|option| option.0 == choice.name) {
            return Err(self.off(format!("{} is given twice", choice.name)));
        }
        let value = match (choice.value.is_empty(), joined) {
            (true, None) => OsStr::new(""),
            (true, Some(_)) => return Err(self.off(format!("{} takes no value", choice.name))),
            (false, Some(value)) => value,
            (false, None) => given.next().ok_or_else(|| self.off(format!("{} wants {}", choice.name, choice.value.trim_end_matches('.'))))?,
        };
        self.options.push((choice.name, value));
        Ok(())
    }

    /// Usage that is off, with the command's form.
    pub fn off(&self, text: String) -> Stop {
        Stop::Usage(text, self.command.form())
    }

    /// An answer of one line that is no success.
    pub fn said(&self, line: String, status: u8) -> Stop {
        let text = if self.json() { Object::new().text("said", &line).field("status", status).end() } else { line };
        Stop::Said(text + "\n", status)
    }

    pub fn has(&self, name: &str) -> bool {
        self.options.iter().any(|option| option.0 == name)
    }

    /// Whether the answer is to be in JSON; where `--json` takes a value, it is something else.
    pub fn json(&self) -> bool {
        self.command.choices.iter().any(|choice| choice.name == "--json" && choice.value.is_empty()) && self.has("--json")
    }

    pub fn count(&self) -> usize {
        self.places.len()
    }

    pub fn place(&self, i: usize) -> &'a OsStr {
        self.places[i]
    }

    pub fn path(&self, i: usize) -> &'a Path {
        Path::new(self.places[i])
    }

    pub fn value(&self, name: &str) -> Option<&'a OsStr> {
        self.options.iter().find(|option| option.0 == name).map(|option| option.1)
    }

    /// All values of an option that may be given more than once.
    pub fn values(&self, name: &str) -> Vec<&'a OsStr> {
        self.options.iter().filter(|option| option.0 == name).map(|option| option.1).collect()
    }

    pub fn value_path(&self, name: &str) -> Option<&'a Path> {
        self.value(name).map(Path::new)
    }

    /// A place or a value as a number.
    pub fn number<T: std::str::FromStr>(&self, what: &str, word: &OsStr) -> Result<T, Stop> {
        let number = word.to_str().and_then(|word| word.parse().ok());
        number.ok_or_else(|| self.off(format!("{what} is a number, which '{}' is not, or it is out of range", word.to_string_lossy())))
    }
}
