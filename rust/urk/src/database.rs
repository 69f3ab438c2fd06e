//! What the database is: a file by itself, or what recovery makes of it with the log or the journal that stands beside it. This is settled here and nowhere
//! else: every command that reads a database opens it here.

use std::path::Path;

use urkibasko::Recovered;

use crate::files::{self, Beside, Bytes, Input};
use crate::refused;
use crate::sides::Side;
use crate::supers::{Settle, GONE, PRESENT};
use crate::words::{Choice, Words};
use crate::{out, Stop};

/// The option of every command that reads a database.
pub const ALONE: Choice = Choice { name: "--alone", value: "", about: "read FILE by itself, without the log or journal beside it" };

/// FILE, with the log and the journal that stand beside it. None are looked for beside standard input.
pub struct Place<'a> {
    path: &'a Path,
    pub sides: Vec<Side>,
}

impl<'a> Place<'a> {
    pub fn look(path: &'a Path) -> Result<Place<'a>, Stop> {
        // That FILE is not there is told when it is opened.
        if !path.exists() {
            return Ok(Place { path, sides: Vec::new() });
        }
        let sides = files::sides(path).iter().map(|(side, is_log)| Side::read(side, *is_log, Settle::Beside)).collect::<Result<Vec<_>, _>>()?;
        for side in &sides {
            let Some(one) = side.super_journal.as_ref().filter(|one| one.there.is_none()) else { continue };
            return Err(Stop::File(format!(
                "{0} names the super-journal {1}, which cannot be looked for ({2}): --alone reads {3} by itself, \
                 and urk recover {3} --journal {0} takes {4} or {5}",
                side.name,
                one.name.display(),
                one.unsettled(),
                path.display(),
                PRESENT.name,
                GONE.name
            )));
        }
        Ok(Place { path, sides })
    }

    /// The log or journal that is in force, if one is.
    pub fn in_force(&self) -> Result<Option<&Side>, Stop> {
        let mut live = self.sides.iter().filter(|side| side.live());
        match (live.next(), live.next()) {
            (Some(one), Some(other)) => Err(Stop::File(format!(
                "{} and {} are both in force beside {}: urk recover takes one of them (--log, --journal), --alone reads the file by itself",
                one.name,
                other.name,
                self.path.display()
            ))),
            (side, _) => Ok(side),
        }
    }

    /// A line on standard error for the one that is in force, and for each whose super-journal is gone. Beside standard input nothing is looked for: where that
    /// is a file beside which something stands, it is told.
    pub fn tell(&self, in_force: Option<&Side>) {
        let file = self.path.display();
        for (side, real) in files::beside_stdin(self.path) {
            out::complain(&format!("urk: {} stands beside {}, which is standard input, and was not read", side.display(), real.display()));
        }
        for side in self.sides.iter().filter(|side| side.is_committed()) {
            let why = side.super_journal.as_ref().map_or_else(String::new, |one| one.line());
            out::complain(&format!("urk: {} is not in force: {why}", side.name));
        }
        if let Some(side) = in_force {
            out::complain(&format!("urk: {} is in force: {file} is read as the two together are (--alone reads it by itself)", side.name));
        }
    }
}

/// What a file and a log or journal make together, or how recovery refuses it.
pub enum Together {
    Is(Input, Recovered),
    /// The file that is at fault, and what is told.
    Refused(String, Box<refused::Told>),
}

pub fn together(base: &Input, side: &Side) -> Result<Together, Stop> {
    Ok(match side.recovered(&base.image)? {
        Ok((image, recovered)) => {
            let name = format!("{} with {}", base.name, side.name);
            let beside = Beside::TakenIn(side.name.clone());
            Together::Is(Input { name, path: base.path.clone(), length: image.len() as u64, image: Bytes::Read(image), beside }, recovered)
        }
        Err(refusal) => {
            let (name, told) = refused::recovery(base, &side.name, refusal);
            Together::Refused(name, Box::new(told))
        }
    })
}

/// FILE for judging by itself, and for recovery where something beside it is in force.
pub fn file(path: &Path, in_force: Option<&Side>) -> Result<Input, Stop> {
    match in_force {
        None => Input::image(path),
        Some(side) => Ok(Input { beside: Beside::LeftOut(side.name.clone()), ..Input::for_recovery(path)? }),
    }
}

/// The database that is meant by FILE, the first of the words: what recovery shows where a log or a journal is in force beside it, unless `--alone` was
/// given. Either is told on standard error.
pub fn open(words: &Words) -> Result<Input, Stop> {
    open_by(words, Input::image)
}

/// The same, where every byte of the file is wanted.
pub fn open_whole(words: &Words) -> Result<Input, Stop> {
    open_by(words, Input::for_recovery)
}

fn open_by(words: &Words, read: fn(&Path) -> Result<Input, Stop>) -> Result<Input, Stop> {
    let path = words.path(0);
    if words.has(ALONE.name) {
        return alone(path, read);
    }
    let place = Place::look(path)?;
    let in_force = place.in_force()?;
    place.tell(in_force);
    let Some(side) = in_force else { return read(path) };
    match together(&file(path, in_force)?, side)? {
        Together::Is(input, _) => Ok(input),
        Together::Refused(name, told) => Err(told.stop(&name, words.json())),
    }
}

/// FILE by itself. What stands beside it is told, and not read.
pub fn alone(path: &Path, read: fn(&Path) -> Result<Input, Stop>) -> Result<Input, Stop> {
    let sides = files::sides(path);
    for (side, _) in &sides {
        out::complain(&format!("urk: {} stands beside {} and was not read", side.display(), path.display()));
    }
    let beside = sides.first().map_or(Beside::Nothing, |(side, _)| Beside::LeftOut(side.display().to_string()));
    Ok(Input { beside, ..read(path)? })
}
