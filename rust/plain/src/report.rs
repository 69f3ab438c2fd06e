//! The reals in a column of a table, summed up.

use crate::header::{header, Header};
use crate::lookup::payload;
use crate::page::{tree_page, Marks, TABLE_INTERIOR, TABLE_LEAF};
use crate::record::{column, Column, Value};
use crate::{Refusal, MAX_LEVELS};

/// Least and greatest are 0 where there was no real.
#[derive(Clone, Copy, Debug, PartialEq)]
pub struct Summary {
    pub count: u64,
    pub least: f64,
    pub greatest: f64,
    pub sum: f64,
}

/// Why the walk stops: a refusal, or more work than the caller allows.
enum Stop {
    Refused(Refusal),
    Long,
}

impl From<Refusal> for Stop {
    fn from(refusal: Refusal) -> Stop {
        Stop::Refused(refusal)
    }
}

struct Walk<'a> {
    image: &'a [u8],
    header: Header,
    column: u64,
    room: &'a mut [u8],
    reals: Vec<f64>,
    left: u64,
}

impl Walk<'_> {
    /// Pages that are looked at, times their bytes.
    fn spend(&mut self, pages: u32) -> Result<(), Stop> {
        self.left = self.left.checked_sub(u64::from(pages) * self.header.page_size as u64).ok_or(Stop::Long)?;
        Ok(())
    }

    fn page(&mut self, number: u32, level: u32) -> Result<(), Stop> {
        if level > MAX_LEVELS {
            return Err(Refusal::new(24, number).into());
        }
        self.spend(1)?;
        let page = tree_page(self.image, &self.header, number, &[TABLE_INTERIOR, TABLE_LEAF], &mut Marks::default())?;
        if page.is_leaf() {
            return (0..page.cells as u32).try_for_each(|cell| self.row(number, cell, level));
        }
        for i in 0..=page.cells {
            let child = if i < page.cells { page.cell(i).child } else { page.right };
            if child == 0 || child as usize > self.header.pages {
                return Err(Refusal::new(20, number).into());
            }
            self.page(child, level + 1)?;
        }
        Ok(())
    }

    fn row(&mut self, page: u32, cell: u32, level: u32) -> Result<(), Stop> {
        // A cursor looks at each page of its path again.
        self.spend(level + 1)?;
        let length = payload(self.image, page, cell, self.room)?;
        match column(&self.room[..length], self.column) {
            Column::Unreadable => Err(Refusal::new(28, page).into()),
            Column::Value(Value::Real(real)) => {
                self.reals.push(real);
                Ok(())
            }
            Column::Value(_) | Column::Missing => Ok(()),
        }
    }
}

/// The reals in a column, counted from 1, of the rows under `root` from left to right. Each payload is laid over the last at the room's start. None where
/// more than `most` bytes of pages would have to be looked at.
pub fn report(image: &[u8], root: u32, column: u64, room: &mut [u8], most: u64) -> Option<Result<Summary, Refusal>> {
    let header = match header(image) {
        Ok(header) => header,
        Err(number) => return Some(Err(Refusal::general(number))),
    };
    if root == 0 || root as usize > header.pages {
        return Some(Err(Refusal::general(20)));
    }
    let mut walk = Walk { image, header, column, room, reals: Vec::new(), left: most };
    match walk.page(root, 1) {
        Err(Stop::Refused(refusal)) => Some(Err(refusal)),
        Err(Stop::Long) => None,
        Ok(()) => Some(Ok(summary(&walk.reals))),
    }
}

/// Of equals the earlier stays.
fn summary(reals: &[f64]) -> Summary {
    let most = |before: fn(f64, f64) -> bool| reals.iter().copied().reduce(|kept, real| if before(real, kept) { real } else { kept }).unwrap_or(0.0);
    let mut sum = 0.0;
    for real in reals {
        sum += real;
    }
    Summary { count: reals.len() as u64, least: most(|real, kept| real < kept), greatest: most(|real, kept| real > kept), sum }
}
