//! Rows by number, and all rows of a table.

use std::hint::black_box;
use std::path::Path;

use crate::clock::{by_turns, way, Way};
use crate::files::{self, Shape, CHURNED, FAR, LARGE, TINY, TYPICAL, WIDE};
use crate::libsqlite::Prepared;
use crate::report::{Table, LIBRARY};

const TABLE: u32 = 2;
pub const SELECT: &str = "prepared select";

/// An image that was accepted, with some of its row numbers, and the cells that they are in.
pub struct Asked<'a> {
    image: &'a [u8],
    database: urkibasko::Database<'a>,
    numbers: &'a [i64],
    cells: Vec<urkibasko::Cell>,
    column: &'static str,
}

/// The tasks of `Asked::tasks`.
pub const NAMES: [&str; 6] = ["find", "payload quick", "find and payload quick", "lookup", "payload", "lookup and payload"];

/// What is done for one row after the other, by its place among those asked for; it answers the payload's length.
type Reader<'a> = Box<dyn FnMut(usize) -> usize + 'a>;

/// Functions of the library, what the straightforward reader does for them, and what a select says for them.
pub struct Task<'a> {
    pub name: &'static str,
    library: Reader<'a>,
    plain: Reader<'a>,
    select: String,
}

/// The three tasks of a function that finds a row's cell and one that copies a cell's payload, each beside its counterpart.
fn three<'a>(
    names: &[&'static str],
    asked: &'a Asked,
    find: impl Fn(i64) -> urkibasko::Cell + Copy + 'a,
    plain_find: impl Fn(i64) -> plain::lookup::Found + Copy + 'a,
    payload: impl Fn(urkibasko::Cell, &mut [u8]) -> usize + Copy + 'a,
    plain_payload: impl Fn(u32, u32, &mut [u8]) -> usize + Copy + 'a,
) -> [Task<'a>; 3] {
    let (numbers, cells) = (asked.numbers, &asked.cells);
    let [mut a, mut b, mut c, mut d] = [(); 4].map(|()| vec![0; urkibasko::MAX_PAYLOAD]);
    let column = format!("SELECT {} FROM t WHERE rowid=?", asked.column);
    [
        Task {
            name: names[0],
            library: Box::new(move |i| find(numbers[i]).length),
            plain: Box::new(move |i| plain_find(numbers[i]).payload),
            select: "SELECT rowid FROM t WHERE rowid=?".into(),
        },
        Task {
            name: names[1],
            library: Box::new(move |i| payload(cells[i], &mut a)),
            plain: Box::new(move |i| plain_payload(cells[i].page, cells[i].cell, &mut b)),
            select: column.clone(),
        },
        Task {
            name: names[2],
            library: Box::new(move |i| payload(find(numbers[i]), &mut c)),
            plain: Box::new(move |i| {
                let found = plain_find(numbers[i]);
                plain_payload(found.page, found.cell as u32, &mut d)
            }),
            select: column,
        },
    ]
}

impl<'a> Asked<'a> {
    pub fn new(image: &'a [u8], numbers: &'a [i64], shape: &Shape) -> Asked<'a> {
        let cell = |&row: &i64| urkibasko::lookup(image, TABLE, row).ok().flatten().expect("the row is there");
        let database = urkibasko::Database::new(image).expect("the image is accepted");
        Asked { image, database, numbers, cells: numbers.iter().map(cell).collect(), column: shape.column }
    }

    /// All that reads a row by its number: in an image that was accepted, and in any.
    pub fn tasks(&'a self) -> Vec<Task<'a>> {
        let (image, database) = (self.image, &self.database);
        let quick = three(
            &NAMES[..3],
            self,
            move |row| database.lookup(TABLE, row).ok().flatten().expect("the row is there"),
            move |row| plain::quick::find(image, TABLE, row).ok().flatten().expect("the row is there"),
            move |cell, out| database.payload(cell, out).map_or(0, |out| out.len()),
            move |page, cell, out| plain::quick::payload(image, page, cell, out).unwrap_or(0),
        );
        let tested = three(
            &NAMES[3..],
            self,
            move |row| urkibasko::lookup(image, TABLE, row).ok().flatten().expect("the row is there"),
            move |row| plain::lookup::lookup(image, TABLE, row).ok().flatten().expect("the row is there"),
            move |cell, out| urkibasko::payload(image, cell.page, cell.cell, out).map_or(0, |out| out.len()),
            move |page, cell, out| plain::lookup::payload(image, page, cell, out).unwrap_or(0),
        );
        quick.into_iter().chain(tested).collect()
    }

    /// The ways to do a task, each with one row after the other.
    pub fn ways(&'a self, task: Task<'a>) -> Vec<Way<'a>> {
        let Task { mut library, mut plain, select, .. } = task;
        for (i, cell) in self.cells.iter().enumerate() {
            assert_eq!((library(i), plain(i)), (cell.length, cell.length), "the same payload");
        }
        let count = self.numbers.len();
        let turns = move |mut read: Reader<'a>| {
            let mut next = (0..count).cycle();
            move || {
                black_box(read(next.next().unwrap_or(0)));
            }
        };
        let mut ways = vec![way(LIBRARY, turns(library)), way("plain", turns(plain))];
        ways.extend(Prepared::over(self.image, &select).map(|select| {
            let mut next = self.numbers.iter().cycle();
            way(SELECT, move || {
                select.run(next.next().copied());
            })
        }));
        ways
    }
}

/// Rows in a random order.
pub fn rows(dir: &Path) {
    let mut table = Table::new("Rows by number", None, &[SELECT, "plain"]);
    let mut all = Vec::new();
    for shape in [&TYPICAL, &TINY, &LARGE, &CHURNED, &WIDE, &FAR] {
        for page_size in [512, 4096, 65536] {
            let path = files::path(dir, shape, page_size, 1 << 20);
            let (image, numbers) = (std::fs::read(&path).expect("the image is read"), files::numbers(&path));
            let asked = Asked::new(&image, &numbers, shape);
            for task in asked.tasks() {
                let name = task.name;
                all.push((name, format!("{name}, {}, pages of {page_size}", shape.name), by_turns(asked.ways(task))));
            }
        }
    }
    for name in NAMES {
        for (_, what, times) in all.iter().filter(|(of, ..)| *of == name) {
            table.row(name, what, None, times);
        }
    }
    table.spans("Rows by number, all shapes and page sizes");
}

/// All rows of a table by the library's cursor, by that of the straightforward reader: their number, and the sum of the row numbers.
fn library_scan(database: &urkibasko::Database) -> (u64, i64) {
    database.rows(TABLE).fold((0, 0), |(rows, sum), row| (rows + 1, sum + row.expect("a row").number))
}

fn plain_scan(image: &[u8]) -> (u64, i64) {
    let (mut rows, mut sum) = (0, 0);
    let mut answer = plain::cursor::first(image, TABLE, u64::MAX);
    while let Ok(Some(row)) = answer {
        (rows, sum) = (rows + 1, sum + row.number);
        answer = plain::cursor::step(image, &row.path, u64::MAX);
    }
    (rows, sum)
}

/// All rows of a table, by stepping.
pub fn scans(dir: &Path) {
    let mut table = Table::new("All rows of a table, by stepping", Some("a step"), &[SELECT, "plain"]);
    for page_size in [512, 4096, 65536] {
        let image = files::image(dir, &TYPICAL, page_size, 1 << 20);
        let database = urkibasko::Database::new(&image).expect("the image is accepted");
        let expected = library_scan(&database);
        assert_eq!(plain_scan(&image), expected, "the same rows");
        let mut ways = vec![
            way(LIBRARY, || {
                black_box(library_scan(black_box(&database)));
            }),
            way("plain", || {
                black_box(plain_scan(black_box(&image)));
            }),
        ];
        ways.extend(Prepared::over(&image, "SELECT rowid FROM t").map(|select| {
            assert_eq!(select.scan(), expected, "the same rows");
            way(SELECT, move || {
                black_box(select.scan());
            })
        }));
        table.row("", &format!("{} rows, pages of {page_size}", expected.0), Some(expected.0 as usize), &by_turns(ways));
    }
}
