//! Instructions, counted by callgrind: they do not depend on the machine's mood. The same program is run under valgrind with no call and with some; the
//! difference is theirs alone.

use std::path::Path;
use std::process::Command;

use crate::clock::Way;
use crate::files::{self, Shape, CHURNED, FAR, LARGE, SHAPES, TINY, TYPICAL, WIDE};
use crate::report::{self, LIBRARY};
use crate::{logs, rows, verdicts};

/// The sub-command that does one thing some times: `bench FOLDER one WORK SHAPE PAGE-SIZE WAY CALLS`.
pub const ONE: &str = "one";

const BYTES: usize = 1 << 20;
/// As many rows are asked for in a call.
const ROWS: usize = 100;

/// The verdict on a small file, and nothing besides.
const SMALL: &str = "small";
const SMALL_BYTES: usize = 1 << 18;
/// One file of each shape, each with a page size: what tests/instructions holds against recorded numbers.
const SMALL_FILES: [(&Shape, usize); 6] = [(&TYPICAL, 4096), (&TINY, 512), (&LARGE, 65536), (&CHURNED, 1024), (&WIDE, 4096), (&FAR, 8192)];
/// Counts inside of this function alone.
const INSIDE: [&str; 2] = ["--collect-atstart=no", "--toggle-collect=urk_check"];

/// Runs a way so many times.
fn run(mut ways: Vec<Way>, name: &str, calls: usize) {
    let way = ways.iter_mut().find(|way| way.name == name).unwrap_or_else(|| panic!("no way {name}"));
    (0..calls).for_each(|_| (way.call)());
}

pub fn one(dir: &Path, words: &[String]) {
    let [work, shape, page_size, way, calls] = words else { panic!("one WORK SHAPE PAGE-SIZE WAY CALLS") };
    let shape: &Shape = SHAPES.into_iter().find(|of| of.name == shape).expect("a shape");
    let page_size = page_size.parse().expect("a page size");
    let calls = calls.parse().expect("a number of calls");
    let path = files::path(dir, shape, page_size, if work == SMALL { SMALL_BYTES } else { BYTES });
    let image = std::fs::read(&path).expect("the image is read");
    match work.as_str() {
        "verdict" => run(verdicts::ways(&image), way, calls),
        SMALL => (0..calls).for_each(|_| judge(&image)),
        "sums" => {
            let (log, image) = files::last_log(page_size, BYTES / page_size, false);
            run(logs::sum_ways(&log, &image), way, calls)
        }
        task => {
            let numbers = &files::numbers(&path)[..ROWS];
            let asked = rows::Asked::new(&image, numbers, shape);
            let task = asked.tasks().into_iter().find(|of| of.name == task).expect("a task");
            run(asked.ways(task), way, calls * ROWS)
        }
    }
}

/// The C function itself, on an image that is accepted.
fn judge(image: &[u8]) {
    let pages = image.len() / 512;
    let (mut kinds, mut namers, mut steps) = (vec![0; pages], vec![0; pages], vec![0; pages]);
    // SAFETY: pointers and lengths are those of slices, and the lent ones are apart.
    let answer = unsafe {
        urkibasko::raw::urk_check(image.as_ptr(), image.len(), kinds.as_mut_ptr(), pages, namers.as_mut_ptr(), pages, steps.as_mut_ptr(), pages)
    };
    assert_eq!(answer.refusal, 0, "the image is accepted");
}

/// What the program takes from start to end, or inside of a function where the options say so.
fn counted(options: &[&str], dir: &Path, work: &str, shape: &Shape, page_size: usize, way: &str, calls: usize) -> f64 {
    let output = Command::new("valgrind")
        .args(["--tool=callgrind", "--callgrind-out-file=/dev/null"])
        .args(options)
        .arg(std::env::current_exe().expect("the program's place"))
        .arg(dir)
        .args([ONE, work, shape.name, &page_size.to_string(), way, &calls.to_string()])
        .output()
        .expect("valgrind runs");
    let errors = String::from_utf8_lossy(&output.stderr);
    assert!(output.status.success(), "{errors}");
    errors.lines().find_map(|line| line.split("Collected :").nth(1)).expect("callgrind counts").trim().parse().expect("a number")
}

/// What a call of each way takes, divided by so many units.
fn row(dir: &Path, work: &str, shape: &Shape, page_size: usize, ways: &[&str], units: usize) {
    const CALLS: usize = 2;
    let start = counted(&[], dir, work, shape, page_size, ways[0], 0);
    let each = |way: &&str| report::ratio((counted(&[], dir, work, shape, page_size, way, CALLS) - start) / (CALLS * units) as f64);
    let columns: Vec<String> = ways.iter().map(each).collect();
    println!("| {}, pages of {page_size} | {} |", shape.name, columns.join(" | "));
}

/// A line for each small file: its page size, the instructions of one verdict, its shape.
pub fn small(dir: &Path) {
    for (shape, page_size) in SMALL_FILES {
        files::path(dir, shape, page_size, SMALL_BYTES);
        println!("{page_size} {:.0} {}", counted(&INSIDE, dir, SMALL, shape, page_size, LIBRARY, 1), shape.name);
    }
}

pub fn table(dir: &Path) {
    let ways = [LIBRARY, "integrity_check", "quick_check", "plain", "sum"];
    report::head("Instructions a byte, verdict", &ways);
    for shape in SHAPES {
        for page_size in [512, 4096, 65536] {
            let bytes = files::image(dir, shape, page_size, BYTES).len();
            row(dir, "verdict", shape, page_size, &ways, bytes);
        }
    }
    let ways = [LIBRARY, "plain", "sum"];
    report::head("Instructions a byte, the sums of a log", &ways);
    for page_size in [512, 4096, 65536] {
        let bytes = files::last_log(page_size, BYTES / page_size, false).0.len();
        row(dir, "sums", &TYPICAL, page_size, &ways, bytes);
    }
    let ways = [LIBRARY, rows::SELECT, "plain"];
    for task in rows::NAMES.into_iter().filter(|name| !name.contains(" and ")) {
        report::head(&format!("Instructions, {task}"), &ways);
        for shape in [&TYPICAL, &TINY] {
            for page_size in [512, 4096, 65536] {
                row(dir, task, shape, page_size, &ways, ROWS);
            }
        }
    }
}
