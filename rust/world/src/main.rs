//! `world DIR`: makes the files in DIR and holds the straightforward reader against the sqlite3 program's own answers.

use std::path::PathBuf;

fn main() {
    let dir = PathBuf::from(std::env::args_os().nth(1).expect("usage: world DIR (a folder to make anew)"));
    world::against::sqlite(&world::reader::Plain, &dir);
}
