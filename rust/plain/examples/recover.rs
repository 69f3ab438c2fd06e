//! `recover log|journal SIDE IMAGE OUT`: recovers an image; prints the refusal, or pages and length.

use plain::c::{urk_journal_recover, urk_log_recover};

fn main() {
    let args: Vec<String> = std::env::args().collect();
    let [_, kind, side, image, to] = &args[..] else { panic!("usage: recover log|journal SIDE IMAGE OUT") };
    let [side, image] = [side, image].map(|path| std::fs::read(path).expect("the file is read"));
    // Each page stands in one of the two files, but for the lock-byte page.
    let mut out = vec![0; side.len() + image.len() + 65536];
    let answer = if kind == "log" { urk_log_recover(&side, &image, &mut out) } else { urk_journal_recover(&side, &image, &mut out) };
    println!("refusal {} pages {} length {}", answer.refusal, answer.pages, answer.length);
    std::fs::write(to, &out[..answer.length as usize]).expect("the result is written");
}
