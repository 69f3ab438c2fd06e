//! The program check_image: standard input to one line.

use std::collections::BTreeMap;
use std::io::Write;
use std::path::Path;
use std::process::{Command, Stdio};

use world::reader::{Plain, Reader};
use world::rng::Rng;

use crate::images::{damage, Base};

/// How many damaged images are tried.
const CASES: u64 = 3000;

/// What the program prints for an image.
fn expected(image: &[u8]) -> (u32, String) {
    if image.len() > 65536 {
        return (13, "refused 13 page 0\n".to_owned());
    }
    let verdict = Plain.check(image, &mut [0; 4096], &mut [0; 4096], &mut [0; 4096]);
    let line = match verdict.refusal {
        0 => format!("accepted pages {}\n", verdict.pages),
        refusal => format!("refused {refusal} page {}\n", verdict.page),
    };
    (verdict.refusal, line)
}

fn printed(program: &Path, image: &[u8]) -> String {
    let mut child = Command::new(program).stdin(Stdio::piped()).stdout(Stdio::piped()).spawn().expect("the program runs");
    let mut stdin = child.stdin.take().expect("stdin is piped");
    let image = image.to_vec();
    // The program may stop reading before the end: that breaks the pipe and no rule.
    let writer = std::thread::spawn(move || drop(stdin.write_all(&image)));
    let output = child.wait_with_output().expect("the program ends");
    writer.join().expect("the writer ends");
    String::from_utf8_lossy(&output.stdout).into_owned()
}

/// Holds the program's line against the reader's on images whole, damaged and too long.
pub fn compare(program: &Path, bases: &[Base], seed: u64) {
    let mut met: BTreeMap<u32, u64> = BTreeMap::new();
    let mut hold = |name: &str, image: &[u8]| {
        let (refusal, line) = expected(image);
        let printed = printed(program, image);
        if printed != line {
            println!("{name}: the program prints {printed:?}, by the straightforward reader {line:?}");
            std::process::exit(1);
        }
        *met.entry(refusal).or_default() += 1;
    };
    for base in bases {
        hold(&base.name, &base.image);
    }
    for length in [0, 1, 511, 512, 65535, 65536, 65537, 65538, 200_000] {
        let mut image = bases[0].image.clone();
        image.resize(length, 0);
        hold(&format!("{length} bytes"), &image);
    }
    // Chance meets 6 too seldom: pages of 512 bytes of which 33 are reserved.
    for base in bases.iter().filter(|base| base.image.get(16..18) == Some(&[2, 0])).take(1) {
        let mut image = base.image.clone();
        image[20] = 33;
        hold("33 reserved bytes", &image);
    }
    for case in 0..CASES {
        let rng = &mut Rng::new(seed.wrapping_mul(7_000_003).wrapping_add(case));
        let base = rng.pick(bases);
        let mut image = base.image.clone();
        for _ in 0..1 + rng.below(2) {
            damage(base, &mut image, rng);
        }
        hold(&format!("case {case} ({})", base.name), &image);
    }
    // 5 and 12 are out of its reach: it takes at most 128 pages and has ledgers enough.
    for refusal in (0..=4).chain(6..=11).chain([13]).chain(20..=30) {
        if !met.contains_key(&refusal) {
            println!("the program never answered {refusal}");
            std::process::exit(1);
        }
    }
    println!("check_image: {met:?}: no difference");
}
