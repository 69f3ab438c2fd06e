//! Bytes that no answer depends on, changed at will: free leaf pages, reserved ends of pages, gaps of tree pages. The library's verdict, count, ledgers, lookups, rows and payloads stay.

use plain::c::{Found, Payload, Row, Verdict};
use plain::{cursor, header, unread};
use urkibasko::Database;
use world::reader::Reader;
use world::rng::Rng;

use crate::images::Base;
use crate::proved::Proved;

/// Rows asked for under each root, and roots asked of each image.
const ROWS: usize = 60;
const ROOTS: usize = 40;

/// Everything that is asked of an image.
#[derive(PartialEq)]
struct Answers {
    verdict: Verdict,
    ledgers: (Vec<u8>, Vec<u32>, Vec<u32>),
    /// Row after row, each with the cursor's words.
    rows: Vec<(Row, Vec<u32>)>,
    found: Vec<Found>,
    payloads: Vec<(Payload, Vec<u8>)>,
}

/// The answers about an image; what is asked depends on the image that it was made from alone.
fn ask(image: &[u8], roots: &[u32], numbers: &[i64]) -> Answers {
    let room = image.len() / 512;
    let mut ledgers = (vec![0xee; room], vec![7; room], vec![9; room]);
    let verdict = Proved.check(image, &mut ledgers.0, &mut ledgers.1, &mut ledgers.2);
    let (mut rows, mut found, mut payloads) = (Vec::new(), Vec::new(), Vec::new());
    let mut fetch = |page, cell| {
        let mut out = vec![0xaa; 65536];
        let answer = Proved.payload_fetch(image, page, cell, &mut out);
        payloads.push((answer, out));
    };
    for &root in roots {
        for &number in numbers {
            let cell = Proved.lookup(image, root, number);
            if cell.refusal == 0 && cell.found == 1 {
                fetch(cell.page, cell.cell);
            }
            found.push(cell);
        }
        let mut words = vec![0; cursor::WORDS];
        let mut row = Proved.rows_first(image, root, &mut words);
        for _ in 0..ROWS {
            rows.push((row, words.clone()));
            if row.refusal != 0 || row.found == 0 {
                break;
            }
            fetch(row.page, row.cell);
            row = Proved.rows_step(image, &mut words);
        }
        for &number in numbers {
            let mut words = vec![0; cursor::WORDS];
            let row = Proved.rows_seek(image, root, number, &mut words);
            rows.push((row, words));
        }
    }
    Answers { verdict, ledgers, rows, found, payloads }
}

/// Changes these bytes: all of them, those of one page, or a few; at random, to one value, or bit by bit.
fn change(image: &mut [u8], spare: &[usize], rng: &mut Rng) -> usize {
    let from = rng.below(spare.len());
    let places = match rng.below(4) {
        0 => spare,
        1 => &spare[from..(from + 512).min(spare.len())],
        2 => &spare[from..=from],
        _ => &spare[from..(from + 1 + rng.below(40)).min(spare.len())],
    };
    let value = *rng.pick(&[0, 1, 13, 0x80, 0xff]);
    let how = rng.below(3);
    for &at in places {
        image[at] = match how {
            0 => rng.byte(),
            1 => value,
            _ => image[at] ^ 1 << rng.below(8),
        };
    }
    places.len()
}

/// So many changes of each accepted image.
pub fn compare(bases: &[Base], seed: u64, changes: usize) {
    let mut rng = Rng::new(seed);
    let (mut images, mut tried, mut bytes) = (0, 0u64, [0u64; 3]);
    for base in bases.iter().filter(|base| base.accepted()) {
        let header = header::header(&base.image).expect("an accepted image");
        let database = Database::new(&base.image).expect("an accepted image");
        let kinds: Vec<u8> = (1..=database.ledger().pages()).map(|page| base.kind(page)).collect();
        let spare: Vec<usize> = (0..base.image.len()).filter(|&at| unread::may_change(&base.image, &header, &kinds, at)).collect();
        let told: Vec<usize> = database.unread().flat_map(|(_, range)| range).collect();
        assert!(spare == told, "{}: other bytes are told to be unread", base.name);
        if spare.is_empty() {
            continue;
        }
        images += 1;
        for &at in &spare {
            let page = at / header.page_size;
            bytes[if kinds[page] == 3 {
                0
            } else if at % header.page_size >= header.usable {
                1
            } else {
                2
            }] += 1;
        }
        let roots: Vec<u32> = (1..=kinds.len() as u32).filter(|&page| kinds[page as usize - 1] == 1).take(ROOTS).collect();
        let numbers = [i64::MIN, -1, 0, 1, 2, 3, 7, 20, rng.below(1000) as i64, rng.word() as i64, i64::MAX];
        let before = ask(&base.image, &roots, &numbers);
        for turn in 0..changes {
            let mut image = base.image.clone();
            change(&mut image, &spare, &mut rng);
            assert!(ask(&image, &roots, &numbers) == before, "{}: change {turn} of unread bytes is answered otherwise", base.name);
            tried += 1;
        }
    }
    assert!(bytes.iter().all(|&bytes| bytes > 0), "free leaf pages, reserved ends and gaps must all be met: {bytes:?}");
    let [free, tails, gaps] = bytes;
    println!("unread bytes: {images} images, {tried} changes among {free} bytes of free leaf pages, {tails} of reserved ends and {gaps} of gaps; every answer is the same");
}
