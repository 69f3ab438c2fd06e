//! The safe interface, on the example database, and its agreement with the C header.

use urkibasko::Cell;
use urkibasko::{
    check, check_into, check_ordered, check_ordered_into, check_proposal, journal_recover, log_page, log_recover, lookup, payload, varint,
    varint::Varint, Database, Kind, LogView, Proposal, Record, Refusal, Row, Rows, Rule, Summary, TooManyPages, Value, MAX_PAGES, MAX_PAYLOAD,
};

const IMAGE: &[u8] = include_bytes!("../../../examples/counter.db");
const VACUUM: &[u8] = include_bytes!("../../../crates/verdict_vectors/data/good-vacuum.db");
const TWO_PAGES: &[u8] = include_bytes!("../../../crates/verdict_vectors/data/good-table.db");
const HEADER: &str = include_str!("../../../include/urkibasko.h");
const NAMES: &str = include_str!("../../../c/urkibasko_names.c");

/// `URK_NOT_SOUND` for `NotSound`.
fn c_name(name: &str) -> String {
    name.chars().fold("URK".to_owned(), |c, letter| if letter.is_uppercase() { c + "_" } else { c } + &letter.to_uppercase().to_string())
}

#[test]
fn rules_are_those_of_the_header() {
    let numbers: Vec<(String, u32)> = HEADER
        .lines()
        .skip_while(|line| !line.starts_with("enum urk_refusal"))
        .take_while(|line| !line.starts_with("};"))
        .filter_map(|line| line.trim().split_once(" = "))
        .map(|(name, rest)| (name.to_owned(), rest.chars().take_while(char::is_ascii_digit).collect::<String>().parse().expect("a number")))
        .filter(|(_, number)| *number != 0)
        .collect();
    let rules: Vec<(String, u32)> = Rule::ALL.iter().map(|rule| (c_name(rule.name()), rule.number())).collect();
    assert_eq!(rules, numbers);
    assert!(Rule::ALL.iter().all(|rule| Rule::from_number(rule.number()) == Some(*rule) && !rule.text().is_empty()));
    assert_eq!(Rule::from_number(0), None);
}

#[test]
fn c_has_the_same_words() {
    for rule in Rule::ALL {
        let name = c_name(rule.name());
        let (_, rest) = NAMES.split_once(&format!("{{{name}, \"{name}\",")).unwrap_or_else(|| panic!("{name} has no words in C"));
        let (_, text) = rest.split_once('"').expect("a text");
        assert!(text.starts_with(&format!("{}\"}},", rule.text().replace('"', "\\\""))), "{name} has another text in C");
    }
    let version = ["MAJOR", "MINOR", "PATCH"].map(|part| {
        let (_, rest) = HEADER.split_once(&format!("#define URK_VERSION_{part} ")).expect("a version");
        rest.lines().next().expect("a number").to_owned()
    });
    assert_eq!(version.join("."), env!("CARGO_PKG_VERSION"));
}

#[test]
fn an_image_is_checked() {
    let ledger = check(IMAGE).expect("the example is accepted");
    assert_eq!((ledger.pages(), ledger.long_spellings()), (17, 0));
    assert_eq!((ledger.kind(1), ledger.namer(1)), (Some(Kind::Root), None));
    assert_eq!((ledger.kind(3), ledger.namer(3)), (Some(Kind::FirstOverflow), Some(2)));
    assert_eq!((ledger.kind(4), ledger.namer(4)), (Some(Kind::LaterOverflow), Some(3)));
    assert_eq!((ledger.kind(8), ledger.namer(8)), (Some(Kind::Tree), Some(7)));
    assert_eq!((ledger.kind(15), ledger.namer(15)), (Some(Kind::Trunk), Some(1)));
    assert_eq!((ledger.kind(14), ledger.namer(14)), (Some(Kind::FreeLeaf), Some(15)));
    assert_eq!((ledger.kind(0), ledger.kind(18), ledger.namer(0)), (None, None, None));

    assert_eq!([1, 2, 3, 4, 8, 15, 14].map(|page| ledger.step(page)), [0, 1, 2, 3, 2, 1, 2].map(Some));
    assert_eq!((ledger.step(0), ledger.step(18)), (None, None));

    let (mut kinds, mut namers, mut steps) = ([7; 16], [7; 17], [7; 17]);
    let refusal = check_into(IMAGE, &mut kinds, &mut namers, &mut steps).expect_err("a ledger is too small");
    assert_eq!(refusal, Refusal { rule: Rule::SmallLedgers, page: None });
    assert_eq!((kinds, namers, steps), ([7; 16], [7; 17], [7; 17]));
    let (mut kinds, mut steps) = ([7; 17], [7; 16]);
    let refusal = check_into(IMAGE, &mut kinds, &mut namers, &mut steps).expect_err("the steps are too few");
    assert_eq!(refusal, Refusal { rule: Rule::SmallLedgers, page: None });
    assert_eq!((kinds, namers, steps), ([7; 17], [7; 17], [7; 16]));

    let mut damaged = IMAGE.to_vec();
    damaged[2 * 512 + 3] = 2;
    let refusal = check(&damaged).expect_err("page 3 names page 2");
    assert_eq!(refusal, Refusal { rule: Rule::NamedTwice, page: Some(2) });
    assert!(refusal.to_string().starts_with("refused 21, page 2: "));
    assert_eq!(check(&[]).expect_err("nothing").rule, Rule::ShortImage);
}

#[test]
fn indexes_that_are_named() {
    assert_eq!((check_ordered(IMAGE, &[]), check_ordered(IMAGE, &[6, 6])), (check(IMAGE), check(IMAGE)));
    assert_eq!(Database::with_ordered(IMAGE, &[6]).expect("its keys rise").ledger(), Database::new(IMAGE).expect("it is accepted").ledger());
    // Pages that are no index roots, 0 and past the last among them; the first is told.
    for name in [0, 1, 2, 3, 7, 17, 18, u32::MAX] {
        assert_eq!(check_ordered(IMAGE, &[6, name, 0]), Err(Refusal { rule: Rule::NoIndexRoot, page: Some(name) }));
    }
    // Two keys of the index change places: only where it is named.
    let mut swapped = IMAGE.to_vec();
    let pointers = 5 * 512 + 8;
    swapped[pointers..pointers + 4].rotate_left(2);
    assert_eq!((check_ordered(&swapped, &[6]), check(&swapped).is_ok()), (Err(Refusal { rule: Rule::KeyOrder, page: Some(6) }), true));
    // Another encoding, where any page is named; the ledgers are as they were.
    let mut wide = IMAGE.to_vec();
    wide[59] = 2;
    let (mut kinds, mut namers, mut steps) = ([7; 17], [7; 17], [7; 17]);
    let refusal = check_ordered_into(&wide, &[99], &mut kinds, &mut namers, &mut steps).expect_err("its texts are UTF-16");
    assert_eq!((refusal, kinds, namers, steps), (Refusal { rule: Rule::TextEncoding, page: None }, [7; 17], [7; 17], [7; 17]));
    assert!(check_ordered_into(&wide, &[], &mut kinds, &mut namers, &mut steps).is_ok());
}

#[test]
fn records_have_an_order() {
    let rising: [&[u8]; 9] =
        [&[1], &[2, 0], &[3, 0, 0], &[2, 8], &[2, 7, 0, 0, 0, 0, 0, 0, 0, 1], &[2, 9], &[2, 15, b'a'], &[2, 17, b'a', 0], &[2, 14, b'a']];
    for (i, a) in rising.iter().enumerate() {
        for (j, b) in rising.iter().enumerate() {
            assert_eq!(Record::new(a).expect("it reads").order(&Record::new(b).expect("it reads")), i.cmp(&j), "{a:?} {b:?}");
        }
    }
}

#[test]
fn a_proposal_is_checked() {
    let proposal = check(IMAGE).expect("the example is accepted").to_bytes();
    assert_eq!(proposal[..14], [0, 0, 0, 1 + 9 * 17, 1, 1, 0, 0, 0, 0, 0, 0, 0, 0]);
    assert_eq!(check_proposal(IMAGE, &proposal), Ok(Proposal::Is));
    // A file of two pages, a schema with one root.
    let two = [0, 0, 0, 0x13, 1, 1, 0, 0, 0, 0, 0, 0, 0, 0, 1, 0, 0, 0, 1, 0, 0, 0, 1];
    assert_eq!(check(TWO_PAGES).expect("two pages are accepted").to_bytes(), two);
    assert_eq!(check_proposal(TWO_PAGES, &two), Ok(Proposal::Is));
    for (at, page) in [(0, 0), (3, 0), (4, 0), (5, 1), (13, 1), (14, 2), (proposal.len() - 1, 17)] {
        let mut changed = proposal.clone();
        changed[at] ^= 4;
        let answer = if page == 0 { Proposal::Malformed } else { Proposal::Differs(page) };
        assert_eq!(check_proposal(IMAGE, &changed), Ok(answer), "byte {at}");
    }
    for length in [0, 4, 5, proposal.len() - 1] {
        assert_eq!(check_proposal(IMAGE, &proposal[..length]), Ok(Proposal::Malformed));
    }
    let longer: Vec<u8> = proposal.iter().copied().chain([0]).collect();
    assert_eq!(check_proposal(IMAGE, &longer), Ok(Proposal::Malformed));
    assert_eq!(check_proposal(&[], &proposal).expect_err("the image is refused first").rule, Rule::ShortImage);
}

#[test]
fn pages_past_the_count_are_ignored() {
    // More are present than a database may have: zeros, hardly any of which are ever touched.
    let mut image = vec![0; (MAX_PAGES + 1) * 512];
    image[..IMAGE.len()].copy_from_slice(IMAGE);
    assert_eq!(check(&image), check(IMAGE));
    assert_eq!(lookup(&image, 2, 3), lookup(IMAGE, 2, 3));
    assert_eq!(lookup(&image, 18, 3), Err(Refusal { rule: Rule::PointerRange, page: None }));
    assert_eq!(payload(&image, 18, 0, &mut []), Err(Refusal { rule: Rule::NoSuchPlace, page: None }));
    // Recovery shows all pages present.
    assert_eq!(log_page(&[], &image, 1), Err(Refusal { rule: Rule::TooManyPages, page: None }));
    assert_eq!(log_page(&[], &image[..18 * 512], 18), Ok(&[0; 512][..]));
    // Once 24 and 92 differ the count does not hold; where they agree it must not be too large.
    image[24] ^= 1;
    assert_eq!(check(&image), Err(Refusal { rule: Rule::TooManyPages, page: None }));
    image[28] = 1;
    assert_eq!(check(&image[..IMAGE.len()]), check(IMAGE));
    image[24] ^= 1;
    assert_eq!(check(&image), Err(Refusal { rule: Rule::BadPageCount, page: None }));
}

#[test]
fn pointer_maps_are_checked() {
    let ledger = check(VACUUM).expect("the file is accepted");
    assert_eq!((ledger.kind(2), ledger.namer(2)), (Some(Kind::PointerMap), None));
    assert_eq!((ledger.kind(3), ledger.namer(3)), (Some(Kind::Root), Some(1)));
    let damaged = |at: usize, byte: u8| {
        let mut image = VACUUM.to_vec();
        image[at] = byte;
        check(&image).expect_err("it is damaged")
    };
    assert_eq!(damaged(512 + 44, 10), Refusal { rule: Rule::MapEntry, page: Some(11) });
    assert_eq!(damaged(55, 3), Refusal { rule: Rule::LargestRoot, page: Some(1) });
    assert_eq!(damaged(35, 2), Refusal { rule: Rule::NamedTwice, page: Some(2) });
    assert_eq!(damaged(55, 0), Refusal { rule: Rule::IncrementalVacuum, page: None });
}

/// A file of 16,385 pages of 65,536 bytes: an empty schema, one full trunk with its leaves, and the page that holds byte 1073741824.
#[test]
fn the_lock_byte_page_has_no_namer() {
    const SIZE: usize = 65536;
    const LOCK: u32 = 16385;
    let mut image = vec![0; LOCK as usize * SIZE];
    image[..24].copy_from_slice(b"SQLite format 3\0\0\x01\x01\x01\0@  ");
    for (at, number) in [(24, 1), (28, LOCK), (32, 2), (36, LOCK - 2), (92, 1), (SIZE + 4, LOCK - 3)] {
        image[at..at + 4].copy_from_slice(&u32::to_be_bytes(number));
    }
    image[100] = 13;
    for leaf in 3..LOCK {
        let at = SIZE + 8 + 4 * (leaf as usize - 3);
        image[at..at + 4].copy_from_slice(&leaf.to_be_bytes());
    }
    let ledger = check(&image).expect("the file is accepted");
    assert_eq!((ledger.kind(LOCK), ledger.namer(LOCK)), (Some(Kind::LockByte), None));
    assert_eq!((ledger.kind(LOCK - 1), ledger.namer(LOCK - 1)), (Some(Kind::FreeLeaf), Some(2)));
    // Its last leaf is that page.
    image[SIZE + 8 + 4 * 16381 + 3] = 1;
    assert_eq!(check(&image), Err(Refusal { rule: Rule::NamedTwice, page: Some(LOCK) }));
}

#[test]
fn a_row_is_read() {
    let cell = lookup(IMAGE, 2, 3).expect("no refusal").expect("the row is there");
    let mut room = [0xaa; 4000];
    let bytes = payload(IMAGE, cell.page, cell.cell, &mut room).expect("the payload is there").to_vec();
    assert_eq!(bytes.len(), cell.length);
    assert!(room[bytes.len()..].iter().all(|&byte| byte == 0xaa));
    let record = Record::new(&bytes).expect("a record");
    let note = "low voltage; ".repeat(150);
    assert_eq!(record.columns(), 3);
    assert_eq!(record.values().collect::<Vec<_>>(), [Value::Text(b"faults"), Value::Integer(-3), Value::Text(note.as_bytes())]);
    assert_eq!((record.column(0), record.column(4)), (None, None));
    assert_eq!(lookup(IMAGE, 2, 4), Ok(None));
    assert_eq!(lookup(IMAGE, 18, 4), Err(Refusal { rule: Rule::PointerRange, page: None }));
    assert_eq!(payload(IMAGE, 2, 3, &mut room), Err(Refusal { rule: Rule::NoSuchPlace, page: None }));
    assert_eq!(payload(IMAGE, 2, 2, &mut []), Err(Refusal { rule: Rule::SmallOutput, page: None }));
    assert!(Record::new(&[]).is_none());
}

#[test]
fn a_database_is_read() {
    let database = Database::new(IMAGE).expect("the example is accepted");
    let mut room = [0; 4000];
    for row in database.rows(2).map(|row| row.expect("no row is refused")) {
        assert_eq!(database.lookup(2, row.number), Ok(Some(row.cell())));
        let fetched = database.payload(row.cell(), &mut room).expect("every payload is fetched");
        assert_eq!(fetched.len(), row.length);
    }
    assert_eq!(database.lookup(2, 4), Ok(None));
    // Pages that the check says nothing about are no roots, and have no cells.
    for page in [3, 4, 14, 15] {
        let refusal = Refusal { rule: Rule::PageType, page: Some(page) };
        assert_eq!(database.lookup(page, 1), Err(refusal));
        assert_eq!(database.payload(Cell { page, cell: 0, length: 0 }, &mut room), Err(refusal));
    }
    assert_eq!(database.lookup(18, 1), Err(Refusal { rule: Rule::PointerRange, page: None }));
    assert!(Database::new(&IMAGE[..100]).is_err());
}

#[test]
fn rows_are_listed() {
    let database = Database::new(IMAGE).expect("the example is accepted");
    let rows: Vec<Row> = database.rows(2).collect::<Result<_, _>>().expect("no row is refused");
    assert_eq!(rows.iter().map(|row| row.number).collect::<Vec<_>>(), [1, 2, 3]);
    for row in &rows {
        let cell = lookup(IMAGE, 2, row.number).expect("no refusal").expect("the row is there");
        assert_eq!((cell.page, cell.cell, cell.length), (row.page, row.cell, row.length));
    }
    let numbers = |rows: Rows| rows.map(|row| row.expect("no refusal").number).collect::<Vec<_>>();
    assert_eq!(numbers(database.rows_from(2, 2)), [2, 3]);
    assert_eq!(numbers(database.rows_from(2, i64::MIN)), [1, 2, 3]);
    assert_eq!(numbers(database.rows_from(2, 4)), []);
    assert_eq!(numbers(Rows::unchecked(IMAGE, 2, None, 1000).expect("few pages")), [1, 2, 3]);
    assert_eq!(numbers(Rows::unchecked(IMAGE, 2, Some(3), 1000).expect("few pages")), [3]);
    // A table's rows, and the schema's, are as many as lookups find.
    for root in [1, 7] {
        let all = numbers(database.rows(root));
        assert!(all.windows(2).all(|pair| pair[0] < pair[1]));
        assert!(all.iter().all(|&row| lookup(IMAGE, root, row).expect("no refusal").is_some()));
    }
    // Roots that are none: out of range, an index, an overflow page. After a refusal there is nothing more.
    let refused = |root, rule, page| {
        let mut rows = database.rows(root);
        assert_eq!(rows.next(), Some(Err(Refusal { rule, page })));
        assert_eq!(rows.next(), None);
    };
    refused(18, Rule::PointerRange, None);
    refused(0, Rule::PointerRange, None);
    refused(6, Rule::PageType, Some(6));
    refused(4, Rule::PageType, Some(4));
}

#[test]
fn every_row_has_a_record() {
    let database = Database::new(IMAGE).expect("the example is accepted");
    let mut room = vec![0; MAX_PAYLOAD];
    for root in [1, 2, 7] {
        for row in database.rows(root) {
            let row = row.expect("no refusal");
            assert!(database.record(&row, &mut room).expect("it reads").columns() >= 3);
            assert!(database.record(&row, &mut room[..row.length - 1]).is_none());
            assert!(database.record(&Row { cell: 1000, ..row }, &mut room).is_none());
        }
    }
    // Page 14 is free; it gets what page 13, a leaf, holds: rows that look deleted.
    let mut image = IMAGE.to_vec();
    image.copy_within(12 * 512..13 * 512, 13 * 512);
    assert!(urkibasko::payload(&image, 14, 0, &mut room).is_ok());
    let database = Database::new(&image).expect("a free page is not judged");
    let deleted = Row { number: 1, page: 14, cell: 0, length: 33 };
    assert!(database.record(&deleted, &mut room).is_none());
    assert!(database.record(&Row { page: 13, ..deleted }, &mut room).is_some());
    // A header length that is not that of its types.
    let mut damaged = IMAGE.to_vec();
    damaged[976] += 1;
    assert_eq!(check(&damaged).expect_err("a record does not read"), Refusal { rule: Rule::BadRecord, page: Some(2) });
}

#[test]
fn unchecked_rows_have_a_bound() {
    // Page 2 has itself as each of its children: over 3 to the 19th ways down.
    let mut image = IMAGE.to_vec();
    image[512..1024].fill(0);
    image[512..524].copy_from_slice(&[5, 0, 0, 0, 2, 1, 246, 0, 0, 0, 0, 2]);
    image[524..528].copy_from_slice(&[1, 246, 1, 251]);
    image[512 + 502..1024].copy_from_slice(&[0, 0, 0, 2, 1, 0, 0, 0, 2, 2]);
    assert_eq!(Rows::unchecked(&image, 2, None, 1_000_000).expect_err("too many pages"), TooManyPages { root: 2, most: 1_000_000 });
    // With itself as its only child it is met at level 21.
    image[512..1024].fill(0);
    image[512..524].copy_from_slice(&[5, 0, 0, 0, 0, 2, 0, 0, 0, 0, 0, 2]);
    let mut rows = Rows::unchecked(&image, 2, None, 1000).expect("20 pages");
    assert_eq!(rows.next(), Some(Err(Refusal { rule: Rule::TreeLevel, page: Some(2) })));
    // Bytes that are no image are refused by a rule.
    let mut rows = Rows::unchecked(&image[..100], 2, None, 1000).expect("no pages");
    assert_eq!(rows.next(), Some(Err(Refusal { rule: Rule::ShortImage, page: None })));
}

#[test]
fn a_column_is_summed_up() {
    let report = |image: &[u8], root, column, room: &mut [u8]| Database::new(image).expect("it is accepted").report(root, column, room);
    // The example's integers are no reals.
    let mut room = [0xaa; 4000];
    let none = Summary { count: 0, least: 0.0, greatest: 0.0, sum: Some(0.0) };
    assert_eq!((report(IMAGE, 2, 2, &mut room), none.mean()), (Ok(none), None));
    // Its first row is changed into a record of one real: the text and the integer are as long as that.
    let cell = lookup(IMAGE, 2, 1).expect("no refusal").expect("the row is there");
    let record = payload(IMAGE, cell.page, cell.cell, &mut room).expect("the payload is there").to_vec();
    let at = IMAGE.windows(record.len()).position(|bytes| bytes == record).expect("the record stands in the image");
    let mut image = IMAGE.to_vec();
    let length = record.len();
    image[at..at + 3].copy_from_slice(&[3, 7, (length - 11) as u8 * 2 + 12]);
    image[at + 3..at + 11].copy_from_slice(&(-2.5f64).to_be_bytes());
    let summary = report(&image, 2, 1, &mut room).expect("it is summed up");
    assert_eq!((summary, summary.mean()), (Summary { count: 1, least: -2.5, greatest: -2.5, sum: Some(-2.5) }, Some(-2.5)));
    assert_eq!(report(&image, 3, 1, &mut room), Err(Refusal { rule: Rule::PageType, page: Some(3) }));

    assert_eq!(report(IMAGE, 2, 1, &mut []), Err(Refusal { rule: Rule::SmallOutput, page: None }));
    assert_eq!(report(IMAGE, 99, 1, &mut room), Err(Refusal { rule: Rule::PointerRange, page: None }));
    // A record that does not read: the image is refused before anything is asked of it.
    image[at] = 99;
    assert_eq!(Database::new(&image).map(|_| ()), Err(Refusal { rule: Rule::BadRecord, page: Some(2) }));
}

#[test]
fn nothing_to_recover_shows_the_image() {
    assert_eq!(log_page(&[], IMAGE, 2), Ok(&IMAGE[512..1024]));
    assert_eq!(log_page(&[], IMAGE, 18), Err(Refusal { rule: Rule::NoSuchPlace, page: None }));
    let mut out = vec![0; IMAGE.len() + 1];
    let recovered = log_recover(&[], IMAGE, &mut out).expect("the image is copied");
    assert_eq!((recovered.pages, recovered.length), (17, IMAGE.len()));
    assert_eq!(&out[..IMAGE.len()], IMAGE);
    let recovered = journal_recover(&[], b"any bytes", &mut out).expect("the bytes are copied");
    assert_eq!((recovered.pages, recovered.length), (0, 9));
    assert_eq!(&out[..9], b"any bytes");
    assert_eq!(journal_recover(&[], IMAGE, &mut out[..10]).expect_err("no room").rule, Rule::SmallOutput);
}

#[test]
fn a_view_of_a_log() {
    const LOG: &[u8] = include_bytes!("../../../crates/wal_vectors/data/leftovers.log");
    const BESIDE: &[u8] = include_bytes!("../../../crates/wal_vectors/data/image-14.db");
    let view = LogView::new(LOG, BESIDE).expect("a commit");
    assert_eq!((view.pages(), view.page_size()), (14, 512));
    assert_eq!((view.frame(13), view.frame(14), view.frame(0), view.frame(15)), (None, Some(1), None, None));
    assert_eq!(view.page(14), Ok(&LOG[32 + 24..32 + 24 + 512]));
    for page in (0..20).chain([u32::MAX]) {
        assert_eq!(view.page(page), log_page(LOG, BESIDE, page));
    }
    assert_eq!(view.page(15), Err(Refusal { rule: Rule::NoSuchPlace, page: None }));
    let short = LogView::new(LOG, &BESIDE[..512]).expect("no page is looked for");
    assert_eq!(short.page(2), Err(Refusal { rule: Rule::PageNowhere, page: None }));
    let alone = LogView::new(&[], IMAGE).expect("an image");
    assert_eq!((alone.pages(), alone.page(2)), (17, Ok(&IMAGE[512..1024])));
    assert_eq!(LogView::new(&[], &IMAGE[..700]).expect_err("part of a page").rule, Rule::PartialPage);
}

#[test]
fn varints() {
    let mut out = [0; 9];
    for value in [0, 1, 127, 128, -1, i64::MAX, i64::MIN] {
        let length = varint::write(value, &mut out).expect("room");
        assert_eq!(varint::read(&out), Some(Varint { value, length, shortest: true }));
        assert_eq!(varint::read(&out[..length - 1]), None);
    }
    assert_eq!(varint::write(128, &mut out[..1]), None);
    assert_eq!(varint::read(&[0x80, 1]), Some(Varint { value: 1, length: 2, shortest: false }));
    assert_eq!(varint::read(&[0xff; 9]), Some(Varint { value: -1, length: 9, shortest: true }));
}

#[test]
fn logs_say_why_they_end() {
    use urkibasko::{log_inspect, LogHeader, LogStop};
    let read =
        |name: &str| std::fs::read(format!("{}/../../crates/wal_vectors/data/{name}.log", env!("CARGO_MANIFEST_DIR"))).expect("the log is there");
    // Whole frames, those that count, those in force, n, and the reason.
    for (name, numbers, stop) in [
        ("commits", (3, 3, 3, 2), LogStop::End),
        ("open", (13, 13, 3, 2), LogStop::End),
        ("bad-frame", (13, 1, 0, 0), LogStop::Sums),
        ("leftovers", (17, 1, 1, 14), LogStop::Salts),
        ("number-0", (3, 2, 2, 2), LogStop::ZeroNumber),
        ("lock-page", (3, 2, 2, 2), LogStop::LockByte),
        ("size-2200001", (3, 3, 3, 2_200_001), LogStop::End),
    ] {
        let told = log_inspect(&read(name));
        assert_eq!((told.header, told.stop), (LogHeader::Accepted, stop), "{name}");
        assert_eq!((told.frames, told.counting, told.in_force, told.pages), numbers, "{name}");
        assert_eq!((told.page_size, told.nothing_to_recover()), (512, told.in_force == 0), "{name}");
    }
    let open = read("open");
    assert_eq!(log_inspect(&open[..open.len() - 1]).stop, LogStop::Cut);
    for (name, header, refusal) in [
        ("bad-magic", LogHeader::Magic, None),
        ("bad-sums", LogHeader::Sums, None),
        ("version", LogHeader::Accepted, Some(Rule::LogVersion)),
        ("page-size", LogHeader::Accepted, Some(Rule::RecoverySize)),
    ] {
        let told = log_inspect(&read(name));
        assert_eq!((told.header, told.refusal), (header, refusal), "{name}");
        assert_eq!((told.page_size, told.frames, told.nothing_to_recover()), (0, 0, refusal.is_none()), "{name}");
    }
}

#[test]
fn journals_say_why_they_end() {
    use urkibasko::{journal_inspect, JournalHeader, JournalStop};
    let read = |name: &str| {
        std::fs::read(format!("{}/../../crates/journal_vectors/data/{name}.journal", env!("CARGO_MANIFEST_DIR"))).expect("the journal is there")
    };
    // Segments, records that count, those laid down, n, the refusal and the reason.
    for (name, numbers, refusal, stop) in [
        ("all", (1, 8, 8, 10), None, JournalStop::All),
        ("above-n", (1, 8, 7, 10), None, JournalStop::All),
        ("twice", (1, 8, 8, 10), Some(Rule::RecordedTwice), JournalStop::All),
        ("n-2200001", (1, 8, 8, 2_200_001), Some(Rule::RecoveredPages), JournalStop::All),
        ("bad-sum", (1, 1, 1, 10), None, JournalStop::Sum),
        ("number-0", (1, 1, 1, 10), None, JournalStop::ZeroNumber),
        ("segments", (3, 6, 6, 10), None, JournalStop::Magic),
        ("segments-above-n", (2, 4, 3, 10), None, JournalStop::End),
        ("segments-page-size", (1, 2, 2, 10), None, JournalStop::Sizes),
    ] {
        let told = journal_inspect(&read(name));
        assert_eq!((told.header, told.refusal, told.stop), (JournalHeader::There, refusal, stop), "{name}");
        assert_eq!((told.segments, told.counting, told.laid, told.pages), numbers, "{name}");
    }
    let all = read("all");
    assert_eq!(journal_inspect(&all[..all.len() - 1]).stop, JournalStop::Cut);
    assert_eq!(journal_inspect(&read("sector")).refusal, Some(Rule::RecoverySize));
    assert!(journal_inspect(&read("d6")).nothing_to_recover());
}

#[test]
fn a_journal_names_its_super_journal() {
    use urkibasko::journal_super;
    let end = |name: &[u8], sum: u32| {
        [b"before", name, &(name.len() as u32).to_be_bytes(), &sum.to_be_bytes(), &[0xd9, 0xd5, 0x05, 0xf9, 0x20, 0xa1, 0x63, 0xd7]].concat()
    };
    let journal = end(b"/a-mj1", 47 + 97 + 45 + 109 + 106 + 49);
    assert_eq!(journal_super(&journal), Some(&b"/a-mj1"[..]));
    // What is told is a part of the journal: it begins where the name does.
    assert_eq!(journal_super(&journal).map(|name| name.as_ptr()), Some(journal[6..].as_ptr()));
    assert_eq!(journal_super(&end(b"/a-mj1", 0)), None);
    assert_eq!(journal_super(&end(&[0xff], u32::MAX)), Some(&[0xff][..]));
    assert_eq!(journal_super(&end(&[0xff], 255)), None);
    assert_eq!(journal_super(&end(b"\0a", 97)), None);
    assert_eq!(journal_super(&journal[..journal.len() - 1]), None);
    assert_eq!(journal_super(&[]), None);
}
