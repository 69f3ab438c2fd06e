//! Holds every exported function of the proved library against the straightforward reader: answers, and every byte of every lent buffer.
//!
//! `differential DIR [sample | unread | unreadable | program PATH | sqlite | fresh [sample] | appending [sample] | setting | big]`: DIR has the files that `world`
//! made; `sample` is a short run for valgrind; with `unread` bytes that no answer depends on are changed, with `unreadable` what is never read stands in
//! memory that no one may touch, and nothing else is done: the whole run does both too; with `program` the program check_image is held against the reader
//! instead; with `sqlite` the library is held against the sqlite3 program, on files made anew in DIR; with `fresh` the builder alone is held against sqlite3
//! and, more often, against the reader's; with `appending` the writer of logs alone in the same way; with `big` the library against sqlite3 on files past 1
//! GiB. Exits non-zero where anything differs, or where a refusal that can be given never was.

mod appending;
mod big;
mod fresh;
mod guard;
mod hold;
mod images;
mod ledgers;
mod lock_page;
mod orders;
mod program;
mod proved;
mod quick;
mod records;
mod respell;
mod setting;
mod sides;
mod signals;
mod supers;
mod tables;
mod unread;
mod unreadable;

use std::collections::BTreeMap;
use std::path::{Path, PathBuf};
use std::time::Instant;

use hold::{Held, Hold, Listing, Rooms, Start};
use images::{damage, large_made_by_hand, made_by_hand, made_for_cursors, padded, some_row, Base};
use plain::cursor;
use world::reader::{Plain, Reader};
use world::rng::Rng;
use world::torn::{Kind, Torn};

const USAGE: &str =
    "usage: differential DIR [sample | unread | unreadable | program PATH | sqlite | fresh [sample] | appending [sample] | setting | big]";
/// The seed, where the environment gives no other in SEED.
const SEED: u64 = 20240607;
const WORKERS: u64 = 2;
/// What the library may use of the stack, whatever it is given, along with the test itself.
const STACK: usize = 1 << 20;

/// What the cases are drawn from.
struct Pool {
    bases: Vec<Base>,
    /// Drawn from seldom, for the time that they take.
    large: Vec<Base>,
    logs: Vec<Torn>,
    journals: Vec<Torn>,
    records: Vec<Vec<u8>>,
}

/// How many cases of each sort.
struct Plan {
    seed: u64,
    images: u64,
    sides: u64,
    records: u64,
    /// Journals' ends.
    supers: u64,
    reports: u64,
    /// Images with indexes named.
    ordered: u64,
    builds: u64,
    /// Commits appended to logs.
    appends: u64,
    /// Rows set.
    sets: u64,
    heap: bool,
}

fn main() {
    let mut args = std::env::args().skip(1);
    let dir = PathBuf::from(args.next().expect(USAGE));
    let mode = args.next();
    let seed = std::env::var("SEED").ok().map_or(SEED, |seed| seed.parse().expect("SEED is a number"));
    if mode.as_deref() == Some(unreadable::MODE) {
        return unreadable::cases();
    }
    println!("seed {seed}");
    if mode.as_deref() == Some("program") {
        let path = PathBuf::from(args.next().expect("the program's path"));
        return program::compare(&path, &Pool::read(&dir, 66_000).bases, seed);
    }
    if mode.as_deref() == Some("sqlite") {
        return world::against::sqlite(&proved::Proved, &dir);
    }
    if mode.as_deref() == Some("unread") {
        return unread::compare(&Pool::read(&dir, 160_000).bases, seed, 50);
    }
    if mode.as_deref() == Some("fresh") {
        let heap = args.next().as_deref() == Some("sample");
        if !heap {
            std::fs::create_dir_all(&dir).expect("the folder comes");
            println!("against sqlite3: {:?}", world::fresh::sqlite(&proved::Proved, &dir));
        }
        return fresh_files(seed, if heap { 300 } else { 20_000 }, heap);
    }
    if mode.as_deref() == Some("appending") {
        let heap = args.next().as_deref() == Some("sample");
        return appended(&dir, seed, if heap { 300 } else { 20_000 }, heap);
    }
    if mode.as_deref() == Some("setting") {
        if args.next().as_deref() == Some("sqlite") {
            std::fs::create_dir_all(&dir).expect("the folder comes");
            return println!("{:?}", world::setting::compare(&proved::Proved, &dir));
        }
        return set_rows(&dir, seed, 40_000);
    }
    if mode.as_deref() == Some("big") {
        return world::big::sqlite(&proved::Proved, &dir);
    }
    let sample = mode.as_deref() == Some("sample");
    let plan = if sample {
        Plan {
            seed,
            images: 2000,
            sides: 1500,
            records: 3000,
            supers: 3000,
            reports: 600,
            ordered: 500,
            builds: 100,
            appends: 500,
            sets: 500,
            heap: true,
        }
    } else {
        Plan {
            seed,
            images: 60_000,
            sides: 40_000,
            records: 200_000,
            supers: 200_000,
            reports: 30_000,
            ordered: 40_000,
            builds: 6000,
            appends: 20_000,
            sets: 40_000,
            heap: false,
        }
    };
    let start = Instant::now();
    let pool = Pool::read(&dir, if sample { 40_000 } else { 160_000 });
    let mut met = Met::new();
    std::thread::scope(|scope| {
        let small = || std::thread::Builder::new().stack_size(STACK);
        let mut workers = vec![small().spawn_scoped(scope, || exact(&dir, &pool, &plan))];
        for worker in 0..WORKERS {
            let (pool, plan) = (&pool, &plan);
            workers.push(small().spawn_scoped(scope, move || random(pool, plan, worker)));
        }
        for worker in workers {
            for (key, count) in worker.expect("a thread starts").join().expect("a worker ends") {
                *met.entry(key).or_insert(0) += count;
            }
        }
    });
    report(&met, sample);
    // Not under valgrind: it maps more than that has.
    if !sample {
        unreadable::apart(&dir);
    }
    // All rows of an image are listed before and after each change: under valgrind of few.
    // From the first on that has reserved ends: free pages and gaps are in its neighbours too.
    let reserved = pool.bases.iter().position(|base| base.image.get(20).is_some_and(|&reserved| reserved > 0)).unwrap_or(0);
    let bases = if sample { &pool.bases[reserved..pool.bases.len().min(reserved + 8)] } else { &pool.bases[..] };
    unread::compare(bases, seed, if sample { 1 } else { 50 });
    println!("no difference ({:.1?})", start.elapsed());
}

/// The builder alone.
fn fresh_files(seed: u64, count: u64, heap: bool) {
    let start = Instant::now();
    let mut hold = Hold::new(heap);
    let mut met = fresh::exact(heap, &mut hold).unwrap_or_else(|difference| {
        println!("fresh files: {difference}");
        std::process::exit(1);
    });
    let mut builds = fresh::Builds::new(heap);
    for i in 0..count {
        let (name, held) = fresh::case(&mut builds, &mut hold, &mut Rng::new(seed.wrapping_mul(1_000_003).wrapping_add(i)));
        insist(&format!("fresh file case {i} ({name})"), held);
    }
    for (key, count) in builds.met {
        *met.entry(key).or_insert(0) += count;
    }
    for ((what, answer), count) in met {
        println!("{what}: {answer}:{count}");
    }
    println!("no difference ({:.1?})", start.elapsed());
}

/// Commits appended to logs alone.
fn appended(dir: &Path, seed: u64, count: u64, heap: bool) {
    let start = Instant::now();
    let logs = world::appending::caught(dir);
    if !heap {
        println!("against sqlite3: {:?} ({:.1?})", world::appending::compare(&proved::Proved, dir, &logs), start.elapsed());
    }
    let mut hold = Hold::new(heap);
    insist("inputs made by hand", appending::by_hand(&mut hold));
    for torn in logs.iter().step_by(if heap { 9 } else { 1 }) {
        insist(&torn.name, appending::exact(torn, heap, &mut hold));
    }
    for i in 0..count {
        let mut rng = Rng::new(seed.wrapping_mul(1_000_003).wrapping_add(i));
        let torn = rng.pick(&logs);
        insist(&format!("commit case {i} ({})", torn.name), appending::case(torn, &mut hold, &mut rng));
    }
    for ((what, answer), count) in hold.met {
        println!("{what}: {answer}:{count}");
    }
    println!("no difference ({:.1?})", start.elapsed());
}

/// Rows set alone; DIR has the files that `world` made.
fn set_rows(dir: &Path, seed: u64, count: u64) {
    let start = Instant::now();
    let pool = Pool::read(dir, 160_000);
    let mut hold = Hold::new(false);
    insist("rows set by hand", setting::by_hand(&mut hold));
    for i in 0..count {
        let mut rng = Rng::new(seed.wrapping_mul(1_000_003).wrapping_add(i));
        let base = rng.pick(&pool.bases);
        insist(&format!("set case {i} ({})", base.name), setting::case(base, &mut hold, &mut rng));
    }
    for ((what, answer), count) in hold.met {
        println!("{what}: {answer}:{count}");
    }
    println!("no difference ({:.1?})", start.elapsed());
}

/// Stops at the first difference.
fn insist(case: &str, held: Held) {
    if let Err(difference) = held {
        println!("{case}: {difference}");
        std::process::exit(1);
    }
}

impl Pool {
    fn read(dir: &Path, most: usize) -> Pool {
        let mut names: Vec<PathBuf> = std::fs::read_dir(dir).expect("the folder is there").map(|entry| entry.expect("an entry").path()).collect();
        names.sort();
        let read = |path: &Path| std::fs::read(path).expect("the file is read");
        let mut pool = Pool { bases: Vec::new(), large: Vec::new(), logs: Vec::new(), journals: Vec::new(), records: Vec::new() };
        for path in &names {
            let name = path.file_name().and_then(|name| name.to_str()).expect("a name");
            let side = |kind, suffix: &str| Torn {
                name: name.to_owned(),
                kind,
                image: read(Path::new(path.to_str().expect("text").trim_end_matches(suffix))),
                side: read(path),
            };
            let small = std::fs::metadata(path).expect("a file").len() <= (if name.ends_with(".db") { most } else { 3 * most }) as u64;
            if small && name.ends_with(".db") && name != "recovered.db" {
                pool.bases.push(Base::new(name, read(path)));
            } else if small && name.ends_with("-wal") && name.contains(".db.") {
                pool.logs.push(side(Kind::Log, "-wal"));
            } else if small && name.ends_with("-journal") && name.contains(".db.") {
                pool.journals.push(side(Kind::Journal, "-journal"));
            }
        }
        let two_pages = read(&dir.join("single-512.db"));
        pool.bases.extend(made_by_hand(&two_pages));
        pool.bases.extend(orders::long_keys(&two_pages));
        // One in four once more with numbers spelled long.
        let mut rng = Rng::new(SEED);
        let respelled: Vec<Base> = pool.bases.iter().step_by(4).filter_map(|base| respell::respelled(base, &mut rng)).collect();
        pool.bases.extend(respelled);
        pool.large = large_made_by_hand(&two_pages, &read(&dir.join("single-65536.db")));
        pool.large.extend(padded(&pool.bases, 8));
        for base in pool.bases.iter().chain(&pool.large) {
            let bad = base.image.is_empty()
                || ["tower-21", "tower-22", "uneven", "full-13-level-21", "full-10-level-21"].contains(&base.name.as_str())
                || ["counted-4097", "counted-4101", "stale-2"].contains(&base.name.as_str());
            assert_eq!(base.accepted(), !bad, "{}", base.name);
        }
        pool.bases.extend(made_for_cursors(&two_pages));
        for caught in [&mut pool.logs, &mut pool.journals] {
            caught.retain(|torn| torn.image.len() <= 4 * most);
        }
        for (torn, refusal) in sides::journals_made_by_hand() {
            let answer = Plain.journal_recover(&torn.side, &torn.image, &mut vec![0; 1 << 16]);
            assert_eq!(answer.refusal, refusal, "{}", torn.name);
            pool.journals.push(torn);
        }
        for base in &pool.bases {
            for page in 1..=(base.image.len() / 512).min(20) as u32 {
                for cell in 0..3 {
                    let mut out = vec![0; 65536];
                    let answer = Plain.payload_fetch(&base.image, page, cell, &mut out);
                    if answer.refusal == 0 && answer.length < 5000 {
                        pool.records.push(out[..answer.length as usize].to_vec());
                    }
                }
            }
        }
        println!("{} images, {} logs, {} journals, {} records", pool.bases.len(), pool.logs.len(), pool.journals.len(), pool.records.len());
        pool
    }
}

type Met = BTreeMap<(&'static str, u32), u64>;

/// Everything once as it is, and all short varints.
fn exact(dir: &Path, pool: &Pool, plan: &Plan) -> Met {
    let mut hold = Hold::new(plan.heap);
    for first in 0..=255u8 {
        insist("one byte", hold.varint_read(&[first]));
        for second in (0..=255u8).step_by(if plan.heap { 51 } else { 1 }) {
            insist("two bytes", hold.varint_read(&[first, second]));
        }
    }
    for shift in 0..64 {
        for value in [1i64 << shift, (1i64 << shift).wrapping_sub(1), (-1i64) << shift, !(1i64 << shift)] {
            for room in 0..11 {
                insist(&format!("varint {value}"), hold.varint_write(value, room));
            }
        }
    }
    let mut names: Vec<PathBuf> = std::fs::read_dir(dir).expect("the folder is there").map(|entry| entry.expect("an entry").path()).collect();
    names.sort();
    for path in names.iter().filter(|path| !plan.heap && path.extension().is_some_and(|ending| ending == "db")) {
        let image = std::fs::read(path).expect("the image is read");
        let pages = image.len() / 512;
        insist(&path.display().to_string(), hold.check(&image, Rooms::all(pages)));
        insist(&path.display().to_string(), orders::exact_file(&image, &mut hold));
    }
    for base in pool.bases.iter().chain(&pool.large) {
        let pages = base.image.len() / 512;
        insist(&base.name, hold.check(&base.image, Rooms::all(pages)));
        insist(&base.name, orders::exact(base, &mut hold));
        insist(&base.name, quick::whole(base, if plan.heap { 3 } else { 300 }, &mut hold.met));
        let roots = (0..=pages.min(60) as u32 + 1).chain([u32::MAX]);
        let listings: Vec<Listing> =
            roots.map(|root| Listing { start: Start::First(root), room: cursor::WORDS, steps: if plan.heap { 3 } else { 100 } }).collect();
        insist(&base.name, hold.rows(&base.image, &listings).map(|_| ()));
        insist(&base.name, hold.log_recover(&[], &base.image, base.image.len()));
        insist(&base.name, hold.log_pages(&[], &base.image, &[0, 1, pages as u32, pages as u32 + 1]));
        insist(&base.name, tables::exact(&mut hold, &[], &base.image));
    }
    for (i, torn) in pool.logs.iter().chain(&pool.journals).enumerate() {
        let room = 2 * torn.image.len() + torn.side.len();
        let pages: Vec<u32> = (0..20).chain([16385, 1_048_577, 2_097_153, 2_200_001, u32::MAX]).collect();
        insist(
            &torn.name,
            match torn.kind {
                Kind::Log => appending::exact(torn, plan.heap, &mut hold)
                    .and_then(|()| hold.log_inspect(&torn.side))
                    .and_then(|()| hold.log_recover(&torn.side, &torn.image, room))
                    .and_then(|()| hold.log_pages(&torn.side, &torn.image, &pages))
                    .and_then(|()| tables::exact(&mut hold, &torn.side, &torn.image)),
                Kind::Journal => hold
                    .journal_inspect(&torn.side)
                    .and_then(|()| hold.journal_recover(&torn.side, &torn.image, room))
                    .and_then(|()| supers::real(&torn.side, &mut hold, &mut Rng::new(SEED + i as u64))),
            },
        );
        // Under valgrind a tenth of them: each call clears 275,000 bytes.
        if !plan.heap || i % 10 == 0 {
            insist(&torn.name, sides::cut(torn, &mut hold, if plan.heap { 400 } else { 7 }));
        }
    }
    insist("commits made by hand", appending::by_hand(&mut hold));
    // Not under valgrind: pages of 65,536 bytes, many times over.
    if !plan.heap {
        insist("rows set by hand", setting::by_hand(&mut hold));
    }
    match fresh::exact(plan.heap, &mut hold) {
        Ok(met) => hold.met.extend(met),
        Err(difference) => insist("fresh files", Err(difference)),
    }
    // None of these is for valgrind: it maps more than it has.
    if !plan.heap {
        let start = Instant::now();
        insist("images past 1 GiB", lock_page::aimed(&mut hold.met));
        insist("past 1 GiB", big::aimed());
        insist("tables of frames past 1 GiB", tables::aimed(&mut hold));
        insist("the whole of a file past 1 GiB", big::whole());
        println!("files past 1 GiB: no difference ({:.1?})", start.elapsed());
    }
    hold.met
}

/// One worker's share of the random cases. Each case has a seed of its own, which is told where it fails.
fn random(pool: &Pool, plan: &Plan, worker: u64) -> Met {
    let mut hold = Hold::new(plan.heap);
    let trace = std::env::var_os("TRACE").is_some();
    let mut each = |sort: &str, count: u64, case: &mut dyn FnMut(&mut Hold, &mut Rng) -> (String, Held)| {
        for i in (0..count).filter(|i| i % WORKERS == worker) {
            let seed = plan.seed.wrapping_mul(1_000_003).wrapping_add(i);
            if trace {
                eprintln!("{sort} case {i}");
            }
            let (name, held) = case(&mut hold, &mut Rng::new(seed));
            insist(&format!("{sort} case {i} ({name})"), held);
        }
    };
    let indexed: Vec<usize> = (0..pool.bases.len()).filter(|&base| !pool.bases[base].indexes.is_empty()).collect();
    each("record", plan.records, &mut |hold, rng| ("record".to_owned(), record_case(pool, hold, rng)));
    each("image", plan.images, &mut |hold, rng| {
        let bases = if rng.below(60) == 0 { &pool.large } else { &pool.bases };
        let base = rng.pick(bases);
        (base.name.clone(), image_case(base, hold, rng))
    });
    each("index", plan.ordered, &mut |hold, rng| {
        let base = if rng.below(8) == 0 { rng.pick(&pool.bases) } else { &pool.bases[*rng.pick(&indexed)] };
        (base.name.clone(), orders::case(base, hold, rng))
    });
    each("report", plan.reports, &mut |hold, rng| signals::case(&pool.bases, &pool.large, hold, rng));
    let mut builds = fresh::Builds::new(plan.heap);
    each("fresh file", plan.builds, &mut |hold, rng| fresh::case(&mut builds, hold, rng));
    each("log or journal", plan.sides, &mut |hold, rng| {
        let caught = if rng.below(2) == 0 { &pool.logs } else { &pool.journals };
        let torn = rng.pick(caught);
        (torn.name.clone(), side_case(torn, hold, rng))
    });
    each("commit", plan.appends, &mut |hold, rng| {
        let torn = rng.pick(&pool.logs);
        (torn.name.clone(), appending::case(torn, hold, rng))
    });
    each("set", plan.sets, &mut |hold, rng| {
        let base = rng.pick(&pool.bases);
        (base.name.clone(), setting::case(base, hold, rng))
    });
    each("end of a journal", plan.supers, &mut |hold, rng| {
        let torn = rng.pick(&pool.journals);
        (torn.name.clone(), supers::case(&torn.side, hold, rng))
    });
    hold.met.extend(builds.met);
    hold.met
}

fn some_record(pool: &Pool, rng: &mut Rng) -> Vec<u8> {
    match rng.below(3) {
        0 => rng.pick(&pool.records).clone(),
        1 => made_record(rng),
        _ => {
            let mut bytes = vec![0; rng.below(40)];
            rng.fill(&mut bytes);
            bytes
        }
    }
}

fn damage_record(record: &mut Vec<u8>, rng: &mut Rng) {
    let length = record.len();
    if length > 0 {
        match rng.below(6) {
            0 => record[rng.below(length)] = rng.byte(),
            1 => record[rng.below(length.min(12))] = rng.below(20) as u8,
            2 => record.truncate(rng.below(length)),
            3 => record.push(rng.byte()),
            _ => {}
        }
    }
}

fn record_case(pool: &Pool, hold: &mut Hold, rng: &mut Rng) -> Held {
    let mut record = some_record(pool, rng);
    let mut other = match rng.below(3) {
        0 => some_record(pool, rng),
        _ => record.clone(),
    };
    damage_record(&mut other, rng);
    hold.record_order(&record, &other)?;
    orders::alike(hold, rng)?;
    damage_record(&mut record, rng);
    let count = Plain.record_columns(&record).count;
    hold.record(&record, &[0, 1, 2, 3, 4, 5, 6, count, count.wrapping_add(1), rng.word()])?;
    hold.varint_read(&record)?;
    let value = (rng.word() >> rng.below(64)) as i64;
    hold.varint_write(value, rng.below(12))
}

/// A record of random serial types; NaNs and long spellings among them.
fn made_record(rng: &mut Rng) -> Vec<u8> {
    let mut types = Vec::new();
    let mut values = Vec::new();
    for _ in 0..rng.below(8) {
        let serial = *rng.pick(&[0, 1, 2, 3, 4, 5, 6, 7, 7, 7, 8, 9, 12, 13, 14, 15, 20, 21, 40, 41, 12 + 2 * 70, 13 + 2 * 70]);
        let length = match serial {
            0 | 8 | 9 => 0,
            1..=4 => serial,
            5 => 6,
            6 | 7 => 8,
            _ => (serial - 12) / 2,
        };
        if rng.below(10) == 0 {
            types.push(0x80);
        }
        if serial > 127 {
            types.push(0x80 | (serial >> 7) as u8);
        }
        types.push((serial & 0x7f) as u8);
        let mut value = vec![0; length];
        rng.fill(&mut value);
        if serial == 7 && rng.below(2) == 0 {
            value[0] = 0x7f | rng.byte() & 0x80;
            value[1] = *rng.pick(&[0xf0, 0xf8, 0xef, 0xff]);
            if rng.below(2) == 0 {
                value[2..].fill(0);
            }
        }
        values.extend(value);
    }
    let mut record = vec![types.len() as u8 + 1];
    record.extend(types);
    record.extend(values);
    record
}

fn image_case(base: &Base, hold: &mut Hold, rng: &mut Rng) -> Held {
    let mut image = base.image.clone();
    for _ in 0..*rng.pick(&[0, 1, 1, 1, 1, 2, 2, 3, 5]) {
        damage(base, &mut image, rng);
    }
    if rng.below(200) == 0 {
        let kept = rng.below(100).min(image.len());
        rng.fill(&mut image[kept..]);
    }
    let pages = plain::header::header(&image).map_or(image.len() / 512, |shape| shape.pages);
    let mut room = || match rng.below(40) {
        0 => pages.saturating_sub(1),
        1 => rng.below(pages + 1),
        2..=15 => pages,
        _ => pages + rng.below(9),
    };
    let rooms = Rooms { kinds: room(), namers: room(), steps: room() };
    hold.check(&image, rooms)?;
    if rng.below(2) == 0 {
        ledgers::case(&image, rooms, hold, rng)?;
    }
    let page = |rng: &mut Rng| match rng.below(12) {
        0 => *rng.pick(&[0, pages as u32 + 1, u32::MAX]),
        1..=4 => 1 + rng.below(2) as u32,
        _ => 1 + rng.below(pages.max(1)) as u32,
    };
    let places: Vec<(u32, i64)> = (0..4).map(|_| (page(rng), some_row(&image, rng))).collect();
    hold.lookup(&image, &places)?;
    rows_case(base, &image, &places, hold, rng)?;
    for _ in 0..3 {
        let any = (page(rng), *rng.pick(&[0, 0, 0, 1, 1, 2, 3, 7, 40, 65535, u32::MAX]));
        let (page, cell) = if rng.below(2) == 0 { base.chained_cell(rng).unwrap_or(any) } else { any };
        let length = Plain.payload_fetch(&image, page, cell, &mut [0; 65536]).length as usize;
        let room = match rng.below(4) {
            0 => length.saturating_sub(1),
            1 => 0,
            2 => length,
            _ => length + rng.below(100),
        };
        hold.payload(&image, page, cell, room)?;
        hold.payload_quick(&image, page, cell, room)?;
    }
    Ok(())
}

/// Cursors: started, stepped, and stored paths that are right, of the image before it was damaged, of another image, changed in a word, too deep, or random.
fn rows_case(base: &Base, image: &[u8], places: &[(u32, i64)], hold: &mut Hold, rng: &mut Rng) -> Held {
    let room = |rng: &mut Rng| match rng.below(12) {
        0 => *rng.pick(&[0, 1, 2, 39, 40]),
        1 => cursor::WORDS + 1 + rng.below(6),
        _ => cursor::WORDS,
    };
    let steps = *rng.pick(&[0, 1, 1, 2, 3, 3, 5, 30]);
    let (root, row) = places[0];
    let start = if rng.below(3) == 0 { Start::First(root) } else { Start::Seek(root, row) };
    let stood = hold.rows(image, &[Listing { start, room: room(rng), steps }])?;
    let mut words = match rng.below(8) {
        0 => stood.unwrap_or(hold.stored.clone()),
        // A path of the image as it was.
        1..=3 => {
            let mut words = vec![0; cursor::WORDS];
            match plain::c::rows_seek(&base.image, places[1].0, places[1].1, &mut words, 200) {
                Some(_) => words,
                None => hold.stored.clone(),
            }
        }
        4 => std::mem::replace(&mut hold.stored, stood.unwrap_or(vec![0; cursor::WORDS])),
        5 => {
            let levels = 1 + rng.below(21);
            (0..cursor::WORDS).map(|i| if i == 0 { levels as u32 } else { rng.below(6) as u32 }).collect()
        }
        6 => (0..cursor::WORDS).map(|_| rng.word() as u32 >> rng.below(32)).collect(),
        // A path that goes on in a circle: too deep at level 21.
        _ => {
            let deep = *rng.pick(&[19, 20, 20, 21, 21, 22, u32::MAX]);
            (0..cursor::WORDS)
                .map(|i| {
                    if i == 0 {
                        deep
                    } else if i % 2 == 1 {
                        2 + i as u32 / 2
                    } else {
                        0
                    }
                })
                .collect()
        }
    };
    words.resize(cursor::WORDS, 0);
    match rng.below(5) {
        0 => {
            let at = rng.below(1 + 2 * words[0].min(20) as usize);
            let any = rng.word() as u32;
            words[at] = *rng.pick(&[0, 1, 2, 3, 20, 21, words[at].wrapping_add(1), words[at].wrapping_sub(1), any]);
        }
        // Past the path nothing is read.
        1 => {
            let past = 1 + 2 * words[0].min(20) as usize;
            words[past..].iter_mut().for_each(|word| *word = rng.word() as u32);
        }
        _ => {}
    }
    hold.rows(image, &[Listing { start: Start::Words(words), room: room(rng), steps }]).map(|_| ())
}

fn side_case(torn: &Torn, hold: &mut Hold, rng: &mut Rng) -> Held {
    let (side, image) = sides::damaged(torn, rng);
    let most = 2 * (torn.image.len() + torn.side.len()) + 8192;
    let mut out = vec![0; most];
    let answer = match torn.kind {
        Kind::Log => Plain.log_recover(&side, &image, &mut out),
        Kind::Journal => Plain.journal_recover(&side, &image, &mut out),
    };
    let length = answer.length as usize;
    let room = match rng.below(5) {
        0 => length.saturating_sub(1),
        1 => rng.below(length + 1),
        2 => length,
        _ => length + rng.below(200),
    };
    match torn.kind {
        Kind::Log => {
            hold.log_inspect(&side)?;
            hold.journal_inspect(&side)?;
            hold.log_recover(&side, &image, room)?;
            let pages: Vec<u32> = (0..5)
                .map(|_| match rng.below(8) {
                    0 => *rng.pick(&[0, answer.pages, answer.pages + 1, 2_097_153, u32::MAX]),
                    _ => 1 + rng.below(answer.pages as usize + 2) as u32,
                })
                .collect();
            hold.log_pages(&side, &image, &pages)?;
            tables::random(hold, &side, &image, rng)
        }
        Kind::Journal => {
            hold.journal_inspect(&side)?;
            hold.log_inspect(&side)?;
            hold.journal_recover(&side, &image, room)
        }
    }
}

/// Prints what was met, and insists that every refusal that a function can give was.
fn report(met: &Met, sample: bool) {
    let cursor: Vec<u32> = (1..=11).chain([20, 22, 23, 24, 26, 44, 1000, 1001]).collect();
    let can: [(&str, Vec<u32>); 53] = [
        ("varint_read", vec![0, 1, 2]),
        ("varint_write", vec![0, 1]),
        ("record_columns", vec![0, 1]),
        ("record_column", vec![0, 1, 2]),
        ("record_order", vec![1, 2, 1000, 1001, 1002]),
        ("check", (0..=12).chain(20..=32).collect()),
        ("check_ordered", (0..=12).chain(20..=35).collect()),
        ("33 local, by type", vec![2, 10]),
        ("33 over a chain, by type", vec![2, 10]),
        ("long_spellings", vec![0, 1, 2, 3]),
        ("28 past page 1, local, by type", vec![2, 10, 13]),
        ("28 past page 1, over a chain, by type", vec![2, 10, 13]),
        ("ledger_check", (1..=12).chain(20..=32).chain([1000, 1001, 1002]).collect()),
        ("ledger_write", vec![0, 5, 12, 44]),
        ("lookup", (1..=11).chain([20, 22, 23, 24, 26, 1000, 1001]).collect()),
        ("find", (1..=11).chain([20, 22, 23, 24, 26, 1000, 1001]).collect()),
        ("rows_first", cursor.clone()),
        ("rows_seek", cursor.clone()),
        ("rows_step", cursor.into_iter().chain([49]).collect()),
        ("payload_fetch", (0..=11).chain([20, 22, 23, 26, 27, 44, 46]).collect()),
        ("payload_quick", (0..=11).chain([20, 22, 23, 26, 27, 44, 46]).collect()),
        ("report", (1..=11).chain([20, 22, 23, 24, 26, 27, 28, 44, 1000, 1001]).collect()),
        ("log_page", (1..=5).chain([40, 41, 42, 43, 46, 1000, 1001]).collect()),
        ("log_fill", (1..=5).chain([40, 41, 42, 47, 1000]).collect()),
        ("log_page_by", vec![41, 43, 46, 47, 1000, 1001]),
        ("log_recover", (0..=5).chain([40, 41, 42, 43, 44]).collect()),
        ("journal_recover", vec![0, 41, 42, 43, 44, 45]),
        ("log_inspect", vec![0, 40, 41, 42]),
        ("log_inspect's header", vec![0, 1, 2, 3]),
        ("log_inspect's stop", (0..=5).collect()),
        ("log_inspect, frames in force", vec![0, 1, 2]),
        ("journal_inspect", vec![0, 41, 42, 45]),
        ("journal_inspect's header", vec![0, 1, 2]),
        ("journal_inspect's stop", (0..=7).collect()),
        ("journal_inspect's segments", vec![1, 2, 3]),
        ("journal_super", vec![0, 1]),
        ("journal_super, by its end", supers::SAYS.collect()),
        ("build", vec![0, 5, 26, 28, 44, 48]),
        ("log_tail", vec![40, 41, 42, 44, 50, 1000, 1001]),
        ("log_tail, by the order of bytes", vec![0, 1]),
        ("log_begin", vec![0, 41, 44]),
        ("log_append", vec![0, 41, 42, 44, 47, 51]),
        ("log_append, what 51 is off in", appending::OFF.collect()),
        ("log_append, read back by its own tail", vec![0, 1]),
        ("row_set", (1..=11).chain([20, 22, 23, 24, 26, 28, 53, 54, 1000, 1001]).collect()),
        ("row_set, what 53 and 54 are for", setting::GROUNDS.to_vec()),
        ("row_set, long spellings of its cell", vec![0, 1, 2]),
        ("row_set, just fits", vec![0, 1]),
        ("row_set, forgotten", vec![0]),
        ("quick, whole images", vec![0, 1, 2]),
        ("levels of a fresh file", vec![1, 2, 3]),
        ("children of the last interior page", vec![2, 3]),
        ("chains of a fresh file", vec![0, 1, 2]),
    ];
    for (function, answers) in can {
        let counts: Vec<String> = answers
            .iter()
            .map(|answer| {
                let count = met.get(&(function, *answer)).copied().unwrap_or(0);
                if count == 0 && !sample {
                    println!("{function}: answer {answer} was never met");
                    std::process::exit(1);
                }
                format!("{answer}:{count}")
            })
            .collect();
        println!("{function}: {}", counts.join(" "));
    }
    println!("rows: {} calls that would enter too many pages left out", met.get(&("rows left out", 0)).copied().unwrap_or(0));
    println!("report: {} calls that would look at too many pages left out", met.get(&("report left out", 0)).copied().unwrap_or(0));
}
