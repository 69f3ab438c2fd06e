//! Fresh files: the builder on both sides, every byte of the output, and what the library itself says of its image.

use std::collections::BTreeMap;

use plain::cursor::WORDS;
use world::fresh::{schema, shapes, sized, Fresh, MOST, SQL};
use world::reader::{Plain, Reader};
use world::rng::Rng;

use crate::guard::Guarded;
use crate::hold::{pattern, same, same_bytes, Held, Hold, Listing, Rooms, Start};
use crate::proved::Proved;

/// What is given to the builder. The lists may disagree.
#[derive(Clone, Debug, Default)]
struct Given {
    schema: Vec<u8>,
    rows: Vec<i64>,
    lengths: Vec<u32>,
    payloads: Vec<u8>,
}

impl Given {
    fn of(fresh: &Fresh) -> Given {
        Given { schema: schema(SQL), rows: fresh.numbers(), lengths: fresh.lengths(), payloads: fresh.payloads() }
    }

    fn push(&mut self, row: i64, payload: &[u8]) {
        self.rows.push(row);
        self.lengths.push(payload.len() as u32);
        self.payloads.extend(payload);
    }
}

/// Buffers for one call at a time, each right before memory that no one may touch.
pub struct Builds {
    schema: Guarded,
    rows: Guarded,
    lengths: Guarded,
    payloads: Guarded,
    out: Guarded,
    heap: bool,
    /// How often each answer was given.
    pub met: BTreeMap<(&'static str, u32), u64>,
}

impl Builds {
    pub fn new(heap: bool) -> Builds {
        let room = |bytes| Guarded::new(bytes, heap);
        Builds {
            schema: room(1 << 20),
            rows: room(1 << 20),
            lengths: room(1 << 20),
            payloads: room(32 << 20),
            out: room(MOST + 8192),
            heap,
            met: BTreeMap::new(),
        }
    }

    /// Builds on both sides into so many bytes; the image where there is one.
    fn build(&mut self, given: &Given, room: usize) -> Result<Option<Vec<u8>>, String> {
        let Given { schema, rows, lengths, payloads } = given;
        let mut expected = pattern(room);
        let placed = (self.schema.place(schema), self.rows.place(rows), self.lengths.place(lengths), self.payloads.place(payloads));
        let out = self.out.place(&expected);
        let proved = Proved.build(placed.0, placed.1, placed.2, placed.3, out);
        let plain = Plain.build(schema, rows, lengths, payloads, &mut expected);
        let what = || format!("urk_build of {} rows into {room}", rows.len());
        same(&what(), proved, plain)?;
        same_bytes("urk_build's out", out, &expected)?;
        same_bytes("urk_build's schema", placed.0, schema)?;
        same_bytes("urk_build's rows", placed.1, rows)?;
        same_bytes("urk_build's lengths", placed.2, lengths)?;
        same_bytes("urk_build's payloads", placed.3, payloads)?;
        if !self.out.untouched_before(room) {
            return Err(format!("{}: bytes before its out were touched", what()));
        }
        *self.met.entry(("build", plain.refusal)).or_default() += 1;
        if plain.refusal != 0 {
            return same_bytes("the out of a refusal", &expected, &pattern(room)).map(|()| None);
        }
        expected.truncate(plain.length as usize);
        Ok(Some(expected))
    }

    /// Builds with an output that is longer, just as long, one byte shorter, and empty; then reads the image by the library.
    fn all_rooms(&mut self, given: &Given, hold: &mut Hold) -> Held {
        let Some(image) = self.build(given, if self.heap { 200_000 } else { MOST })? else { return Err("a shape is refused".into()) };
        for room in [image.len() + 1000, image.len()] {
            same("an output of another length", self.build(given, room)?.as_ref() == Some(&image), true)?;
        }
        for room in [image.len() - 1, image.len() - 1024, 1, 0] {
            same("an output too small", self.build(given, room)?.is_none(), true)?;
        }
        let rows = given.rows.len();
        let pages = (rows + rows / 64 + given.payloads.len() / 990 + 4) * 1024;
        same("as many bytes as the header says are enough", image.len() <= pages && image.len() <= MOST, true)?;
        self.read(given, &image, hold)
    }

    /// The library's own verdict, ledgers, lookups, cursor and payloads.
    fn read(&mut self, given: &Given, image: &[u8], hold: &mut Hold) -> Held {
        let pages = image.len() / 1024;
        hold.check(image, Rooms::all(pages))?;
        let (mut kinds, mut namers, mut steps) = (vec![0; pages], vec![0; pages], vec![0; pages]);
        let verdict = Proved.check(image, &mut kinds, &mut namers, &mut steps);
        same("the verdict on it", (verdict.refusal, verdict.pages as usize, verdict.long_spellings), (0, pages, 0))?;
        // The schema's leaf, the root, other tree pages, chains.
        let tree = 1 + kinds.iter().rposition(|&kind| kind == 1 || kind == 6).unwrap_or(0);
        let ordered =
            kinds[..2] == [1, 1] && kinds[2..tree].iter().all(|&kind| kind == 6) && kinds[tree..].iter().all(|&kind| kind == 4 || kind == 5);
        same("the order of its pages", ordered && namers[..2] == [0, 1] && steps[..2] == [0, 1], true)?;
        self.shape(image, &kinds, &namers);
        let mut cursor = [0; WORDS];
        let mut room = vec![0; 65536];
        let mut at = 0;
        let mut step = Proved.rows_first(image, 2, &mut cursor);
        for (&row, &length) in given.rows.iter().zip(&given.lengths) {
            same("the cursor", (step.refusal, step.found, step.row, step.length), (0, 1, row, length))?;
            let found = Proved.lookup(image, 2, row);
            same("lookup", (found.refusal, found.found, found.page, found.cell, found.length), (0, 1, step.page, step.cell, length))?;
            let fetched = Proved.payload_fetch(image, found.page, found.cell, &mut room);
            same("payload", (fetched.refusal, fetched.length), (0, length))?;
            same_bytes("payload", &room[..length as usize], &given.payloads[at..at + length as usize])?;
            at += length as usize;
            for other in [row.checked_sub(1), row.checked_add(1)].into_iter().flatten() {
                same("lookup beside it", Proved.lookup(image, 2, other).found == 1, given.rows.binary_search(&other).is_ok())?;
            }
            step = Proved.rows_step(image, &mut cursor);
        }
        same("the cursor's end", (step.refusal, step.found), (0, 0))?;
        let schema = Proved.lookup(image, 1, 1);
        let fetched = Proved.payload_fetch(image, schema.page, schema.cell, &mut room);
        same_bytes("the schema's record", &room[..fetched.length as usize], &given.schema)?;
        same("the schema's rows", (Proved.lookup(image, 1, 0).found, Proved.lookup(image, 1, 2).found), (0, 0))?;
        hold.rows(image, &[Listing { start: Start::First(2), room: WORDS, steps: 20 }]).map(|_| ())
    }

    /// What the layout had to do: how many levels there are; whether the last interior page took a child of its neighbour's.
    fn shape(&mut self, image: &[u8], kinds: &[u8], namers: &[u32]) {
        let leaf = kinds.iter().rposition(|&kind| kind == 1 || kind == 6).unwrap_or(0) + 1;
        let levels = match namers[leaf - 1] {
            1 => 1,
            2 => 2,
            _ => 3,
        };
        *self.met.entry(("levels of a fresh file", levels)).or_default() += 1;
        let last = namers[leaf - 1] as usize;
        if levels == 3 {
            let children = 1 + u32::from(image[(last - 1) * 1024 + 4]);
            *self.met.entry(("children of the last interior page", children.min(3))).or_default() += 1;
        }
        let overflow = kinds.iter().filter(|&&kind| kind == 4).count();
        *self.met.entry(("chains of a fresh file", overflow.min(2) as u32)).or_default() += 1;
    }
}

/// Each shape, with every length of the output; then each way in which inputs can be off.
pub fn exact(heap: bool, hold: &mut Hold) -> Result<BTreeMap<(&'static str, u32), u64>, String> {
    let mut builds = Builds::new(heap);
    for fresh in shapes() {
        // Under valgrind the long ones take minutes.
        if heap && (fresh.rows.len() > 80 || fresh.payloads().len() > 100_000) {
            continue;
        }
        builds.all_rooms(&Given::of(&fresh), hold).map_err(|difference| format!("{}: {difference}", fresh.name))?;
    }
    refusals(&mut builds)?;
    Ok(builds.met)
}

/// Inputs that are off in one way, or in two of which the first has to be told.
fn refusals(builds: &mut Builds) -> Held {
    let good = || {
        let mut given = Given { schema: schema(SQL), ..Given::default() };
        for row in [-5, 3, 900] {
            given.push(row, &sized(30, row as u64));
        }
        given
    };
    let rows = |count: i64| {
        let mut given = Given { schema: schema(SQL), ..Given::default() };
        (0..count).for_each(|row| given.push(row, &sized(3, 0)));
        given
    };
    let bad_schema = [6, 15, 15, 15, 1, 15, b't', b't', b't', 3, b'c'].to_vec();
    let two = |serial: u8, value: &[u8]| [&[6, 15, 15, 15, serial, 15], &b"ttt"[..], value, &b"c"[..]].concat();
    let text = |length: usize| schema(&"c".repeat(length));
    let long_text = (0..911).find(|&length| text(length).len() == 911).expect("a record of 911 bytes");
    let chains = |count: usize| {
        let mut given = Given { schema: schema(SQL), ..Given::default() };
        (0..count as i64).for_each(|row| given.push(row, &sized(65000, row as u64)));
        given
    };
    let alter = |mut given: Given, change: &dyn Fn(&mut Given)| {
        change(&mut given);
        given
    };
    let cases: Vec<(&str, u32, usize, Given)> = vec![
        ("as it is", 0, MOST, good()),
        ("no rows", 0, 2048, Given { schema: schema(SQL), ..Given::default() }),
        ("no rows, no room", 44, 2047, Given { schema: schema(SQL), ..Given::default() }),
        // 48 in each of its forms, whatever else is off.
        ("equal numbers", 48, MOST, alter(good(), &|g| g.rows[1] = -5)),
        ("falling numbers", 48, MOST, alter(good(), &|g| g.rows[2] = 2)),
        ("unsigned they would rise", 48, MOST, alter(good(), &|g| g.rows = vec![1, 2, -3])),
        ("from the least to the greatest", 0, MOST, alter(good(), &|g| g.rows = vec![i64::MIN, 0, i64::MAX])),
        ("4,096 rows", 0, MOST, rows(4096)),
        ("4,097 rows", 48, MOST, rows(4097)),
        ("a length more", 48, MOST, alter(good(), &|g| g.lengths.push(0))),
        ("a length less", 48, MOST, alter(good(), &|g| g.lengths.truncate(2))),
        ("no lengths", 48, MOST, alter(good(), &|g| g.lengths.clear())),
        ("no numbers", 48, MOST, alter(good(), &|g| g.rows.clear())),
        ("a byte more", 48, MOST, alter(good(), &|g| g.payloads.push(0))),
        ("a byte less", 48, MOST, alter(good(), &|g| g.payloads.truncate(89))),
        ("lengths that add up past 32 bits", 48, MOST, alter(good(), &|g| g.lengths = vec![u32::MAX, 1, 90])),
        ("payloads without rows", 48, MOST, Given { schema: schema(SQL), payloads: vec![1], ..Given::default() }),
        ("48 before 26", 48, 0, alter(chains(1), &|g| g.push(-1, &[0; 65537]))),
        ("48 before 28", 48, 0, alter(good(), &|g| (g.rows[1], g.payloads[0], g.schema) = (-5, 0xff, bad_schema.clone()))),
        // 26.
        ("a payload of 65,537", 26, MOST, alter(good(), &|g| g.push(1000, &sized(65537, 1)))),
        ("26 before 28", 26, 0, alter(good(), &|g| (g.payloads[0], g.schema) = (0xff, bad_schema.clone())).with(1000, &[0; 65537])),
        ("a payload of 65,536", 0, MOST, good().with(1000, &sized(65536, 1))),
        // 28 for a row.
        ("an empty payload", 28, MOST, good().with(1000, &[])),
        ("a record of no columns", 0, MOST, good().with(1000, &[1])),
        ("a first payload that does not read", 28, MOST, alter(good(), &|g| g.payloads[0] = 0xff)),
        ("a last payload that does not read", 28, MOST, good().with(1000, &[2, 10])),
        ("a payload with a byte behind", 28, MOST, good().with(1000, &[2, 9, 0])),
        ("28 for a row before 5", 28, 0, chains(70).with(1000, &[0])),
        // 28 for the schema.
        ("no schema", 28, MOST, alter(good(), &|g| g.schema.clear())),
        ("root 3", 28, MOST, alter(good(), &|g| g.schema = bad_schema.clone())),
        ("root 2 in two bytes", 0, MOST, alter(good(), &|g| g.schema = two(2, &[0, 2]))),
        ("root 2 in eight bytes", 0, MOST, alter(good(), &|g| g.schema = two(6, &[0, 0, 0, 0, 0, 0, 0, 2]))),
        ("root -2", 28, MOST, alter(good(), &|g| g.schema = two(1, &[0xfe]))),
        ("root 2 and more in six bytes", 28, MOST, alter(good(), &|g| g.schema = two(5, &[0, 1, 0, 0, 0, 2]))),
        ("root 0", 28, MOST, alter(good(), &|g| g.schema = two(8, &[]))),
        ("root 1", 28, MOST, alter(good(), &|g| g.schema = two(9, &[]))),
        ("root null", 28, MOST, alter(good(), &|g| g.schema = two(0, &[]))),
        ("root 2.0", 28, MOST, alter(good(), &|g| g.schema = two(7, &2f64.to_bits().to_be_bytes()))),
        ("root '2'", 28, MOST, alter(good(), &|g| g.schema = two(15, b"2"))),
        ("four columns", 28, MOST, alter(good(), &|g| g.schema = [5, 15, 15, 15, 1, b't', b't', b't', 2].to_vec())),
        ("six columns", 28, MOST, alter(good(), &|g| g.schema = [7, 15, 15, 15, 1, 15, 0, b't', b't', b't', 2, b'c'].to_vec())),
        ("five nulls but the root", 0, MOST, alter(good(), &|g| g.schema = [6, 0, 0, 0, 1, 0, 2].to_vec())),
        ("a schema record of 911 bytes", 0, MOST, alter(good(), &|g| g.schema = text(long_text))),
        ("a schema record of 912 bytes", 28, MOST, alter(good(), &|g| g.schema = text(long_text + 1))),
        ("a schema record of 70,000 bytes", 28, MOST, alter(good(), &|g| g.schema = text(70_000))),
        ("28 before 5", 28, 0, alter(chains(70), &|g| g.schema = bad_schema.clone())),
        // 5, then 44.
        ("4,096 pages", 0, MOST, Given { schema: schema(SQL), ..Given::default() }.all(&world::fresh::most_pages())),
        ("4,097 pages", 5, MOST, Given { schema: schema(SQL), ..Given::default() }.all(&world::fresh::most_pages()).with(5, &sized(700, 1))),
        (
            "4,097 pages, by a chain",
            5,
            MOST,
            Given { schema: schema(SQL), ..Given::default() }.all(&world::fresh::most_pages()).with(5, &sized(1100, 1)),
        ),
        ("5 before 44", 5, 0, chains(70)),
        (
            "4,096 rows, a page each",
            5,
            MOST,
            Given { schema: schema(SQL), ..Given::default() }.all(&(0..4096).map(|i| (i, sized(700, 0))).collect::<Vec<_>>()),
        ),
        (
            "the most bytes",
            5,
            MOST,
            Given { schema: schema(SQL), ..Given::default() }.all(&(0..400).map(|i| (i, sized(65536, 0))).collect::<Vec<_>>()),
        ),
        ("no room", 44, 0, good()),
        ("a byte too few", 44, 2047, good()),
    ];
    for (name, refusal, room, given) in cases {
        if builds.heap && given.payloads.len() > 200_000 {
            continue;
        }
        let room = if builds.heap { room.min(200_000) } else { room };
        let image = builds.build(&given, room).map_err(|difference| format!("{name}: {difference}"))?;
        let told = Plain.build(&given.schema, &given.rows, &given.lengths, &given.payloads, &mut vec![0; room]).refusal;
        same(name, (told, image.is_some()), (refusal, refusal == 0))?;
        *builds.met.entry(("inputs made by hand, by refusal", refusal)).or_default() += 1;
    }
    Ok(())
}

impl Given {
    fn with(mut self, row: i64, payload: &[u8]) -> Given {
        self.push(row, payload);
        self
    }

    fn all(mut self, rows: &[(i64, Vec<u8>)]) -> Given {
        rows.iter().for_each(|(row, payload)| self.push(*row, payload));
        self
    }
}

/// Random rows, now and then off, into an output of any length.
pub fn case(builds: &mut Builds, hold: &mut Hold, rng: &mut Rng) -> (String, Held) {
    let count = match rng.below(40) {
        0 if !builds.heap => 1000 + rng.below(3000),
        1..=9 => 20 + rng.below(300),
        _ => rng.below(20),
    };
    let longest = match rng.below(20) {
        0 if count < 60 => 65537,
        1..=5 if count < 400 => 3000,
        6..=9 if count < 400 => 1200,
        _ => 60,
    };
    let step = 1u64 << rng.below(58);
    let mut row = (rng.word() as i64) >> rng.below(64);
    let mut given = Given { schema: schema(&"c".repeat(rng.below(700))), ..Given::default() };
    let fixed = (rng.below(4) == 0).then(|| 3 + rng.below(longest));
    for i in 0..count {
        let length = fixed.unwrap_or_else(|| 3 + rng.below(longest - 2));
        let payload = if rng.below(30) == 0 { vec![1] } else { sized(length, i as u64) };
        given.push(row, &payload);
        let Some(next) = row.checked_add(1 + (rng.word() % step) as i64) else { break };
        row = next;
    }
    spoil(&mut given, rng);
    let pages = Plain.build(&given.schema, &given.rows, &given.lengths, &given.payloads, &mut vec![0; MOST]).pages as usize;
    let room = match rng.below(6) {
        0 => rng.below(pages * 1024 + 1),
        1 => (pages * 1024).saturating_sub(1),
        2 => pages * 1024,
        _ => pages * 1024 + rng.below(3000),
    };
    let held = builds.build(&given, room).and_then(|image| match image {
        Some(image) if rng.below(8) == 0 || image.len() < 20_000 => builds.read(&given, &image, hold),
        _ => Ok(()),
    });
    (format!("{} rows of up to {longest} bytes", given.rows.len()), held)
}

/// One input in three is off in a place.
fn spoil(given: &mut Given, rng: &mut Rng) {
    let rows = given.rows.len();
    if rows == 0 {
        return;
    }
    let any = rng.below(rows);
    match rng.below(36) {
        0 => given.rows[any] = given.rows[rng.below(rows)],
        1 => given.rows[any] = rng.word() as i64,
        2 => given.rows.reverse(),
        3 => given.lengths[any] = given.lengths[any].wrapping_add(1),
        4 => given.lengths[any] = rng.word() as u32,
        5 => given.lengths.push(0),
        6 => drop(given.lengths.pop()),
        7 => given.payloads.push(rng.byte()),
        8 | 9 => {
            let at = rng.below(given.payloads.len().max(1));
            if let Some(byte) = given.payloads.get_mut(at) {
                *byte = rng.byte();
            }
        }
        10 => {
            let at = rng.below(given.schema.len());
            given.schema[at] = rng.byte();
        }
        11 => given.schema.truncate(rng.below(given.schema.len())),
        // One length more, another less: they add up, and records do not end where they should.
        12 if given.lengths[0] > 0 => {
            given.lengths[0] -= 1;
            given.lengths[any] += 1;
        }
        _ => {}
    }
}
