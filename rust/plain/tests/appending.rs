//! What is appended to a log, read back: logs of sqlite3's written again byte for byte, every cut, refusals in their order.

use plain::c::{urk_log_append, urk_log_begin, urk_log_inspect, urk_log_recover, urk_log_tail, Appended, Tail};

const COMMITS: &[u8] = include_bytes!("../../../crates/wal_vectors/data/commits.log");
const OPEN: &[u8] = include_bytes!("../../../crates/wal_vectors/data/open.log");
const BIG_ENDIAN: &[u8] = include_bytes!("../../../crates/wal_vectors/data/big-endian.log");
const LEFTOVERS: &[u8] = include_bytes!("../../../crates/wal_vectors/data/leftovers.log");
const SHRUNK: &[u8] = include_bytes!("../../../crates/wal_vectors/data/shrunk.log");
const IMAGE: &[u8] = include_bytes!("../../../crates/wal_vectors/data/image-14.db");
const UNIT: usize = 24 + 512;

fn be32(bytes: &[u8], at: usize) -> u32 {
    u32::from_be_bytes(bytes[at..at + 4].try_into().unwrap())
}

fn tail_of(log: &[u8]) -> (Tail, [u32; 8]) {
    let mut words = [7; 8];
    let told = urk_log_tail(log, &mut words);
    (told, words)
}

fn recovered(log: &[u8]) -> Vec<u8> {
    let mut out = vec![0; 1 << 20];
    let told = urk_log_recover(log, IMAGE, &mut out);
    assert_eq!(told.refusal, 0);
    out.truncate(told.length as usize);
    out
}

/// The commits in force: where each begins, its page numbers, its pages and n.
fn commits(log: &[u8]) -> Vec<(usize, Vec<u32>, Vec<u8>, u32)> {
    let mut all = Vec::new();
    let mut open = (32, Vec::new(), Vec::new());
    for i in 0..urk_log_inspect(log).in_force as usize {
        let at = 32 + i * UNIT;
        open.1.push(be32(log, at));
        open.2.extend(&log[at + 24..at + UNIT]);
        let n = be32(log, at + 4);
        if n != 0 {
            let (start, numbers, pages) = std::mem::replace(&mut open, (at + UNIT, Vec::new(), Vec::new()));
            all.push((start, numbers, pages, n));
        }
    }
    all
}

#[test]
fn logs_of_sqlite_are_written_again() {
    for log in [COMMITS, OPEN, BIG_ENDIAN, LEFTOVERS, SHRUNK] {
        let mut header = [0xaa; 40];
        let mut begun = [7; 9];
        let [sequence, salt1, salt2] = [12, 16, 20].map(|at| be32(log, at));
        let answer = urk_log_begin(512, sequence, salt1, salt2, &mut begun, &mut header);
        assert_eq!(answer, Appended { refusal: 0, at: 0, length: 32 });
        if log[3] == 0x82 {
            assert_eq!(header[..32], log[..32]);
            assert_eq!(begun[..8], tail_of(&log[..32]).1);
        }
        assert_eq!((begun[8], header[32..].to_vec()), (7, vec![0xaa; 8]));
        let all = commits(log);
        assert!(!all.is_empty());
        let mut words = tail_of(&log[..32]).1;
        for (start, numbers, pages, n) in all {
            assert_eq!(tail_of(&log[..start]).1, words, "the tail behind the last commit is that of the log cut there");
            let mut out = vec![0xaa; numbers.len() * UNIT + 3];
            let answer = urk_log_append(&mut words, &numbers, &pages, n, &mut out);
            let length = numbers.len() * UNIT;
            assert_eq!(answer, Appended { refusal: 0, at: start as u64, length: length as u64 });
            assert!(out[..length] == log[start..start + length], "the frames are sqlite3's");
            assert_eq!(out[length..], [0xaa; 3]);
        }
        assert_eq!(tail_of(log).1, words);
    }
}

#[test]
fn every_cut() {
    for log in [COMMITS, OPEN, BIG_ENDIAN, LEFTOVERS, SHRUNK] {
        let (told, mut words) = tail_of(log);
        let old = recovered(log);
        let n = told.pages + 2;
        // A page twice, the page above the old n twice too, and the new last page.
        let numbers = [2, n, 2, n - 1, n - 1];
        let pages: Vec<u8> = (0..numbers.len() * 512).map(|at| (at / 512 + at % 251) as u8).collect();
        let mut out = vec![0; numbers.len() * UNIT];
        let appended = urk_log_append(&mut words, &numbers, &pages, n, &mut out);
        assert_eq!((appended.refusal, appended.length as usize), (0, out.len()));
        let base = &log[..appended.at as usize];
        for cut in 0..out.len() {
            let cut_log = [base, &out[..cut]].concat();
            assert_eq!(tail_of(&cut_log), (told, tail_of(log).1), "cut at {cut}");
            if cut % 7 == 0 || cut % UNIT < 2 || cut % UNIT > UNIT - 2 {
                assert!(recovered(&cut_log) == old, "cut at {cut}");
            }
        }
        let whole = [base, &out].concat();
        assert_eq!(tail_of(&whole).1, words);
        let mut new = old.clone();
        new.resize(n as usize * 512, 0);
        for (i, &number) in numbers.iter().enumerate() {
            new[(number as usize - 1) * 512..][..512].copy_from_slice(&pages[i * 512..][..512]);
        }
        assert!(recovered(&whole) == new);
        // Whatever stands behind it.
        assert!(recovered(&[whole, vec![0x5a; 3 * UNIT + 1]].concat()) == new);
    }
}

#[test]
fn refusals_of_a_tail() {
    let with = |at: usize, byte: u8| {
        let mut log = COMMITS.to_vec();
        log[at] = byte;
        tail_of(&log).0.refusal
    };
    assert_eq!(tail_of(&[]).0.refusal, 50);
    assert_eq!(tail_of(&COMMITS[..31]).0.refusal, 50);
    assert_eq!(with(3, 0x84), 50);
    assert_eq!(with(3, 0x83), 50);
    assert_eq!(with(31, COMMITS[31] ^ 1), 50);
    assert_eq!(with(12, 1), 50);
    for (log, refusal) in [
        (&include_bytes!("../../../crates/wal_vectors/data/version.log")[..], 40),
        (&include_bytes!("../../../crates/wal_vectors/data/page-size.log")[..], 41),
        (&include_bytes!("../../../crates/wal_vectors/data/size-2200001.log")[..], 42),
        (&include_bytes!("../../../crates/wal_vectors/data/bad-magic.log")[..], 50),
        (&include_bytes!("../../../crates/wal_vectors/data/bad-sums.log")[..], 50),
    ] {
        for room in [0, 7, 8, 9] {
            let mut words = vec![7; room];
            assert_eq!(urk_log_tail(log, &mut words), Tail { refusal, ..Tail::default() });
            assert_eq!(words, vec![7; room]);
        }
    }
    let mut few = [7; 7];
    assert_eq!((urk_log_tail(COMMITS, &mut few).refusal, few), (44, [7; 7]));
    let mut more = [7; 10];
    assert_eq!(urk_log_tail(COMMITS, &mut more), Tail { refusal: 0, page_size: 512, frames: 3, pages: 2 });
    assert_eq!((more[0], more[1], more[6], more[7], more[8], more[9]), (512, 0, 3, 2, 7, 7));
    // No commit: the header's own sums.
    let (told, words) = tail_of(&COMMITS[..32 + UNIT]);
    assert_eq!(told, Tail { refusal: 0, page_size: 512, frames: 0, pages: 0 });
    assert_eq!(words[4..], [be32(COMMITS, 24), be32(COMMITS, 28), 0, 0]);
}

#[test]
fn refusals_of_a_beginning() {
    for size in [0, 1, 256, 511, 513, 768, 65535, 65537, 131_072, u32::MAX] {
        let (mut words, mut out) = ([7; 8], [0xaa; 32]);
        assert_eq!(urk_log_begin(size, 1, 2, 3, &mut words, &mut out).refusal, 41);
        assert_eq!(urk_log_begin(size, 1, 2, 3, &mut [], &mut []).refusal, 41);
        assert_eq!((words, out), ([7; 8], [0xaa; 32]));
    }
    for size in [512, 1024, 2048, 4096, 8192, 16384, 32768, 65536] {
        let (mut words, mut out) = ([7; 8], [0xaa; 32]);
        assert_eq!(urk_log_begin(size, 1, 2, 3, &mut words[..7], &mut out).refusal, 44);
        assert_eq!(urk_log_begin(size, 1, 2, 3, &mut words, &mut out[..31]).refusal, 44);
        assert_eq!((words, out), ([7; 8], [0xaa; 32]));
        assert_eq!(urk_log_begin(size, 1, 2, 3, &mut words, &mut out), Appended { refusal: 0, at: 0, length: 32 });
        assert_eq!(tail_of(&out), (Tail { refusal: 0, page_size: size, frames: 0, pages: 0 }, words));
    }
}

#[test]
fn refusals_of_a_commit() {
    let good = [512, 0, 1, 2, 3, 4, 5, 6];
    let try_with = |words: &[u32], numbers: &[u32], pages: usize, n: u32, room: usize| {
        let (mut tail, mut out) = (words.to_vec(), vec![0xaa; room]);
        let answer = urk_log_append(&mut tail, numbers, &vec![1; pages], n, &mut out);
        assert!(answer.refusal == 0 || (tail == words && out.iter().all(|&byte| byte == 0xaa) && (answer.at, answer.length) == (0, 0)));
        answer.refusal
    };
    let lock = (1 << 21) + 1;
    // A tail of seven words is no tail, whatever it says.
    assert_eq!(try_with(&[513, 2, 0, 0, 0, 0, 0], &[], 0, u32::MAX, 0), 44);
    assert_eq!(try_with(&[513, 0, 0, 0, 0, 0, u32::MAX, 0], &[], 0, u32::MAX, 0), 41);
    assert_eq!(try_with(&[512, 2, 0, 0, 0, 0, u32::MAX, 0], &[], 0, u32::MAX, 0), 41);
    assert_eq!(try_with(&[512, 1, 0, 0, 0, 0, u32::MAX, 0], &[], 0, 2_200_001, 0), 42);
    for (numbers, pages, n) in [
        (&[][..], 0, 1),
        (&[1][..], 512, 0),
        (&[0][..], 512, 1),
        (&[1, 2, 0][..], 1536, 2),
        (&[2][..], 512, 1),
        (&[1, 3, 2][..], 1536, 2),
        (&[lock][..], 512, 2_200_000),
        (&[1][..], 511, 1),
        (&[1][..], 513, 1),
        (&[1][..], 0, 1),
        (&[1][..], 1024, 1),
        (&[1, 2][..], 512, 2),
    ] {
        assert_eq!(try_with(&[512, 0, 0, 0, 0, 0, u32::MAX, 0], numbers, pages, n, 0), 51, "{numbers:?}, {pages} bytes, n {n}");
    }
    assert_eq!(try_with(&[512, 0, 0, 0, 0, 0, u32::MAX, 0], &[1], 512, 1, 0), 47);
    assert_eq!(try_with(&[512, 0, 0, 0, 0, 0, u32::MAX - 1, 0], &[1, 1], 1024, 1, 0), 47);
    assert_eq!(try_with(&[512, 0, 0, 0, 0, 0, u32::MAX - 2, 0], &[1, 1], 1024, 1, 2 * UNIT - 1), 44);
    assert_eq!(try_with(&[512, 0, 0, 0, 0, 0, u32::MAX - 2, 0], &[1, 1], 1024, 1, 2 * UNIT), 0);
    assert_eq!(try_with(&good, &[1, 2_200_000, lock - 1, lock + 1], 2048, 2_200_000, 4 * UNIT), 0);
    // Where it belongs, past 2^32.
    let mut tail = [65536, 1, 0, 0, 0, 0, u32::MAX - 1, 9];
    let appended = urk_log_append(&mut tail, &[16384], &[5; 65536], 16384, &mut vec![0; 65560]);
    assert_eq!(appended, Appended { refusal: 0, at: 32 + u64::from(u32::MAX - 1) * 65560, length: 65560 });
    assert_eq!((tail[6], tail[7]), (u32::MAX, 16384));
}
