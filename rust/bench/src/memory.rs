//! Files in memory for libsqlite3, so that a commit into a log is timed without the system: its own Unix part, with files of bytes in place of the system's.

use std::cell::RefCell;
use std::collections::BTreeMap;
use std::ffi::{c_char, c_int, c_void, CStr, CString};
use std::ptr::{null, null_mut};

use crate::clock::apart;

/// `sqlite3_io_methods`, version 1: no shared memory, so that a log needs `locking_mode=EXCLUSIVE`.
#[repr(C)]
struct Methods {
    version: c_int,
    close: extern "C" fn(*mut File) -> c_int,
    read: extern "C" fn(*mut File, *mut u8, c_int, i64) -> c_int,
    write: extern "C" fn(*mut File, *const u8, c_int, i64) -> c_int,
    truncate: extern "C" fn(*mut File, i64) -> c_int,
    sync: extern "C" fn(*mut File, c_int) -> c_int,
    file_size: extern "C" fn(*mut File, *mut i64) -> c_int,
    lock: extern "C" fn(*mut File, c_int) -> c_int,
    unlock: extern "C" fn(*mut File, c_int) -> c_int,
    check_reserved: extern "C" fn(*mut File, *mut c_int) -> c_int,
    control: extern "C" fn(*mut File, c_int, *mut c_void) -> c_int,
    sector_size: extern "C" fn(*mut File) -> c_int,
    characteristics: extern "C" fn(*mut File) -> c_int,
}

/// `sqlite3_file`, with its bytes.
#[repr(C)]
struct File {
    methods: *const Methods,
    bytes: *mut Vec<u8>,
}

/// The front of `sqlite3_vfs`; what follows is the Unix part's own.
#[repr(C)]
struct Vfs {
    version: c_int,
    file_size: c_int,
    longest_name: c_int,
    next: *mut Vfs,
    name: *const c_char,
    data: *mut c_void,
    open: extern "C" fn(*mut Vfs, *const c_char, *mut File, c_int, *mut c_int) -> c_int,
    delete: extern "C" fn(*mut Vfs, *const c_char, c_int) -> c_int,
    access: extern "C" fn(*mut Vfs, *const c_char, c_int, *mut c_int) -> c_int,
    full_name: extern "C" fn(*mut Vfs, *const c_char, c_int, *mut c_char) -> c_int,
    /// xDlOpen to xGetLastError.
    others: [*const c_void; 8],
}

extern "C" {
    fn sqlite3_vfs_find(name: *const c_char) -> *mut Vfs;
    fn sqlite3_vfs_register(vfs: *mut Vfs, default: c_int) -> c_int;
    fn sqlite3_open_v2(name: *const c_char, db: *mut *mut c_void, flags: c_int, vfs: *const c_char) -> c_int;
    fn sqlite3_close(db: *mut c_void) -> c_int;
    fn sqlite3_exec(db: *mut c_void, sql: *const c_char, row: *const c_void, with: *mut c_void, error: *mut *mut c_char) -> c_int;
    fn sqlite3_prepare_v2(db: *mut c_void, sql: *const c_char, length: c_int, statement: *mut *mut c_void, tail: *mut *const c_char) -> c_int;
    fn sqlite3_step(statement: *mut c_void) -> c_int;
    fn sqlite3_reset(statement: *mut c_void) -> c_int;
    fn sqlite3_finalize(statement: *mut c_void) -> c_int;
    fn sqlite3_errmsg(db: *mut c_void) -> *const c_char;
}

const OK: c_int = 0;
const NOT_FOUND: c_int = 12;
const SHORT_READ: c_int = 10 | 2 << 8;
const DONE: c_int = 101;
const READ_WRITE_CREATE: c_int = 2 | 4;
const NAME: &CStr = c"in memory";

thread_local! {
    /// The files by their names. A `Box` each: sqlite3 holds a pointer to the bytes.
    #[allow(clippy::vec_box)]
    static FILES: RefCell<BTreeMap<CString, Box<Vec<u8>>>> = const { RefCell::new(BTreeMap::new()) };
}

// SAFETY (this module): sqlite3 calls these with its own pointers, for files that were opened here and are still there, on the thread that opened them.
fn bytes<'f>(file: *mut File) -> &'f mut Vec<u8> {
    unsafe { &mut *(*file).bytes }
}

extern "C" fn close(_: *mut File) -> c_int {
    OK
}

extern "C" fn read(file: *mut File, to: *mut u8, length: c_int, at: i64) -> c_int {
    let to = unsafe { std::slice::from_raw_parts_mut(to, length as usize) };
    let from = bytes(file).get(at as usize..).unwrap_or_default();
    let there = from.len().min(to.len());
    to[..there].copy_from_slice(&from[..there]);
    to[there..].fill(0);
    if there == to.len() {
        OK
    } else {
        SHORT_READ
    }
}

extern "C" fn write(file: *mut File, from: *const u8, length: c_int, at: i64) -> c_int {
    let (from, to, at) = (unsafe { std::slice::from_raw_parts(from, length as usize) }, bytes(file), at as usize);
    if at == to.len() {
        to.extend_from_slice(from);
        return OK;
    }
    if to.len() < at + from.len() {
        to.resize(at + from.len(), 0);
    }
    to[at..at + from.len()].copy_from_slice(from);
    OK
}

extern "C" fn truncate(file: *mut File, length: i64) -> c_int {
    bytes(file).truncate(length as usize);
    OK
}

extern "C" fn file_size(file: *mut File, size: *mut i64) -> c_int {
    unsafe { *size = bytes(file).len() as i64 };
    OK
}

extern "C" fn nothing(_: *mut File, _: c_int) -> c_int {
    OK
}

extern "C" fn check_reserved(_: *mut File, held: *mut c_int) -> c_int {
    unsafe { *held = 0 };
    OK
}

extern "C" fn control(_: *mut File, _: c_int, _: *mut c_void) -> c_int {
    NOT_FOUND
}

extern "C" fn sector_size(_: *mut File) -> c_int {
    512
}

extern "C" fn characteristics(_: *mut File) -> c_int {
    0
}

static METHODS: Methods = Methods {
    version: 1,
    close,
    read,
    write,
    truncate,
    sync: nothing,
    file_size,
    lock: nothing,
    unlock: nothing,
    check_reserved,
    control,
    sector_size,
    characteristics,
};

fn named(name: *const c_char) -> CString {
    if name.is_null() {
        CString::default()
    } else {
        unsafe { CStr::from_ptr(name) }.to_owned()
    }
}

extern "C" fn open(_: *mut Vfs, name: *const c_char, file: *mut File, flags: c_int, told: *mut c_int) -> c_int {
    FILES.with_borrow_mut(|files| {
        let bytes: *mut Vec<u8> = &mut **files.entry(named(name)).or_default();
        unsafe {
            *file = File { methods: &METHODS, bytes };
            if !told.is_null() {
                *told = flags;
            }
        }
    });
    OK
}

/// The bytes go, and not the file: sqlite3 may hold it open.
extern "C" fn delete(_: *mut Vfs, name: *const c_char, _: c_int) -> c_int {
    FILES.with_borrow_mut(|files| files.entry(named(name)).or_default().clear());
    OK
}

extern "C" fn access(_: *mut Vfs, name: *const c_char, _: c_int, there: *mut c_int) -> c_int {
    let found = FILES.with_borrow(|files| files.get(&named(name)).is_some_and(|bytes| !bytes.is_empty()));
    unsafe { *there = found.into() };
    OK
}

extern "C" fn full_name(_: *mut Vfs, name: *const c_char, room: c_int, out: *mut c_char) -> c_int {
    let name = named(name).into_bytes_with_nul();
    assert!(name.len() <= room as usize, "a short name");
    unsafe { out.copy_from_nonoverlapping(name.as_ptr().cast(), name.len()) };
    OK
}

fn register() {
    unsafe {
        if sqlite3_vfs_find(NAME.as_ptr()).is_null() {
            let unix = &*sqlite3_vfs_find(null());
            let own = Vfs {
                version: 1,
                file_size: std::mem::size_of::<File>() as c_int,
                longest_name: 200,
                next: null_mut(),
                name: NAME.as_ptr(),
                data: unix.data,
                open,
                delete,
                access,
                full_name,
                others: unix.others,
            };
            assert_eq!(sqlite3_vfs_register(Box::leak(Box::new(own)), 0), OK, "sqlite3_vfs_register");
        }
    }
}

/// A database in memory with a log in memory: a table with a row on each of some pages. One at a time.
pub struct Logged {
    db: *mut c_void,
    begin: *mut c_void,
    update: *mut c_void,
    commit: *mut c_void,
}

const LOG: &CStr = c"database-wal";
/// A log that is longer is laid down, and begun anew.
const MOST: usize = 32 << 20;

impl Logged {
    /// A transaction changes so many pages.
    pub fn new(page_size: usize, pages: usize) -> Logged {
        register();
        let name = c"database";
        let mut db = null_mut();
        assert_eq!(unsafe { sqlite3_open_v2(name.as_ptr(), &mut db, READ_WRITE_CREATE, NAME.as_ptr()) }, OK, "sqlite3_open_v2");
        let mut made = Logged { db, begin: null_mut(), update: null_mut(), commit: null_mut() };
        made.run(&format!(
            "PRAGMA page_size={page_size}; PRAGMA locking_mode=EXCLUSIVE; PRAGMA journal_mode=WAL; PRAGMA synchronous=OFF; PRAGMA wal_autocheckpoint=0;
             PRAGMA cache_size=-200000; CREATE TABLE t(a, b); WITH RECURSIVE c(x) AS (SELECT 1 UNION ALL SELECT x+1 FROM c WHERE x<{pages})
             INSERT INTO t SELECT 1000000, randomblob({}) FROM c;",
            page_size * 4 / 5
        ));
        (made.begin, made.update, made.commit) = (made.prepare("BEGIN"), made.prepare("UPDATE t SET a=a+1"), made.prepare("COMMIT"));
        let before = made.log().len();
        made.commit();
        assert_eq!(made.log().len() - before, pages * (24 + page_size), "a commit of {pages} pages of {page_size}");
        made
    }

    fn run(&self, sql: &str) {
        let sql = CString::new(sql).expect("SQL");
        let status = unsafe { sqlite3_exec(self.db, sql.as_ptr(), null(), null_mut(), null_mut()) };
        assert_eq!(status, OK, "{sql:?}: {:?}", unsafe { CStr::from_ptr(sqlite3_errmsg(self.db)) });
    }

    fn prepare(&self, sql: &str) -> *mut c_void {
        let sql = CString::new(sql).expect("SQL");
        let mut statement = null_mut();
        assert_eq!(unsafe { sqlite3_prepare_v2(self.db, sql.as_ptr(), -1, &mut statement, null_mut()) }, OK, "sqlite3_prepare_v2");
        statement
    }

    fn step(&self, statement: *mut c_void) {
        unsafe {
            assert_eq!(sqlite3_step(statement), DONE, "{:?}", CStr::from_ptr(sqlite3_errmsg(self.db)));
            sqlite3_reset(statement);
        }
    }

    /// The log as it stands.
    pub fn log(&self) -> Vec<u8> {
        FILES.with_borrow(|files| files.get(LOG).expect("the log is there").to_vec())
    }

    fn log_length(&self) -> usize {
        FILES.with_borrow(|files| files.get(LOG).map_or(0, |log| log.len()))
    }

    /// A transaction of which the commit alone is timed.
    pub fn commit(&self) {
        apart(|| {
            if self.log_length() > MOST {
                self.run("PRAGMA wal_checkpoint(TRUNCATE)");
            }
            self.step(self.begin);
            self.step(self.update);
        });
        self.step(self.commit);
    }
}

impl Drop for Logged {
    fn drop(&mut self) {
        unsafe {
            for statement in [self.begin, self.update, self.commit] {
                sqlite3_finalize(statement);
            }
            assert_eq!(sqlite3_close(self.db), OK, "sqlite3_close");
        }
        FILES.with_borrow_mut(|files| files.clear());
    }
}
