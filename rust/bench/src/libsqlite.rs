//! The few calls of libsqlite3 that are timed, where it is there. Images are opened in memory, so that no file is read.

#[cfg(not(libsqlite3))]
pub use absent::*;
#[cfg(libsqlite3)]
pub use linked::*;

/// The same names where libsqlite3 is not there: nothing is ever opened.
#[cfg(not(libsqlite3))]
mod absent {
    use std::path::Path;

    pub enum Prepared {}

    impl Prepared {
        pub fn over(_: &[u8], _: &str) -> Option<Prepared> {
            None
        }

        pub fn over_file(_: &Path, _: &str) -> Option<Prepared> {
            None
        }

        pub fn run(&self, _: Option<i64>) -> i64 {
            match *self {}
        }

        pub fn scan(&self) -> (u64, i64) {
            match *self {}
        }
    }
}

#[cfg(libsqlite3)]
mod linked {
    use std::ffi::{c_char, c_int, c_uchar, c_void, CString};
    use std::path::Path;
    use std::ptr::{null, null_mut};

    extern "C" {
        fn sqlite3_open(name: *const c_char, db: *mut *mut c_void) -> c_int;
        fn sqlite3_close(db: *mut c_void) -> c_int;
        fn sqlite3_deserialize(db: *mut c_void, schema: *const c_char, data: *mut c_uchar, size: i64, room: i64, flags: c_int) -> c_int;
        fn sqlite3_prepare_v2(db: *mut c_void, sql: *const c_char, length: c_int, statement: *mut *mut c_void, tail: *mut *const c_char) -> c_int;
        fn sqlite3_bind_int64(statement: *mut c_void, at: c_int, value: i64) -> c_int;
        fn sqlite3_step(statement: *mut c_void) -> c_int;
        fn sqlite3_reset(statement: *mut c_void) -> c_int;
        fn sqlite3_finalize(statement: *mut c_void) -> c_int;
        fn sqlite3_column_type(statement: *mut c_void, column: c_int) -> c_int;
        fn sqlite3_column_int64(statement: *mut c_void, column: c_int) -> i64;
        fn sqlite3_column_bytes(statement: *mut c_void, column: c_int) -> c_int;
        fn sqlite3_column_blob(statement: *mut c_void, column: c_int) -> *const c_uchar;
        fn sqlite3_db_config(db: *mut c_void, option: c_int, ...) -> c_int;
    }

    const ROW: c_int = 100;
    const TEXT: c_int = 3;
    const BLOB: c_int = 4;
    const READ_ONLY: c_int = 4;
    const NO_CHECKPOINT_ON_CLOSE: c_int = 1006;

    struct Connection(*mut c_void);

    // SAFETY (this module): handles are used by one thread, while they are open; strings end in a zero.
    impl Connection {
        fn open(name: &str) -> Connection {
            let name = CString::new(name).expect("a name");
            let mut db = null_mut();
            assert_eq!(unsafe { sqlite3_open(name.as_ptr(), &mut db) }, 0, "sqlite3_open");
            Connection(db)
        }

        /// An image in memory.
        fn over(image: &mut [u8]) -> Connection {
            let connection = Connection::open(":memory:");
            let length = image.len() as i64;
            let status = unsafe { sqlite3_deserialize(connection.0, null(), image.as_mut_ptr(), length, length, READ_ONLY) };
            assert_eq!(status, 0, "sqlite3_deserialize");
            connection
        }

        /// A file; its log stays when it is closed.
        fn file(path: &Path) -> Connection {
            let connection = Connection::open(path.to_str().expect("text"));
            assert_eq!(unsafe { sqlite3_db_config(connection.0, NO_CHECKPOINT_ON_CLOSE, 1 as c_int, null_mut::<c_int>()) }, 0, "sqlite3_db_config");
            connection
        }

        fn prepare(&self, sql: &str) -> Statement {
            let sql = CString::new(sql).expect("SQL");
            let mut statement = null_mut();
            assert_eq!(unsafe { sqlite3_prepare_v2(self.0, sql.as_ptr(), -1, &mut statement, null_mut()) }, 0, "sqlite3_prepare");
            Statement(statement)
        }
    }

    impl Drop for Connection {
        fn drop(&mut self) {
            unsafe { sqlite3_close(self.0) };
        }
    }

    struct Statement(*mut c_void);

    impl Drop for Statement {
        fn drop(&mut self) {
            unsafe { sqlite3_finalize(self.0) };
        }
    }

    /// A statement with what it reads from; the fields are dropped in this order.
    pub struct Prepared {
        statement: Statement,
        _connection: Connection,
        _image: Vec<u8>,
    }

    impl Prepared {
        /// Over a copy of an image.
        pub fn over(image: &[u8], sql: &str) -> Option<Prepared> {
            let mut image = image.to_vec();
            let connection = Connection::over(&mut image);
            Some(Prepared { statement: connection.prepare(sql), _connection: connection, _image: image })
        }

        pub fn over_file(path: &Path, sql: &str) -> Option<Prepared> {
            let connection = Connection::file(path);
            Some(Prepared { statement: connection.prepare(sql), _connection: connection, _image: Vec::new() })
        }

        /// Runs to the first row and reads its first column: the length of a text or blob, else the number.
        pub fn run(&self, bound: Option<i64>) -> i64 {
            let statement = self.statement.0;
            unsafe {
                if let Some(value) = bound {
                    sqlite3_bind_int64(statement, 1, value);
                }
                assert_eq!(sqlite3_step(statement), ROW, "a row");
                let answer = match sqlite3_column_type(statement, 0) {
                    TEXT | BLOB => {
                        std::hint::black_box(sqlite3_column_blob(statement, 0));
                        i64::from(sqlite3_column_bytes(statement, 0))
                    }
                    _ => sqlite3_column_int64(statement, 0),
                };
                sqlite3_reset(statement);
                answer
            }
        }

        /// Runs to the end, and answers the number of rows and the sum of their first columns.
        pub fn scan(&self) -> (u64, i64) {
            let (mut rows, mut sum) = (0, 0i64);
            unsafe {
                while sqlite3_step(self.statement.0) == ROW {
                    rows += 1;
                    sum = sum.wrapping_add(sqlite3_column_int64(self.statement.0, 0));
                }
                sqlite3_reset(self.statement.0);
            }
            (rows, sum)
        }
    }
}
