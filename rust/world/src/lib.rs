//! Files made by the sqlite3 program in many shapes, logs and journals caught in mid-write, and the program's own answers about them.

#![forbid(unsafe_code)]

pub mod against;
pub mod appending;
pub mod big;
pub mod compare;
pub mod corpus;
pub mod counts;
pub mod fresh;
pub mod orders;
pub mod reader;
pub mod reports;
pub mod rng;
pub mod rows;
pub mod setting;
pub mod several;
pub mod sqlite;
pub mod torn;

/// All page sizes of the format.
pub const PAGE_SIZES: [usize; 8] = [512, 1024, 2048, 4096, 8192, 16384, 32768, 65536];
