//! Reports, held against the sqlite3 program's count, min and max, and against a sum of its rows from left to right: all reals by their bits.

use plain::c::Summary;

use crate::corpus::Database;
use crate::reader::Reader;
use crate::rows::{quoted, trees};
use crate::sqlite;

/// The largest payload.
const ROOM: usize = 65536;

/// How many columns and reals were compared, and how many sums turned to NaN.
#[derive(Clone, Copy, Debug, Default)]
pub struct Counts {
    pub columns: usize,
    pub reals: u64,
    pub nans: usize,
}

impl Counts {
    pub fn add(&mut self, other: Counts) {
        self.columns += other.columns;
        self.reals += other.reals;
        self.nans += other.nans;
    }
}

/// The real with these bits in hexadecimal; 0 where there is none.
fn real(hex: &str) -> f64 {
    if hex.is_empty() {
        return 0.0;
    }
    f64::from_bits(u64::from_str_radix(hex, 16).expect("bits"))
}

/// Every column of every table that keeps reals as they are. (A column of type REAL may keep whole reals as integers, and sqlite3 does not tell which.)
pub fn compare(reader: &dyn Reader, database: &Database, image: &[u8]) -> Counts {
    let mut counts = Counts::default();
    for (table, root, columns) in trees(database).tables {
        let name = quoted(&table);
        let types = sqlite::run(&database.path, &format!("SELECT type FROM pragma_table_info('{}') ORDER BY cid;", table.replace('\'', "''")));
        for (index, (column, _)) in columns.iter().zip(types.lines()).enumerate().filter(|(_, (_, kind))| !kind.contains("REAL")) {
            // The plus keeps an index out of it: of equals the first row's is wanted.
            let printed = sqlite::run(
                &database.path,
                &format!(
                    "SELECT count(*)||'|'||coalesce(hex(ieee754_to_blob(min(+{column}))),'')||'|'||coalesce(hex(ieee754_to_blob(max(+{column}))),'')
                        FROM {name} NOT INDEXED WHERE typeof({column})='real';
                     SELECT hex(ieee754_to_blob({column})) FROM {name} NOT INDEXED WHERE typeof({column})='real' ORDER BY rowid;"
                ),
            );
            let mut lines = printed.lines();
            let told: Vec<&str> = lines.next().expect("a count").split('|').collect();
            let mut sum = 0.0;
            for line in lines {
                sum += real(line);
            }
            let nan = sum.is_nan();
            let expected = Summary {
                refusal: 0,
                page: 0,
                count: told[0].parse().expect("a count"),
                least: real(told[1]),
                greatest: real(told[2]),
                sum: if nan { 0.0 } else { sum },
                sum_is_nan: u32::from(nan),
            };
            let answer = reader.report(image, root, index as u64 + 1, &mut vec![0xaa; ROOM]);
            assert_eq!(answer, expected, "{}: {table}.{column}", database.name);
            counts.columns += 1;
            counts.reals += expected.count;
            counts.nans += usize::from(nan);
        }
    }
    counts
}
