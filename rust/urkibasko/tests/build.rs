//! Fresh databases, by the safe interface: what is written is read back, and what cannot be written is told.

use urkibasko::{
    build, build_into, check, encode, schema_record, Builder, Database, Kind, Record, Refusal, Rule, Value, BUILD_MOST, BUILD_ROWS, BUILD_SCHEMA,
    MAX_PAYLOAD,
};

fn table() -> Builder {
    Builder::new("t", "CREATE TABLE t(a, b)")
}

#[test]
fn values_read_back() {
    let long = vec![7; 70_000];
    let edges = [1i64 << 7, 1 << 15, 1 << 23, 1 << 31, 1 << 47];
    let integers = edges.iter().flat_map(|&edge| [edge - 1, edge, -edge, -edge - 1]).chain([0, 1, 2, -1, i64::MIN, i64::MAX]);
    let mut values: Vec<Value> = integers.map(Value::Integer).collect();
    values.extend([Value::Null, Value::Real(-0.0), Value::Real(f64::INFINITY), Value::Real(1e-310), "".into(), "é".into(), Value::Blob(b"")]);
    values.push(Value::Blob(&long));
    let bytes = encode(&values);
    let read: Vec<Value> = Record::new(&bytes).expect("it reads").values().collect();
    assert_eq!(read.len(), values.len());
    for (read, value) in read.iter().zip(&values) {
        match (read, value) {
            (Value::Real(read), Value::Real(value)) => assert_eq!(read.to_bits(), value.to_bits()),
            _ => assert_eq!(read, value),
        }
    }
    assert_eq!(encode(&[]), [1]);
    assert_eq!(encode(&[Value::Real(f64::NAN)]), [2, 0]);
    // A header whose length just passes what its own varint can say in one byte, and in two.
    for columns in [125, 126, 127, 128, 129, 16381, 16382, 16383, 16384] {
        let bytes = encode(&vec![Value::Null; columns]);
        assert_eq!(Record::new(&bytes).expect("it reads").columns(), columns as u64);
    }
    // Integers in the fewest bytes.
    let lengths = [(2, 1), (127, 1), (128, 2), (-128, 1), (-129, 2), (1 << 23, 4), (1 << 31, 6), (-(1 << 47), 6), (1 << 47, 8)];
    for (integer, bytes) in lengths {
        assert_eq!(encode(&[Value::Integer(integer)]).len(), 2 + bytes, "{integer}");
    }
}

#[test]
fn an_image_has_just_the_rows() {
    let mut builder = table();
    let numbers: Vec<i64> = [i64::MIN, -7].into_iter().chain(0..900).chain([i64::MAX]).collect();
    let text = "x".repeat(2000);
    for &number in &numbers {
        let text = if number % 100 == 7 { &text } else { "y" };
        builder.push(number, &[number.into(), text.into()]).expect("it fits");
    }
    let image = builder.build().expect("it is built");
    assert!(image.len() <= builder.room());
    let database = Database::new(&image).expect("it is accepted");
    assert_eq!((database.ledger().kind(2), database.ledger().namer(2)), (Some(Kind::Root), Some(1)));
    assert_eq!(database.ledger().long_spellings(), 0);
    let mut room = vec![0; MAX_PAYLOAD];
    let listed: Vec<i64> = database.rows(2).map(|row| row.expect("no row is refused").number).collect();
    assert_eq!(listed, numbers);
    for row in database.rows(2) {
        let row = row.expect("no row is refused");
        assert_eq!(database.record(&row, &mut room).expect("a record").column(1), Some(Value::Integer(row.number)));
    }
    assert_eq!(database.lookup(2, -6), Ok(None));
    // The first rows alone.
    let first = builder.build_first(2).expect("it is built");
    assert_eq!(first.len(), 2048);
    assert_eq!(check(&first).expect("it is accepted").pages(), 2);
    assert_eq!(builder.build_first(10_000), Ok(image));
    assert_eq!(table().build().expect("no rows").len(), 2048);
}

#[test]
fn what_cannot_be_built_is_told() {
    let mut builder = table();
    builder.push(5, &[]).expect("a record of no columns");
    let refused = |answer: Result<(), urkibasko::NotBuilt>| answer.expect_err("refused").to_string();
    assert_eq!(refused(builder.push(5, &[])), "refused 48: row 5 comes after row 5; row numbers have to rise");
    assert_eq!(refused(builder.push_record(6, &[])), "refused 28: the payload of row 6 does not read as a record");
    assert_eq!(refused(builder.push(6, &[Value::Blob(&[0; 65533])])), "refused 26: the record of row 6 has 65537 bytes; 65,536 are the most");
    assert_eq!(builder.rows(), 1);
    for number in 6..5 + BUILD_ROWS as i64 {
        builder.push(number, &[]).expect("it fits");
    }
    assert_eq!(refused(builder.push(9000, &[])), "refused 48: row 9000 is one too many: a fresh database has at most 4,096 rows");
    assert!(builder.build().is_ok());
    let mut large = table();
    for number in 0..70 {
        large.push(number, &[Value::Blob(&[1; 65000])]).expect("it fits");
    }
    assert_eq!(large.build().expect_err("too many").to_string(), "refused 5: the rows take over 4,096 pages of 1,024 bytes");
    assert!(large.build_first(60).is_ok());
    let sql = |length: usize| "c".repeat(length);
    let fits = BUILD_SCHEMA - schema_record("t", &sql(800)).len() + 800;
    assert!(Builder::new("t", &sql(fits)).build().is_ok());
    let long = Builder::new("t", &sql(fits + 1)).build().expect_err("too long");
    assert_eq!(long.to_string(), "refused 28: the schema record has 912 bytes; page 1 has room for 911");
    let root = encode(&["table".into(), "t".into(), "t".into(), 3.into(), "c".into()]);
    assert_eq!(build(&root, &[]).expect_err("root 3").why, "the schema record has not five columns with the integer 2 in the fourth");
}

#[test]
fn lent_output() {
    let schema = schema_record("t", "CREATE TABLE t(a)");
    let mut out = vec![0xaa; 3000];
    let refusal = |rule| Err(Refusal { rule, page: None });
    assert_eq!(build_into(&schema, &[1, 2], &[1], &[1], &mut out), refusal(Rule::BadRows));
    assert_eq!(build_into(&schema, &[1], &[1], &[1, 1], &mut out), refusal(Rule::BadRows));
    assert_eq!(build_into(&schema, &[1], &[1], &[1], &mut out[..2047]), refusal(Rule::SmallOutput));
    assert!(out.iter().all(|&byte| byte == 0xaa));
    let built = build_into(&schema, &[1], &[1], &[1], &mut out).expect("it fits");
    assert_eq!((built.pages, built.length), (2, 2048));
    assert!(out[2048..].iter().all(|&byte| byte == 0xaa) && check(&out[..2048]).is_ok());
    assert_eq!(BUILD_MOST, 4 << 20);
}
