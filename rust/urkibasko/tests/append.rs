//! Commits appended to a log, by the safe interface.

use urkibasko::{log_inspect, log_recover, LogStop, LogView, LogWriter, Refusal, Rule, LOG_HEADER};

const IMAGE: &[u8] = include_bytes!("../../../crates/wal_vectors/data/image-14.db");
const OPEN: &[u8] = include_bytes!("../../../crates/wal_vectors/data/open.log");
const BIG_ENDIAN: &[u8] = include_bytes!("../../../crates/wal_vectors/data/big-endian.log");
const FRAME: usize = 24 + 512;

fn refused<T: std::fmt::Debug>(answer: Result<T, Refusal>, rule: Rule) {
    assert_eq!(answer.expect_err("refused"), Refusal { rule, page: None });
}

fn whole(log: &[u8]) -> Vec<u8> {
    let mut out = vec![0; 1 << 16];
    let recovered = log_recover(log, IMAGE, &mut out).expect("it is recovered");
    out.truncate(recovered.length);
    out
}

#[test]
fn commits_behind_a_log_of_sqlite() {
    for first in [OPEN, BIG_ENDIAN] {
        let mut log = first.to_vec();
        let mut writer = LogWriter::open(&log).expect("a log");
        let mut frames = vec![9; 7];
        for commit in 0..4u8 {
            let n = writer.pages().expect("a commit") + 1;
            let pages = [[commit; 512], [commit + 100; 512], [commit + 200; 512]].concat();
            assert_eq!(writer.room(3), 3 * FRAME);
            let before = whole(&log);
            let end = writer.end();
            let appended = writer.append(&[n, 2, 2], &pages, n, &mut frames).expect("a commit");
            assert_eq!((appended.at, appended.bytes.len(), writer.end()), (end, 3 * FRAME, end + 3 * FRAME as u64));
            log.truncate(appended.at as usize);
            for cut in [0, 1, 24, FRAME - 1, FRAME, 2 * FRAME, 3 * FRAME - 1] {
                assert!(whole(&[&log, &appended.bytes[..cut]].concat()) == before, "cut at {cut}");
            }
            log.extend(appended.bytes);
            assert_eq!(frames.len(), 3 * FRAME);
            assert_eq!(LogWriter::open(&log).expect("a log"), writer);
            let told = log_inspect(&log);
            assert_eq!((told.stop, told.in_force, told.pages), (LogStop::End, writer.frames().into(), n));
            let view = LogView::new(&log, IMAGE).expect("a view");
            assert_eq!((view.page(2), view.page(n)), (Ok(&pages[1024..]), Ok(&pages[..512])));
        }
    }
}

#[test]
fn a_fresh_log() {
    let (mut writer, header) = LogWriter::begin(1024, 3, [1, u32::MAX]).expect("a header");
    assert_eq!((writer.page_size(), writer.frames(), writer.pages(), writer.end()), (1024, 0, None, LOG_HEADER as u64));
    assert_eq!(LogWriter::open(&header).expect("a log"), writer);
    let mut out = [0xaa; 2 * 1048 + 5];
    let appended = writer.append_into(&[1, 2], &[5; 2048], 2, &mut out).expect("a commit");
    assert_eq!((appended.at, appended.bytes.len()), (32, 2 * 1048));
    let log = [&header, appended.bytes].concat();
    assert_eq!(out[2 * 1048..], [0xaa; 5]);
    // With both pages in the log there need be no image.
    assert_eq!(LogView::new(&log, &[]).expect("a view").page(2), Ok(&[5; 1024][..]));
    assert_eq!((LogWriter::open(&log), writer.pages()), (Ok(writer.clone()), Some(2)));
    refused(LogWriter::begin(1000, 0, [0, 0]), Rule::RecoverySize);
    refused(LogWriter::open(&header[..31]), Rule::NoLogHeader);
}

#[test]
fn a_refusal_leaves_everything() {
    let mut writer = LogWriter::open(OPEN).expect("a log");
    let before = writer.clone();
    let page = [1; 512];
    for (numbers, pages, n, rule) in [
        (&[][..], &[][..], 5, Rule::BadCommit),
        (&[1], &page, 0, Rule::BadCommit),
        (&[0], &page, 5, Rule::BadCommit),
        (&[6], &page, 5, Rule::BadCommit),
        (&[1], &page[1..], 5, Rule::BadCommit),
        (&[1, 2], &page, 5, Rule::BadCommit),
        (&[1; 1000], &page, 5, Rule::BadCommit),
        (&[1], &page, 2_200_001, Rule::RecoveredPages),
    ] {
        for room in [0, 3, FRAME + 9] {
            let mut out = vec![0xaa; room];
            refused(writer.append(numbers, pages, n, &mut out), rule);
            assert_eq!(out, vec![0xaa; room]);
            refused(writer.append_into(numbers, pages, n, &mut out), rule);
            assert_eq!(out, vec![0xaa; room]);
        }
    }
    let mut small = [0xaa; FRAME - 1];
    refused(writer.append_into(&[1], &page, 5, &mut small), Rule::SmallOutput);
    assert_eq!(small, [0xaa; FRAME - 1]);
    assert_eq!(writer, before);
}
