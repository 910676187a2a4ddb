//! The log's reader and its listing.

use second::gap_rule::GapRule::{self, New, Old};
use second::listing;
use second::portlog::{LogReader, Reading, Record};
use second::refusal::Refusal;

/// What both rules list alike.
fn list(log: &[u8]) -> String {
    let text = listing::list(log, Old);
    assert_eq!(listing::list(log, New), text);
    text
}

fn first_of(bytes: &[u8], rule: GapRule) -> Reading {
    LogReader::new(bytes, 0, rule).read()
}

const SAMPLE: [u8; 9] = [0x05, 0x81, 0x03, 0x41, 0xAC, 0x02, 0x42, 0xB4, 0x24];

#[test]
fn the_sample_log_is_read_record_by_record() {
    let mut reader = LogReader::new(&SAMPLE, 0, Old);
    let first = Record {
        gap: 5,
        key: 0x181,
        value: 0x41,
    };
    assert_eq!(reader.read(), Reading::Record(first));
    assert_eq!(
        (first.port(), first.is_output(), first.is_word()),
        (0x60, true, false)
    );
    assert_eq!(reader.place(), 4);
    let second = Record {
        gap: 300,
        key: 0x42,
        value: 0x1234,
    };
    assert_eq!(reader.read(), Reading::Record(second));
    assert_eq!(
        (second.port(), second.is_output(), second.is_word()),
        (0x10, false, true)
    );
    assert_eq!(reader.place(), 9);
    assert_eq!(reader.read(), Reading::End);
    assert_eq!(reader.read(), Reading::End);
}

#[test]
fn the_sample_log_is_listed() {
    assert_eq!(
        list(&SAMPLE),
        "5 OUT 0060 41\n305 IN 0010 1234\n2 records\n"
    );
    assert_eq!(list(&[]), "0 records\n");
    assert_eq!(list(&SAMPLE[..4]), "5 OUT 0060 41\n1 records\n");
    assert_eq!(list(&SAMPLE[..8]), "5 OUT 0060 41\nbad record at 4\n");
}

#[test]
fn a_gap_at_its_rules_ceiling_marks_every_later_sum() {
    // the old ceiling is an exact count in a new log
    let mut log = vec![
        0x01, 0x00, 0x00, 0xFF, 0xFF, 0x7F, 0x01, 0x0A, 0x01, 0x02, 0xFF, 0x01,
    ];
    let lines = |mark, last| {
        format!("1 IN 0000 00\n2097152{mark} OUT 0000 0A\n2097153{mark} IN 0000 00FF\n{last}\n")
    };
    assert_eq!(listing::list(&log, Old), lines("+", "3 records"));
    assert_eq!(listing::list(&log, New), lines("", "3 records"));
    // a gap of five groups at the new ceiling, which an old reader refuses
    log.extend([0xFF, 0xFF, 0xFF, 0xFF, 0x0F, 0x01, 0x00, 0x01, 0x01, 0x00]);
    assert_eq!(listing::list(&log, Old), lines("+", "bad record at 12"));
    assert_eq!(
        listing::list(&log, New),
        lines(
            "",
            "4297064448+ OUT 0000 00\n4297064449+ OUT 0000 00\n5 records"
        )
    );
}

#[test]
fn a_gap_has_five_groups_under_the_new_rule_alone() {
    let record = |gap| {
        Reading::Record(Record {
            gap,
            key: 0x181,
            value: 0x41,
        })
    };
    let malformed = Reading::Refused(Refusal::MalformedRecord);
    let cases: [(&[u8], Reading, Reading); 10] = [
        // the old ceiling, one more, the largest of four groups, the smallest of five, the new ceiling
        (
            &[0xFF, 0xFF, 0x7F],
            record((1 << 21) - 1),
            record((1 << 21) - 1),
        ),
        (&[0x80, 0x80, 0x80, 0x01], malformed, record(1 << 21)),
        (&[0xFF, 0xFF, 0xFF, 0x7F], malformed, record((1 << 28) - 1)),
        (&[0x80, 0x80, 0x80, 0x80, 0x01], malformed, record(1 << 28)),
        (
            &[0xFF, 0xFF, 0xFF, 0xFF, 0x0F],
            malformed,
            record(4_294_967_295),
        ),
        // above it, by one and by all
        (&[0x80, 0x80, 0x80, 0x80, 0x10], malformed, malformed),
        (&[0xFF, 0xFF, 0xFF, 0xFF, 0x7F], malformed, malformed),
        // six groups, and not the fewest
        (&[0x81, 0x80, 0x80, 0x80, 0x80, 0x01], malformed, malformed),
        (&[0x81, 0x80, 0x80, 0x00], malformed, malformed),
        (&[0x81, 0x80, 0x80, 0x80, 0x00], malformed, malformed),
    ];
    for (gap, old, new) in cases {
        let bytes = [gap, &[0x81, 0x03, 0x41]].concat();
        assert_eq!(first_of(&bytes, Old), old, "{gap:02X?}");
        assert_eq!(first_of(&bytes, New), new, "{gap:02X?}");
        let Reading::Record(record) = new else {
            continue;
        };
        let mut written = vec![0; bytes.len()];
        assert_eq!(record.write(&mut written), Ok(bytes.len()));
        assert_eq!(written, bytes);
    }
}

#[test]
fn a_long_log_is_not_listed() {
    let log: Vec<u8> = [1, 0, 0].repeat(21_845);
    assert_eq!(log.len(), 65_535);
    assert!(list(&log).ends_with("21845 records\n"));
    assert_eq!(list(&[0; 65_537]), "too long\n");
    assert_eq!(list(&[0; 65_536]), "bad record at 0\n");
}

#[test]
fn malformed_records() {
    let malformed: [&[u8]; 14] = [
        // over three groups, and a gap over five
        &[0x80, 0x80, 0x80, 0x80, 0x80, 0x01, 0x00, 0x00],
        &[0x01, 0x80, 0x80, 0x80, 0x01, 0x00],
        &[0x01, 0x02, 0x80, 0x80, 0x80, 0x01],
        // not the fewest
        &[0x81, 0x00, 0x00, 0x00],
        &[0x01, 0x80, 0x00, 0x00],
        &[0x01, 0x00, 0x81, 0x80, 0x00],
        // gap 0
        &[0x00, 0x00, 0x00],
        // key 262,144
        &[0x01, 0x80, 0x80, 0x10, 0x00],
        // values 256 and 65,536
        &[0x01, 0x00, 0x80, 0x02],
        &[0x01, 0x03, 0x80, 0x80, 0x04],
        // cut ends
        &[0x01],
        &[0x01, 0x00],
        &[0x81],
        &[0x01, 0x00, 0x80],
    ];
    for bytes in malformed {
        for rule in [Old, New] {
            let mut reader = LogReader::new(bytes, 0, rule);
            let faulty = Reading::Refused(Refusal::MalformedRecord);
            assert_eq!(reader.read(), faulty, "{bytes:02X?}");
            assert_eq!(reader.place(), 0);
        }
    }
}

#[test]
fn the_largest_numbers_are_well_formed() {
    let bytes = [
        0xFF, 0xFF, 0xFF, 0xFF, 0x0F, 0xFF, 0xFF, 0x0F, 0xFF, 0xFF, 0x03,
    ];
    let largest = Record {
        gap: 4_294_967_295,
        key: 262_143,
        value: 65_535,
    };
    assert_eq!(first_of(&bytes, New), Reading::Record(largest));
    let mut written = [0; 11];
    assert_eq!(largest.write(&mut written), Ok(11));
    assert_eq!(written, bytes);
}

#[test]
fn a_place_past_the_log_is_refused_first() {
    let refused = Reading::Refused(Refusal::BadState);
    for rule in [Old, New] {
        assert_eq!(LogReader::new(&SAMPLE, 10, rule).read(), refused);
        assert_eq!(LogReader::new(&SAMPLE, 9, rule).read(), Reading::End);
        assert_eq!(first_of(&[], rule), Reading::End);
    }
}
