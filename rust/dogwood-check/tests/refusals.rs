//! Every refusal of every operation: its cause, its record, and a buffer left as it was.

mod common;

use common::{CONDITION, SCHEMA, TARGETS};
use dogwood_check::*;

const PATH: &[u8] = b"DWP\0\x01\0\x01\x04name\0";

const RECORDS: [RecordKind; 4] = RecordKind::ALL;

fn good(record: RecordKind) -> &'static [u8] {
    match record {
        RecordKind::Schema => SCHEMA,
        RecordKind::Condition => CONDITION,
        RecordKind::Targets => TARGETS,
        _ => PATH,
    }
}

fn read(record: RecordKind, bytes: &[u8]) -> Result<(), Cause> {
    match record {
        RecordKind::Schema => read_schema(bytes),
        RecordKind::Condition => read_condition(bytes),
        RecordKind::Targets => read_targets(bytes),
        _ => read_path(bytes),
    }
}

/// A good record with its front replaced.
fn front(record: RecordKind, front: &[u8]) -> Option<Vec<u8>> {
    Some([front, &good(record)[front.len()..]].concat())
}

/// The mark and version of a good record, and other fields.
fn fields(record: RecordKind, fields: &[u8]) -> Option<Vec<u8>> {
    Some([&good(record)[..5], fields].concat())
}

/// The record of a comparison, cut behind its left operand, which is the decimal of this text.
fn decimal(text: &str) -> Option<Vec<u8>> {
    let front = b"DWC\0\x03\x08\0\0\0\0\0\0\0\0\x04\x03";
    Some([front.as_slice(), &[text.len() as u8], text.as_bytes()].concat())
}

/// A record that is refused by this cause, where that record can be.
fn offending(record: RecordKind, cause: Cause) -> Option<Vec<u8>> {
    use RecordKind::*;
    let nots = [3, 0, 0, 0, 0, 0, 0, 0, 0].repeat(32);
    match (cause, record) {
        (Cause::TooLong, _) => Some([good(record), &vec![0; MOST_BYTES]].concat()),
        (Cause::Cut, _) => Some(good(record)[..good(record).len() - 1].to_vec()),
        (Cause::OtherMark, _) => front(record, b"DWX"),
        (Cause::OtherVersion, _) => front(record, &[&good(record)[..3], &[0, 9]].concat()),
        (Cause::WindowOutOfRange, Condition) => {
            Some(b"DWC\0\x02\x04\0\0\0\0\0\0\0\0\0\x03\xFF\xFF\xFF\xFF\xFF\xFF\xFF\xFF".to_vec())
        }
        (Cause::MalformedDecimal, Condition) => decimal("1.00000"),
        (Cause::DecimalOutOfRange, Condition) => decimal("922337203685477.5808"),
        (Cause::UndefinedChoice, Schema) => fields(record, b"\0\0\0\x01\x01A\0\0\0\x0B"),
        (Cause::UndefinedChoice, Condition) => fields(record, &[14]),
        (Cause::UndefinedChoice, Targets) => fields(record, &[0, 5]),
        (Cause::UndefinedChoice, _) => fields(record, &[2]),
        (Cause::OutsideClass, Schema) => fields(record, b"\0\x01\x01-"),
        (Cause::OutsideClass, Condition) => fields(record, b"\x0A\0\0\0\0\0\0\0\0\0\x01\""),
        (Cause::OutsideClass, Targets) => fields(record, &[2, 0]),
        (Cause::OutsideClass, _) => fields(record, &[0, 1, 1, b'\\']),
        (Cause::TooDeep, Schema) => fields(record, &[b"\0\0\0\x01\x01A\0\0\0".as_slice(), &[4; 32], &[0]].concat()),
        (Cause::TooDeep, Condition) => fields(record, &[nots.as_slice(), &[11]].concat()),
        (Cause::NotAscending, Schema) => fields(record, b"\0\x02\x01b\0\0\x01a"),
        (Cause::AggregateBelowArray, Condition) => fields(record, b"\x08\0\0\0\0\0\0\0\0\x04\x0A\x01\x0B"),
        (Cause::BytesAfter, _) => Some([good(record), &[0]].concat()),
        _ => None,
    }
}

/// An operation: which records it reads, and the call with them.
type Operation = (&'static [RecordKind], fn(&[Vec<u8>], &mut [u8]) -> Answer);

const CHECK: Operation = (&[RecordKind::Schema, RecordKind::Condition, RecordKind::Targets], |records, buffer| {
    let answer = check_into(&records[0], &records[1], &records[2], buffer);
    assert_eq!(answer.visits, 0);
    answer.answer
});
const SUMS: Operation = (&[RecordKind::Condition], |records, buffer| sums_into(&records[0], buffer));
const OWN_SUMS: Operation =
    (&[RecordKind::Condition], |records, buffer| sums_with(Rules::own_bodies(), &records[0], buffer));
const WINDOWS: Operation = (&[RecordKind::Condition], |records, buffer| windows_into(&records[0], 60, buffer));
const LOOKUP: Operation = (&[RecordKind::Schema, RecordKind::Targets, RecordKind::Path], |records, buffer| {
    lookup_into(&records[0], &records[1], &records[2], buffer)
});

fn call(operation: Operation, records: &[Vec<u8>]) -> Answer {
    let mut buffer = [0xA5; 512];
    let answer = (operation.1)(records, &mut buffer);
    assert!(buffer.iter().all(|byte| *byte == 0xA5));
    answer
}

fn refused(cause: Cause, record: RecordKind) -> Answer {
    Answer { refusal: Some(Refusal { cause, record: Some(record) }), count: 0 }
}

#[test]
fn the_readers_refuse() {
    let mut refusals = 0;
    for record in RECORDS {
        assert_eq!(read(record, good(record)), Ok(()));
        for cause in Cause::ALL {
            if let Some(bytes) = offending(record, cause) {
                assert_eq!(read(record, &bytes), Err(cause));
                refusals += 1;
            }
        }
    }
    assert_eq!(refusals, 9 + 12 + 7 + 7);
}

#[test]
fn the_operations_refuse() {
    for operation in [CHECK, SUMS, OWN_SUMS, WINDOWS, LOOKUP] {
        for (place, record) in operation.0.iter().enumerate() {
            for (cause, bytes) in Cause::ALL.into_iter().filter_map(|cause| Some((cause, offending(*record, cause)?))) {
                let mut records: Vec<Vec<u8>> = operation.0.iter().map(|record| good(*record).to_vec()).collect();
                records[place] = bytes;
                // what stands behind the first offence does not matter
                records[place + 1..].iter_mut().for_each(|later| *later = Vec::new());
                let answer = call(operation, &records);
                assert_eq!(answer, refused(cause, *record));
                assert_eq!((answer.number(), answer.record()), (cause.number(), record.number()));
            }
        }
    }
}

/// Number 12 comes behind the records' own numbers and before 11.
#[test]
fn a_position_that_is_not_in_the_list() {
    let path = Path::principal(["name"], 1).encode().unwrap();
    let records = [SCHEMA.to_vec(), TARGETS.to_vec(), path.clone()];
    assert_eq!(call(LOOKUP, &records), refused(Cause::NoSuchTarget, RecordKind::Targets));
    assert_eq!(lookup_into(SCHEMA, TARGETS, &path, &mut []), refused(Cause::NoSuchTarget, RecordKind::Targets));
    let refusal = lookup(SCHEMA, TARGETS, &path).unwrap_err();
    assert_eq!(refusal.to_string(), "the position asked for is not in the list of targets");
    let cut = [&path[..path.len() - 1]].concat();
    assert_eq!(call(LOOKUP, &[records[0].clone(), records[1].clone(), cut]), refused(Cause::Cut, RecordKind::Path));
}

/// Number 14 comes behind the record's own numbers and before 11, whether or not there is a window.
#[test]
fn a_period_of_nothing() {
    let no_period = Answer { refusal: Some(Refusal { cause: Cause::NoPeriod, record: None }), count: 0 };
    let windowed = Condition::formerly_within(0..9, Window::seconds(5), Condition::call(0..0)).encode().unwrap();
    for condition in [CONDITION, &windowed] {
        let mut buffer = [0xA5; 64];
        assert_eq!(windows_into(condition, 0, &mut buffer), no_period);
        assert_eq!(buffer, [0xA5; 64]);
        assert_eq!(windows_into(condition, 0, &mut []), no_period);
        assert_eq!(windows(condition, 0), Err(no_period.refusal.unwrap()));
        let after = [condition, &[0]].concat();
        assert_eq!(windows_into(&after, 0, &mut buffer), refused(Cause::BytesAfter, RecordKind::Condition));
    }
    assert_eq!(no_period.refusal.unwrap().to_string(), "a period of 0 seconds cannot be asked for");
    assert_eq!((no_period.number(), no_period.record()), (14, 0));
}

/// Number 11 of a lookup leaves the buffer alone; that of check and sums is in `reports.rs`.
#[test]
fn no_space_for_a_lookup() {
    for space in 0..4 {
        let mut buffer = [0xA5; 4];
        let answer = lookup_into(SCHEMA, TARGETS, PATH, &mut buffer[..space]);
        match space {
            3 => assert_eq!((answer, buffer), (Answer { refusal: None, count: 3 }, [4, 0, 0, 0xA5])),
            _ => {
                let refusal = Refusal { cause: Cause::NoSpace, record: None };
                assert_eq!((answer, buffer), (Answer { refusal: Some(refusal), count: 0 }, [0xA5; 4]));
                assert_eq!((answer.number(), answer.record()), (11, 0));
            }
        }
    }
}

/// A record in another one's place is refused by its mark.
#[test]
fn mixed_up_records() {
    for record in RECORDS {
        for other in RECORDS.into_iter().filter(|other| *other != record) {
            assert_eq!(read(record, good(other)), Err(Cause::OtherMark));
        }
    }
    let refusal = check(CONDITION, SCHEMA, TARGETS).unwrap_err();
    assert_eq!(refusal, Refusal { cause: Cause::OtherMark, record: Some(RecordKind::Schema) });
}

#[test]
fn refusals_by_the_owned_calls() {
    let refusal = |cause, record| Refusal { cause, record: Some(record) };
    assert_eq!(check(SCHEMA, b"DWC", TARGETS), Err(refusal(Cause::Cut, RecordKind::Condition)));
    assert_eq!(sums(b"DWS\0\x01"), Err(refusal(Cause::OtherMark, RecordKind::Condition)));
    assert_eq!(lookup(SCHEMA, TARGETS, b"DWP\0\x01\x02"), Err(refusal(Cause::UndefinedChoice, RecordKind::Path)));
}

/// The numbers are those of `include/dogwood.h`, and each has a sentence of its own that names the record.
#[test]
fn numbers_and_sentences() {
    let numbers: Vec<u8> = Cause::ALL.iter().map(|cause| cause.number()).collect();
    assert_eq!(numbers, (1..=19).filter(|number| *number != 17).collect::<Vec<u8>>());
    assert_eq!([0, 17, 255].map(Cause::from_number), [None; 3]);
    assert_eq!(RECORDS.map(RecordKind::number), [1, 2, 3, 4]);
    assert_eq!([0, 5].map(RecordKind::from_number), [None; 2]);
    let mut sentences = std::collections::BTreeSet::new();
    for cause in Cause::ALL {
        assert_eq!(Cause::from_number(cause.number()), Some(cause));
        assert!(sentences.insert(cause.to_string()));
        let refusal = Refusal { cause, record: Some(RecordKind::Condition) };
        let of_no_record = [Cause::NoSpace, Cause::NoSuchTarget, Cause::NoPeriod, Cause::ListFull, Cause::NotPending];
        if !of_no_record.contains(&cause) {
            assert!(refusal.to_string().starts_with("the condition "), "{refusal}");
        }
    }
    let refusal = Refusal { cause: Cause::NotAscending, record: Some(RecordKind::Schema) };
    assert_eq!(refusal.to_string(), "the schema has names that are out of order or given twice");
    let refusal = Refusal { cause: Cause::NoSpace, record: None };
    let sentence = "the answer is longer than the buffer lent for it, or, where none was lent, than the 16 MiB that a call takes at most";
    assert_eq!(refusal.to_string(), sentence);
}
