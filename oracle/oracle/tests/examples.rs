//! Each example of the tables, answered by the oracle.

use oracle::answers::{check, lookup, sums, windows, Answer};
use oracle::cases::Outcome;
use oracle::examples::{bytes, rules, values, visits, windows as windowed};
use oracle::pieces::Piece;

const FILL: u8 = 0xA5;

fn filled(size: usize) -> Vec<u8> {
    vec![FILL; size]
}

/// The reports as the buffer holds them.
fn reports_bytes(reports: &[(u32, u32, String)]) -> Vec<u8> {
    let mut out = Vec::new();
    for (start, end, message) in reports {
        out.extend(start.to_be_bytes());
        out.extend(end.to_be_bytes());
        out.extend((message.len() as u16).to_be_bytes());
        out.extend(message.as_bytes());
    }
    out
}

/// The answer and each byte of the buffer are as said, in a large buffer, in one that is just full, and in one that is a
/// byte too short for the last report.
fn expect_reports(shows: &str, reports: &[(u32, u32, String)], run: impl Fn(&mut [u8]) -> Answer) {
    let expected = reports_bytes(reports);
    for size in [4_096, expected.len()] {
        let mut buffer = filled(size);
        let answer = run(&mut buffer);
        let text = String::from_utf8_lossy(&buffer[..expected.len()]).to_string();
        assert_eq!(answer, Answer { number: 0, record: 0, count: reports.len(), visits: 0 }, "{shows}: {text}");
        assert_eq!(buffer[..expected.len()], expected, "{shows}: {text}");
        assert!(buffer[expected.len()..].iter().all(|b| *b == FILL), "{shows}");
    }
    if let Some((_, all_but_last)) = reports.split_last() {
        let kept = reports_bytes(all_but_last);
        let mut buffer = filled(expected.len() - 1);
        assert_eq!(run(&mut buffer), Answer { number: 11, record: 0, count: all_but_last.len(), visits: 0 }, "{shows}");
        assert_eq!(buffer[..kept.len()], kept, "{shows}");
        assert!(buffer[kept.len()..].iter().all(|b| *b == FILL), "{shows}");
    }
}

#[test]
fn examples_of_reading() {
    for e in bytes::all() {
        let mut buffer = filled(300);
        let answer = match &e.path {
            Some(path) => lookup(&e.schema, &e.targets, path, &mut buffer),
            None => check(&e.schema, &e.condition, &e.targets, &mut buffer),
        };
        assert_eq!((answer.number, answer.record), (e.number, e.record), "{}", e.shows);
        if e.number != 0 {
            assert_eq!(answer.count, 0, "{}", e.shows);
            assert_eq!(buffer, filled(300), "{}", e.shows);
        }
    }
}

#[test]
fn examples_of_check() {
    for e in rules::checked() {
        let records = [&e.schema, &e.condition, &e.targets].map(Piece::bytes);
        expect_reports(e.shows, &e.reports, |buffer| check(&records[0], &records[1], &records[2], buffer));
    }
}

#[test]
fn examples_of_visits() {
    for e in visits::all() {
        let Some(Outcome::Answered(answer, _)) = e.case().outcome() else { panic!("{}", e.shows) };
        assert_eq!(answer, e.answer, "{}", e.shows);
    }
}

#[test]
fn examples_of_sums() {
    for e in rules::summed() {
        let condition = e.condition.bytes();
        expect_reports(e.shows, &e.reports, |buffer| sums(&condition, buffer));
    }
}

/// Each line's answer; where it says which windows are written, they stand in front and nothing else is changed.
#[test]
fn examples_of_windows() {
    let schema = b"DWS\0\x01\0\0\0\0";
    let targets = b"DWT\0\x01\0\0\x01\0\x04view";
    for e in windowed::all() {
        let mut buffer = filled(e.size);
        let answer = match e.letter {
            'k' => check(schema, &e.condition, targets, &mut buffer),
            'm' => sums(&e.condition, &mut buffer),
            _ => windows(&e.condition, e.period, &mut buffer),
        };
        assert_eq!([answer.number.into(), answer.record.into(), answer.count], e.answer, "{}", e.shows);
        let mut expected: Vec<u8> = Vec::new();
        for [start, sweeps, rest] in &e.entries {
            expected.extend((*start as u32).to_be_bytes());
            expected.extend([sweeps.to_be_bytes(), rest.to_be_bytes()].concat());
        }
        if !e.entries.is_empty() || answer.count == 0 {
            assert_eq!(buffer[..expected.len()], expected, "{}", e.shows);
            assert!(buffer[expected.len()..].iter().all(|b| *b == FILL), "{}", e.shows);
        }
    }
}

/// Each line's answer to a check; a reader, sums and a listing refuse by the same number.
#[test]
fn examples_of_values() {
    for e in values::all() {
        let records = e.records();
        let checked = |buffer: &mut [u8]| check(&records[0], &records[1], &records[2], buffer);
        let mut buffer = filled(300);
        let answer = checked(&mut buffer);
        assert_eq!((answer.number, answer.record), (e.number, e.record), "{}", e.shows);
        if e.number == 0 {
            expect_reports(e.shows, &e.reports, checked);
        } else {
            assert_eq!((answer.count, buffer), (0, filled(300)), "{}", e.shows);
        }
        for case in e.other_cases() {
            let number = match case.outcome() {
                Some(Outcome::Number(number)) => number,
                Some(Outcome::Answered(answer, _)) => answer.number,
                _ => panic!("{}", e.shows),
            };
            assert_eq!(number, e.number, "{}", e.shows);
        }
    }
}

#[test]
fn examples_of_lookup() {
    for e in rules::looked() {
        let records = [&e.schema, &e.targets, &e.path].map(Piece::bytes);
        let mut expected = vec![e.case, 0, e.strings.len() as u8];
        for s in &e.strings {
            expected.extend([0, s.len() as u8]);
            expected.extend(s.as_bytes());
        }
        let mut buffer = filled(200);
        let answer = lookup(&records[0], &records[1], &records[2], &mut buffer);
        assert_eq!(answer, Answer { number: 0, record: 0, count: expected.len(), visits: 0 }, "{}", e.shows);
        assert_eq!(buffer[..expected.len()], expected, "{}", e.shows);
        assert!(buffer[expected.len()..].iter().all(|b| *b == FILL), "{}", e.shows);
        let mut short = filled(expected.len() - 1);
        let full = lookup(&records[0], &records[1], &records[2], &mut short);
        assert_eq!(full, Answer { number: 11, record: 0, count: 0, visits: 0 }, "{}", e.shows);
        assert!(short.iter().all(|b| *b == FILL), "{}", e.shows);
    }
}
