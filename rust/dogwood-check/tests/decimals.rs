//! Decimals: the text that the library writes, and the same text read back.

use dogwood_check::{write_decimal_into, Decimal, DecimalError, MOST_DECIMAL};

/// Numbers of every length, of both signs, and those at the borders.
fn numbers() -> Vec<i64> {
    let mut numbers = vec![0, i64::MIN, i64::MAX];
    let mut state: u64 = 0x9E37_79B9_7F4A_7C15;
    for shift in 0..64 {
        for near in [-1, 0, 1] {
            numbers.push((1_i64 << shift).wrapping_add(near));
        }
        for _ in 0..64 {
            state = state.wrapping_mul(6_364_136_223_846_793_005).wrapping_add(1_442_695_040_888_963_407);
            numbers.push((state as i64) >> shift);
        }
    }
    numbers
}

/// What is written, by other means than the library's.
fn expected(value: i64) -> String {
    let magnitude = value.unsigned_abs();
    format!("{}{}.{:04}", if value < 0 { "-" } else { "" }, magnitude / 10000, magnitude % 10000)
}

#[test]
fn what_is_written_is_read_back() {
    for value in numbers() {
        let text = Decimal(value).to_string();
        assert_eq!(text, expected(value));
        assert_eq!(text.parse(), Ok(Decimal(value)));
    }
}

#[test]
fn a_buffer_too_short_is_left_as_it_was() {
    for value in numbers() {
        let text = expected(value);
        for length in 0..=MOST_DECIMAL + 3 {
            let mut buffer = vec![0xA5; length];
            let answer = write_decimal_into(value, &mut buffer);
            if length < text.len() {
                assert!(answer.is_cut() && answer.count == 0 && answer.record() == 0);
                assert!(buffer.iter().all(|byte| *byte == 0xA5));
            } else {
                assert!(answer.refusal.is_none() && answer.count == text.len());
                assert_eq!(&buffer[..text.len()], text.as_bytes());
                assert!(buffer[text.len()..].iter().all(|byte| *byte == 0xA5));
            }
        }
    }
}

#[test]
fn texts_are_judged_as_the_definition_says() {
    let rows = [
        ("-0.0", Ok(0)),
        ("00.5", Ok(5000)),
        ("000000000000000000000000000001.5", Ok(15000)),
        ("922337203685477.5807", Ok(i64::MAX)),
        ("-922337203685477.5808", Ok(i64::MIN)),
        ("922337203685477.5808", Err(DecimalError::Beyond)),
        ("-922337203685477.5809", Err(DecimalError::Beyond)),
        ("922337203685478.0", Err(DecimalError::Beyond)),
        ("99999999999999999999.0", Err(DecimalError::Beyond)),
        ("99999999999999999999.00000", Err(DecimalError::Malformed)),
        ("", Err(DecimalError::Malformed)),
        ("+1.0", Err(DecimalError::Malformed)),
        (".5", Err(DecimalError::Malformed)),
        ("-.5", Err(DecimalError::Malformed)),
        ("5.", Err(DecimalError::Malformed)),
        ("5", Err(DecimalError::Malformed)),
        ("1.00000", Err(DecimalError::Malformed)),
        ("1.0.0", Err(DecimalError::Malformed)),
        (" 1.0", Err(DecimalError::Malformed)),
        ("--1.0", Err(DecimalError::Malformed)),
    ];
    for (text, value) in rows {
        assert_eq!(text.parse(), value.map(Decimal), "{text}");
    }
}
