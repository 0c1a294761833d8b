//! The texts of decimals and their numbers of ten-thousandths: the examples of writing, random numbers and texts, what a
//! text is and what is answered. The Rust keeps a decimal as text, so what is wanted is said here by other means than the
//! library's.

use crate::answers::Answer;
use crate::records::{Refusal, DECIMAL_OUT_OF_RANGE, MALFORMED_DECIMAL};
use crate::rng::Rng;

/// A number, the buffer's length, and the answer's number and text.
pub const EXAMPLES: [(i64, usize, u8, &str); 8] = [
    (0, 4_096, 0, "0.0000"),
    (1, 4_096, 0, "0.0001"),
    (-1, 4_096, 0, "-0.0001"),
    (15_000, 4_096, 0, "1.5000"),
    (i64::MIN, 4_096, 0, "-922337203685477.5808"),
    (i64::MAX, 4_096, 0, "922337203685477.5807"),
    (15_000, 6, 0, "1.5000"),
    (15_000, 5, 11, ""),
];

/// The text by way of the number's digits: the last four stand after the point.
pub fn text(value: i64) -> String {
    let digits = format!("{:05}", value.unsigned_abs());
    let (whole, fraction) = digits.split_at(digits.len() - 4);
    format!("{}{whole}.{fraction}", if value < 0 { "-" } else { "" })
}

/// Writes a number: the text at the buffer's front, or 11 and the buffer as it was.
pub fn write(value: i64, output: &mut [u8]) -> Answer {
    let text = text(value);
    match output.get_mut(..text.len()) {
        Some(front) => {
            front.copy_from_slice(text.as_bytes());
            Answer { number: 0, record: 0, count: text.len(), visits: 0 }
        }
        None => Answer { number: 11, record: 0, count: 0, visits: 0 },
    }
}

/// The number that a text stands for, or why it is none: the text is taken apart at its points, and 128 bits tell whether
/// the number fits into 64.
pub fn value(text: &str) -> Result<i64, Refusal> {
    let are_digits = |part: &str| !part.is_empty() && part.bytes().all(|byte| byte.is_ascii_digit());
    let parts: Vec<&str> = text.strip_prefix('-').unwrap_or(text).split('.').collect();
    let [whole, fraction] = parts[..] else { return Err(MALFORMED_DECIMAL) };
    if !are_digits(whole) || !are_digits(fraction) || fraction.len() > 4 {
        return Err(MALFORMED_DECIMAL);
    }
    // more digits than 128 bits hold fail here too
    let magnitude: i128 = format!("{whole}{fraction:0<4}").parse().map_err(|_| DECIMAL_OUT_OF_RANGE)?;
    let value = if text.starts_with('-') { -magnitude } else { magnitude };
    i64::try_from(value).map_err(|_| DECIMAL_OUT_OF_RANGE)
}

/// A number of any length and sign.
pub fn number(rng: &mut Rng) -> i64 {
    let half = |rng: &mut Rng| rng.below(1 << 32) as u64;
    ((half(rng) << 32 | half(rng)) as i64) >> rng.below(64)
}

/// A text of a number: as it is written, with more zeros in front, or with fewer digits after the point.
pub fn well_formed(rng: &mut Rng) -> String {
    let number = if rng.chance(1, 6) { rng.one(&[0, 1, -1, i64::MIN, i64::MAX]) } else { number(rng) };
    let written = text(number);
    match rng.below(4) {
        0 => {
            let (sign, digits) = written.split_at(usize::from(number < 0));
            format!("{sign}{}{digits}", "0".repeat(rng.one(&[1, 3, 30, 220])))
        }
        1 => written[..written.len() - rng.below(4)].to_string(),
        2 if number == 0 => "-0.0".to_string(),
        _ => written,
    }
}

/// A text that is nearly one of a decimal.
pub fn malformed(rng: &mut Rng) -> String {
    let good = well_formed(rng);
    let (whole, fraction) = good.split_once('.').expect("a decimal has a point");
    match rng.below(11) {
        0 => whole.to_string(),
        1 => format!("{whole}."),
        2 => format!(".{fraction}"),
        3 => format!("{whole}.{fraction}.0"),
        4 => format!("{whole}..{fraction}"),
        5 => format!("{whole}.00000"),
        6 => format!("+{good}"),
        7 => format!("--{good}"),
        8 => format!("{good} "),
        9 => format!("{whole},{fraction}"),
        _ => String::new(),
    }
}

/// A text of a decimal that 64 bits do not hold, by little or by much.
pub fn beyond(rng: &mut Rng) -> String {
    let sign = rng.one(&["", "-"]);
    match rng.below(4) {
        0 => format!("{sign}922337203685477.{}", 5_809 + rng.below(4_000)),
        1 => format!("{sign}{}.0", 922_337_203_685_478_u64 + rng.below(9) as u64),
        2 => format!("{sign}{}.5", "9".repeat(rng.one(&[16, 19, 20, 39, 200]))),
        _ => rng.one(&["922337203685477.5808", "0922337203685477.5808", "-922337203685477.5809"]).to_string(),
    }
}

#[cfg(test)]
mod tests {
    use super::*;

    #[test]
    fn the_examples_hold() {
        for (number, length, refusal, text) in EXAMPLES {
            let mut output = vec![0; length];
            let answer = write(number, &mut output);
            assert_eq!((answer.number, answer.record, answer.count), (refusal, 0, text.len()));
            assert_eq!(&output[..text.len()], text.as_bytes());
        }
    }

    #[test]
    fn a_text_is_read_back() {
        let mut rng = Rng::new(1);
        for _ in 0..10_000 {
            assert!(value(&well_formed(&mut rng)).is_ok());
            assert_eq!(value(&malformed(&mut rng)), Err(MALFORMED_DECIMAL));
            assert_eq!(value(&beyond(&mut rng)), Err(DECIMAL_OUT_OF_RANGE));
            let number = number(&mut rng);
            assert_eq!(value(&text(number)), Ok(number));
        }
    }
}
