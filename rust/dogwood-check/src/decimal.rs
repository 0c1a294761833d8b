//! Decimals as Cedar has them: a number of ten-thousandths, read from its text and written back.

use std::error::Error;
use std::fmt;
use std::str::FromStr;

use crate::{write_decimal_into, Cause};

/// The longest text of a decimal, as it is written, has so many bytes.
pub const MOST_DECIMAL: usize = 21;

/// A decimal: a signed 64-bit number of ten-thousandths.
///
/// Its text is an optional minus, one or more digits, a point and one to four digits. It is shown as the library writes
/// it: with four digits after the point, no leading zeros, and a minus only below zero.
///
/// ```
/// use dogwood_check::{Decimal, DecimalError};
///
/// let half: Decimal = "00.5".parse()?;
/// assert_eq!(half, Decimal(5000));
/// assert_eq!(half.to_string(), "0.5000");
/// assert_eq!("1.00000".parse::<Decimal>(), Err(DecimalError::Malformed));
/// assert_eq!("922337203685477.5808".parse::<Decimal>(), Err(DecimalError::Beyond));
/// # Ok::<(), DecimalError>(())
/// ```
#[derive(Clone, Copy, Debug, PartialEq, Eq, PartialOrd, Ord, Hash)]
pub struct Decimal(
    /// How many ten-thousandths it is.
    pub i64,
);

/// Why a text is no decimal.
#[derive(Clone, Copy, Debug, PartialEq, Eq)]
pub enum DecimalError {
    /// The text is not of a decimal's shape (number 15).
    Malformed,
    /// The text is of that shape, and the number is beyond 64 bits (number 16).
    Beyond,
}

impl DecimalError {
    /// The cause by which the library would refuse a record with this text.
    pub fn cause(self) -> Cause {
        match self {
            DecimalError::Malformed => Cause::MalformedDecimal,
            DecimalError::Beyond => Cause::DecimalOutOfRange,
        }
    }
}

impl fmt::Display for DecimalError {
    fn fmt(&self, f: &mut fmt::Formatter<'_>) -> fmt::Result {
        match self {
            DecimalError::Malformed => write!(f, "not a decimal: digits, a point and one to four digits are wanted"),
            DecimalError::Beyond => write!(f, "this decimal is beyond 64 bits of ten-thousandths"),
        }
    }
}

impl Error for DecimalError {}

fn are_digits(text: &str) -> bool {
    !text.is_empty() && text.bytes().all(|byte| byte.is_ascii_digit())
}

impl FromStr for Decimal {
    type Err = DecimalError;

    fn from_str(text: &str) -> Result<Decimal, DecimalError> {
        let (negative, digits) = match text.strip_prefix('-') {
            Some(digits) => (true, digits),
            None => (false, text),
        };
        let (whole, fraction) = digits.split_once('.').ok_or(DecimalError::Malformed)?;
        if !are_digits(whole) || !are_digits(fraction) || fraction.len() > 4 {
            return Err(DecimalError::Malformed);
        }
        let mut value: i64 = 0;
        for byte in whole.bytes().chain(fraction.bytes()).chain((fraction.len()..4).map(|_| b'0')) {
            let digit = i64::from(byte - b'0');
            let signed = if negative { -digit } else { digit };
            value = value.checked_mul(10).and_then(|tens| tens.checked_add(signed)).ok_or(DecimalError::Beyond)?;
        }
        Ok(Decimal(value))
    }
}

impl fmt::Display for Decimal {
    fn fmt(&self, f: &mut fmt::Formatter<'_>) -> fmt::Result {
        let mut buffer = [0; MOST_DECIMAL];
        let count = write_decimal_into(self.0, &mut buffer).count;
        f.pad(std::str::from_utf8(&buffer[..count]).expect("the library writes ASCII"))
    }
}
