//! A record's fields, from left to right. At one field the offences are met in the order of their numbers.

use super::*;
use crate::decimals;

/// The classes of strings.
#[derive(Debug, Clone, Copy, PartialEq, Eq)]
pub enum Class {
    /// Identifiers joined by `::`.
    PathName,
    /// A path name, or nothing.
    PathNameOrNone,
    /// Printable bytes without quotes and backslash, possibly none.
    Plain,
    /// One identifier.
    Identifier,
}

impl Class {
    fn holds(self, bytes: &[u8]) -> bool {
        match self {
            Class::PathName => is_path_name(bytes),
            Class::PathNameOrNone => bytes.is_empty() || is_path_name(bytes),
            Class::Plain => bytes.iter().all(|b| is_plain(*b)),
            Class::Identifier => is_identifier(bytes),
        }
    }
}

fn is_plain(byte: u8) -> bool {
    (0x20..=0x7E).contains(&byte) && !matches!(byte, b'"' | b'\'' | b'\\')
}

fn is_identifier(bytes: &[u8]) -> bool {
    let Some((first, rest)) = bytes.split_first() else {
        return false;
    };
    (first.is_ascii_alphabetic() || *first == b'_') && rest.iter().all(|b| b.is_ascii_alphanumeric() || *b == b'_')
}

/// An identifier has no colon, so splitting at each `::` from the left finds the parts if there are any.
fn is_path_name(bytes: &[u8]) -> bool {
    match bytes.windows(2).position(|pair| pair == b"::") {
        Some(at) => is_identifier(&bytes[..at]) && is_path_name(&bytes[at + 2..]),
        None => is_identifier(bytes),
    }
}

/// What is read of a record so far.
pub struct Fields<'a> {
    bytes: &'a [u8],
    at: usize,
    /// The version that the record says.
    pub version: u16,
    /// The types that it names by a word, so far.
    pub words: Words,
}

impl<'a> Fields<'a> {
    /// The record's size, its mark and its version, 1 to the newest that is known.
    pub fn open(bytes: &'a [u8], mark: &[u8; 3], newest: u16) -> Result<Fields<'a>, Refusal> {
        if bytes.len() > LONGEST {
            return Err(TOO_LONG);
        }
        let mut fields = Fields { bytes, at: 0, version: 0, words: Words::default() };
        if fields.take(3)? != mark {
            return Err(OTHER_MARK);
        }
        fields.version = fields.number16()?;
        if fields.version < 1 || fields.version > newest {
            return Err(OTHER_VERSION);
        }
        Ok(fields)
    }

    /// Fields without a record around them.
    pub fn bare(bytes: &'a [u8]) -> Fields<'a> {
        Fields { bytes, at: 0, version: 1, words: Words::default() }
    }

    /// The record's end; what was noted of its words.
    pub fn close(self) -> Result<Words, Refusal> {
        if self.at < self.bytes.len() {
            return Err(BYTES_AFTER);
        }
        Ok(self.words)
    }

    /// The place of the next field.
    pub fn at(&self) -> usize {
        self.at
    }

    fn take(&mut self, count: usize) -> Result<&'a [u8], Refusal> {
        let taken = self.bytes.get(self.at..self.at + count).ok_or(CUT)?;
        self.at += count;
        Ok(taken)
    }

    pub fn byte(&mut self) -> Result<u8, Refusal> {
        Ok(self.take(1)?[0])
    }

    pub fn number16(&mut self) -> Result<u16, Refusal> {
        let b = self.take(2)?;
        Ok(u16::from_be_bytes([b[0], b[1]]))
    }

    pub fn number32(&mut self) -> Result<u32, Refusal> {
        let b = self.take(4)?;
        Ok(u32::from_be_bytes([b[0], b[1], b[2], b[3]]))
    }

    /// A signed number of eight bytes.
    pub fn signed64(&mut self) -> Result<i64, Refusal> {
        let b = self.take(8)?;
        Ok(i64::from_be_bytes(b.try_into().expect("eight bytes were taken")))
    }

    /// A byte that chooses among cases.
    pub fn choice(&mut self, from: u8, to: u8) -> Result<u8, Refusal> {
        let byte = self.byte()?;
        if byte < from || byte > to {
            return Err(UNDEFINED_CHOICE);
        }
        Ok(byte)
    }

    /// The choice byte of what stands at `level`: 2 and 5 come before 7.
    pub fn choice_at(&mut self, from: u8, to: u8, level: u32) -> Result<u8, Refusal> {
        let byte = self.choice(from, to)?;
        if level > DEEPEST {
            return Err(TOO_DEEP);
        }
        Ok(byte)
    }

    /// A string with its length byte is one field.
    pub fn string(&mut self, class: Class) -> Result<String, Refusal> {
        let start = self.at;
        let length = self.byte()? as usize;
        let Ok(bytes) = self.take(length) else {
            self.at = start;
            return Err(CUT);
        };
        if !class.holds(bytes) {
            return Err(OUTSIDE_CLASS);
        }
        Ok(String::from_utf8(bytes.to_vec()).expect("each class is ASCII"))
    }

    /// A plain string that is the text of a decimal: what it is as a string comes before what it is as a decimal.
    pub fn decimal(&mut self) -> Result<String, Refusal> {
        let text = self.string(Class::Plain)?;
        decimals::value(&text)?;
        Ok(text)
    }

    /// A string that must lie above the one before it in its list.
    pub fn string_above(&mut self, class: Class, before: Option<&String>) -> Result<String, Refusal> {
        let name = self.string(class)?;
        match before {
            Some(before) if name.as_bytes() <= before.as_bytes() => Err(NOT_ASCENDING),
            _ => Ok(name),
        }
    }

    /// An 8-bit count of path names that ascend.
    pub fn ascending_path_names(&mut self) -> Result<Vec<String>, Refusal> {
        let count = self.byte()?;
        let mut names: Vec<String> = Vec::new();
        for _ in 0..count {
            let name = self.string_above(Class::PathName, names.last())?;
            names.push(name);
        }
        Ok(names)
    }

    /// A path: an 8-bit count of plain strings.
    pub fn path(&mut self) -> Result<Vec<String>, Refusal> {
        self.strings(Class::Plain)
    }

    /// An 8-bit count of strings of one class, in any order.
    pub fn strings(&mut self, class: Class) -> Result<Vec<String>, Refusal> {
        let count = self.byte()?;
        (0..count).map(|_| self.string(class)).collect()
    }
}
