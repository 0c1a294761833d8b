//! The answer of a lookup, decoded from its output.

use crate::DecodeError;

/// How a path under principal or resource resolves for one target.
#[derive(Clone, Debug, PartialEq, Eq, Hash)]
pub enum ScopePath {
    /// To this type, on every entity type that the scope admits.
    Resolved(String),
    /// A segment is missing.
    Missing {
        /// The segment.
        segment: String,
        /// The entity types that lack it.
        entities: Vec<String>,
    },
    /// This segment would go into something that is no record.
    NonRecord(String),
    /// To unlike types, by entity type.
    Ambiguous(Vec<String>),
    /// There is nothing to look at: the path is empty, the target or an entity type is not declared, or the scope
    /// admits none.
    Unknown,
}

impl ScopePath {
    /// Takes the output of [`lookup_into`](crate::lookup_into) apart. Bytes that are no such output are an error; the
    /// library writes none.
    ///
    /// ```
    /// use dogwood_check::ScopePath;
    ///
    /// let output = [0, 0, 1, 0, 6, b's', b't', b'r', b'i', b'n', b'g'];
    /// assert_eq!(ScopePath::decode(&output)?, ScopePath::Resolved("string".to_string()));
    /// # Ok::<(), dogwood_check::DecodeError>(())
    /// ```
    pub fn decode(output: &[u8]) -> Result<ScopePath, DecodeError> {
        let (status, strings) = taken_apart(output).ok_or(DecodeError::ScopePath)?;
        meaning(status, strings).ok_or(DecodeError::ScopePath)
    }
}

/// The status byte and the strings behind their count.
fn taken_apart(output: &[u8]) -> Option<(u8, Vec<String>)> {
    let (status, rest) = output.split_first()?;
    let (count, mut rest) = rest.split_first_chunk()?;
    let mut strings = Vec::new();
    for _ in 0..u16::from_be_bytes(*count) {
        let (length, behind) = rest.split_first_chunk()?;
        let (string, behind) = behind.split_at_checked(u16::from_be_bytes(*length).into())?;
        strings.push(String::from_utf8(string.to_vec()).ok()?);
        rest = behind;
    }
    rest.is_empty().then_some((*status, strings))
}

fn meaning(status: u8, mut strings: Vec<String>) -> Option<ScopePath> {
    match (status, strings.len()) {
        (0, 1) => strings.pop().map(ScopePath::Resolved),
        (1, 1..) => Some(ScopePath::Missing { segment: strings.remove(0), entities: strings }),
        (2, 1) => strings.pop().map(ScopePath::NonRecord),
        (3, _) => Some(ScopePath::Ambiguous(strings)),
        (4, 0) => Some(ScopePath::Unknown),
        _ => None,
    }
}
