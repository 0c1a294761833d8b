//! The classes of strings.

use std::fmt;

/// What may stand in a string of a record.
#[derive(Clone, Copy, Debug, PartialEq, Eq, Hash)]
#[non_exhaustive]
pub enum Class {
    /// Identifiers joined by `::`, as `App::User`.
    PathName,
    /// One identifier: an ASCII letter or `_`, then letters, digits and `_`.
    Identifier,
    /// Printable ASCII without quotes and backslash; it may be empty.
    Plain,
}

impl Class {
    /// Whether a text is of this class, its length aside.
    ///
    /// ```
    /// use dogwood_check::Class;
    ///
    /// assert!(Class::PathName.holds("App::User"));
    /// assert!(!Class::Identifier.holds("App::User"));
    /// assert!(!Class::Plain.holds("the \"old\" house"));
    /// ```
    pub fn holds(self, text: &str) -> bool {
        match self {
            Class::PathName => text.split("::").all(is_identifier),
            Class::Identifier => is_identifier(text),
            Class::Plain => text.bytes().all(is_plain),
        }
    }
}

impl fmt::Display for Class {
    fn fmt(&self, f: &mut fmt::Formatter) -> fmt::Result {
        f.write_str(match self {
            Class::PathName => "a path name (identifiers of ASCII letters, digits and `_`, joined by `::`)",
            Class::Identifier => "an identifier (ASCII letters, digits and `_`, no digit first)",
            Class::Plain => "a plain string (printable ASCII without quotes and backslash)",
        })
    }
}

fn is_identifier(text: &str) -> bool {
    let inside = |byte: u8| byte.is_ascii_alphanumeric() || byte == b'_';
    text.bytes().all(inside) && text.bytes().next().is_some_and(|first| !first.is_ascii_digit())
}

fn is_plain(byte: u8) -> bool {
    matches!(byte, 0x20..=0x7E) && !matches!(byte, b'"' | b'\'' | b'\\')
}
