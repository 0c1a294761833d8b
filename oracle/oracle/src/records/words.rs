//! Which types a record names by a word, noted while it is read: the two that the Rust does not know, and those that can
//! stand in their place when it is asked (`times`).

use std::ops::Range;

/// A type of the rules here that the Rust does not know.
#[derive(Debug, Clone, Copy, PartialEq, Eq)]
pub enum Time {
    Datetime,
    Duration,
}

impl Time {
    pub const ALL: [Time; 2] = [Time::Datetime, Time::Duration];

    /// The word that names the type, and by which it is shown.
    pub fn word(self) -> &'static str {
        match self {
            Time::Datetime => "datetime",
            Time::Duration => "duration",
        }
    }

    /// The type of this simple name or last segment, letter by letter.
    fn named(word: &str) -> Option<Time> {
        Time::ALL.into_iter().find(|time| time.word() == word)
    }
}

/// What a record says a type with: an extension's byte and name, or the count and the segments of an annotation.
#[derive(Debug, Clone, Copy, PartialEq, Eq)]
pub enum Saying {
    Extension,
    Annotation,
}

/// A place where one of the two types is said, from its first byte to behind its last.
#[derive(Debug, Clone, PartialEq, Eq)]
pub struct Named {
    pub time: Time,
    pub saying: Saying,
    pub place: Range<usize>,
}

#[derive(Debug, Clone, Default, PartialEq, Eq)]
pub struct Words {
    /// Where the two types are said, from left to right.
    pub times: Vec<Named>,
    /// Whether something is of type decimal: an extension, an annotation, a literal.
    pub decimal: bool,
    /// Whether something is of type Bool.
    pub boolean: bool,
}

impl Words {
    /// An extension of this simple name.
    pub fn extension(&mut self, name: &str, place: Range<usize>) {
        self.decimal |= name == "decimal";
        self.time(name, Saying::Extension, place);
    }

    /// An annotation with this last segment.
    pub fn annotation(&mut self, last: &str, place: Range<usize>) {
        self.decimal |= matches!(last, "decimal" | "Decimal");
        self.boolean |= matches!(last, "Bool" | "Boolean");
        self.time(last, Saying::Annotation, place);
    }

    fn time(&mut self, word: &str, saying: Saying, place: Range<usize>) {
        self.times.extend(Time::named(word).map(|time| Named { time, saying, place }));
    }
}
