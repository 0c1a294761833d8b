//! Names: identifiers, path names, entity types, entity ids and uids.

use std::convert::Infallible;
use std::fmt;
use std::str::FromStr;

/// The last part of a path name.
#[derive(Debug, Clone, PartialEq, Eq)]
pub struct Id(String);

impl AsRef<str> for Id {
    fn as_ref(&self) -> &str {
        &self.0
    }
}

impl fmt::Display for Id {
    fn fmt(&self, f: &mut fmt::Formatter<'_>) -> fmt::Result {
        f.write_str(&self.0)
    }
}

/// A path name, kept as its text.
#[derive(Debug, Clone, PartialEq, Eq, Hash, PartialOrd, Ord)]
pub struct Name(String);

impl Name {
    pub fn new(text: impl Into<String>) -> Name {
        Name(text.into())
    }

    /// The part after the last `::`.
    pub fn basename(&self) -> Id {
        let last = self.0.rsplit_once("::").map_or(self.0.as_str(), |(_, last)| last);
        Id(last.to_string())
    }
}

impl fmt::Display for Name {
    fn fmt(&self, f: &mut fmt::Formatter<'_>) -> fmt::Result {
        f.write_str(&self.0)
    }
}

/// An entity type: a path name.
#[derive(Debug, Clone, PartialEq, Eq, Hash, PartialOrd, Ord)]
pub struct EntityType(Name);

impl EntityType {
    pub fn new(text: impl Into<String>) -> EntityType {
        EntityType(Name::new(text))
    }

    pub fn name(&self) -> &Name {
        &self.0
    }
}

impl fmt::Display for EntityType {
    fn fmt(&self, f: &mut fmt::Formatter<'_>) -> fmt::Result {
        self.0.fmt(f)
    }
}

impl FromStr for EntityType {
    /// No name fails to parse here.
    type Err = Infallible;

    fn from_str(text: &str) -> Result<EntityType, Infallible> {
        Ok(EntityType::new(text))
    }
}

/// An entity's id.
#[derive(Debug, Clone, PartialEq, Eq, Hash)]
pub struct Eid(String);

impl Eid {
    pub fn new(text: impl Into<String>) -> Eid {
        Eid(text.into())
    }

    /// The identity: on the plain strings of the records Cedar's escaping changes nothing.
    pub fn escaped(&self) -> String {
        self.0.clone()
    }
}

impl AsRef<str> for Eid {
    fn as_ref(&self) -> &str {
        &self.0
    }
}

/// An entity's type and id.
#[derive(Debug, Clone, PartialEq, Eq, Hash)]
pub struct EntityUID {
    entity_type: EntityType,
    eid: Eid,
}

impl EntityUID {
    /// The third part, a place in a source text, is never given.
    pub fn from_components(entity_type: EntityType, eid: Eid, _place: Option<Infallible>) -> EntityUID {
        EntityUID { entity_type, eid }
    }

    pub fn entity_type(&self) -> &EntityType {
        &self.entity_type
    }

    pub fn eid(&self) -> &Eid {
        &self.eid
    }
}
