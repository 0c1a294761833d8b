//! Record 4: a path under principal or resource.

use crate::encode::{Class, EncodeError, Writer};

/// A path to look up for one of a rule's targets.
///
/// ```
/// use dogwood_check::{read_path, Path};
///
/// // principal.home.town, for the first target
/// assert_eq!(read_path(&Path::principal(["home", "town"], 0).encode()?), Ok(()));
/// # Ok::<(), dogwood_check::EncodeError>(())
/// ```
#[derive(Clone, Debug, PartialEq, Eq)]
pub struct Path {
    /// What the path is under.
    pub scope: Scope,
    /// The path below it, without `principal` or `resource`.
    pub segments: Vec<String>,
    /// The target's position in the list of targets, from 0.
    pub position: u8,
}

/// The two scopes of a rule.
#[derive(Clone, Copy, Debug, PartialEq, Eq, Hash)]
#[repr(u8)]
pub enum Scope {
    /// `principal`
    Principal = 0,
    /// `resource`
    Resource = 1,
}

impl Path {
    /// A path under `principal`.
    pub fn principal<N: Into<String>>(segments: impl IntoIterator<Item = N>, position: u8) -> Path {
        Path { scope: Scope::Principal, segments: segments.into_iter().map(Into::into).collect(), position }
    }

    /// A path under `resource`.
    pub fn resource<N: Into<String>>(segments: impl IntoIterator<Item = N>, position: u8) -> Path {
        Path { scope: Scope::Resource, ..Path::principal(segments, position) }
    }

    /// The record's bytes.
    pub fn encode(&self) -> Result<Vec<u8>, EncodeError> {
        Writer::record(b"DWP", |out| {
            out.byte(self.scope as u8);
            out.texts("segments", Class::Plain, &self.segments)?;
            out.byte(self.position);
            Ok(())
        })
    }
}
