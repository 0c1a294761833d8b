//! Record 4: a scope, a path below it, and a target's position.

use super::fields::Fields;
use super::*;

#[derive(Debug, Clone, Copy, PartialEq, Eq)]
pub enum Scope {
    Principal,
    Resource,
}

impl Scope {
    /// The scope's root as the Rust calls it.
    pub fn root(self) -> &'static str {
        match self {
            Scope::Principal => "principal",
            Scope::Resource => "resource",
        }
    }
}

pub struct PathRecord {
    pub scope: Scope,
    pub path: Vec<String>,
    pub position: usize,
}

pub fn read_path(bytes: &[u8]) -> Result<PathRecord, Refusal> {
    let mut fields = Fields::open(bytes, b"DWP", 1)?;
    let scope = match fields.choice(0, 1)? {
        0 => Scope::Principal,
        _ => Scope::Resource,
    };
    let path = fields.path()?;
    let position = fields.byte()? as usize;
    fields.close()?;
    Ok(PathRecord { scope, path, position })
}
