//! How deep something stands.

use super::{EncodeError, Problem, MOST_LEVELS};

/// The level of a condition, term or type: 1 to 32, or 0 for what holds the root.
#[derive(Clone, Copy)]
pub(crate) struct Level(u8);

impl Level {
    pub(crate) const ABOVE_ROOT: Level = Level(0);
    pub(crate) const ROOT: Level = Level(1);

    /// One level down, where there is one.
    pub(crate) fn below(self) -> Result<Level, EncodeError> {
        if self.0 == MOST_LEVELS {
            return Err(Problem::TooDeep.into());
        }
        Ok(Level(self.0 + 1))
    }
}
