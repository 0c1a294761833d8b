//! What a check or the sums of a condition found.

use crate::{Report, MOST_SPACE};
use std::fmt;

/// What [`check`](crate::check) or [`sums`](crate::sums) found: the reports, and whether there are more of them.
///
/// It is shown with a line for each report, and one that says if there are more.
///
/// ```
/// use dogwood_check::{Findings, Report};
///
/// let report = Report { start: 0, end: 8, message: "not like this".to_string() };
/// let found = Findings { reports: vec![report], more: true };
/// assert!(!found.is_clean());
/// let shown = "0..8: not like this\nThere are more reports: those shown fill the 16 MiB that a call takes at most.";
/// assert_eq!(found.to_string(), shown);
/// ```
#[derive(Clone, Debug, Default, PartialEq, Eq, Hash)]
pub struct Findings {
    /// The reports in their order, without repeats of a message at one start where a check has found them.
    pub reports: Vec<Report>,
    /// Whether there are more reports than [`MOST_SPACE`] holds. Then `reports` are all those before the first that
    /// does not fit.
    pub more: bool,
}

impl Findings {
    /// Whether the condition breaks no rule.
    pub fn is_clean(&self) -> bool {
        self.reports.is_empty() && !self.more
    }
}

impl fmt::Display for Findings {
    fn fmt(&self, f: &mut fmt::Formatter) -> fmt::Result {
        let mut line = "";
        for report in &self.reports {
            write!(f, "{line}{report}")?;
            line = "\n";
        }
        if self.more {
            let most = MOST_SPACE >> 20;
            write!(f, "{line}There are more reports: those shown fill the {most} MiB that a call takes at most.")?;
        }
        Ok(())
    }
}

impl IntoIterator for Findings {
    type Item = Report;
    type IntoIter = std::vec::IntoIter<Report>;

    fn into_iter(self) -> Self::IntoIter {
        self.reports.into_iter()
    }
}

impl<'a> IntoIterator for &'a Findings {
    type Item = &'a Report;
    type IntoIter = std::slice::Iter<'a, Report>;

    fn into_iter(self) -> Self::IntoIter {
        self.reports.iter()
    }
}
