//! Variables of a condition, and what declares them.

use crate::encode::{quoted, Class, Encoded, Problem, Within, Writer};

/// Where a variable is named: by a concrete name, or by a reference in the body of a macro.
#[derive(Clone, Debug, PartialEq, Eq)]
pub enum Slot {
    /// A name.
    Name(String),
    /// `?p`.
    ParamRef,
    /// `$b`.
    BinderRef,
}

impl<T: Into<String>> From<T> for Slot {
    fn from(name: T) -> Slot {
        Slot::Name(name.into())
    }
}

impl Slot {
    pub(crate) fn write(&self, out: &mut Writer) -> Encoded {
        match self {
            Slot::Name(name) => {
                out.byte(0);
                out.text(Class::Plain, name)?;
            }
            Slot::ParamRef => out.byte(1),
            Slot::BinderRef => out.byte(2),
        }
        Ok(())
    }

    fn shown(&self) -> &str {
        match self {
            Slot::Name(name) => name,
            Slot::ParamRef => "?",
            Slot::BinderRef => "$",
        }
    }
}

/// The declared type of a variable.
#[derive(Clone, Debug, PartialEq, Eq)]
pub enum Annotation {
    /// A position in time.
    Timepoint,
    /// A named type by its segments, at least one: `["Long"]`, `["App", "User"]`. The last one decides: `Long`, `String`,
    /// `Bool` or `Boolean`, `decimal` or `Decimal`, `datetime`, `duration`; any other is an entity type.
    Named(Vec<String>),
}

/// The text of an annotation, as it is written in a rule: `Timepoint`, `Long`, `datetime` or `App::User`.
impl From<&str> for Annotation {
    fn from(text: &str) -> Annotation {
        match text {
            "Timepoint" => Annotation::Timepoint,
            name => Annotation::Named(name.split("::").map(str::to_string).collect()),
        }
    }
}

impl Annotation {
    fn write(&self, out: &mut Writer) -> Encoded {
        match self {
            Annotation::Timepoint => {
                out.byte(0);
                Ok(())
            }
            // the count 0 would say `Timepoint`
            Annotation::Named(segments) if segments.is_empty() => Err(Problem::NoSegments.into()),
            Annotation::Named(segments) => out.texts("segments of the annotation", Class::Identifier, segments),
        }
    }
}

/// The declaration of a variable.
///
/// ```
/// use dogwood_check::{Annotation, Binder, Slot};
///
/// let binder = Binder::new("t", "Timepoint");
/// assert_eq!(binder, Binder { slot: Slot::Name("t".to_string()), annotation: Annotation::Timepoint });
/// ```
#[derive(Clone, Debug, PartialEq, Eq)]
pub struct Binder {
    /// The variable.
    pub slot: Slot,
    /// Its type.
    pub annotation: Annotation,
}

impl Binder {
    /// Declares a variable.
    pub fn new(slot: impl Into<Slot>, annotation: impl Into<Annotation>) -> Binder {
        Binder { slot: slot.into(), annotation: annotation.into() }
    }

    pub(crate) fn write(&self, out: &mut Writer) -> Encoded {
        let written = self.slot.write(out).and_then(|()| self.annotation.write(out));
        written.within(|| format!("binder {}", quoted(self.slot.shown())))
    }
}
