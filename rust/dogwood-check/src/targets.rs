//! Record 3: the narrowing of a rule's scope, and its targets.

use crate::encode::{quoted, Class, EncodeError, Encoded, Within, Writer};

/// What a rule is about: which principals and resources, and which actions.
///
/// ```
/// use dogwood_check::{read_targets, Narrowing, Target, Targets};
///
/// let targets = Targets::new()
///     .principal(Narrowing::is_type("Reader"))
///     .target(Target::new("view"))
///     .target(Target::in_namespace("App", "copy"));
/// assert_eq!(read_targets(&targets.encode()?), Ok(()));
/// # Ok::<(), dogwood_check::EncodeError>(())
/// ```
#[derive(Clone, Debug, Default, PartialEq, Eq)]
pub struct Targets {
    /// Which principals.
    pub principal: Narrowing,
    /// Which resources.
    pub resource: Narrowing,
    /// The actions, in the order in which they are checked.
    pub list: Vec<Target>,
}

/// Which principals or resources a rule is about.
#[derive(Clone, Debug, Default, PartialEq, Eq)]
pub enum Narrowing {
    /// Nothing is said.
    #[default]
    None,
    /// Any. An action that has none on this side is then skipped.
    Any,
    /// Those of this type: `principal is User`.
    IsType(String),
    /// One of this type: `principal == User::"ann"`.
    Uid(String),
    /// One of this type and its members: `principal in Group::"friends"`.
    UidIn(String),
}

impl Narrowing {
    /// `is type_name`
    pub fn is_type(type_name: impl Into<String>) -> Narrowing {
        Narrowing::IsType(type_name.into())
    }

    /// `== type_name::".."`
    pub fn uid(type_name: impl Into<String>) -> Narrowing {
        Narrowing::Uid(type_name.into())
    }

    /// `in type_name::".."`
    pub fn uid_in(type_name: impl Into<String>) -> Narrowing {
        Narrowing::UidIn(type_name.into())
    }

    fn write(&self, out: &mut Writer) -> Encoded {
        let (number, type_name) = match self {
            Narrowing::None => (0, None),
            Narrowing::Any => (1, None),
            Narrowing::IsType(type_name) => (2, Some(type_name)),
            Narrowing::Uid(type_name) => (3, Some(type_name)),
            Narrowing::UidIn(type_name) => (4, Some(type_name)),
        };
        out.byte(number);
        type_name.map_or(Ok(()), |type_name| out.text(Class::PathName, type_name))
    }
}

/// An action that a rule is about.
#[derive(Clone, Debug, PartialEq, Eq)]
pub struct Target {
    /// What stands before `::Action`; none for an action of the type `Action`.
    pub namespace: Option<String>,
    /// The action's id.
    pub id: String,
}

impl Target {
    /// `Action::"id"`
    pub fn new(id: impl Into<String>) -> Target {
        Target { namespace: None, id: id.into() }
    }

    /// `namespace::Action::"id"`
    pub fn in_namespace(namespace: impl Into<String>, id: impl Into<String>) -> Target {
        Target { namespace: Some(namespace.into()), id: id.into() }
    }

    /// The bytes of the target by itself, as [`Stepping::append`](crate::Stepping::append) takes them.
    pub fn encode(&self) -> Result<Vec<u8>, EncodeError> {
        Writer::part(|out| self.write_named(out))
    }

    fn write_named(&self, out: &mut Writer) -> Encoded {
        self.write(out).within(|| format!("target {}", quoted(&self.id)))
    }

    fn write(&self, out: &mut Writer) -> Encoded {
        match &self.namespace {
            Some(namespace) => out.text(Class::PathName, namespace)?,
            None => out.byte(0),
        }
        out.text(Class::Plain, &self.id)
    }
}

impl Targets {
    /// No narrowing and no targets.
    pub fn new() -> Targets {
        Targets::default()
    }

    /// The same with this narrowing of principals.
    pub fn principal(mut self, narrowing: Narrowing) -> Targets {
        self.principal = narrowing;
        self
    }

    /// The same with this narrowing of resources.
    pub fn resource(mut self, narrowing: Narrowing) -> Targets {
        self.resource = narrowing;
        self
    }

    /// The same with one target more.
    pub fn target(mut self, target: Target) -> Targets {
        self.list.push(target);
        self
    }

    /// The record's bytes.
    pub fn encode(&self) -> Result<Vec<u8>, EncodeError> {
        Writer::record(b"DWT", |out| {
            self.principal.write(out).within(|| "the principal's narrowing".to_string())?;
            self.resource.write(out).within(|| "the resource's narrowing".to_string())?;
            out.list("targets", &self.list, |out, target| target.write_named(out))
        })
    }
}
