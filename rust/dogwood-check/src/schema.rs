//! Record 1: entity types and actions.

use crate::encode::{quoted, sorted, Class, EncodeError, Encoded, Level, Within, Writer};

/// A schema. Entity types, actions and the names in them may be given in any order; the record has them sorted.
///
/// ```
/// use dogwood_check::{read_schema, Action, EntityType, Schema, Type};
///
/// let input = Type::record([("year", Type::String)]);
/// let schema = Schema::new()
///     .entity_type(EntityType::new("Reader").ancestor("Society").attribute("name", Type::String))
///     .entity_type(EntityType::new("Letter"))
///     .action(Action::new("Action", "view").principal("Reader").resource("Letter").context(Type::record([("input", input)])));
/// assert_eq!(read_schema(&schema.encode()?), Ok(()));
/// # Ok::<(), dogwood_check::EncodeError>(())
/// ```
#[derive(Clone, Debug, Default, PartialEq, Eq)]
pub struct Schema {
    /// The declared entity types, each name once.
    pub entity_types: Vec<EntityType>,
    /// The declared actions, each pair of type name and id once.
    pub actions: Vec<Action>,
}

impl Schema {
    /// A schema that declares nothing.
    pub fn new() -> Schema {
        Schema::default()
    }

    /// The same with one entity type more.
    pub fn entity_type(mut self, entity_type: EntityType) -> Schema {
        self.entity_types.push(entity_type);
        self
    }

    /// The same with one action more.
    pub fn action(mut self, action: Action) -> Schema {
        self.actions.push(action);
        self
    }

    /// The record's bytes.
    pub fn encode(&self) -> Result<Vec<u8>, EncodeError> {
        let entity_types = sorted(&self.entity_types, |entity| entity.name.as_str(), |entity| entity.name.clone())?;
        let actions = sorted(&self.actions, |action| (action.type_name.as_str(), action.id.as_str()), Action::shown)?;
        Writer::record(b"DWS", |out| {
            out.long_list("entity types", &entity_types, |out, entity_type| {
                entity_type.write(out).within(|| format!("entity type {}", quoted(&entity_type.name)))
            })?;
            out.long_list("actions", &actions, |out, action| {
                action.write(out).within(|| format!("action {}", quoted(&action.shown())))
            })
        })
    }
}

/// An entity type.
#[derive(Clone, Debug, PartialEq, Eq)]
pub struct EntityType {
    /// Its name, as `User` or `App::User`.
    pub name: String,
    /// The entity types that its entities may be members of, directly or not, each once.
    pub ancestors: Vec<String>,
    /// Its attributes, each name once.
    pub attributes: Vec<Attribute>,
}

impl EntityType {
    /// An entity type without ancestors and attributes.
    pub fn new(name: impl Into<String>) -> EntityType {
        EntityType { name: name.into(), ancestors: Vec::new(), attributes: Vec::new() }
    }

    /// The same with one ancestor more.
    pub fn ancestor(mut self, name: impl Into<String>) -> EntityType {
        self.ancestors.push(name.into());
        self
    }

    /// The same with one attribute more.
    pub fn attribute(mut self, name: impl Into<String>, ty: Type) -> EntityType {
        self.attributes.push(Attribute { name: name.into(), ty });
        self
    }

    fn write(&self, out: &mut Writer) -> Encoded {
        out.text(Class::PathName, &self.name)?;
        out.names("ancestors", &self.ancestors)?;
        write_attributes(&self.attributes, out, Level::ABOVE_ROOT)
    }
}

/// An action.
#[derive(Clone, Debug, PartialEq, Eq)]
pub struct Action {
    /// The name of its type: `Action`, or `App::Action` in the namespace `App`.
    pub type_name: String,
    /// Its id, as `view`.
    pub id: String,
    /// The entity types of its principals, each once.
    pub principals: Vec<String>,
    /// The entity types of its resources, each once.
    pub resources: Vec<String>,
    /// The type of its context, a record as a rule.
    pub context: Type,
}

impl Action {
    /// An action without principals and resources, whose context is a record without attributes.
    pub fn new(type_name: impl Into<String>, id: impl Into<String>) -> Action {
        Action {
            type_name: type_name.into(),
            id: id.into(),
            principals: Vec::new(),
            resources: Vec::new(),
            context: Type::Record(Vec::new()),
        }
    }

    /// The same with one principal more.
    pub fn principal(mut self, entity_type: impl Into<String>) -> Action {
        self.principals.push(entity_type.into());
        self
    }

    /// The same with one resource more.
    pub fn resource(mut self, entity_type: impl Into<String>) -> Action {
        self.resources.push(entity_type.into());
        self
    }

    /// The same with this context.
    pub fn context(mut self, context: Type) -> Action {
        self.context = context;
        self
    }

    fn shown(&self) -> String {
        format!("{}::\"{}\"", self.type_name, self.id)
    }

    fn write(&self, out: &mut Writer) -> Encoded {
        out.text(Class::PathName, &self.type_name)?;
        out.text(Class::Plain, &self.id)?;
        out.names("principals", &self.principals)?;
        out.names("resources", &self.resources)?;
        self.context.write(out, Level::ROOT).within(|| "the context".to_string())
    }
}

/// An attribute of an entity type or of a record.
#[derive(Clone, Debug, PartialEq, Eq)]
pub struct Attribute {
    /// Its name.
    pub name: String,
    /// Its type.
    pub ty: Type,
}

/// The attributes of what stands at this level.
fn write_attributes(attributes: &[Attribute], out: &mut Writer, level: Level) -> Encoded {
    let attributes = sorted(attributes, |attribute| attribute.name.as_str(), |attribute| attribute.name.clone())?;
    out.list("attributes", attributes, |out, attribute| {
        attribute.write(out, level).within(|| format!("attribute {}", quoted(&attribute.name)))
    })
}

impl Attribute {
    /// Writes an attribute of what stands at this level.
    fn write(&self, out: &mut Writer, level: Level) -> Encoded {
        out.text(Class::Plain, &self.name)?;
        self.ty.write(out, level.below()?)
    }
}

/// A type of the schema.
#[derive(Clone, Debug, PartialEq, Eq)]
pub enum Type {
    /// `Long`.
    Long,
    /// `String`.
    String,
    /// `Bool`.
    Bool,
    /// An extension type, as `decimal` or `App::decimal`. Those whose simple name is `decimal`, `datetime` or `duration`
    /// are types of their own; any other compares as a String.
    Extension(String),
    /// A set with elements of one type.
    Set(Box<Type>),
    /// A set whose element's type is not known.
    AnySet,
    /// A record, each attribute's name once.
    Record(Vec<Attribute>),
    /// An entity of this type.
    Entity(String),
    /// An entity of one of several types.
    SeveralEntities,
    /// An entity of any type.
    AnyEntity,
    /// The type without values.
    Never,
}

impl Type {
    /// The extension type of this name.
    pub fn extension(name: impl Into<String>) -> Type {
        Type::Extension(name.into())
    }

    /// A point in time, the extension type `datetime`. Two of them have an order; arithmetic does not take them, and no
    /// other type compares with them.
    ///
    /// ```
    /// use dogwood_check::{check, Action, Condition, Operator, Schema, Target, Targets, Term, Type};
    ///
    /// let input = Type::record([("due", Type::datetime()), ("loan", Type::duration()), ("sent", Type::datetime())]);
    /// let view = Action::new("Action", "view").context(Type::record([("input", input)]));
    /// let schema = Schema::new().action(view).encode()?;
    /// let targets = Targets::new().target(Target::new("view")).encode()?;
    /// let field = |name| Term::context(["input", name]);
    ///
    /// let late = Condition::comparison(0..40, Operator::Lt, field("due"), field("sent")).encode()?;
    /// assert!(check(&schema, &late, &targets)?.is_clean());
    /// let long = Condition::comparison(0..40, Operator::Lt, field("due"), field("loan")).encode()?;
    /// assert_eq!(
    ///     check(&schema, &long, &targets)?.to_string(),
    ///     "0..40: comparison requires numeric operands on both sides, got `datetime` and `duration`"
    /// );
    /// # Ok::<(), Box<dyn std::error::Error>>(())
    /// ```
    pub fn datetime() -> Type {
        Type::extension("datetime")
    }

    /// A length of time, the extension type `duration`. It stands to others as [`datetime`](Type::datetime) does.
    pub fn duration() -> Type {
        Type::extension("duration")
    }

    /// A set with elements of this type.
    pub fn set(element: Type) -> Type {
        Type::Set(Box::new(element))
    }

    /// A record with these attributes, in any order.
    pub fn record<N: Into<String>>(attributes: impl IntoIterator<Item = (N, Type)>) -> Type {
        Type::Record(attributes.into_iter().map(|(name, ty)| Attribute { name: name.into(), ty }).collect())
    }

    /// An entity of the type of this name.
    pub fn entity(name: impl Into<String>) -> Type {
        Type::Entity(name.into())
    }

    /// The format's number of this type.
    fn number(&self) -> u8 {
        match self {
            Type::Long => 0,
            Type::String => 1,
            Type::Bool => 2,
            Type::Extension(_) => 3,
            Type::Set(_) => 4,
            Type::AnySet => 5,
            Type::Record(_) => 6,
            Type::Entity(_) => 7,
            Type::SeveralEntities => 8,
            Type::AnyEntity => 9,
            Type::Never => 10,
        }
    }

    fn write(&self, out: &mut Writer, level: Level) -> Encoded {
        out.byte(self.number());
        match self {
            Type::Extension(name) | Type::Entity(name) => out.text(Class::PathName, name),
            Type::Set(element) => element.write(out, level.below()?),
            Type::Record(attributes) => write_attributes(attributes, out, level),
            _ => Ok(()),
        }
    }
}
