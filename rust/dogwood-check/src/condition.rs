//! Record 2: a condition.

use crate::encode::{quoted, Class, EncodeError, Encoded, Level, Within, Writer};
use crate::{Binder, Slot, Span, Term, Window};

/// A condition of a rule, with the place in the rule's text that reports name.
///
/// ```
/// use dogwood_check::{read_condition, Argument, Binder, Condition, Operator, Term};
///
/// // exists (y: Long). Action::"view"::request{ input.year: y } && y < 1900
/// let seen = Condition::predicate(18..54, ["Action"], "view", [Argument::new("input.year", Term::var("y"))]);
/// let early = Condition::comparison(58..66, Operator::Lt, Term::var("y"), Term::Integer);
/// let condition = Condition::exists(0..66, Binder::new("y", "Long"), Condition::and(18..66, seen, early));
/// assert_eq!(read_condition(&condition.encode()?), Ok(()));
/// # Ok::<(), dogwood_check::EncodeError>(())
/// ```
///
/// Windows and values may be left out, all of them or none. A record of version 1 has neither, one of version 2 has a
/// [`Window`] for each condition that looks back (`formerly`, `previous`, `since`), and one of version 3 has the
/// [values](crate::Value) of literals, the ids of entities and the operators of arithmetic too. A tree is encoded in the
/// lowest version that has room for all that it says, and what is left out in that version is an error.
///
/// A tree is dropped recursively, as any tree of boxes. Whoever builds one from a rule's text bounds its depth while
/// parsing; [`MOST_LEVELS`](crate::MOST_LEVELS) are enough for every tree that can be encoded.
#[derive(Clone, Debug, PartialEq, Eq)]
pub struct Condition {
    /// Its place in the rule's text.
    pub span: Span,
    /// What it says.
    pub kind: ConditionKind,
}

/// What a condition says.
#[derive(Clone, Debug, PartialEq, Eq)]
pub enum ConditionKind {
    /// Both hold.
    And(Box<Condition>, Box<Condition>),
    /// One of the two holds.
    Or(Box<Condition>, Box<Condition>),
    /// It does not hold.
    Not(Box<Condition>),
    /// It held at some time before, in the window if there is one.
    Formerly(Option<Window>, Box<Condition>),
    /// It held at the time just before.
    Previous(Option<Window>, Box<Condition>),
    /// The right one held, and the left one ever since. (The window stands first, as in the record.)
    Since(Option<Window>, Box<Condition>, Box<Condition>),
    /// An event is matched.
    Predicate(Predicate),
    /// Two terms are compared.
    Comparison(Operator, Term, Term),
    /// It holds for some value of the variable.
    Exists(Binder, Box<Condition>),
    /// The variable is the present timepoint.
    Tp(Slot),
    /// A call of a macro. The check does not look into it.
    Call,
    /// `?p` or `$b` in place of a condition.
    SigilRef,
    /// A predicate with further fields. The check looks at the condition alone.
    Refine(Box<Condition>),
}

/// The operator of a comparison. An order takes two Long, two `datetime` or two `duration`; an equality takes two terms of
/// like types.
#[derive(Clone, Copy, Debug, PartialEq, Eq, Hash)]
#[repr(u8)]
pub enum Operator {
    /// `<=`
    Le = 0,
    /// `<`
    Lt = 1,
    /// `>=`
    Ge = 2,
    /// `>`
    Gt = 3,
    /// `==`
    Eq = 4,
    /// `!=`
    NotEq = 5,
}

impl Condition {
    /// A condition at a place in the rule's text.
    pub fn new(span: impl Into<Span>, kind: ConditionKind) -> Condition {
        Condition { span: span.into(), kind }
    }

    /// `left && right`
    pub fn and(span: impl Into<Span>, left: Condition, right: Condition) -> Condition {
        Condition::new(span, ConditionKind::And(Box::new(left), Box::new(right)))
    }

    /// `left || right`
    pub fn or(span: impl Into<Span>, left: Condition, right: Condition) -> Condition {
        Condition::new(span, ConditionKind::Or(Box::new(left), Box::new(right)))
    }

    /// `!inner`
    pub fn negation(span: impl Into<Span>, inner: Condition) -> Condition {
        Condition::new(span, ConditionKind::Not(Box::new(inner)))
    }

    /// `formerly body`
    pub fn formerly(span: impl Into<Span>, body: Condition) -> Condition {
        Condition::new(span, ConditionKind::Formerly(None, Box::new(body)))
    }

    /// `previous body`
    pub fn previous(span: impl Into<Span>, body: Condition) -> Condition {
        Condition::new(span, ConditionKind::Previous(None, Box::new(body)))
    }

    /// `left since right`
    pub fn since(span: impl Into<Span>, left: Condition, right: Condition) -> Condition {
        Condition::new(span, ConditionKind::Since(None, Box::new(left), Box::new(right)))
    }

    /// `formerly within window body`
    pub fn formerly_within(span: impl Into<Span>, window: Window, body: Condition) -> Condition {
        Condition::new(span, ConditionKind::Formerly(Some(window), Box::new(body)))
    }

    /// `previous within window body`
    pub fn previous_within(span: impl Into<Span>, window: Window, body: Condition) -> Condition {
        Condition::new(span, ConditionKind::Previous(Some(window), Box::new(body)))
    }

    /// `left since within window right`
    pub fn since_within(span: impl Into<Span>, left: Condition, window: Window, right: Condition) -> Condition {
        Condition::new(span, ConditionKind::Since(Some(window), Box::new(left), Box::new(right)))
    }

    /// A predicate whose own span is that of the condition.
    pub fn predicate<N: Into<String>>(
        span: impl Into<Span>,
        namespaces: impl IntoIterator<Item = N>,
        action: impl Into<String>,
        arguments: impl IntoIterator<Item = Argument>,
    ) -> Condition {
        let span = span.into();
        let predicate = Predicate {
            span,
            namespaces: namespaces.into_iter().map(Into::into).collect(),
            action: action.into(),
            arguments: arguments.into_iter().collect(),
        };
        Condition::new(span, ConditionKind::Predicate(predicate))
    }

    /// `left < right`, or with another operator.
    pub fn comparison(span: impl Into<Span>, operator: Operator, left: Term, right: Term) -> Condition {
        Condition::new(span, ConditionKind::Comparison(operator, left, right))
    }

    /// `exists (variable: type). body`
    pub fn exists(span: impl Into<Span>, binder: Binder, body: Condition) -> Condition {
        Condition::new(span, ConditionKind::Exists(binder, Box::new(body)))
    }

    /// `tp(variable)`
    pub fn tp(span: impl Into<Span>, slot: impl Into<Slot>) -> Condition {
        Condition::new(span, ConditionKind::Tp(slot.into()))
    }

    /// `name(..)`, a call of a macro.
    pub fn call(span: impl Into<Span>) -> Condition {
        Condition::new(span, ConditionKind::Call)
    }

    /// `?p` or `$b`
    pub fn sigil_ref(span: impl Into<Span>) -> Condition {
        Condition::new(span, ConditionKind::SigilRef)
    }

    /// `base{ .. }`
    pub fn refine(span: impl Into<Span>, base: Condition) -> Condition {
        Condition::new(span, ConditionKind::Refine(Box::new(base)))
    }

    /// The bytes of the record with this condition as its root, in the lowest version that has room for all it says: 3 where
    /// terms have their values, else 2 where the conditions that look back have their windows, else 1.
    pub fn encode(&self) -> Result<Vec<u8>, EncodeError> {
        Writer::record(b"DWC", |out| self.write(out, Level::ROOT))
    }

    pub(crate) fn write(&self, out: &mut Writer, level: Level) -> Encoded {
        out.byte(self.kind.number());
        out.span(self.span);
        self.kind.write(out, level).at(self.span)
    }
}

impl ConditionKind {
    /// The format's number of this kind.
    fn number(&self) -> u8 {
        match self {
            ConditionKind::And(..) => 1,
            ConditionKind::Or(..) => 2,
            ConditionKind::Not(_) => 3,
            ConditionKind::Formerly(..) => 4,
            ConditionKind::Previous(..) => 5,
            ConditionKind::Since(..) => 6,
            ConditionKind::Predicate(_) => 7,
            ConditionKind::Comparison(..) => 8,
            ConditionKind::Exists(..) => 9,
            ConditionKind::Tp(_) => 10,
            ConditionKind::Call => 11,
            ConditionKind::SigilRef => 12,
            ConditionKind::Refine(_) => 13,
        }
    }

    /// What stands behind the kind and the span, of a condition at this level.
    fn write(&self, out: &mut Writer, level: Level) -> Encoded {
        match self {
            ConditionKind::And(left, right) | ConditionKind::Or(left, right) => {
                left.write(out, level.below()?)?;
                right.write(out, level.below()?)
            }
            ConditionKind::Since(window, left, right) => {
                Window::write_given(*window, out)?;
                left.write(out, level.below()?)?;
                right.write(out, level.below()?)
            }
            ConditionKind::Not(inner) | ConditionKind::Refine(inner) => inner.write(out, level.below()?),
            ConditionKind::Formerly(window, body) | ConditionKind::Previous(window, body) => {
                Window::write_given(*window, out)?;
                body.write(out, level.below()?)
            }
            ConditionKind::Predicate(predicate) => predicate.write(out, level),
            ConditionKind::Comparison(operator, left, right) => {
                out.byte(*operator as u8);
                left.write(out, level.below()?)?;
                right.write(out, level.below()?)
            }
            ConditionKind::Exists(binder, body) => {
                binder.write(out)?;
                body.write(out, level.below()?)
            }
            ConditionKind::Tp(slot) => slot.write(out),
            ConditionKind::Call | ConditionKind::SigilRef => Ok(()),
        }
    }
}

/// An event of an action, with what its fields are to be.
#[derive(Clone, Debug, PartialEq, Eq)]
pub struct Predicate {
    /// Its place in the rule's text: arguments are reported here.
    pub span: Span,
    /// What stands before the action's id: `["Action"]`, or `["App", "Action"]` in the namespace `App`.
    pub namespaces: Vec<String>,
    /// The action's id.
    pub action: String,
    /// The fields, in any order.
    pub arguments: Vec<Argument>,
}

impl Predicate {
    fn write(&self, out: &mut Writer, level: Level) -> Encoded {
        out.span(self.span);
        out.texts("namespaces", Class::PathName, &self.namespaces)?;
        out.text(Class::Plain, &self.action)?;
        out.list("arguments", &self.arguments, |out, argument| {
            argument.write(out, level).within(|| format!("argument {}", quoted(&argument.name)))
        })
    }
}

/// An argument of a predicate.
#[derive(Clone, Debug, PartialEq, Eq)]
pub struct Argument {
    /// The field as it is written, for the message: `input.year`.
    pub name: String,
    /// The field's path below the action's context, which decides about its type: `["input", "year"]`.
    pub field: Vec<String>,
    /// What the field is to be.
    pub value: Term,
}

impl Argument {
    /// An argument whose field is its name, taken apart at the dots.
    ///
    /// ```
    /// use dogwood_check::{Argument, Term};
    ///
    /// assert_eq!(Argument::new("input.year", Term::Integer).field, ["input", "year"]);
    /// ```
    pub fn new(name: impl Into<String>, value: Term) -> Argument {
        let name = name.into();
        let field = name.split('.').map(str::to_string).collect();
        Argument { name, field, value }
    }

    /// Writes an argument of a predicate at this level.
    fn write(&self, out: &mut Writer, level: Level) -> Encoded {
        out.text(Class::Plain, &self.name)?;
        out.texts("segments of its field", Class::Plain, &self.field)?;
        self.value.write(out, level.below()?)
    }
}
