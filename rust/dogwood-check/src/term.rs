//! The terms of a condition.

use crate::encode::{Class, Encoded, Level, Problem, Within, Writer};
use crate::value::VALUES;
use crate::{ArithOp, Binder, Condition, DecimalError, Slot, Span, Value};

/// A term: a literal, a field, a variable, or built from others.
///
/// The check looks at types, so that a literal may go without its value: `Term::Integer` is some whole number,
/// `Term::integer(5)` is this one. The same holds of an entity's id and of the operator of an arithmetic. Where one term of
/// a condition says such a thing, all have to: see [`Condition`].
#[derive(Clone, Debug, PartialEq, Eq)]
pub enum Term {
    /// An entity of this type, its id left out.
    Entity(String),
    /// A whole number, its value left out.
    Integer,
    /// A decimal, its value left out.
    Decimal,
    /// A text, left out.
    String,
    /// `true` or `false`, which of them left out.
    Bool,
    /// A field of the context by its path below `context`: `["input", "year"]`.
    ContextField(Vec<String>),
    /// `principal` or `resource`, then a path below it: `["principal", "born"]`.
    ScopeField(Vec<String>),
    /// A variable.
    Var(String),
    /// `*`
    Wildcard,
    /// An array. No aggregate may stand in it, at any depth.
    Array(Vec<Term>),
    /// A sum or count.
    Aggregate(Box<Aggregate>),
    /// `left + right`, or with another operator, which is left out.
    Arith(Box<Term>, Box<Term>),
    /// `?p`
    ParamRef,
    /// `$b`
    BinderRef,
    /// A literal with its value, or an entity with its id.
    Value(Value),
    /// `left + right`, or with another operator.
    Computed(ArithOp, Box<Term>, Box<Term>),
}

/// A sum or count over what satisfies a condition.
#[derive(Clone, Debug, PartialEq, Eq)]
pub struct Aggregate {
    /// Its place in the rule's text: sums are reported here.
    pub span: Span,
    /// What it is.
    pub kind: AggregateKind,
}

/// What an aggregate is.
#[derive(Clone, Debug, PartialEq, Eq)]
pub enum AggregateKind {
    /// `sum v for (v: Long), .. where body`
    Sum(Slot, Vec<Binder>, Condition),
    /// `count for (v: Long), .. where body`
    Count(Vec<Binder>, Condition),
    /// A call of a macro. The check does not look into it.
    Call,
}

/// Where a term stands: how deep, and whether below an array.
#[derive(Clone, Copy)]
struct Place {
    level: Level,
    in_array: bool,
}

impl Term {
    /// An entity of the type of this name, its id left out.
    pub fn entity(type_name: impl Into<String>) -> Term {
        Term::Entity(type_name.into())
    }

    /// `context.input.year`, of `["input", "year"]`
    pub fn context<N: Into<String>>(path: impl IntoIterator<Item = N>) -> Term {
        Term::ContextField(path.into_iter().map(Into::into).collect())
    }

    /// `principal.born`, of `["principal", "born"]`
    pub fn scope<N: Into<String>>(path: impl IntoIterator<Item = N>) -> Term {
        Term::ScopeField(path.into_iter().map(Into::into).collect())
    }

    /// The variable of this name.
    pub fn var(name: impl Into<String>) -> Term {
        Term::Var(name.into())
    }

    /// `[..]`
    pub fn array(elements: impl IntoIterator<Item = Term>) -> Term {
        Term::Array(elements.into_iter().collect())
    }

    /// A sum or count.
    pub fn aggregate(aggregate: Aggregate) -> Term {
        Term::Aggregate(Box::new(aggregate))
    }

    /// `left + right`, or with another operator, which is left out.
    pub fn arith(left: Term, right: Term) -> Term {
        Term::Arith(Box::new(left), Box::new(right))
    }

    /// `left + right`, or with another operator.
    pub fn computed(op: ArithOp, left: Term, right: Term) -> Term {
        Term::Computed(op, Box::new(left), Box::new(right))
    }

    /// `User::"ann"`, of `"User"` and `"ann"`
    pub fn uid(type_name: impl Into<String>, id: impl Into<String>) -> Term {
        Term::Value(Value::Entity { type_name: type_name.into(), id: id.into() })
    }

    /// This whole number.
    pub fn integer(number: i64) -> Term {
        Term::Value(Value::Integer(number))
    }

    /// The decimal of this text: an optional minus, one or more digits, a point, one to four digits.
    ///
    /// ```
    /// use dogwood_check::{Decimal, DecimalError, Term, Value};
    ///
    /// assert_eq!(Term::decimal("1.50"), Ok(Term::Value(Value::Decimal(Decimal(15_000)))));
    /// assert_eq!(Term::decimal("1,50"), Err(DecimalError::Malformed));
    /// ```
    pub fn decimal(text: &str) -> Result<Term, DecimalError> {
        Ok(Term::Value(Value::Decimal(text.parse()?)))
    }

    /// This text, a plain string.
    pub fn string(text: impl Into<String>) -> Term {
        Term::Value(Value::String(text.into()))
    }

    /// `true` or `false`
    pub fn bool(truth: bool) -> Term {
        Term::Value(Value::Bool(truth))
    }

    /// Writes an operand or an argument, at this level.
    pub(crate) fn write(&self, out: &mut Writer, level: Level) -> Encoded {
        self.write_at(out, Place { level, in_array: false })
    }

    /// The format's number of this term.
    fn number(&self) -> u8 {
        match self {
            Term::Entity(_) => 1,
            Term::Integer => 2,
            Term::Decimal => 3,
            Term::String => 4,
            Term::Bool => 5,
            Term::ContextField(_) => 6,
            Term::ScopeField(_) => 7,
            Term::Var(_) => 8,
            Term::Wildcard => 9,
            Term::Array(_) => 10,
            Term::Aggregate(_) => 11,
            Term::Arith(..) | Term::Computed(..) => 12,
            Term::ParamRef => 13,
            Term::BinderRef => 14,
            Term::Value(value) => value.number(),
        }
    }

    fn write_at(&self, out: &mut Writer, place: Place) -> Encoded {
        out.byte(self.number());
        match self {
            Term::Value(value) => {
                out.said(VALUES);
                value.write(out)
            }
            Term::Entity(type_name) => {
                out.text(Class::PathName, type_name)?;
                out.left_out(VALUES, Problem::ValueMissing)
            }
            Term::Integer | Term::Decimal | Term::String | Term::Bool => out.left_out(VALUES, Problem::ValueMissing),
            Term::ContextField(path) | Term::ScopeField(path) => out.texts("segments of a field", Class::Plain, path),
            Term::Var(name) => out.text(Class::Plain, name),
            Term::Array(elements) => out.list("elements of an array", elements, |out, element| {
                element.write_at(out, Place { level: place.level.below()?, in_array: true })
            }),
            Term::Aggregate(_) if place.in_array => Err(Problem::AggregateBelowArray.into()),
            Term::Aggregate(aggregate) => aggregate.write(out, place.level).at(aggregate.span),
            Term::Arith(left, right) => {
                out.left_out(VALUES, Problem::ValueMissing)?;
                write_both(left, right, out, place)
            }
            Term::Computed(op, left, right) => {
                out.said(VALUES);
                out.byte(*op as u8);
                write_both(left, right, out, place)
            }
            Term::Wildcard | Term::ParamRef | Term::BinderRef => Ok(()),
        }
    }
}

/// The two terms of an arithmetic, one level below it.
fn write_both(left: &Term, right: &Term, out: &mut Writer, place: Place) -> Encoded {
    let below = Place { level: place.level.below()?, ..place };
    left.write_at(out, below)?;
    right.write_at(out, below)
}

impl Aggregate {
    /// `sum summand for binders where body`
    pub fn sum(
        span: impl Into<Span>,
        summand: impl Into<Slot>,
        binders: impl IntoIterator<Item = Binder>,
        body: Condition,
    ) -> Aggregate {
        let kind = AggregateKind::Sum(summand.into(), binders.into_iter().collect(), body);
        Aggregate { span: span.into(), kind }
    }

    /// `count for binders where body`
    pub fn count(span: impl Into<Span>, binders: impl IntoIterator<Item = Binder>, body: Condition) -> Aggregate {
        Aggregate { span: span.into(), kind: AggregateKind::Count(binders.into_iter().collect(), body) }
    }

    /// `name(..)`, a call of a macro.
    pub fn call(span: impl Into<Span>) -> Aggregate {
        Aggregate { span: span.into(), kind: AggregateKind::Call }
    }

    /// Writes the aggregate of a term at this level.
    fn write(&self, out: &mut Writer, level: Level) -> Encoded {
        out.byte(self.kind.number());
        out.span(self.span);
        match &self.kind {
            AggregateKind::Sum(summand, binders, body) => {
                summand.write(out)?;
                write_domain(binders, body, out, level)
            }
            AggregateKind::Count(binders, body) => write_domain(binders, body, out, level),
            AggregateKind::Call => Ok(()),
        }
    }
}

impl AggregateKind {
    /// The format's number of this kind.
    fn number(&self) -> u8 {
        match self {
            AggregateKind::Sum(..) => 1,
            AggregateKind::Count(..) => 2,
            AggregateKind::Call => 3,
        }
    }
}

/// The binders, and the body one level below the aggregate's term.
fn write_domain(binders: &[Binder], body: &Condition, out: &mut Writer, level: Level) -> Encoded {
    out.list("binders", binders, |out, binder| binder.write(out))?;
    body.write(out, level.below()?)
}
