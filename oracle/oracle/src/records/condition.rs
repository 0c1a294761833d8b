//! Record 2: one condition, which holds terms; an aggregate term holds a condition again.

use super::fields::{Class, Fields};
use super::*;
use dogwood_rust::error::Span;
use dogwood_rust::extension::temporal::ast::*;
use dogwood_rust::field_paths::FieldPaths;

/// The newest version of a condition that is read: 2 has the windows, 3 the values too.
const NEWEST: u16 = 3;

/// A condition, and the field paths of its arguments.
pub struct ConditionRecord {
    pub condition: Condition,
    pub field_paths: FieldPaths,
    words: Words,
}

pub fn read_condition(bytes: &[u8]) -> Result<ConditionRecord, Refusal> {
    read(bytes, None)
}

/// The same with numbers in the place of spans: each condition has its own, which a predicate's own span has too, in the
/// order in which they are read.
pub fn read_numbered(bytes: &[u8]) -> Result<ConditionRecord, Refusal> {
    read(bytes, Some(0))
}

/// The types that a condition names by a word, wherever they stand; none where it is refused.
pub fn words_of_condition(bytes: &[u8]) -> Words {
    read_condition(bytes).map_or(Words::default(), |read| read.words)
}

fn read(bytes: &[u8], numbers: Option<usize>) -> Result<ConditionRecord, Refusal> {
    let fields = Fields::open(bytes, b"DWC", NEWEST)?;
    let mut reader = Reader { fields, field_paths: FieldPaths::default(), numbers };
    let condition = reader.condition(1)?;
    let words = reader.fields.close()?;
    Ok(ConditionRecord { condition, field_paths: reader.field_paths, words })
}

struct Reader<'a> {
    fields: Fields<'a>,
    field_paths: FieldPaths,
    /// The number of the condition that is read, where they are numbered.
    numbers: Option<usize>,
}

/// Where a term stands: below an array no aggregate is let in.
#[derive(Clone, Copy)]
struct Place {
    level: u32,
    below_array: bool,
}

impl Place {
    fn of_operand(condition_level: u32) -> Place {
        Place { level: condition_level + 1, below_array: false }
    }

    fn inner(self) -> Place {
        Place { level: self.level + 1, ..self }
    }

    fn element(self) -> Place {
        Place { level: self.level + 1, below_array: true }
    }
}

fn some_call(span: Span) -> Call {
    Call { span, name: "macro".to_string(), args: Vec::new() }
}

impl<'a> Reader<'a> {
    fn span(&mut self) -> Result<Span, Refusal> {
        let start = self.fields.number32()? as usize;
        let end = self.fields.number32()? as usize;
        Ok(Span { start, end })
    }

    /// The span of a condition: its number, where they are numbered.
    fn head(&mut self) -> Result<Span, Refusal> {
        self.numbers = self.numbers.map(|n| n + 1);
        self.numbered_span()
    }

    fn numbered_span(&mut self) -> Result<Span, Refusal> {
        let span = self.span()?;
        Ok(self.numbers.map_or(span, |n| Span { start: n, end: n }))
    }

    /// The window behind a span. Version 1 holds none: then it is one that no listing has, and a check looks at none.
    fn window(&mut self) -> Result<WithinSpec, Refusal> {
        const UNITS: [TimeUnit; 4] = [TimeUnit::Seconds, TimeUnit::Minutes, TimeUnit::Hours, TimeUnit::Days];
        if self.fields.version == 1 || self.fields.choice(0, 1)? == 1 {
            return Ok(WithinSpec::ParamRef("p".to_string()));
        }
        let unit = UNITS[self.fields.choice(0, 3)? as usize];
        let interval = Interval { amount: self.fields.signed64()?, unit };
        if interval.amount < 0 || interval.checked_seconds().is_none() {
            return Err(WINDOW_OUT_OF_RANGE);
        }
        Ok(WithinSpec::Concrete(interval))
    }

    /// What version 3 brought to a term. The versions below hold no such field: then it is some value, which no check
    /// looks at.
    fn given<T>(
        &mut self,
        otherwise: T,
        read: impl FnOnce(&mut Fields<'a>) -> Result<T, Refusal>,
    ) -> Result<T, Refusal> {
        if self.fields.version < 3 {
            return Ok(otherwise);
        }
        read(&mut self.fields)
    }

    fn boxed(&mut self, level: u32) -> Result<Box<Condition>, Refusal> {
        Ok(Box::new(self.condition(level)?))
    }

    fn condition(&mut self, level: u32) -> Result<Condition, Refusal> {
        let kind = self.fields.choice_at(1, 13, level)?;
        let span = self.head()?;
        let inner = level + 1;
        let kind = match kind {
            1 => ConditionKind::And { left: self.boxed(inner)?, right: self.boxed(inner)? },
            2 => ConditionKind::Or { left: self.boxed(inner)?, right: self.boxed(inner)? },
            3 => ConditionKind::Not { inner: self.boxed(inner)? },
            4 => ConditionKind::Formerly { within: self.window()?, body: self.boxed(inner)? },
            5 => ConditionKind::Previous { within: self.window()?, body: self.boxed(inner)? },
            6 => {
                let within = self.window()?;
                ConditionKind::Since { left: self.boxed(inner)?, within, right: self.boxed(inner)? }
            }
            7 => ConditionKind::Predicate(self.predicate(level)?),
            8 => self.comparison(level)?,
            9 => ConditionKind::Exists { var: self.binder()?, body: self.boxed(inner)? },
            10 => ConditionKind::Tp { var: self.slot()? },
            11 => ConditionKind::Call(some_call(span)),
            12 => ConditionKind::SigilRef { sigil: Sigil::Param, name: "p".to_string() },
            _ => ConditionKind::Refine { base: self.boxed(inner)?, fields: Vec::new(), span },
        };
        Ok(Condition { span, kind })
    }

    fn predicate(&mut self, level: u32) -> Result<Predicate, Refusal> {
        let span = self.numbered_span()?;
        let namespace = self.fields.strings(Class::PathName)?;
        let action = self.fields.string(Class::Plain)?;
        let count = self.fields.byte()?;
        let args = (0..count).map(|_| self.argument(level)).collect::<Result<_, _>>()?;
        Ok(Predicate { span, namespace, action, kind: "request".to_string(), args })
    }

    fn argument(&mut self, level: u32) -> Result<NamedArg, Refusal> {
        let name = self.fields.string(Class::Plain)?;
        let path = self.fields.path()?;
        let value = self.term(Place::of_operand(level))?;
        Ok(NamedArg { name: self.field_paths.named(&name, &path), value })
    }

    fn comparison(&mut self, level: u32) -> Result<ConditionKind, Refusal> {
        const OPERATORS: [CmpOp; 6] = [CmpOp::Le, CmpOp::Lt, CmpOp::Ge, CmpOp::Gt, CmpOp::Eq, CmpOp::NotEq];
        let op = OPERATORS[self.fields.choice(0, 5)? as usize];
        let left = self.term(Place::of_operand(level))?;
        let right = self.term(Place::of_operand(level))?;
        Ok(ConditionKind::Comparison { op, left, right })
    }

    fn slot(&mut self) -> Result<BinderSlot, Refusal> {
        Ok(match self.fields.choice(0, 2)? {
            0 => BinderSlot::Name(self.fields.string(Class::Plain)?),
            1 => BinderSlot::ParamRef("p".to_string()),
            _ => BinderSlot::BinderRef("b".to_string()),
        })
    }

    /// The annotation's byte is 0 for `Timepoint`, else a count of segments; it is no choice byte.
    fn binder(&mut self) -> Result<TypedBinder, Refusal> {
        let slot = self.slot()?;
        let start = self.fields.at();
        let segments = self.fields.strings(Class::Identifier)?;
        let ty = match segments.last() {
            None => Type::Timepoint,
            Some(last) => {
                self.fields.words.annotation(last, start..self.fields.at());
                Type::Named(segments)
            }
        };
        Ok(TypedBinder { slot, ty })
    }

    fn binders(&mut self) -> Result<Vec<TypedBinder>, Refusal> {
        let count = self.fields.byte()?;
        (0..count).map(|_| self.binder()).collect()
    }

    fn term(&mut self, place: Place) -> Result<Term, Refusal> {
        let kind = self.fields.choice_at(1, 14, place.level)?;
        if kind == 11 && place.below_array {
            return Err(AGGREGATE_BELOW_ARRAY);
        }
        Ok(match kind {
            1 => {
                let ty = self.fields.string(Class::PathName)?;
                Term::Entity { ty, id: self.given("id".to_string(), |fields| fields.string(Class::Plain))? }
            }
            2 => Term::Integer(self.given(1, Fields::signed64)?),
            3 => {
                self.fields.words.decimal = true;
                Term::Decimal(self.given("1.0".to_string(), Fields::decimal)?)
            }
            4 => Term::String(self.given("text".to_string(), |fields| fields.string(Class::Plain))?),
            5 => {
                self.fields.words.boolean = true;
                Term::Bool(self.given(true, |fields| Ok(fields.choice(0, 1)? == 1))?)
            }
            6 => Term::ContextField(self.fields.path()?),
            7 => Term::ScopeField(self.fields.path()?),
            8 => Term::Var(self.fields.string(Class::Plain)?),
            9 => Term::Wildcard,
            10 => Term::Array(self.elements(place)?),
            11 => Term::Agg(Box::new(self.aggregate(place)?)),
            12 => self.arith(place)?,
            13 => Term::ParamRef("p".to_string()),
            _ => Term::BinderRef("b".to_string()),
        })
    }

    fn arith(&mut self, place: Place) -> Result<Term, Refusal> {
        const OPERATORS: [ArithOp; 3] = [ArithOp::Add, ArithOp::Sub, ArithOp::Mul];
        let op = self.given(ArithOp::Add, |fields| Ok(OPERATORS[fields.choice(0, 2)? as usize]))?;
        let left = Box::new(self.term(place.inner())?);
        let right = Box::new(self.term(place.inner())?);
        Ok(Term::Arith { op, left, right })
    }

    fn elements(&mut self, place: Place) -> Result<Vec<Term>, Refusal> {
        let count = self.fields.byte()?;
        (0..count).map(|_| self.term(place.element())).collect()
    }

    fn aggregate(&mut self, place: Place) -> Result<AggExpr, Refusal> {
        let kind = self.fields.choice(1, 3)?;
        let span = self.span()?;
        let kind = match kind {
            1 => AggExprKind::Sum {
                bound_var: self.slot()?,
                for_vars: self.binders()?,
                body: self.boxed(place.level + 1)?,
            },
            2 => AggExprKind::Count { for_vars: self.binders()?, body: self.boxed(place.level + 1)? },
            _ => AggExprKind::Call(some_call(span)),
        };
        Ok(AggExpr { span, kind })
    }
}
