//! Binders in their own bodies, which the rules here have and the published Rust has not: to the Rust the last binder of a
//! name in the whole condition binds every use of it.
//!
//! Where each binder has a name of its own, and each use has that of the binder which is meant, the two ways of binding
//! cannot differ. So the Rust judges here too: it is asked about the condition with its binders named apart, each use named
//! as the innermost binder around it (the last of its name in one list). A use without one keeps its name, which no binder
//! then has. In what the Rust says the names are put back (`Binding::said`). No rule is written a second time.
//!
//! The condition is renamed as the tree that was read, so that it may be longer than a record can be. No name in a record
//! has a control character: one with such a character is new.

use crate::records;
use dogwood_rust::error::Span;
use dogwood_rust::extension::temporal::ast::*;
use std::collections::HashSet;

/// How a name is bound.
#[derive(Debug, Clone, Copy, PartialEq, Eq)]
pub enum Binding {
    /// By the last binder of that name in the condition.
    Flat,
    /// By the innermost binder around its use.
    Own,
}

/// A new name is the old one, this character, a number, and the other character.
const OPEN: char = '\u{1}';
const CLOSE: char = '\u{2}';

impl Binding {
    /// The condition about which the Rust is asked in a check.
    pub fn checked(self, condition: Condition) -> Condition {
        match self {
            Binding::Flat => condition,
            Binding::Own => named_apart(condition).0,
        }
    }

    /// The condition about which the Rust is asked in the sums. The list of an aggregate in an argument binds its summand,
    /// and the Rust does not count it: its binders, which no other use can mean, are declared once more beside the rest.
    pub fn summed(self, condition: Condition) -> Condition {
        match self {
            Binding::Flat => condition,
            Binding::Own => {
                let (condition, in_arguments) = named_apart(condition);
                and(condition, declaring(in_arguments))
            }
        }
    }

    /// A message of the Rust with the names as they were.
    pub fn said(self, message: String) -> String {
        match self {
            Binding::Flat => message,
            Binding::Own => name_put_back(&message),
        }
    }
}

fn name_put_back(message: &str) -> String {
    let mut parts = message.split(OPEN);
    let first = parts.next().unwrap_or_default().to_string();
    parts.fold(first, |text, part| text + part.split_once(CLOSE).map_or(part, |(_, behind)| behind))
}

fn and(left: Condition, right: Condition) -> Condition {
    let span = left.span;
    Condition { span, kind: ConditionKind::And { left: Box::new(left), right: Box::new(right) } }
}

/// A condition that declares these binders and breaks no rule of the sums: a count over them.
fn declaring(for_vars: Vec<TypedBinder>) -> Condition {
    let span = Span { start: 0, end: 0 };
    let body =
        Box::new(Condition { span, kind: ConditionKind::SigilRef { sigil: Sigil::Param, name: "p".to_string() } });
    let count = AggExpr { span, kind: AggExprKind::Count { for_vars, body } };
    let kind = ConditionKind::Comparison { op: CmpOp::Eq, left: Term::Agg(Box::new(count)), right: Term::Wildcard };
    Condition { span, kind }
}

/// The condition with its binders named apart, and the binders that stand in arguments.
fn named_apart(mut condition: Condition) -> (Condition, Vec<TypedBinder>) {
    let mut names = Names { around: Vec::new(), made: 0, in_argument: false, in_arguments: Vec::new() };
    names.condition(&mut condition);
    (condition, names.in_arguments)
}

struct Names {
    /// The old and the new names of the binders around, the innermost last.
    around: Vec<(String, String)>,
    /// How many names were made.
    made: usize,
    in_argument: bool,
    in_arguments: Vec<TypedBinder>,
}

impl Names {
    fn condition(&mut self, condition: &mut Condition) {
        match &mut condition.kind {
            ConditionKind::And { left, right }
            | ConditionKind::Or { left, right }
            | ConditionKind::Since { left, right, .. } => {
                self.condition(left);
                self.condition(right);
            }
            ConditionKind::Not { inner: body }
            | ConditionKind::Formerly { body, .. }
            | ConditionKind::Previous { body, .. }
            | ConditionKind::Refine { base: body, .. } => self.condition(body),
            ConditionKind::Predicate(predicate) => {
                predicate.args.iter_mut().for_each(|arg| self.argument(&mut arg.value))
            }
            ConditionKind::Comparison { left, right, .. } => {
                self.term(left);
                self.term(right);
            }
            ConditionKind::Exists { var, body } => {
                self.within(std::slice::from_mut(var), |names| names.condition(body));
            }
            ConditionKind::Tp { var } => self.slot(var),
            ConditionKind::Call(_) | ConditionKind::SigilRef { .. } => {}
        }
    }

    fn argument(&mut self, value: &mut Term) {
        let before = std::mem::replace(&mut self.in_argument, true);
        self.term(value);
        self.in_argument = before;
    }

    fn term(&mut self, term: &mut Term) {
        match term {
            Term::Var(name) => self.used(name),
            Term::Array(elements) => elements.iter_mut().for_each(|element| self.term(element)),
            Term::Arith { left, right, .. } => {
                self.term(left);
                self.term(right);
            }
            Term::Agg(aggregate) => self.aggregate(aggregate),
            _ => {}
        }
    }

    /// Its binders are around its body and its summand, and around nothing else.
    fn aggregate(&mut self, aggregate: &mut AggExpr) {
        match &mut aggregate.kind {
            AggExprKind::Sum { bound_var, for_vars, body } => self.within(for_vars, |names| {
                names.slot(bound_var);
                names.condition(body);
            }),
            AggExprKind::Count { for_vars, body } => self.within(for_vars, |names| names.condition(body)),
            AggExprKind::Call(_) => {}
        }
    }

    fn within(&mut self, binders: &mut [TypedBinder], inner: impl FnOnce(&mut Names)) {
        let outside = self.around.len();
        binders.iter_mut().for_each(|binder| self.declared(binder));
        inner(self);
        self.around.truncate(outside);
    }

    fn declared(&mut self, binder: &mut TypedBinder) {
        if let BinderSlot::Name(name) = &mut binder.slot {
            self.made += 1;
            let new = format!("{name}{OPEN}{}{CLOSE}", self.made);
            self.around.push((std::mem::replace(name, new.clone()), new));
        }
        if self.in_argument {
            self.in_arguments.push(binder.clone());
        }
    }

    fn slot(&mut self, slot: &mut BinderSlot) {
        if let BinderSlot::Name(name) = slot {
            self.used(name);
        }
    }

    fn used(&mut self, name: &mut String) {
        if let Some((_, new)) = self.around.iter().rev().find(|(old, _)| old == name) {
            *name = new.clone();
        }
    }
}

// ─── Where the two ways of binding cannot differ ───

/// Whether two checks of this condition that differ in how names are bound have to answer alike, to the byte: each name is
/// declared once, and each use of a declared name lies in the body of its binder. (The request has two conditions more,
/// that no binder is named like a field of the input, and that no aggregate stands in an argument. A check needs neither.)
pub fn checks_are_alike(condition: &[u8]) -> bool {
    Seen::of(condition).is_some_and(|seen| seen.each_once() && seen.are_inside(&seen.uses))
}

/// The same of the sums: each name is declared once, no aggregate stands in an argument, and each declared summand lies in
/// the body of its binder, or has it in its aggregate's list.
pub fn sums_are_alike(condition: &[u8]) -> bool {
    Seen::of(condition)
        .is_some_and(|seen| seen.each_once() && !seen.aggregate_in_argument && seen.are_inside(&seen.summands))
}

/// A name that is used, and whether a binder around it has that name.
type Use = (String, bool);

/// What a check and the sums meet of names, at the conditions that they reach.
#[derive(Default)]
struct Seen {
    declared: Vec<String>,
    /// The uses that a check looks up.
    uses: Vec<Use>,
    /// The uses that the sums look up.
    summands: Vec<Use>,
    aggregate_in_argument: bool,
    around: Vec<String>,
}

impl Seen {
    fn of(condition: &[u8]) -> Option<Seen> {
        let mut seen = Seen::default();
        seen.condition(&records::read_condition(condition).ok()?.condition);
        Some(seen)
    }

    fn each_once(&self) -> bool {
        let different: HashSet<&String> = self.declared.iter().collect();
        different.len() == self.declared.len()
    }

    fn are_inside(&self, uses: &[Use]) -> bool {
        let declared: HashSet<&String> = self.declared.iter().collect();
        uses.iter().all(|(name, inside)| *inside || !declared.contains(name))
    }

    fn used(&self, name: &String) -> Use {
        (name.clone(), self.around.contains(name))
    }

    fn condition(&mut self, condition: &Condition) {
        match &condition.kind {
            ConditionKind::And { left, right }
            | ConditionKind::Or { left, right }
            | ConditionKind::Since { left, right, .. } => {
                self.condition(left);
                self.condition(right);
            }
            ConditionKind::Not { inner: body }
            | ConditionKind::Formerly { body, .. }
            | ConditionKind::Previous { body, .. }
            | ConditionKind::Refine { base: body, .. } => self.condition(body),
            ConditionKind::Predicate(predicate) => predicate.args.iter().for_each(|arg| self.argument(&arg.value)),
            ConditionKind::Comparison { left, right, .. } => {
                self.operand(left);
                self.operand(right);
            }
            ConditionKind::Exists { var, body } => {
                self.within(std::slice::from_ref(var), |seen| seen.condition(body));
            }
            ConditionKind::Tp { var: BinderSlot::Name(name) } => self.uses.push(self.used(name)),
            ConditionKind::Tp { .. } | ConditionKind::Call(_) | ConditionKind::SigilRef { .. } => {}
        }
    }

    fn operand(&mut self, term: &Term) {
        match term {
            Term::Var(name) => self.uses.push(self.used(name)),
            Term::Arith { left, right, .. } => {
                self.operand(left);
                self.operand(right);
            }
            Term::Agg(aggregate) => match &aggregate.kind {
                AggExprKind::Sum { bound_var, for_vars, body } => self.within(for_vars, |seen| {
                    if let BinderSlot::Name(name) = bound_var {
                        seen.summands.push(seen.used(name));
                    }
                    seen.condition(body);
                }),
                AggExprKind::Count { for_vars, body } => self.within(for_vars, |seen| seen.condition(body)),
                AggExprKind::Call(_) => {}
            },
            _ => {}
        }
    }

    /// Of an argument a check looks up the name that it is, and none below its arithmetic.
    fn argument(&mut self, value: &Term) {
        if let Term::Var(name) = value {
            self.uses.push(self.used(name));
        }
        value.for_each_operand_agg(&mut |_| self.aggregate_in_argument = true);
    }

    fn within(&mut self, binders: &[TypedBinder], inner: impl FnOnce(&mut Seen)) {
        let outside = self.around.len();
        for binder in binders {
            if let BinderSlot::Name(name) = &binder.slot {
                self.declared.push(name.clone());
                self.around.push(name.clone());
            }
        }
        inner(self);
        self.around.truncate(outside);
    }
}
