//! A check that goes on while its list of targets changes: a rule is checked for one role after the other, and between two
//! of them an administrator may add a role or take one back.
//!
//! `cargo run --example roles` checks a rule for three roles, while two are added and one is taken back.

use dogwood_check::{Action, Condition, Operator, Refusal, Rules, Schema, Stepping, Target, Targets, Term, Type};
use std::collections::VecDeque;
use std::error::Error;

/// What the administrator asks for between two steps.
enum Message {
    Add(&'static str),
    TakeBack(&'static str),
}

/// The check of one rule for the roles that there are by now, each an action of the schema, by their positions.
struct RoleCheck<'a> {
    check: Stepping<'a>,
    roles: Vec<&'static str>,
}

impl<'a> RoleCheck<'a> {
    fn new(schema: &'a [u8], condition: &'a [u8], roles: &[&'static str]) -> Result<RoleCheck<'a>, Box<dyn Error>> {
        let targets = roles.iter().fold(Targets::new(), |all, role| all.target(Target::new(*role)));
        let check = Stepping::start(Rules::plain(), schema, condition, &targets.encode()?)?;
        Ok(RoleCheck { check, roles: roles.to_vec() })
    }

    /// What the administrator is told.
    fn handle(&mut self, message: Message) -> Result<String, Box<dyn Error>> {
        Ok(match message {
            Message::Add(role) => {
                let position = self.check.append(&Target::new(role).encode()?)?;
                self.roles.push(role);
                format!("{role} will be checked, at position {position}")
            }
            Message::TakeBack(role) => match self.take_back(role) {
                Ok(()) => format!("{role} is taken back"),
                Err(refusal) => format!("{role}: {refusal}"),
            },
        })
    }

    /// The last of that name counts; one that never was has no position, and is refused as such.
    fn take_back(&mut self, role: &str) -> Result<(), Refusal> {
        let position = self.roles.iter().rposition(|name| *name == role).unwrap_or(255);
        self.check.withdraw(u8::try_from(position).unwrap_or(255))
    }
}

fn main() -> Result<(), Box<dyn Error>> {
    // the clerk's form has the year as a number, the others have it as text
    let form = |role: &str, year: Type| {
        let input = Type::record([("year", year)]);
        Action::new("Action", role).context(Type::record([("input", input)]))
    };
    let schema = Schema::new()
        .action(form("clerk", Type::Long))
        .action(form("reader", Type::String))
        .action(form("guest", Type::String))
        .encode()?;
    let rule = "context.input.year < 1900";
    let year = Term::context(["input", "year"]);
    let condition = Condition::comparison(0..25, Operator::Lt, year, Term::Integer).encode()?;

    let mut messages = VecDeque::from([
        vec![Message::Add("guest"), Message::TakeBack("archivist")],
        vec![Message::TakeBack("clerk"), Message::Add("binder")],
    ]);
    let mut roles = RoleCheck::new(&schema, &condition, &["clerk", "archivist", "reader"])?;
    println!("{rule}");
    while let Some(position) = roles.check.step() {
        let reports = roles.check.answer().count;
        println!("    {} is done, reports so far: {reports}", roles.roles[usize::from(position)]);
        for message in messages.pop_front().unwrap_or_default() {
            println!("        {}", roles.handle(message)?);
        }
    }
    for report in roles.check.findings() {
        println!("    {}: {}", report.excerpt(rule).unwrap_or("?"), report.message);
    }
    let (done, withdrawn) = (roles.check.done().count(), roles.check.withdrawn().count());
    println!("{done} roles checked, {withdrawn} taken back");
    Ok(())
}
