//! A host that goes over to binders in their own bodies while a check runs: the roles that are done keep their reports, and
//! those that follow are judged by the new rule.
//!
//! `cargo run --example own_bodies_midway` checks a rule for three roles, and changes the rule of binding behind the first.

use dogwood_check::{Action, Binder, Condition, Operator, Rules, Schema, Stepping, Target, Targets, Term, Type};
use std::error::Error;

fn main() -> Result<(), Box<dyn Error>> {
    // the form of each role has a year, in a type of its own
    let roles = [("clerk", Type::Long), ("reader", Type::datetime()), ("guest", Type::Long)];
    let form = |role: &str, year: &Type| {
        let input = Type::record([("year", year.clone())]);
        Action::new("Action", role).context(Type::record([("input", input)]))
    };
    let schema = roles.iter().fold(Schema::new(), |all, (role, year)| all.action(form(role, year))).encode()?;
    let targets = roles.iter().fold(Targets::new(), |all, (role, _)| all.target(Target::new(*role))).encode()?;

    // in one scope the binder says that the last `year` is a text; in own bodies that one is the form's
    let rule = "(exists (year: String). filed(year)) && year < 1900";
    let filed = Condition::exists(1..35, Binder::new("year", "String"), Condition::call(24..35));
    let compared = Condition::comparison(40..51, Operator::Lt, Term::var("year"), Term::Integer);
    let condition = Condition::and(0..51, filed, compared).encode()?;

    let mut check = Stepping::start(Rules::plain(), &schema, &condition, &targets)?;
    println!("{rule}");
    while let Some(position) = check.step() {
        println!("    {} is done, reports so far: {}", roles[usize::from(position)].0, check.answer().count);
        if position == 0 {
            check.move_to_own_bodies();
            println!("        from now on each binder has its own body");
        }
    }
    for report in check.findings() {
        println!("    {}: {}", report.excerpt(rule).unwrap_or("?"), report.message);
    }
    Ok(())
}
