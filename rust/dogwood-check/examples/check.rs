//! A server that takes rules in: a rule is kept only if its condition can mean what its writer thinks.
//!
//! `cargo run --example check` submits three rules and prints what their writers are told.

use dogwood_check::{
    check, sums, Action, Condition, EntityType, Findings, Operator, Schema, Span, Target, Targets, Term, Type,
};
use std::error::Error;

/// What the archive's parser hands over: the rule's text, and what it parsed from it.
struct Rule {
    text: &'static str,
    condition: Condition,
    targets: Targets,
}

struct Archive {
    schema: Vec<u8>,
    rules: Vec<Rule>,
}

impl Archive {
    /// The schema is encoded once; one that cannot be is the server's own mistake.
    fn new(schema: &Schema) -> Result<Archive, Box<dyn Error>> {
        Ok(Archive { schema: schema.encode()?, rules: Vec::new() })
    }

    /// Keeps a rule, or says what its writer should mend. An error is a rule that is too large, too deep or has a name that
    /// cannot be: its text is for the writer too.
    fn submit(&mut self, rule: Rule) -> Result<Findings, Box<dyn Error>> {
        let condition = rule.condition.encode()?;
        let targets = rule.targets.encode()?;
        let mut found = check(&self.schema, &condition, &targets)?;
        found.reports.extend(sums(&condition)?);
        if found.is_clean() {
            self.rules.push(rule);
        }
        Ok(found)
    }
}

/// `context.input.FIELD < 1900`, as a parser would give it.
fn before_1900(text: &'static str, field: &str) -> Rule {
    let span = Span { start: 0, end: text.len() as u32 };
    let condition = Condition::comparison(span, Operator::Lt, Term::context(["input", field]), Term::Integer);
    Rule { text, condition, targets: Targets::new().target(Target::new("view")) }
}

fn main() -> Result<(), Box<dyn Error>> {
    let input = Type::record([("year", Type::String), ("number", Type::Long)]);
    let view =
        Action::new("Action", "view").principal("Reader").resource("Letter").context(Type::record([("input", input)]));
    let schema =
        Schema::new().entity_type(EntityType::new("Reader")).entity_type(EntityType::new("Letter")).action(view);
    let mut archive = Archive::new(&schema)?;

    for rule in [
        before_1900("context.input.number < 1900", "number"),
        before_1900("context.input.year < 1900", "year"),
        before_1900("context.input.jahr\u{fc}ber < 1900", "jahr\u{fc}ber"),
    ] {
        let text = rule.text;
        println!("{text}");
        match archive.submit(rule) {
            Ok(found) if found.is_clean() => println!("    kept"),
            Ok(found) => {
                for report in found {
                    // a parser's span may be wrong: then the report stands by its numbers
                    match report.excerpt(text) {
                        Some(part) => println!("    {part}: {}", report.message),
                        None => println!("    {report}"),
                    }
                }
            }
            Err(error) => println!("    {error}"),
        }
    }
    println!("{} of 3 rules kept", archive.rules.len());
    Ok(())
}
