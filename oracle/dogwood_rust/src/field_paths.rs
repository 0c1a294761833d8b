//! The record's field path, handed to `NamedArg::field_path` without a change to it.
//!
//! In the Rust a field path is the argument's name split at its dots. A condition record holds the two side by side, and
//! they need not agree; document 01 wants the record's path resolved and the record's name shown. `field_path` says
//! `self.name.split('.')`, where `name` is a `String`. Rust looks for a method on `String` before it looks on the `str`
//! behind it, and `String` has no `split` of its own: so a trait in scope that gives it one is called in place of
//! `str::split`. The build appends the line that brings `RecordedPath` into scope.
//!
//! `RecordedPath::split` finds the path in a table by the place where the name's bytes lie, which stays the same while
//! the tree is moved about. A name that the table does not know is split at its dots, as ever.

use std::cell::RefCell;
use std::collections::{HashMap, HashSet};
use std::rc::Rc;

type ByPlace = HashMap<usize, Vec<&'static str>>;

/// The field paths of one condition, by the place of the argument name's bytes.
#[derive(Debug, Default)]
pub struct FieldPaths {
    by_place: Rc<ByPlace>,
}

impl FieldPaths {
    /// The name as a `String` whose bytes lie at a place of their own (an empty `String` would have none), its path noted.
    pub fn named(&mut self, name: &str, path: &[String]) -> String {
        let mut owned = String::with_capacity(name.len() + 1);
        owned.push_str(name);
        let path = path.iter().map(|s| kept(s)).collect();
        Rc::make_mut(&mut self.by_place).insert(owned.as_ptr() as usize, path);
        owned
    }

    /// Runs `work` with these paths in force.
    pub fn in_force<T>(&self, work: impl FnOnce() -> T) -> T {
        let before = IN_FORCE.with(|table| table.replace(self.by_place.clone()));
        let result = work();
        IN_FORCE.with(|table| table.replace(before));
        result
    }
}

thread_local! {
    static IN_FORCE: RefCell<Rc<ByPlace>> = RefCell::default();
    static KEPT: RefCell<HashSet<&'static str>> = RefCell::default();
}

/// The same text with no end to its life: each different segment is kept once.
fn kept(segment: &str) -> &'static str {
    KEPT.with(|all| {
        let mut all = all.borrow_mut();
        if let Some(known) = all.get(segment) {
            return *known;
        }
        let fresh: &'static str = Box::leak(segment.to_string().into_boxed_str());
        all.insert(fresh);
        fresh
    })
}

/// `split` for a `String`, met before `str::split`.
pub trait RecordedPath {
    fn split(&self, separator: char) -> std::vec::IntoIter<&str>;
}

impl RecordedPath for String {
    fn split(&self, separator: char) -> std::vec::IntoIter<&str> {
        let recorded = IN_FORCE.with(|table| table.borrow().get(&(self.as_ptr() as usize)).cloned());
        let segments: Vec<&str> = match recorded {
            Some(path) => path,
            None => str::split(self, separator).collect(),
        };
        segments.into_iter()
    }
}
