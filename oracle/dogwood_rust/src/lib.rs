//! The published temporal type check of Dogwood (`ast.rs`, `schema_info.rs`, `validate.rs`), compiled unchanged, and
//! stand-ins for the modules of its crate that it leans on. Nothing here decides about types.

// The sources hold more than the check of types, and are not ours to tidy.
#![allow(dead_code, private_interfaces, clippy::all, rustdoc::all)]

pub mod field_paths;

pub mod extension {
    pub mod dialect;
    pub mod temporal {
        include!(concat!(env!("OUT_DIR"), "/temporal.rs"));

        /// A parsed leaf.
        pub struct Temporal {
            pub condition: ast::Condition,
            pub span: crate::error::Span,
        }
    }
}

/// The narrowing of both scopes; the sources' own struct of this kind is private to them.
#[derive(Clone, Copy)]
pub struct Narrowing<'a> {
    pub principal: Option<&'a api::ScopeConstraint>,
    pub resource: Option<&'a api::ScopeConstraint>,
}

pub mod api {
    pub use crate::cedarify::ScopeConstraint;
    use crate::extension::temporal::Temporal;

    /// An action that a leaf is attached to.
    #[derive(Debug, Clone, PartialEq, Eq)]
    pub struct ActionRef {
        pub namespace: Option<String>,
        pub id: String,
    }

    /// A leaf with the targets and the narrowing of its rule.
    pub struct TemporalField {
        pub target_actions: Vec<ActionRef>,
        pub principal: ScopeConstraint,
        pub resource: ScopeConstraint,
        pub condition: Temporal,
    }
}

pub mod cedarify {
    /// What a rule's scope admits: the cases that `ActionHandle::admits` tells apart.
    #[derive(Debug, Clone, PartialEq, Eq)]
    pub enum ScopeConstraint {
        Any,
        IsType(String),
        Uid { entity_type: String, membership: bool },
    }
}

pub mod deep_drop {
    use crate::extension::temporal::ast::{ConditionKind, Sigil};

    pub fn leaf_cond_kind() -> ConditionKind {
        ConditionKind::SigilRef { sigil: Sigil::Param, name: String::new() }
    }
}

pub mod error {
    use std::sync::Arc;

    /// A range of a source text.
    #[derive(Debug, Clone, Copy, PartialEq, Eq)]
    pub struct Span {
        pub start: usize,
        pub end: usize,
    }

    impl Span {
        pub fn rebased(self, base: usize) -> Span {
            Span { start: base + self.start, end: base + self.end }
        }
    }

    /// What the rendering of a finding becomes. Never made by the check of types.
    pub enum ValidationError {
        Extension {
            code: &'static str,
            message: String,
            span: Span,
            label: Option<String>,
            help: Option<String>,
            src: Arc<str>,
            source: Option<()>,
        },
    }
}

pub mod event_schema {
    use crate::extension::temporal::ast::{Interval, TimeUnit};

    pub struct EventSchema;

    impl EventSchema {
        pub fn max_window(&self) -> Interval {
            Interval { amount: 24, unit: TimeUnit::Hours }
        }
    }

    pub mod validate {
        use crate::extension::temporal::ast::Condition;

        pub fn validate_condition(_condition: &Condition, _schema: &super::EventSchema) -> Result<(), String> {
            Ok(())
        }
    }
}
