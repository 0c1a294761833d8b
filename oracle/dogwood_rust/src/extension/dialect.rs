//! The frame in which `validate.rs` offers its checks. Needed for it to compile; the oracle calls the checks themselves.

use crate::error::ValidationError;
use crate::event_schema::EventSchema;
use cedar_policy_core::validator::ValidatorSchema;
use std::sync::Arc;

pub struct Schema(pub ValidatorSchema);

impl AsRef<ValidatorSchema> for Schema {
    fn as_ref(&self) -> &ValidatorSchema {
        &self.0
    }
}

pub struct ValidationCtx<'a> {
    pub schema: &'a Schema,
    pub event_schema: &'a EventSchema,
}

pub enum Rendered {
    Error(ValidationError),
}

pub trait DogwoodDialect {
    type Leaf;
    type Finding;

    fn marker(&self) -> &'static str;
    fn validate(&self, leaves: &[Self::Leaf], ctx: &ValidationCtx<'_>) -> Vec<Self::Finding>;
    fn render(&self, finding: Self::Finding, src: &Arc<str>) -> Rendered;
}
