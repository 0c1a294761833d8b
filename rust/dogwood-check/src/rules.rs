//! What a caller chooses of a check, and of the sums.

/// The bit of the strict check.
const STRICT: u8 = 1;

/// The bit of binders in their own bodies.
const OWN_BODIES: u8 = 2;

/// What a caller chooses, for [`check_with`](crate::check_with), [`Stepping`](crate::Stepping) and
/// [`sums_with`](crate::sums_with).
///
/// ```
/// use dogwood_check::{check_with, Condition, Operator, Rules, Schema, Target, Targets, Term};
///
/// let schema = Schema::new().encode()?;
/// let (clerk, register) = (Term::entity("Clerk"), Term::entity("Register"));
/// let condition = Condition::comparison(0..17, Operator::Eq, clerk, register).encode()?;
/// let targets = Targets::new().target(Target::new("view")).encode()?;
/// let mut buffer = [0; 1024];
///
/// let plain = check_with(Rules::plain(), &schema, &condition, &targets, &mut buffer, &mut []);
/// assert_eq!(plain.count, 0);
/// let strict = check_with(Rules::strict(), &schema, &condition, &targets, &mut buffer, &mut []);
/// assert_eq!(strict.count, 1);
/// # Ok::<(), dogwood_check::EncodeError>(())
/// ```
///
/// Rules are joined by [`and`](Rules::and):
///
/// ```
/// use dogwood_check::Rules;
///
/// let both = Rules::strict().and(Rules::own_bodies());
/// assert_eq!(both, Rules::own_bodies().and(Rules::strict()));
/// assert_eq!(Rules::strict().and(Rules::plain()), Rules::strict());
/// ```
#[derive(Clone, Copy, Debug, Default, PartialEq, Eq, Hash)]
pub struct Rules {
    bits: u8,
}

impl Rules {
    /// The rules as [`check`](crate::check) and [`sums`](crate::sums) have them: any two entities are of the same type in
    /// an equality, and the last binder of a name in the whole condition binds every use of it.
    pub const fn plain() -> Rules {
        Rules { bits: 0 }
    }

    /// Two entities whose tags (the simple names of their types) are known and different are not of the same type in an
    /// equality, inside arrays too. Nothing else changes: with space for all reports, each message and start that is
    /// reported with plain rules is reported with these too. A report's end, and the order, may be others.
    pub const fn strict() -> Rules {
        Rules { bits: STRICT }
    }

    /// Each binder has its own body: a use is bound by the innermost binder around it, the last of its name in one list,
    /// and where none is around it by the field of the input, if there is one. An `exists` has its binder around its body,
    /// an aggregate its binders around its own body, and around its summand in [`sums_with`](crate::sums_with), which asks
    /// no input. Where each name is declared once and each use of a declared name stands in its binder's body, a check
    /// answers as with plain rules; and so do the sums, if no aggregate stands in an argument of a predicate.
    ///
    /// ```
    /// use dogwood_check::{check_with, Binder, Condition, Operator, Rules, Schema, Target, Targets, Term};
    ///
    /// // (exists (v: Long). ..) && v == "a"
    /// let inside = Condition::exists(0..22, Binder::new("v", "Long"), Condition::call(18..22));
    /// let outside = Condition::comparison(27..35, Operator::Eq, Term::var("v"), Term::String);
    /// let condition = Condition::and(0..35, inside, outside).encode()?;
    /// let schema = Schema::new().encode()?;
    /// let targets = Targets::new().target(Target::new("view")).encode()?;
    /// let mut buffer = [0; 1024];
    ///
    /// let flat = check_with(Rules::plain(), &schema, &condition, &targets, &mut buffer, &mut []);
    /// assert_eq!(flat.count, 1);
    /// let own = check_with(Rules::own_bodies(), &schema, &condition, &targets, &mut buffer, &mut []);
    /// assert_eq!(own.count, 0);
    /// # Ok::<(), dogwood_check::EncodeError>(())
    /// ```
    pub const fn own_bodies() -> Rules {
        Rules { bits: OWN_BODIES }
    }

    /// These rules and others together.
    pub const fn and(self, others: Rules) -> Rules {
        Rules { bits: self.bits | others.bits }
    }

    pub(crate) fn bits(self) -> u8 {
        self.bits
    }
}
