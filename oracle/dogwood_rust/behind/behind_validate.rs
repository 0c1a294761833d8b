// ─── Appended by the oracle's build; the text above is as published ───

/// `check_types`, which is private above.
pub fn oracle_check_types(
    c: &Condition,
    info: &SchemaInfo,
    target_actions: &[crate::api::ActionRef],
    narrow: crate::Narrowing<'_>,
) -> Vec<LeafError> {
    let mut errs = Vec::new();
    check_types(c, info, target_actions, oracle_narrowing(narrow), &mut errs);
    errs
}

/// The breaches under one target, before repeats are dropped: `check_types_for_action`, which is private above.
pub fn oracle_breaches(
    c: &Condition,
    info: &SchemaInfo,
    action: &crate::api::ActionRef,
    narrow: crate::Narrowing<'_>,
) -> Vec<LeafError> {
    let mut errs = Vec::new();
    check_types_for_action(c, info, action, oracle_narrowing(narrow), &mut errs);
    errs
}

/// Where a report about each reached condition starts, in the order of `walk`, which is private above.
pub fn oracle_starts(c: &Condition) -> Vec<usize> {
    let mut starts = Vec::new();
    walk(c, &mut |node| {
        starts.push(match &node.kind {
            ConditionKind::Predicate(p) => p.span.start,
            _ => node.span.start,
        })
    });
    starts
}

/// Whether `check_types_for_action` goes on to the conditions under a target: its first test.
pub fn oracle_is_checked(info: &SchemaInfo, action: &crate::api::ActionRef, narrow: crate::Narrowing<'_>) -> bool {
    let sig = info.action(action.namespace.as_deref(), &action.id);
    sig.is_none_or(|sig| sig.admits_any_env(narrow.principal, narrow.resource))
}

/// `check_sum_summands`, which is private above.
pub fn oracle_check_sum_summands(c: &Condition) -> Vec<LeafError> {
    let mut errs = Vec::new();
    check_sum_summands(c, &mut errs);
    errs
}

/// The types that `term_type` gives the two operands where the condition itself is a comparison.
pub fn oracle_operand_types(
    c: &Condition,
    info: &SchemaInfo,
    action: &crate::api::ActionRef,
    narrow: crate::Narrowing<'_>,
) -> Option<[Option<RichType>; 2]> {
    let ConditionKind::Comparison { left, right, .. } = &c.kind else {
        return None;
    };
    let rule_sig = info.action(action.namespace.as_deref(), &action.id);
    let env = build_type_env(c, info, rule_sig.as_ref());
    let narrow = oracle_narrowing(narrow);
    Some([left, right].map(|t| term_type(t, &env, rule_sig.as_ref(), narrow)))
}

/// The concrete windows that `walk` reaches, in its order: where their condition starts, and the window. The closure is that
/// of `check_windows` above, up to its tests.
pub fn oracle_windows(c: &Condition) -> Vec<(usize, Interval)> {
    let mut windows = Vec::new();
    walk(c, &mut |node| {
        let within = match &node.kind {
            ConditionKind::Formerly { within, .. }
            | ConditionKind::Previous { within, .. }
            | ConditionKind::Since { within, .. } => within,
            _ => return,
        };
        let WithinSpec::Concrete(interval) = within else {
            return;
        };
        windows.push((node.span.start, *interval));
    });
    windows
}

fn oracle_narrowing(narrow: crate::Narrowing<'_>) -> ScopeNarrowing<'_> {
    ScopeNarrowing { principal: narrow.principal, resource: narrow.resource }
}
