//! The functions of `libdogwood.a`, each behind a safe one. All of this crate's unsafe code stands here.
//!
//! A slice crosses the border as its address and its length. The library reads only the records' bytes, writes only the lent
//! buffer and workspace, keeps no address, and asks nothing of the bytes: it is proved for all of them.

/// What the library returns, as `struct dogwood_answer` of `include/dogwood.h`.
#[repr(C)]
pub(crate) struct Returned {
    pub number: u8,
    pub record: u8,
    pub count: usize,
}

/// What a check returns, as `struct dogwood_check_answer`.
#[repr(C)]
pub(crate) struct ReturnedCheck {
    pub number: u8,
    pub record: u8,
    pub count: usize,
    pub visits: usize,
}

/// The state of a stepping check, as `struct dogwood_steps`. Every value of every field has a meaning to the library.
#[repr(C)]
#[derive(Clone)]
pub(crate) struct Steps {
    pub rules: u8,
    pub stopped: u8,
    pub marks: [u8; 256],
    pub used: usize,
    pub visits: u32,
}

/// What a call of a stepping check returns, as `struct dogwood_stepped`.
#[repr(C)]
pub(crate) struct Stepped {
    pub answer: ReturnedCheck,
    pub state: Steps,
}

extern "C" {
    fn dogwood_read_schema(bytes: *const u8, length: usize) -> u8;
    fn dogwood_read_condition(bytes: *const u8, length: usize) -> u8;
    fn dogwood_read_targets(bytes: *const u8, length: usize) -> u8;
    fn dogwood_read_path(bytes: *const u8, length: usize) -> u8;
    fn dogwood_check(
        schema: *const u8,
        schema_length: usize,
        condition: *const u8,
        condition_length: usize,
        targets: *const u8,
        targets_length: usize,
        reports: *mut u8,
        reports_length: usize,
    ) -> ReturnedCheck;
    fn dogwood_check_with(
        rules: u8,
        schema: *const u8,
        schema_length: usize,
        condition: *const u8,
        condition_length: usize,
        targets: *const u8,
        targets_length: usize,
        reports: *mut u8,
        reports_length: usize,
        workspace: *mut u32,
        workspace_length: usize,
    ) -> ReturnedCheck;
    fn dogwood_steps_start(
        rules: u8,
        schema: *const u8,
        schema_length: usize,
        condition: *const u8,
        condition_length: usize,
        targets: *const u8,
        targets_length: usize,
    ) -> Stepped;
    fn dogwood_steps_step_with(
        schema: *const u8,
        schema_length: usize,
        condition: *const u8,
        condition_length: usize,
        targets: *const u8,
        targets_length: usize,
        state: Steps,
        reports: *mut u8,
        reports_length: usize,
        workspace: *mut u32,
        workspace_length: usize,
    ) -> Stepped;
    fn dogwood_steps_append(
        list: *mut u8,
        list_space: usize,
        length: usize,
        target: *const u8,
        target_length: usize,
    ) -> Returned;
    fn dogwood_steps_withdraw(targets: *const u8, targets_length: usize, state: Steps, position: u8) -> Stepped;
    fn dogwood_steps_move(state: Steps) -> Steps;
    fn dogwood_sums(condition: *const u8, condition_length: usize, reports: *mut u8, reports_length: usize)
        -> Returned;
    fn dogwood_sums_with(
        rules: u8,
        condition: *const u8,
        condition_length: usize,
        reports: *mut u8,
        reports_length: usize,
    ) -> Returned;
    fn dogwood_windows(
        condition: *const u8,
        condition_length: usize,
        period: u64,
        output: *mut u8,
        output_length: usize,
    ) -> Returned;
    fn dogwood_lookup(
        schema: *const u8,
        schema_length: usize,
        targets: *const u8,
        targets_length: usize,
        path: *const u8,
        path_length: usize,
        output: *mut u8,
        output_length: usize,
    ) -> Returned;
    fn dogwood_write_decimal(value: i64, output: *mut u8, output_length: usize) -> Returned;
}

pub(crate) fn read_schema(bytes: &[u8]) -> u8 {
    // SAFETY: the address and the length are those of a slice that is borrowed through the call.
    unsafe { dogwood_read_schema(bytes.as_ptr(), bytes.len()) }
}

pub(crate) fn read_condition(bytes: &[u8]) -> u8 {
    // SAFETY: as for `read_schema`.
    unsafe { dogwood_read_condition(bytes.as_ptr(), bytes.len()) }
}

pub(crate) fn read_targets(bytes: &[u8]) -> u8 {
    // SAFETY: as for `read_schema`.
    unsafe { dogwood_read_targets(bytes.as_ptr(), bytes.len()) }
}

pub(crate) fn read_path(bytes: &[u8]) -> u8 {
    // SAFETY: as for `read_schema`.
    unsafe { dogwood_read_path(bytes.as_ptr(), bytes.len()) }
}

pub(crate) fn check(schema: &[u8], condition: &[u8], targets: &[u8], reports: &mut [u8]) -> ReturnedCheck {
    // SAFETY: each address and length are those of a slice that is borrowed through the call, and the buffer, borrowed
    // mutably, overlaps none of the others.
    unsafe {
        dogwood_check(
            schema.as_ptr(),
            schema.len(),
            condition.as_ptr(),
            condition.len(),
            targets.as_ptr(),
            targets.len(),
            reports.as_mut_ptr(),
            reports.len(),
        )
    }
}

pub(crate) fn check_with(
    rules: u8,
    [schema, condition, targets]: [&[u8]; 3],
    reports: &mut [u8],
    workspace: &mut [u32],
) -> ReturnedCheck {
    // SAFETY: as for `check`; the buffer and the workspace, both borrowed mutably, do not overlap each other either.
    unsafe {
        dogwood_check_with(
            rules,
            schema.as_ptr(),
            schema.len(),
            condition.as_ptr(),
            condition.len(),
            targets.as_ptr(),
            targets.len(),
            reports.as_mut_ptr(),
            reports.len(),
            workspace.as_mut_ptr(),
            workspace.len(),
        )
    }
}

pub(crate) fn steps_start(rules: u8, [schema, condition, targets]: [&[u8]; 3]) -> Stepped {
    // SAFETY: as for `read_schema`.
    unsafe {
        dogwood_steps_start(
            rules,
            schema.as_ptr(),
            schema.len(),
            condition.as_ptr(),
            condition.len(),
            targets.as_ptr(),
            targets.len(),
        )
    }
}

pub(crate) fn steps_step_with(
    [schema, condition, targets]: [&[u8]; 3],
    state: Steps,
    reports: &mut [u8],
    workspace: &mut [u32],
) -> Stepped {
    // SAFETY: as for `check_with`; the state crosses by value.
    unsafe {
        dogwood_steps_step_with(
            schema.as_ptr(),
            schema.len(),
            condition.as_ptr(),
            condition.len(),
            targets.as_ptr(),
            targets.len(),
            state,
            reports.as_mut_ptr(),
            reports.len(),
            workspace.as_mut_ptr(),
            workspace.len(),
        )
    }
}

pub(crate) fn steps_append(list: &mut [u8], length: usize, target: &[u8]) -> Returned {
    // SAFETY: as for `check`.
    unsafe { dogwood_steps_append(list.as_mut_ptr(), list.len(), length, target.as_ptr(), target.len()) }
}

pub(crate) fn steps_withdraw(targets: &[u8], state: Steps, position: u8) -> Stepped {
    // SAFETY: as for `read_schema`.
    unsafe { dogwood_steps_withdraw(targets.as_ptr(), targets.len(), state, position) }
}

pub(crate) fn steps_move(state: Steps) -> Steps {
    // SAFETY: the state crosses by value, both ways.
    unsafe { dogwood_steps_move(state) }
}

pub(crate) fn sums(condition: &[u8], reports: &mut [u8]) -> Returned {
    // SAFETY: as for `check`.
    unsafe { dogwood_sums(condition.as_ptr(), condition.len(), reports.as_mut_ptr(), reports.len()) }
}

pub(crate) fn sums_with(rules: u8, condition: &[u8], reports: &mut [u8]) -> Returned {
    // SAFETY: as for `check`.
    unsafe { dogwood_sums_with(rules, condition.as_ptr(), condition.len(), reports.as_mut_ptr(), reports.len()) }
}

pub(crate) fn windows(condition: &[u8], period: u64, output: &mut [u8]) -> Returned {
    // SAFETY: as for `check`.
    unsafe { dogwood_windows(condition.as_ptr(), condition.len(), period, output.as_mut_ptr(), output.len()) }
}

pub(crate) fn lookup(schema: &[u8], targets: &[u8], path: &[u8], output: &mut [u8]) -> Returned {
    // SAFETY: as for `check`.
    unsafe {
        dogwood_lookup(
            schema.as_ptr(),
            schema.len(),
            targets.as_ptr(),
            targets.len(),
            path.as_ptr(),
            path.len(),
            output.as_mut_ptr(),
            output.len(),
        )
    }
}

pub(crate) fn write_decimal(value: i64, output: &mut [u8]) -> Returned {
    // SAFETY: as for `check`.
    unsafe { dogwood_write_decimal(value, output.as_mut_ptr(), output.len()) }
}
