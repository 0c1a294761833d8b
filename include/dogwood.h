/*
 * The temporal type check of Dogwood, proved: the functions of libdogwood.a (`tools/build dogwood_c`).
 *
 * A function takes byte records, each as an address and a length, and some also a lent buffer for what they answer.
 * docs/RECORDS.md says what the bytes of a record mean. Any bytes may be given: what is no record is refused by a number.
 *
 * What the caller sees to:
 *   - an address leads to as many bytes as the length says, or to as many slots of workspace; where the length is 0 it may
 *     be NULL;
 *   - nothing writes to a record or touches the lent buffer or the workspace while the call runs;
 *   - the lent buffer and the workspace overlap no record, nor each other. Records may overlap each other.
 *
 * The functions use no heap, no global state and no file, call nothing back and always return. They may run in any number
 * of threads at a time. A call stays below DOGWOOD_STACK bytes of stack (measured: docs/BENCHMARKS.md).
 */
#ifndef DOGWOOD_H
#define DOGWOOD_H

#include <stddef.h>
#include <stdint.h>

#ifdef __cplusplus
extern "C" {
#endif

/* A record has at most so many bytes. */
#define DOGWOOD_MOST_BYTES 32768

/* Conditions, terms and types are nested at most so deep; the root is level 1. */
#define DOGWOOD_MOST_LEVELS 32

/* A string in a record has at most so many bytes, and a list with an 8-bit count so many entries. */
#define DOGWOOD_MOST_TEXT 255

/* Stack that is enough for any call; what was measured is less (docs/BENCHMARKS.md). */
#define DOGWOOD_STACK 65536

/*
 * Slots of workspace (32 bits each) with which dogwood_check_with is linear in the reports of a buffer of so many bytes,
 * whatever they are: a report has at least 51 bytes, four slots serve three of them, and the first is the key. It can size
 * an array.
 */
#define DOGWOOD_WORKSPACE(bytes) ((bytes) / 38 + 2)

/*
 * What a caller of dogwood_check_with chooses, a bit of `rules` each; they may be joined by |. Strict: two entities whose
 * tags (the simple names of their types) are known and different are not of the same type in an equality, inside arrays too;
 * nothing else changes.
 *
 * Own bodies, in dogwood_sums_with too: a name is bound by the innermost binder around its use, the last of that name in one
 * list, and where none is around it by the field of the input, if there is one. An Exists has its binder around its body,
 * an aggregate its binders around its own body, and around its summand in the sums. Without this bit the last binder of a
 * name in the whole condition binds every use of it, as in Dogwood's published check.
 */
#define DOGWOOD_STRICT 1
#define DOGWOOD_OWN_BODIES 2

/*
 * Why there is no answer. The numbers 1 to 10, 13, 15 and 16 are met while a record is read, the first one from the left
 * counts, and at one field the lowest. No function answers 17.
 */
enum dogwood_cause {
    DOGWOOD_ACCEPTED = 0,              /* no refusal */
    DOGWOOD_TOO_LONG = 1,              /* the record is above 32,768 bytes */
    DOGWOOD_CUT = 2,                   /* the bytes end before a field does */
    DOGWOOD_OTHER_MARK = 3,            /* the record is of another sort, or no record */
    DOGWOOD_OTHER_VERSION = 4,         /* another version of the record */
    DOGWOOD_UNDEFINED_CHOICE = 5,      /* an undefined kind, type, operator or other choice byte */
    DOGWOOD_OUTSIDE_CLASS = 6,         /* a string with bytes that may not stand there */
    DOGWOOD_TOO_DEEP = 7,              /* level 33 */
    DOGWOOD_NOT_ASCENDING = 8,         /* names that do not ascend, or one given twice */
    DOGWOOD_AGGREGATE_BELOW_ARRAY = 9, /* an aggregate anywhere below an array */
    DOGWOOD_BYTES_AFTER = 10,          /* bytes after the record's end */
    DOGWOOD_NO_SPACE = 11,             /* the output is longer than the lent buffer */
    DOGWOOD_NO_SUCH_TARGET = 12,       /* the path's position is not in the list of targets */
    DOGWOOD_WINDOW_OUT_OF_RANGE = 13,  /* a window that is negative or above 2^63 - 1 seconds */
    DOGWOOD_NO_PERIOD = 14,            /* the period of a listing is 0 */
    DOGWOOD_MALFORMED_DECIMAL = 15,    /* a decimal whose text is not of a decimal's shape */
    DOGWOOD_DECIMAL_OUT_OF_RANGE = 16, /* a decimal whose text is, and whose value is beyond 64 bits */
    DOGWOOD_LIST_FULL = 18,            /* one target more would be the 256th, or make the list longer than 32,768 bytes */
    DOGWOOD_NOT_PENDING = 19           /* the target to be withdrawn is done, withdrawn or not in the list */
};

/* The record that a refusal is about. */
enum dogwood_record {
    DOGWOOD_NO_RECORD = 0, /* success, and DOGWOOD_NO_SPACE, _NO_PERIOD, _LIST_FULL and _NOT_PENDING */
    DOGWOOD_SCHEMA = 1,
    DOGWOOD_CONDITION = 2,
    DOGWOOD_TARGETS = 3,
    DOGWOOD_PATH = 4
};

/*
 * What a call answers: a number of enum dogwood_cause and one of enum dogwood_record, both 0 on success, and a count. The
 * count is of the reports (check, steps, sums), of the windows, of the output's bytes (lookup, write_decimal), or of the
 * list's (steps_append); a refusal's is 0, but for DOGWOOD_NO_SPACE of check, steps, sums and windows, which counts the
 * reports or windows that were kept.
 */
struct dogwood_answer {
    uint8_t number;
    uint8_t record;
    size_t count;
};

/*
 * What a check answers: the same, and a count of visits, for a host that bills by work. A visit is one condition that the
 * check reaches, looked at under one target. Where all reports fit there are (targets not skipped) x (reached conditions)
 * of them, whatever the rules are; a target is skipped where its action is declared and admits no environment under the
 * rule's scope, and one that is listed twice counts twice. DOGWOOD_NO_SPACE has the visits begun up to and including the
 * one whose report did not fit, any other refusal 0. Nine times the visits are never more than the targets listed times
 * (condition_length - 5).
 */
struct dogwood_check_answer {
    uint8_t number;
    uint8_t record;
    size_t count;
    size_t visits;
};

/*
 * Whether bytes are a schema, condition, targets or path record: 0, or the number (1 to 10, of a condition 13, 15 and 16
 * too) of the first thing that is wrong with them.
 *
 * All functions that take a condition read its versions 1 to 3: version 2 has the windows, version 3 the values of
 * literals, the ids of entities and the operators of arithmetic too. No report depends on any of these.
 */
uint8_t dogwood_read_schema(const uint8_t *bytes, size_t length);
uint8_t dogwood_read_condition(const uint8_t *bytes, size_t length);
uint8_t dogwood_read_targets(const uint8_t *bytes, size_t length);
uint8_t dogwood_read_path(const uint8_t *bytes, size_t length);

/*
 * Checks the types of a condition under each target of a rule. Every different pair of message and start is reported once.
 *
 * An order (`<` and its like) takes two Long, two datetimes or two durations, an equality two terms of like types, and
 * arithmetic takes Long alone. A datetime is what the schema calls by an extension type of the simple name `datetime`, and
 * a variable whose annotation ends with that word; a duration is named in the same way by `duration`. Of the other
 * extension types decimal is one of its own, and the rest are strings.
 *
 * Number 0: the buffer begins with `count` reports, one after the other (struct dogwood_report); bytes behind them are as
 * they were. A count of 0 means that no rule was found broken. An empty list of targets has nothing to check; a target that
 * the schema does not declare, or a field that does not resolve, has no type, and what depends on it is not reported.
 * DOGWOOD_NO_SPACE: the buffer begins with the `count` reports that come before the first that does not fit; bytes behind
 * them are as they were. Call again with more space for all of them.
 * Any other number: `record` says which record was refused (they are read in the order given here, each to its end), and the
 * buffer is as it was.
 */
struct dogwood_check_answer dogwood_check(const uint8_t *schema, size_t schema_length,
                                          const uint8_t *condition, size_t condition_length,
                                          const uint8_t *targets, size_t targets_length,
                                          uint8_t *reports, size_t reports_length);

/*
 * The same check with rules that the caller chooses, and with lent workspace, in which repeated reports are found: with
 * rules 0 the same answer and the same bytes in the buffer as dogwood_check gives. `rules` is 0 or of DOGWOOD_STRICT and
 * DOGWOOD_OWN_BODIES one or both; a bit without a meaning has no effect. With space for all reports, each message and start
 * that is reported without DOGWOOD_STRICT is reported with it too; a report's end, and the order, may be others.
 *
 * With DOGWOOD_OWN_BODIES reports may come and go. The answer and the bytes are the same with it and without it where each
 * name is declared once and each use of a declared name stands in the body of its binder.
 *
 * The answer is the same for every workspace. It may have any number of slots, none too, and hold anything.
 *
 * Time is linear in the number of reports as long as there are fewer than three reports for every four slots behind the
 * first, for which DOGWOOD_WORKSPACE(reports_length) are always enough, and the buffer is shorter than 4,294,967,295 bytes.
 * Further reports are compared with all that were found before. dogwood_check has 2,048 slots of its own on the stack, which
 * serve 1,536 reports: a buffer of up to 78,335 bytes needs no workspace.
 * The slot of a report is chosen by a hash, and the first slot is its key. Whoever knows the key can make a request whose
 * reports fall on the same slots, which then takes as long as one without workspace (docs/BENCHMARKS.md). A caller who
 * takes requests from strangers puts a random number into the first slot before each call. The answer is the same for every
 * key. The key of dogwood_check's own slots is 0.
 * A refused record (1 to 10, 13, 15, 16) leaves the workspace as it was. Otherwise its contents afterwards mean nothing. It need
 * not be cleared before a call; a call clears it, so that more slots than are needed cost time.
 */
struct dogwood_check_answer dogwood_check_with(uint8_t rules,
                                               const uint8_t *schema, size_t schema_length,
                                               const uint8_t *condition, size_t condition_length,
                                               const uint8_t *targets, size_t targets_length,
                                               uint8_t *reports, size_t reports_length,
                                               uint32_t *workspace, size_t workspace_length);

/*
 * The stepping check does one target at a time, so that the list of targets can change between two of them. Each position
 * of the list is pending, done or withdrawn, and no target ever changes its position. A step does the first pending one.
 * Between steps, before the first and behind the last too, targets are appended, or a pending one is withdrawn.
 *
 * The library keeps nothing. The caller has the list, which is the targets record in a buffer with room behind it; the
 * buffer of the reports; and the state, which says what these two do not. Every call gives a state back, which is handed to
 * the next one. With the same schema and condition each time, and list, state and buffer as the calls left them, the answer
 * of each step and the buffer behind it are those of one dogwood_check_with, by the state's rules and with this buffer,
 * over the targets that are done, in their order. That is so until the rules are changed on the way: dogwood_steps_move
 * says what holds then.
 *
 * Anything else may be handed in too, and has an answer: each value of each field of the state means something.
 */

/* What a mark says of its position. Any other value is that of a position that is not pending. */
enum dogwood_mark {
    DOGWOOD_PENDING = 0,
    DOGWOOD_DONE = 1,
    DOGWOOD_WITHDRAWN = 2
};

/* The state of a stepping check. */
struct dogwood_steps {
    uint8_t rules;      /* what was chosen at the start, as for dogwood_check_with, and DOGWOOD_OWN_BODIES after a move */
    uint8_t stopped;    /* not 0: a report did not fit, and no step does anything any more */
    uint8_t marks[256]; /* of enum dogwood_mark, one for each position; those behind the list have no effect */
    size_t used;        /* how many bytes of the buffer the reports take */
    uint32_t visits;    /* how many visits were begun, or 4,294,967,295 where they were more */
};

/* What a call answers, and the state to hand in next. */
struct dogwood_stepped {
    struct dogwood_check_answer answer;
    struct dogwood_steps state;
};

/*
 * Starts a stepping check with these rules: the records are read as dogwood_check reads them, and no target is done. Number
 * 0, or the refusal that dogwood_check would give; count and visits are 0. The state is that of a start in both cases:
 * every position is pending.
 */
struct dogwood_stepped dogwood_steps_start(uint8_t rules,
                                           const uint8_t *schema, size_t schema_length,
                                           const uint8_t *condition, size_t condition_length,
                                           const uint8_t *targets, size_t targets_length);

/*
 * Does the first pending target. Its new reports are written behind the earlier ones, which are those that stand whole at
 * the front of the first `used` bytes of the buffer; a message and start that stands there already is not repeated. A
 * target that a check skips is done too, without a visit. Count and visits are those of the check so far.
 *
 * Number 0: the buffer begins with `count` reports, and bytes behind them are as they were. Where no target is pending,
 * that is the last answer again, and neither state nor buffer change.
 * DOGWOOD_NO_SPACE: the buffer begins with the `count` reports that came before the first that did not fit. The target
 * whose report that was is done. Every further step answers the same and changes nothing, though targets be appended.
 * Any other number: `record` says which record was refused (they are read in the order given here, each to its end); count
 * and visits are 0, and state and buffer are as they were.
 *
 * Where the first `used` bytes are not reports alone, or the buffer is shorter than that, no new report fits, and nothing
 * is written.
 */
struct dogwood_stepped dogwood_steps_step(const uint8_t *schema, size_t schema_length,
                                          const uint8_t *condition, size_t condition_length,
                                          const uint8_t *targets, size_t targets_length,
                                          struct dogwood_steps state,
                                          uint8_t *reports, size_t reports_length);

/*
 * The same step with lent workspace. All that is said of the workspace of dogwood_check_with holds here: the answer is the
 * same for each, whatever it holds, DOGWOOD_WORKSPACE(reports_length) slots make time linear in the reports, those of
 * earlier steps included, and the first slot is the key. Nothing in it is needed for the next step. dogwood_steps_step has
 * 2,048 slots of its own, with key 0.
 */
struct dogwood_stepped dogwood_steps_step_with(const uint8_t *schema, size_t schema_length,
                                               const uint8_t *condition, size_t condition_length,
                                               const uint8_t *targets, size_t targets_length,
                                               struct dogwood_steps state,
                                               uint8_t *reports, size_t reports_length,
                                               uint32_t *workspace, size_t workspace_length);

/*
 * Appends a target to a list. `list` is a buffer of `list_space` bytes, best of DOGWOOD_MOST_BYTES, whose first `length`
 * bytes are the targets record (all of them where there are no more). The target is its namespace and its id as they stand
 * in a targets record, and no byte more. No state is needed: a position without a target is pending already.
 *
 * Number 0: `count` is the list's new length. The target stands behind the others, its position is the count of targets
 * before the call, and the record's count of targets is one more. No other byte of the buffer changes.
 * Any other number: count is 0, and the buffer is as it was. The list is read first and then the target, a refusal of
 * either having the record DOGWOOD_TARGETS (of a target it is DOGWOOD_CUT, DOGWOOD_OUTSIDE_CLASS or DOGWOOD_BYTES_AFTER);
 * then comes DOGWOOD_LIST_FULL, for which withdrawn targets count like all others; then DOGWOOD_NO_SPACE where the buffer
 * has no room for the target, which a buffer of DOGWOOD_MOST_BYTES always has. Neither of these two has a record.
 */
struct dogwood_answer dogwood_steps_append(uint8_t *list, size_t list_space, size_t length,
                                           const uint8_t *target, size_t target_length);

/*
 * Withdraws the pending target at a position, the first being 0. It stays in the list, is marked DOGWOOD_WITHDRAWN, and
 * will not be done. The same action may be appended again.
 *
 * Number 0: nothing but that mark changes. DOGWOOD_NOT_PENDING: the target is done or withdrawn, or there is none at that
 * position. Any other number: the targets record was refused, the only one that is read. In both cases the state is as it
 * was. Count and visits are 0.
 */
struct dogwood_stepped dogwood_steps_withdraw(const uint8_t *targets, size_t targets_length,
                                              struct dogwood_steps state, uint8_t position);

/*
 * Moves a stepping check to own bodies, between steps, before the first and behind the last too. The state comes back with
 * DOGWOOD_OWN_BODIES among its rules, and nothing else of it changes: DOGWOOD_STRICT stays as it was chosen, and so do bits
 * without a meaning. Nothing is read, nothing can be refused, and there is no way back: a second move changes nothing, nor
 * does one in a check that was started with own bodies.
 *
 * Targets that are done keep their reports; those that are done later are checked with own bodies, and a message and start
 * that stands in the buffer already is not repeated, whichever rule it was reported by. So with space for all, the different
 * pairs of message and start are those of a check by the rules of the start over the targets done before the first move, and
 * those of a check with own bodies over the targets done since, each reported once. The visits are as many as without a
 * move. After DOGWOOD_NO_SPACE a move starts nothing anew: every further step answers the same.
 */
struct dogwood_steps dogwood_steps_move(struct dogwood_steps state);

/*
 * Reports each sum of a condition whose summand is declared as something else than Long. It needs no schema and no targets;
 * a report may stand there twice. Numbers and buffer as for dogwood_check, the refused record being the condition.
 */
struct dogwood_answer dogwood_sums(const uint8_t *condition, size_t condition_length,
                                   uint8_t *reports, size_t reports_length);

/*
 * The same with rules that the caller chooses: 0, which is dogwood_sums, or DOGWOOD_OWN_BODIES; no other bit has an effect.
 * With own bodies the binder of a summand is the last of its name in the sum's own list, else the innermost around the sum;
 * where there is none nothing is reported. The input is not asked. The list of a sum in an argument of a predicate, which
 * dogwood_sums leaves out, counts for its own summand. The answers are the same where each name is declared once, no
 * aggregate stands in an argument of a predicate, and each summand that is declared has its binder around it.
 */
struct dogwood_answer dogwood_sums_with(uint8_t rules, const uint8_t *condition, size_t condition_length,
                                        uint8_t *reports, size_t reports_length);

/*
 * Lists the windows of a condition in sweeps of a period of so many seconds: how many whole sweeps a window has, and how many
 * seconds are left. It needs no schema and no targets. Windows come in the order in which a check visits the conditions;
 * those that are a macro's parameter are left out, and so are those that no check visits, in an aggregate that is a
 * predicate's argument. A condition of version 1 has none.
 *
 * Number 0: the buffer begins with `count` windows, one after the other (struct dogwood_window); bytes behind them are as
 * they were. DOGWOOD_NO_SPACE: it begins with the `count` windows that fit, and bytes behind them are as they were.
 * Any other number: the buffer is as it was. The condition is read to its end first; then comes DOGWOOD_NO_PERIOD, whether or
 * not there is a window (record DOGWOOD_NO_RECORD), then DOGWOOD_NO_SPACE.
 */
struct dogwood_answer dogwood_windows(const uint8_t *condition, size_t condition_length, uint64_t period,
                                      uint8_t *output, size_t output_length);

/* The first byte of what dogwood_lookup writes. */
enum dogwood_status {
    DOGWOOD_RESOLVED = 0,   /* one string: the type, as `int`, `datetime`, `array<string>` or `entity:User` */
    DOGWOOD_MISSING = 1,    /* the segment that is missing, then the entity types that lack it */
    DOGWOOD_NON_RECORD = 2, /* one string: the segment that would go into something that is no record */
    DOGWOOD_AMBIGUOUS = 3,  /* the types, which differ */
    DOGWOOD_UNKNOWN = 4     /* no string: an empty path, an undeclared target or entity type, or no type is admitted */
};

/*
 * Says how a path under principal or resource resolves for one target: the path record holds the target's position.
 *
 * Number 0: the buffer begins with `count` bytes: a byte of enum dogwood_status, a 16-bit count of strings, and each string
 * with a 16-bit length before it (big-endian, not ended by 0); bytes behind them are as they were.
 * Any other number, DOGWOOD_NO_SPACE too: the buffer is as it was. The records are read in the order given here; then
 * DOGWOOD_NO_SUCH_TARGET (record DOGWOOD_TARGETS), then DOGWOOD_NO_SPACE.
 */
struct dogwood_answer dogwood_lookup(const uint8_t *schema, size_t schema_length,
                                     const uint8_t *targets, size_t targets_length,
                                     const uint8_t *path, size_t path_length,
                                     uint8_t *output, size_t output_length);

/* The longest text that dogwood_write_decimal writes has so many bytes. */
#define DOGWOOD_MOST_DECIMAL 21

/*
 * Writes a number of ten-thousandths as Cedar's decimals are written: a minus only below zero, the whole part without
 * leading zeros (`0` below one), a point, four digits.
 *
 * Number 0: the buffer begins with the `count` bytes of the text, which is not ended by 0; bytes behind them are as they
 * were. DOGWOOD_NO_SPACE: the buffer is as it was. There is no other number.
 */
struct dogwood_answer dogwood_write_decimal(int64_t value, uint8_t *output, size_t output_length);

/*
 * One report: the span in the rule's text and a message in UTF-8 that is not ended by 0. The span is the condition record's,
 * which may hold any numbers: look that start <= end <= the text's length before you cut the text by it.
 * In the buffer it has DOGWOOD_REPORT_HEAD bytes, start and end (32 bits each) and the message's length (16 bits), all
 * big-endian, and then the message.
 */
struct dogwood_report {
    uint32_t start;
    uint32_t end;
    uint16_t length;
    const char *message;
};

#define DOGWOOD_REPORT_HEAD 10

/* A big-endian number of 32 bits. */
static inline uint32_t dogwood_number32(const uint8_t *at) {
    return (uint32_t)at[0] << 24 | (uint32_t)at[1] << 16 | (uint32_t)at[2] << 8 | at[3];
}

/*
 * Takes a report apart, and gives the address of the next one. It is for the `count` reports at the beginning of a buffer
 * that a check or the sums have filled; the message stays in the buffer.
 */
static inline const uint8_t *dogwood_next_report(const uint8_t *at, struct dogwood_report *report) {
    report->start = dogwood_number32(at);
    report->end = dogwood_number32(at + 4);
    report->length = (uint16_t)(at[8] << 8 | at[9]);
    report->message = (const char *)(at + DOGWOOD_REPORT_HEAD);
    return at + DOGWOOD_REPORT_HEAD + report->length;
}

/*
 * One window: where its condition starts in the rule's text, its whole sweeps, and the seconds left. Sweeps times the period
 * and the rest are the window's seconds, and the rest is below the period.
 * In the buffer it has DOGWOOD_WINDOW_BYTES bytes: the start (32 bits), the sweeps and the rest (64 bits each), all
 * big-endian.
 */
struct dogwood_window {
    uint32_t start;
    uint64_t sweeps;
    uint64_t rest;
};

#define DOGWOOD_WINDOW_BYTES 20

/* A big-endian number of 64 bits. */
static inline uint64_t dogwood_number64(const uint8_t *at) {
    return (uint64_t)dogwood_number32(at) << 32 | dogwood_number32(at + 4);
}

/*
 * Takes a window apart, and gives the address of the next one. It is for the `count` windows at the beginning of a buffer
 * that dogwood_windows has filled.
 */
static inline const uint8_t *dogwood_next_window(const uint8_t *at, struct dogwood_window *window) {
    window->start = dogwood_number32(at);
    window->sweeps = dogwood_number64(at + 4);
    window->rest = dogwood_number64(at + 12);
    return at + DOGWOOD_WINDOW_BYTES;
}

#ifdef __cplusplus
}
#endif

#endif
