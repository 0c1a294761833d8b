/*
 * Calls each function of the library, for an answer and for refusals, and says what is not as include/dogwood.h has it.
 * It is both C99 and C++. It prints one line; the exit status is 1 where a test failed.
 */
/* ucontext.h is of POSIX, and not of C99. */
#ifndef _XOPEN_SOURCE
#define _XOPEN_SOURCE 600
#endif

#include "dogwood.h"

#include <stdio.h>
#include <string.h>
#include <ucontext.h>

/* A string literal's bytes without the last 0, as an address and a length. */
#define BYTES(text) (const uint8_t *)(text), sizeof(text) - 1

static int tests = 0;
static int failures = 0;

#define TEST(claim) test((claim) ? 1 : 0, #claim, __LINE__)

static void test(int holds, const char *claim, int line) {
    tests++;
    if (!holds) {
        failures++;
        fprintf(stderr, "test.c:%d: %s\n", line, claim);
    }
}

/* ─── Records ─── */

#define ZERO_SPAN "\0\0\0\0\0\0\0\0"

/* No entity types, no actions. */
#define EMPTY_SCHEMA "DWS\0\1\0\0\0\0"

/* User with the attribute name: String, and Action::"view" of a User on anything. */
#define SCHEMA "DWS\0\1" "\0\1" "\4User" "\0" "\1\4name\1" "\0\1" "\6Action" "\4view" "\1\4User" "\0" "\6\0"

/* `true < 1` at 0 to 8. */
#define WRONG_COMPARISON "\10" "\0\0\0\0\0\0\0\10" "\1\5\2"

/* `true < 1` at 9 to 17. */
#define NEXT_COMPARISON "\10" "\0\0\0\11\0\0\0\21" "\1\5\2"

#define CONDITION "DWC\0\1" WRONG_COMPARISON
#define TWO_COMPARISONS "DWC\0\1" "\1" ZERO_SPAN WRONG_COMPARISON NEXT_COMPARISON
#define TWICE "DWC\0\1" "\1" ZERO_SPAN WRONG_COMPARISON WRONG_COMPARISON
#define CLEAN_CONDITION "DWC\0\1" "\13" ZERO_SPAN

/* `U == G`, `[U] == [G]` and `A::U == B::U` of entities, at 0 to 0. */
#define ENTITY_U "\1\1U"
#define ENTITY_G "\1\1G"
#define EQUALITY "DWC\0\1" "\10" ZERO_SPAN "\4"
#define OTHER_TAGS EQUALITY ENTITY_U ENTITY_G
#define OTHER_TAGS_IN_ARRAYS EQUALITY "\12\1" ENTITY_U "\12\1" ENTITY_G
#define SAME_TAG EQUALITY "\1\4" "A::U" "\1\4" "B::U"

/* `exists (v: String). (sum v for . ..) == 1`, the sum at 3 to 258. */
#define SUM "\13\1" "\0\0\0\3\0\0\1\2" "\0\1v" "\0" "\13" ZERO_SPAN
#define WRONG_SUM "DWC\0\1" "\11" ZERO_SPAN "\0\1v\1\6String" "\10" ZERO_SPAN "\4" SUM "\2"

/*
 * Binders, each at 0 to 0: `(exists (v: Long). ..) && v == "a"`, the same with `v == 1`, `exists (v: Long). v == "a"`, a count
 * over v: Long and v: String whose body is `v == 1`, and `tp(t)` outside and inside of `exists (t: Long)`.
 */
#define AND "\1" ZERO_SPAN
#define LONG_V "\0\1v\1\4Long"
#define STRING_V "\0\1v\1\6String"
#define V_IS "\10" ZERO_SPAN "\4\10\1v"
#define V_OUTSIDE "DWC\0\1" AND "\11" ZERO_SPAN LONG_V "\13" ZERO_SPAN V_IS "\4"
#define V_IS_NUMBER_OUTSIDE "DWC\0\1" AND "\11" ZERO_SPAN LONG_V "\13" ZERO_SPAN V_IS "\2"
#define V_INSIDE "DWC\0\1" "\11" ZERO_SPAN LONG_V V_IS "\4"
#define V_TWICE "DWC\0\1" "\10" ZERO_SPAN "\4\2" "\13\2" ZERO_SPAN "\2" LONG_V STRING_V V_IS "\2"
#define TP_OUTSIDE "DWC\0\1" AND "\11" ZERO_SPAN "\0\1t\1\4Long" "\13" ZERO_SPAN "\12" ZERO_SPAN "\0\1t"
#define TP_INSIDE "DWC\0\1" "\11" ZERO_SPAN "\0\1t\1\4Long" "\12" ZERO_SPAN "\0\1t"

/* `U == G` at 5 to 6, `&&`, and what V_OUTSIDE has: each bit does its own. */
#define TAGS_AND_V "DWC\0\1" AND "\10" "\0\0\0\5\0\0\0\6" "\4" ENTITY_U ENTITY_G \
                   AND "\11" ZERO_SPAN LONG_V "\13" ZERO_SPAN V_IS "\4"

/* V_OUTSIDE, `&&`, and `v == 1` at 5 to 6. In one scope the first equality is wrong; in own bodies v is the input's. */
#define V_IS_BOTH "DWC\0\1" AND AND "\11" ZERO_SPAN LONG_V "\13" ZERO_SPAN V_IS "\4" \
                  "\10" "\0\0\0\5\0\0\0\6" "\4\10\1v" "\2"

/* An action with the input field v: String. */
#define V_INPUT_SCHEMA "DWS\0\1" "\0\0" "\0\1" "\6Action" "\4view" "\0" "\0" "\6\1\5input" "\6\1\1v\1"

/*
 * Sums at 3 to 258: of v with a binder v: Long of its own beside a later `exists (v: String)`, of v with a binder of its own in
 * an argument of a predicate, and of v whose binder stands in its body.
 */
#define SUM_OF_V "\13\1" "\0\0\0\3\0\0\1\2" "\0\1v"
#define SUM_BESIDE_V "DWC\0\1" AND "\10" ZERO_SPAN "\4\2" SUM_OF_V "\1" LONG_V "\13" ZERO_SPAN \
                     "\11" ZERO_SPAN STRING_V "\13" ZERO_SPAN
#define SUM_IN_ARGUMENT "DWC\0\1" "\7" ZERO_SPAN ZERO_SPAN "\0" "\0" "\1" "\0" "\0" SUM_OF_V "\1" STRING_V "\13" ZERO_SPAN
#define SUM_OVER_V "DWC\0\1" "\10" ZERO_SPAN "\4\2" SUM_OF_V "\0" "\11" ZERO_SPAN STRING_V "\13" ZERO_SPAN

/*
 * `formerly within 90m ..` at 5 to 6, and in it `previous within 2d ..` at 7 to 8; the first alone with a parameter, with a
 * negative amount, with 2^63 - 1 days, and in version 1.
 */
#define CALL "\13" ZERO_SPAN
#define AT_FIVE "\0\0\0\5\0\0\0\6"
#define MINUTES_90 "\0\1" "\0\0\0\0\0\0\0\132"
#define INNER_WINDOW "\5" "\0\0\0\7\0\0\0\10" "\0\3" "\0\0\0\0\0\0\0\2" CALL
#define TWO_WINDOWS "DWC\0\2" "\4" AT_FIVE MINUTES_90 INNER_WINDOW
#define PARAMETER_WINDOW "DWC\0\2" "\4" AT_FIVE "\1" CALL
#define NEGATIVE_WINDOW "DWC\0\2" "\4" AT_FIVE "\0\0" "\377\377\377\377\377\377\377\377" CALL
#define LONG_WINDOW "DWC\0\2" "\4" AT_FIVE "\0\3" "\177\377\377\377\377\377\377\377" CALL
#define LONGEST_WINDOW "DWC\0\2" "\4" AT_FIVE "\0\0" "\177\377\377\377\377\377\377\377" CALL
#define NO_WINDOW "DWC\0\1" "\4" AT_FIVE CALL

/* An equality of version 3 at 0 to 0, up to its left operand; and decimals of these texts. */
#define VALUED "DWC\0\3" "\10" ZERO_SPAN "\4"
#define LOWEST "\3\25" "-922337203685477.5808"
#define BELOW "\3\25" "-922337203685477.5809"
#define HIGHEST "\3\24" "922337203685477.5807"
#define ABOVE "\3\24" "922337203685477.5808"
#define FIVE_DIGITS "\3\7" "1.00000"

/* `true < 1` at 0 to 8 in version 3, and `a + b == 1` with entities, below a window. */
#define VALUED_COMPARISON "DWC\0\3" "\10" "\0\0\0\0\0\0\0\10" "\1" "\5\1" "\2" "\0\0\0\0\0\0\0\1"
#define VALUED_SUM "\14\0" "\1\1U\1a" "\1\1U\1b"
#define VALUED_WINDOW "DWC\0\3" "\4" AT_FIVE MINUTES_90 "\10" ZERO_SPAN "\4" VALUED_SUM "\2" "\0\0\0\0\0\0\0\1"

/*
 * Action::"view" with the input fields d, a datetime, and e, an App::duration; `d < d` and `d < e` at 0 to 0; and a variable
 * of type datetime that is compared with a text.
 */
#define TIMES_INPUT "\6\2" "\1d\3\10datetime" "\1e\3\15" "App::duration"
#define TIMES_SCHEMA "DWS\0\1" "\0\0" "\0\1" "\6Action" "\4view" "\0" "\0" "\6\1\5input" TIMES_INPUT
#define FIELD_D "\6\2\5input\1d"
#define FIELD_E "\6\2\5input\1e"
#define ORDER "DWC\0\1" "\10" ZERO_SPAN "\1"
#define DATETIME_AND_STRING "DWC\0\1" "\11" ZERO_SPAN "\0\1v\1\10datetime" "\10" ZERO_SPAN "\4" "\10\1v" "\4"

/* User with the attribute due, a datetime, as the principal of Action::"view"; and the path principal.due. */
#define DUE_USER "\0\1" "\4User" "\0" "\1\3due\3\10datetime"
#define DUE_SCHEMA "DWS\0\1" DUE_USER "\0\1" "\6Action" "\4view" "\1\4User" "\0" "\6\0"
#define DUE_PATH "DWP\0\1" "\0" "\1\3due" "\0"

/* No narrowing, the target "view". */
#define TARGETS "DWT\0\1" "\0\0" "\1" "\0\4view"

/*
 * Targets by themselves, and lists of them without narrowing: none, one, two. An action "v" without principals, and a list of
 * two with any principal, of which the first is then skipped.
 */
#define V "\0\1v"
#define W "\0\1w"
#define X "\0\1x"
#define NO_TARGET "DWT\0\1" "\0\0" "\0"
#define ONE_TARGET "DWT\0\1" "\0\0" "\1" V
#define TWO_TARGETS "DWT\0\1" "\0\0" "\2" V W
#define SKIPPING_SCHEMA "DWS\0\1" "\0\0" "\0\1" "\6Action" "\1v" "\0" "\0" "\6\0"
#define ANY_TWO_TARGETS "DWT\0\1" "\1\0" "\2" V W

/* What a schema says under V and under W of `input.n < 1`: at V the field is a text, at W a number, elsewhere nothing. */
#define TEXT_AT_V "\6Action" "\1v" "\0" "\0" "\6\1\5input" "\6\1\1n\1"
#define NUMBER_AT_W "\6Action" "\1w" "\0" "\0" "\6\1\5input" "\6\1\1n\0"
#define BY_TARGET_SCHEMA "DWS\0\1" "\0\0" "\0\2" TEXT_AT_V NUMBER_AT_W
#define BY_TARGET "DWC\0\1" "\10" "\0\0\0\2\0\0\0\3" "\1" "\6\2\5input\1n" "\2"

/* The input field v of the actions v and w: a text at the one, a number at the other. */
#define V_TEXT_AT_V "\6Action" "\1v" "\0" "\0" "\6\1\5input" "\6\1\1v\1"
#define V_NUMBER_AT_W "\6Action" "\1w" "\0" "\0" "\6\1\5input" "\6\1\1v\0"
#define V_BY_TARGET_SCHEMA "DWS\0\1" "\0\0" "\0\2" V_TEXT_AT_V V_NUMBER_AT_W

/* principal.name, and principal.none, of the target at position 0. */
#define PATH "DWP\0\1" "\0" "\1\4name" "\0"
#define MISSING_PATH "DWP\0\1" "\0" "\1\4none" "\0"
#define FAR_PATH "DWP\0\1" "\0" "\1\4name" "\1"

#define MESSAGE "comparison requires numeric operands on both sides, got `boolean` and `int`"
#define TAGS_MESSAGE "equality requires both sides to have the same type, got `U` and `G`"
#define V_MESSAGE "equality requires both sides to have the same type, got `int` and `string`"
#define V_INPUT_MESSAGE "equality requires both sides to have the same type, got `string` and `int`"
#define TIMES_MESSAGE "comparison requires numeric operands on both sides, got `datetime` and `duration`"
#define DATETIME_MESSAGE "equality requires both sides to have the same type, got `datetime` and `string`"
#define SUM_MESSAGE "cannot sum `v`: sum requires a `Long` summand, but `v` is `String`."

/* ─── The lent buffer ─── */

#define SPACE 4096
#define UNTOUCHED 0xA5

static uint8_t buffer[SPACE];

/* The whole buffer, with a byte in it that no test writes. */
static uint8_t *fresh(void) {
    memset(buffer, UNTOUCHED, SPACE);
    return buffer;
}

static int untouched_from(size_t at) {
    while (at < SPACE && buffer[at] == UNTOUCHED) {
        at++;
    }
    return at == SPACE;
}

static int answers(struct dogwood_answer answer, int number, int record, size_t count) {
    return answer.number == number && answer.record == record && answer.count == count;
}

/* The answer of a check without its visits. */
static struct dogwood_answer plainly(struct dogwood_check_answer answer) {
    struct dogwood_answer plain;
    plain.number = answer.number;
    plain.record = answer.record;
    plain.count = answer.count;
    return plain;
}

static int checks(struct dogwood_check_answer answer, int number, int record, size_t count, size_t visits) {
    return answers(plainly(answer), number, record, count) && answer.visits == visits;
}

/* A refusal leaves the buffer alone. */
static int refuses(struct dogwood_answer answer, int number, int record) {
    return answers(answer, number, record, 0) && untouched_from(0);
}

/* A check that a record stopped has begun no visit. */
static int refuses_check(struct dogwood_check_answer answer, int number, int record) {
    return refuses(plainly(answer), number, record) && answer.visits == 0;
}

static int reports(const struct dogwood_report *report, uint32_t start, uint32_t end, const char *message) {
    return report->start == start && report->end == end && report->length == strlen(message) &&
           memcmp(report->message, message, report->length) == 0;
}

/* ─── The four readers ─── */

static void test_readers(void) {
    static uint8_t large[DOGWOOD_MOST_BYTES + 1];

    TEST(dogwood_read_schema(BYTES(SCHEMA)) == DOGWOOD_ACCEPTED);
    TEST(dogwood_read_schema(BYTES(SCHEMA "\0")) == DOGWOOD_BYTES_AFTER);
    TEST(dogwood_read_schema(BYTES("DWS\0\1\0\2\1b\0\0\1a\0\0\0\0")) == DOGWOOD_NOT_ASCENDING);
    TEST(dogwood_read_schema(large, DOGWOOD_MOST_BYTES) == DOGWOOD_OTHER_MARK);
    TEST(dogwood_read_schema(large, DOGWOOD_MOST_BYTES + 1) == DOGWOOD_TOO_LONG);

    TEST(dogwood_read_condition(BYTES(CONDITION)) == DOGWOOD_ACCEPTED);
    TEST(dogwood_read_condition(BYTES("DWC\0\4")) == DOGWOOD_OTHER_VERSION);
    TEST(dogwood_read_condition(BYTES("DWC\0\1\16")) == DOGWOOD_UNDEFINED_CHOICE);
    TEST(dogwood_read_condition(BYTES("DWC\0\1\10" ZERO_SPAN "\4\12\1\13")) == DOGWOOD_AGGREGATE_BELOW_ARRAY);

    TEST(dogwood_read_targets(BYTES(TARGETS)) == DOGWOOD_ACCEPTED);
    TEST(dogwood_read_targets(BYTES("DWT\0\1\2\0")) == DOGWOOD_OUTSIDE_CLASS);

    TEST(dogwood_read_path(BYTES(PATH)) == DOGWOOD_ACCEPTED);
    TEST(dogwood_read_path(BYTES("DWP\0")) == DOGWOOD_CUT);
}

/* `!!..!true`: a condition at as many levels. */
static size_t nested(uint8_t *bytes, int levels) {
    uint8_t *at = bytes;
    memcpy(at, "DWC\0\1", 5);
    at += 5;
    for (; levels > 0; levels--) {
        *at++ = levels == 1 ? 11 : 3;
        memset(at, 0, 8);
        at += 8;
    }
    return (size_t)(at - bytes);
}

static void test_levels(void) {
    static uint8_t bytes[5 + 9 * (DOGWOOD_MOST_LEVELS + 1)];

    TEST(dogwood_read_condition(bytes, nested(bytes, DOGWOOD_MOST_LEVELS)) == DOGWOOD_ACCEPTED);
    TEST(dogwood_read_condition(bytes, nested(bytes, DOGWOOD_MOST_LEVELS + 1)) == DOGWOOD_TOO_DEEP);
}

/* Where the length is 0 the address may be NULL. */
static void test_nothing(void) {
    TEST(dogwood_read_schema(NULL, 0) == DOGWOOD_CUT);
    TEST(dogwood_read_condition(NULL, 0) == DOGWOOD_CUT);
    TEST(dogwood_read_targets(NULL, 0) == DOGWOOD_CUT);
    TEST(dogwood_read_path(NULL, 0) == DOGWOOD_CUT);
    TEST(checks(dogwood_check(NULL, 0, NULL, 0, NULL, 0, NULL, 0), DOGWOOD_CUT, DOGWOOD_SCHEMA, 0, 0));
    TEST(checks(dogwood_check(BYTES(SCHEMA), BYTES(CLEAN_CONDITION), BYTES(TARGETS), NULL, 0), 0, 0, 0, 1));
    TEST(checks(dogwood_check(BYTES(SCHEMA), BYTES(CONDITION), BYTES(TARGETS), NULL, 0), DOGWOOD_NO_SPACE, 0, 0, 1));
    TEST(answers(dogwood_sums(NULL, 0, NULL, 0), DOGWOOD_CUT, DOGWOOD_CONDITION, 0));
    TEST(answers(dogwood_sums(BYTES(WRONG_SUM), NULL, 0), DOGWOOD_NO_SPACE, 0, 0));
    TEST(answers(dogwood_lookup(NULL, 0, NULL, 0, NULL, 0, NULL, 0), DOGWOOD_CUT, DOGWOOD_SCHEMA, 0));
    TEST(answers(dogwood_lookup(BYTES(SCHEMA), BYTES(TARGETS), BYTES(PATH), NULL, 0), DOGWOOD_NO_SPACE, 0, 0));
}

/* ─── Check ─── */

static void test_check(void) {
    struct dogwood_check_answer answer = dogwood_check(BYTES(EMPTY_SCHEMA), BYTES(CONDITION), BYTES(TARGETS), fresh(), SPACE);
    struct dogwood_report report;
    const uint8_t *next = dogwood_next_report(buffer, &report);

    TEST(checks(answer, DOGWOOD_ACCEPTED, DOGWOOD_NO_RECORD, 1, 1));
    TEST(reports(&report, 0, 8, MESSAGE));
    TEST(next == buffer + DOGWOOD_REPORT_HEAD + strlen(MESSAGE));
    TEST(untouched_from((size_t)(next - buffer)));

    answer = dogwood_check(BYTES(SCHEMA), BYTES(CLEAN_CONDITION), BYTES(TARGETS), fresh(), SPACE);
    TEST(checks(answer, DOGWOOD_ACCEPTED, DOGWOOD_NO_RECORD, 0, 1) && untouched_from(0));

    answer = dogwood_check(BYTES("XXX"), BYTES(""), BYTES(""), fresh(), SPACE);
    TEST(refuses_check(answer, DOGWOOD_OTHER_MARK, DOGWOOD_SCHEMA));
    answer = dogwood_check(BYTES(SCHEMA), BYTES("DWC\0\1\16"), BYTES(""), fresh(), SPACE);
    TEST(refuses_check(answer, DOGWOOD_UNDEFINED_CHOICE, DOGWOOD_CONDITION));
    answer = dogwood_check(BYTES(SCHEMA), BYTES(CONDITION), BYTES("DWT\0\1\2\0"), fresh(), SPACE);
    TEST(refuses_check(answer, DOGWOOD_OUTSIDE_CLASS, DOGWOOD_TARGETS));
}

/* Number 11 keeps the whole reports that fit, and a buffer that is just full is large enough. */
static void test_check_space(void) {
    const size_t one = DOGWOOD_REPORT_HEAD + strlen(MESSAGE);
    struct dogwood_check_answer answer;
    struct dogwood_report report;

    answer = dogwood_check(BYTES(SCHEMA), BYTES(TWO_COMPARISONS), BYTES(TARGETS), fresh(), 2 * one);
    TEST(checks(answer, DOGWOOD_ACCEPTED, DOGWOOD_NO_RECORD, 2, 3));
    dogwood_next_report(dogwood_next_report(buffer, &report), &report);
    TEST(reports(&report, 9, 17, MESSAGE));
    TEST(untouched_from(2 * one));

    answer = dogwood_check(BYTES(SCHEMA), BYTES(TWO_COMPARISONS), BYTES(TARGETS), fresh(), 2 * one - 1);
    TEST(checks(answer, DOGWOOD_NO_SPACE, DOGWOOD_NO_RECORD, 1, 3));
    dogwood_next_report(buffer, &report);
    TEST(reports(&report, 0, 8, MESSAGE));
    TEST(untouched_from(one));

    answer = dogwood_check(BYTES(SCHEMA), BYTES(TWO_COMPARISONS), BYTES(TARGETS), fresh(), one - 1);
    TEST(checks(answer, DOGWOOD_NO_SPACE, DOGWOOD_NO_RECORD, 0, 2) && untouched_from(0));
}

/* ─── The stack of a check ─── */

/* 30 times arithmetic in arithmetic, `==`, and 30 arrays in one another: docs/BENCHMARKS.md has no deeper check. */
static uint8_t deepest[256];

static size_t make_deepest(void) {
    uint8_t *at = deepest;
    int level;
    memcpy(at, "DWC\0\1" "\10" ZERO_SPAN "\4", 15);
    at += 15;
    memset(at, 12, 30);
    at += 30;
    for (level = 0; level < 31; level++, at += 3) {
        memcpy(at, "\10\1v", 3);
    }
    for (level = 0; level < 30; level++, at += 2) {
        memcpy(at, "\12\1", 2);
    }
    *at++ = 2;
    return (size_t)(at - deepest);
}

/* The stack that the check is made on, and what is in it before the call. */
static uint8_t lent_stack[DOGWOOD_STACK];
#define PAINT 0xA5

static ucontext_t caller, on_lent_stack;

static struct dogwood_check_answer found_deep;

static void check_deepest(void) {
    found_deep = dogwood_check(BYTES(EMPTY_SCHEMA), deepest, make_deepest(), BYTES(TARGETS), buffer, SPACE);
}

/* How many bytes of the lent stack are no longer painted. */
static size_t stack_taken(void) {
    size_t left = 0;
    while (left < sizeof lent_stack && lent_stack[left] == PAINT) {
        left++;
    }
    return sizeof lent_stack - left;
}

/* The deepest check stays below 50,000 bytes of stack (D41 of docs/DECISIONS.md), its caller's frame among them. */
static void test_stack(void) {
    fresh();
    memset(lent_stack, PAINT, sizeof lent_stack);
    TEST(getcontext(&on_lent_stack) == 0);
    on_lent_stack.uc_stack.ss_sp = lent_stack;
    on_lent_stack.uc_stack.ss_size = sizeof lent_stack;
    on_lent_stack.uc_link = &caller;
    makecontext(&on_lent_stack, check_deepest, 0);
    TEST(swapcontext(&caller, &on_lent_stack) == 0);
    TEST(checks(found_deep, 0, 0, 1, 1));
    TEST(40000 < stack_taken());
    TEST(stack_taken() < 50000);
}

/* ─── Check with workspace ─── */

#define SLOTS DOGWOOD_WORKSPACE(SPACE)

static uint32_t workspace[SLOTS];

/* As many slots, each of which holds this. */
static uint32_t *filled(uint32_t slot) {
    size_t at;
    for (at = 0; at < SLOTS; at++) {
        workspace[at] = slot;
    }
    return workspace;
}

static int filled_with(uint32_t slot) {
    size_t at = 0;
    while (at < SLOTS && workspace[at] == slot) {
        at++;
    }
    return at == SLOTS;
}

/* Whether the check of these records gives with this workspace and these rules what dogwood_check gives, to the byte. */
static int as_without(const uint8_t *condition, size_t length, size_t space, uint8_t rules, uint32_t slot, size_t slots) {
    static uint8_t expected[SPACE];
    struct dogwood_check_answer plain, lent;

    plain = dogwood_check(BYTES(SCHEMA), condition, length, BYTES(TARGETS), fresh(), space);
    memcpy(expected, buffer, SPACE);
    lent = dogwood_check_with(rules, BYTES(SCHEMA), condition, length, BYTES(TARGETS), fresh(), space, filled(slot), slots);
    return checks(lent, plain.number, plain.record, plain.count, plain.visits) && memcmp(buffer, expected, SPACE) == 0;
}

/* No slot, one, some and enough; free ones, such as name a place in the buffer, and garbage; with space for all, for one. */
static void test_check_with(void) {
    static const size_t counts[] = {0, 1, 2, 3, SLOTS};
    static const uint32_t slots[] = {0, 1, 86, 0xA5A5A5A5, 0xFFFFFFFF};
    const size_t one = DOGWOOD_REPORT_HEAD + strlen(MESSAGE);
    size_t i, j;
    int rules;

    for (i = 0; i < sizeof counts / sizeof *counts; i++) {
        for (j = 0; j < sizeof slots / sizeof *slots; j++) {
            TEST(as_without(BYTES(TWO_COMPARISONS), SPACE, 0, slots[j], counts[i]));
            TEST(as_without(BYTES(TWO_COMPARISONS), 2 * one - 1, 0, slots[j], counts[i]));
            TEST(as_without(BYTES(TWICE), SPACE, 0, slots[j], counts[i]));
            TEST(as_without(BYTES(CLEAN_CONDITION), SPACE, 0, slots[j], counts[i]));
        }
    }
    for (rules = 0; rules < 256; rules++) {
        TEST(as_without(BYTES(TWO_COMPARISONS), SPACE, (uint8_t)rules, 0xA5A5A5A5, SLOTS));
        TEST(as_without(BYTES(V_INSIDE), SPACE, (uint8_t)rules, 0xA5A5A5A5, SLOTS));
        if ((rules & DOGWOOD_STRICT) == 0) {
            TEST(as_without(BYTES(OTHER_TAGS), SPACE, (uint8_t)rules, 0xA5A5A5A5, SLOTS));
        }
        if ((rules & DOGWOOD_OWN_BODIES) == 0) {
            TEST(as_without(BYTES(V_OUTSIDE), SPACE, (uint8_t)rules, 0xA5A5A5A5, SLOTS));
        }
    }
    TEST(checks(dogwood_check_with(0, BYTES(SCHEMA), BYTES(TWICE), BYTES(TARGETS), fresh(), SPACE, NULL, 0), 0, 0, 1, 3));
}

/* The strict check of a condition under the rules' other bits. */
static struct dogwood_check_answer strictly(const uint8_t *condition, size_t length, size_t space, uint8_t others) {
    uint8_t rules = (uint8_t)(others | DOGWOOD_STRICT);
    return dogwood_check_with(rules, BYTES(SCHEMA), condition, length, BYTES(TARGETS), fresh(), space, filled(0), SLOTS);
}

/* Known, different tags are reported by the strict check, whatever the other bits are, inside arrays too; like ones are not. */
static void test_strict(void) {
    const size_t one = DOGWOOD_REPORT_HEAD + strlen(TAGS_MESSAGE);
    struct dogwood_report report;
    struct dogwood_check_answer answer;
    int others;

    for (others = 0; others < 256; others++) {
        answer = strictly(BYTES(OTHER_TAGS), SPACE, (uint8_t)others);
        dogwood_next_report(buffer, &report);
        TEST(checks(answer, 0, 0, 1, 1) && reports(&report, 0, 0, TAGS_MESSAGE) && untouched_from(one));
    }
    TEST(checks(strictly(BYTES(OTHER_TAGS), one - 1, 0), DOGWOOD_NO_SPACE, 0, 0, 1) && untouched_from(0));
    TEST(checks(strictly(BYTES(OTHER_TAGS_IN_ARRAYS), SPACE, 0), 0, 0, 1, 1));
    TEST(checks(strictly(BYTES(SAME_TAG), SPACE, 0), 0, 0, 0, 1) && untouched_from(0));
}

/* The check with these rules of a condition under a schema, with space for all reports. */
static struct dogwood_check_answer ruled(int rules, const uint8_t *schema, size_t schema_length, const uint8_t *condition,
                                         size_t length) {
    return dogwood_check_with((uint8_t)rules, schema, schema_length, condition, length, BYTES(TARGETS), fresh(), SPACE,
                              filled(0), SLOTS);
}

/* A binder has its own body, whatever the other bits are; the last of one list counts; outside every body is the input. */
static void test_own_bodies(void) {
    const size_t one = DOGWOOD_REPORT_HEAD + strlen(V_MESSAGE);
    struct dogwood_report report;
    struct dogwood_check_answer answer;
    int rules;

    for (rules = 0; rules < 256; rules++) {
        size_t strict = (rules & DOGWOOD_STRICT) != 0;
        size_t flat = (rules & DOGWOOD_OWN_BODIES) == 0;

        answer = ruled(rules, BYTES(SCHEMA), BYTES(V_OUTSIDE));
        TEST(checks(answer, 0, 0, flat, 4) && untouched_from(flat * one));
        answer = ruled(rules, BYTES(SCHEMA), BYTES(V_INSIDE));
        dogwood_next_report(buffer, &report);
        TEST(checks(answer, 0, 0, 1, 2) && reports(&report, 0, 0, V_MESSAGE) && untouched_from(one));
        TEST(checks(ruled(rules, BYTES(SCHEMA), BYTES(TAGS_AND_V)), 0, 0, strict + flat, 6));
        TEST(checks(ruled(rules, BYTES(SCHEMA), BYTES(TP_OUTSIDE)), 0, 0, flat, 4));
        TEST(checks(ruled(rules, BYTES(SCHEMA), BYTES(TP_INSIDE)), 0, 0, 1, 2));
    }
    TEST(checks(ruled(DOGWOOD_OWN_BODIES, BYTES(SCHEMA), BYTES(V_TWICE)), 0, 0, 1, 2));
    TEST(checks(ruled(0, BYTES(V_INPUT_SCHEMA), BYTES(V_OUTSIDE)), 0, 0, 1, 4));
    answer = ruled(DOGWOOD_OWN_BODIES, BYTES(V_INPUT_SCHEMA), BYTES(V_OUTSIDE));
    TEST(checks(answer, 0, 0, 0, 4) && untouched_from(0));
    answer = ruled(DOGWOOD_OWN_BODIES, BYTES(V_INPUT_SCHEMA), BYTES(V_IS_NUMBER_OUTSIDE));
    dogwood_next_report(buffer, &report);
    TEST(checks(answer, 0, 0, 1, 4) && reports(&report, 0, 0, V_INPUT_MESSAGE));
}

/* A refused record leaves the buffer and the workspace as they were. */
static void test_check_with_refusals(void) {
    struct dogwood_check_answer answer;

    answer = dogwood_check_with(0, BYTES("XXX"), BYTES(""), BYTES(""), fresh(), SPACE, filled(7), SLOTS);
    TEST(refuses_check(answer, DOGWOOD_OTHER_MARK, DOGWOOD_SCHEMA) && filled_with(7));
    answer = dogwood_check_with(0, BYTES(SCHEMA), BYTES("DWC\0\1\16"), BYTES(""), fresh(), SPACE, filled(7), SLOTS);
    TEST(refuses_check(answer, DOGWOOD_UNDEFINED_CHOICE, DOGWOOD_CONDITION) && filled_with(7));
    answer = dogwood_check_with(0, BYTES(SCHEMA), BYTES(CONDITION), BYTES("DWT\0\1\2\0"), fresh(), SPACE, filled(7), SLOTS);
    TEST(refuses_check(answer, DOGWOOD_OUTSIDE_CLASS, DOGWOOD_TARGETS) && filled_with(7));
    answer = dogwood_check_with(255, NULL, 0, NULL, 0, NULL, 0, NULL, 0, NULL, 0);
    TEST(checks(answer, DOGWOOD_CUT, DOGWOOD_SCHEMA, 0, 0));
}

/* ─── Steps ─── */

#define ONE_REPORT (DOGWOOD_REPORT_HEAD + sizeof(MESSAGE) - 1)

/* A stepping check: its records, the list with room behind it, the state, and how much of the buffer is lent. */
static struct {
    const uint8_t *schema;
    size_t schema_length;
    const uint8_t *condition;
    size_t condition_length;
    uint8_t list[DOGWOOD_MOST_BYTES + 64];
    size_t length;
    struct dogwood_steps state;
    size_t space;
} stepping;

/* The list and what is behind it, as it is before the next call. */
static uint8_t list_before[sizeof stepping.list];

/* Another list, with nothing behind it. */
static void listed(const uint8_t *targets, size_t length) {
    memset(stepping.list, UNTOUCHED, sizeof stepping.list);
    memcpy(stepping.list, targets, length);
    stepping.length = length;
}

/* A start with these records and a fresh buffer. */
static struct dogwood_check_answer started(int rules, const uint8_t *schema, size_t schema_length, const uint8_t *condition,
                                           size_t condition_length, const uint8_t *targets, size_t length, size_t space) {
    struct dogwood_stepped given;

    fresh();
    listed(targets, length);
    stepping.schema = schema;
    stepping.schema_length = schema_length;
    stepping.condition = condition;
    stepping.condition_length = condition_length;
    stepping.space = space;
    given = dogwood_steps_start((uint8_t)rules, schema, schema_length, condition, condition_length, stepping.list, length);
    stepping.state = given.state;
    return given.answer;
}

/* A start with an empty schema and `true < 1`. */
static struct dogwood_check_answer begun(const uint8_t *targets, size_t length, size_t space) {
    return started(0, BYTES(EMPTY_SCHEMA), BYTES(CONDITION), targets, length, space);
}

static int same_state(struct dogwood_steps left, struct dogwood_steps right) {
    return left.rules == right.rules && left.stopped == right.stopped && left.used == right.used &&
           left.visits == right.visits && memcmp(left.marks, right.marks, sizeof left.marks) == 0;
}

static int same_stepped(struct dogwood_stepped left, struct dogwood_stepped right) {
    return checks(left.answer, right.answer.number, right.answer.record, right.answer.count, right.answer.visits) &&
           same_state(left.state, right.state);
}

/* A step with as many slots of workspace, each of which holds this. */
static struct dogwood_stepped with_slots(uint32_t slot, size_t slots) {
    return dogwood_steps_step_with(stepping.schema, stepping.schema_length, stepping.condition, stepping.condition_length,
                                   stepping.list, stepping.length, stepping.state, buffer, stepping.space, filled(slot), slots);
}

/* A step. Every workspace gives the same, to the byte, and writes nothing but reports behind the bytes that are used. */
static struct dogwood_check_answer stepped(void) {
    static const size_t counts[] = {0, 1, 3, SLOTS};
    static uint8_t before[SPACE], after[SPACE];
    struct dogwood_stepped given;
    size_t i, front;

    memcpy(before, buffer, SPACE);
    memcpy(list_before, stepping.list, sizeof list_before);
    given = dogwood_steps_step(stepping.schema, stepping.schema_length, stepping.condition, stepping.condition_length,
                               stepping.list, stepping.length, stepping.state, buffer, stepping.space);
    memcpy(after, buffer, SPACE);
    front = stepping.state.used < SPACE ? stepping.state.used : SPACE;
    TEST(memcmp(before, after, front) == 0);
    TEST(memcmp(before + stepping.space, after + stepping.space, SPACE - stepping.space) == 0);
    for (i = 0; i < sizeof counts / sizeof *counts; i++) {
        memcpy(buffer, before, SPACE);
        TEST(same_stepped(with_slots(0xA5A5A5A5, counts[i]), given) && memcmp(buffer, after, SPACE) == 0);
    }
    TEST(memcmp(list_before, stepping.list, sizeof list_before) == 0);
    stepping.state = given.state;
    return given.answer;
}

/* Whether a step answers this, a check of the records over these targets too, and both leave the same bytes. */
static int steps_as_check(int number, size_t count, size_t visits, const uint8_t *targets, size_t length) {
    static uint8_t after[SPACE];
    struct dogwood_check_answer answer = stepped();

    if (!checks(answer, number, 0, count, visits) || stepping.state.visits != visits) {
        return 0;
    }
    memcpy(after, buffer, SPACE);
    answer = dogwood_check_with(stepping.state.rules, stepping.schema, stepping.schema_length, stepping.condition,
                                stepping.condition_length, targets, length, fresh(), stepping.space, filled(0), SLOTS);
    return checks(answer, number, 0, count, visits) && memcmp(buffer, after, SPACE) == 0;
}

/* A step that changes nothing. */
static int rests(int number, int record, size_t count, size_t visits) {
    static uint8_t before[SPACE];
    struct dogwood_steps state = stepping.state;

    memcpy(before, buffer, SPACE);
    return checks(stepped(), number, record, count, visits) && same_state(stepping.state, state) &&
           memcmp(buffer, before, SPACE) == 0;
}

/* A target appended in a list of so much space. */
static struct dogwood_answer appended_in(size_t space, const uint8_t *target, size_t length) {
    struct dogwood_answer answer;

    memcpy(list_before, stepping.list, sizeof list_before);
    answer = dogwood_steps_append(stepping.list, space, stepping.length, target, length);
    if (answer.number == 0) {
        stepping.length = answer.count;
    }
    return answer;
}

static struct dogwood_answer appended(const uint8_t *target, size_t length) {
    return appended_in(DOGWOOD_MOST_BYTES, target, length);
}

/* Whether the list differs from what it was before the last call by a target at this place and a count that is one more. */
static int has_appended(size_t at, const uint8_t *target, size_t length, size_t count_at) {
    list_before[count_at]++;
    memcpy(list_before + at, target, length);
    return memcmp(list_before, stepping.list, sizeof list_before) == 0;
}

static int appends_nothing(struct dogwood_answer answer, int number, int record) {
    return answers(answer, number, record, 0) && memcmp(list_before, stepping.list, sizeof list_before) == 0;
}

static struct dogwood_check_answer withdrawn(int position) {
    struct dogwood_stepped given = dogwood_steps_withdraw(stepping.list, stepping.length, stepping.state, (uint8_t)position);

    stepping.state = given.state;
    return given.answer;
}

/* A withdrawal that is refused, and changes nothing. */
static int stays(int position, int number, int record) {
    struct dogwood_steps state = stepping.state;

    return checks(withdrawn(position), number, record, 0, 0) && same_state(stepping.state, state);
}

/* A withdrawal that changes the mark, and nothing else. */
static int withdraws(int position) {
    struct dogwood_steps state = stepping.state;

    state.marks[position] = DOGWOOD_WITHDRAWN;
    return checks(withdrawn(position), 0, 0, 0, 0) && same_state(stepping.state, state);
}

/* The start reads the records, keeps the rules, and has every position pending. */
static void test_start(void) {
    struct dogwood_steps state;
    int rules;

    memset(&state, 0, sizeof state);
    for (rules = 0; rules < 256; rules++) {
        state.rules = (uint8_t)rules;
        TEST(checks(started(rules, BYTES(SCHEMA), BYTES(CONDITION), BYTES(TARGETS), 0), 0, 0, 0, 0));
        TEST(same_state(stepping.state, state));
    }
    TEST(checks(started(1, BYTES("XXX"), BYTES(""), BYTES(""), 0), DOGWOOD_OTHER_MARK, DOGWOOD_SCHEMA, 0, 0));
    TEST(stepping.state.rules == 1 && stepping.state.marks[0] == DOGWOOD_PENDING);
    TEST(rests(DOGWOOD_OTHER_MARK, DOGWOOD_SCHEMA, 0, 0));
    TEST(checks(started(0, BYTES(SCHEMA), BYTES("XXX"), BYTES(TARGETS), 0), DOGWOOD_OTHER_MARK, DOGWOOD_CONDITION, 0, 0));
    TEST(rests(DOGWOOD_OTHER_MARK, DOGWOOD_CONDITION, 0, 0));
    TEST(checks(begun(BYTES("DWT\0\1\2\0"), 0), DOGWOOD_OUTSIDE_CLASS, DOGWOOD_TARGETS, 0, 0));
    TEST(rests(DOGWOOD_OUTSIDE_CLASS, DOGWOOD_TARGETS, 0, 0));
    TEST(checks(dogwood_steps_start(0, NULL, 0, NULL, 0, NULL, 0).answer, DOGWOOD_CUT, DOGWOOD_SCHEMA, 0, 0));

    /* a step that is handed another record answers its refusal, and leaves the workspace as it was too */
    TEST(checks(begun(BYTES(ONE_TARGET), SPACE), 0, 0, 0, 0));
    stepping.condition_length--;
    TEST(rests(DOGWOOD_CUT, DOGWOOD_CONDITION, 0, 0));
    TEST(checks(with_slots(7, SLOTS).answer, DOGWOOD_CUT, DOGWOOD_CONDITION, 0, 0) && filled_with(7));
    stepping.condition_length++;
    TEST(steps_as_check(0, 1, 1, BYTES(ONE_TARGET)));
}

/* Each step answers as one check over the targets that are done; a repeat is no report, and where none is pending it rests. */
static void test_steps(void) {
    TEST(checks(begun(BYTES(TWO_TARGETS), SPACE), 0, 0, 0, 0));
    TEST(steps_as_check(0, 1, 1, BYTES(ONE_TARGET)));
    TEST(stepping.state.marks[0] == DOGWOOD_DONE && stepping.state.marks[1] == DOGWOOD_PENDING);
    TEST(stepping.state.used == ONE_REPORT && stepping.state.stopped == 0);
    TEST(steps_as_check(0, 1, 2, BYTES(TWO_TARGETS)));
    TEST(rests(0, 0, 1, 2));

    begun(BYTES(NO_TARGET), SPACE);
    TEST(rests(0, 0, 0, 0) && untouched_from(0));
    TEST(answers(appended(BYTES(V)), 0, 0, sizeof NO_TARGET - 1 + 3));
    TEST(steps_as_check(0, 1, 1, BYTES(ONE_TARGET)));

    /* a skipped target takes a step too */
    started(0, BYTES(SKIPPING_SCHEMA), BYTES(CONDITION), BYTES(ANY_TWO_TARGETS), SPACE);
    TEST(checks(stepped(), 0, 0, 0, 0) && untouched_from(0) && stepping.state.marks[0] == DOGWOOD_DONE);
    TEST(stays(0, DOGWOOD_NOT_PENDING, DOGWOOD_NO_RECORD));
    TEST(steps_as_check(0, 1, 1, BYTES(ANY_TWO_TARGETS)));

    /* what is reported depends on the target: nothing under W, a report under V */
    started(0, BYTES(BY_TARGET_SCHEMA), BYTES(BY_TARGET), BYTES(TWO_TARGETS), SPACE);
    TEST(withdraws(0));
    TEST(steps_as_check(0, 0, 1, BYTES("DWT\0\1" "\0\0" "\1" W)));
    TEST(answers(appended(BYTES(V)), 0, 0, sizeof TWO_TARGETS - 1 + 3));
    TEST(steps_as_check(0, 1, 2, BYTES("DWT\0\1" "\0\0" "\2" W V)));
    TEST(checks(dogwood_steps_step(NULL, 0, NULL, 0, NULL, 0, stepping.state, NULL, 0).answer, DOGWOOD_CUT, DOGWOOD_SCHEMA, 0,
                0));
}

/* By each of the rules. */
static void test_steps_with_rules(void) {
    int rules;

    for (rules = 0; rules < 256; rules++) {
        size_t strict = (rules & DOGWOOD_STRICT) != 0;
        size_t flat = (rules & DOGWOOD_OWN_BODIES) == 0;

        started(rules, BYTES(SCHEMA), BYTES(TAGS_AND_V), BYTES(TWO_TARGETS), SPACE);
        TEST(steps_as_check(0, strict + flat, 6, BYTES(ONE_TARGET)));
        TEST(steps_as_check(0, strict + flat, 12, BYTES(TWO_TARGETS)));
    }
}

/* After 11 each step answers 11 and changes nothing; the target whose report did not fit is done. */
static void test_steps_space(void) {
    begun(BYTES(TWO_TARGETS), ONE_REPORT - 1);
    TEST(steps_as_check(DOGWOOD_NO_SPACE, 0, 1, BYTES(ONE_TARGET)) && untouched_from(0));
    TEST(stepping.state.stopped == 1 && stepping.state.used == 0 && stepping.state.marks[0] == DOGWOOD_DONE);
    TEST(rests(DOGWOOD_NO_SPACE, 0, 0, 1));
    TEST(withdraws(1) && stays(0, DOGWOOD_NOT_PENDING, DOGWOOD_NO_RECORD));
    TEST(answers(appended(BYTES(X)), 0, 0, sizeof TWO_TARGETS - 1 + 3));
    TEST(rests(DOGWOOD_NO_SPACE, 0, 0, 1));

    begun(BYTES(ONE_TARGET), ONE_REPORT);
    TEST(steps_as_check(0, 1, 1, BYTES(ONE_TARGET)) && rests(0, 0, 1, 1));

    started(0, BYTES(EMPTY_SCHEMA), BYTES(TWO_COMPARISONS), BYTES(TWO_TARGETS), 2 * ONE_REPORT - 1);
    TEST(steps_as_check(DOGWOOD_NO_SPACE, 1, 3, BYTES(ONE_TARGET)) && untouched_from(ONE_REPORT));
    TEST(stepping.state.used == ONE_REPORT && rests(DOGWOOD_NO_SPACE, 0, 1, 3));

    /* the second target's report is the first that does not fit */
    started(0, BYTES(BY_TARGET_SCHEMA), BYTES(BY_TARGET), BYTES("DWT\0\1" "\0\0" "\3" W V W), 40);
    TEST(steps_as_check(0, 0, 1, BYTES("DWT\0\1" "\0\0" "\1" W)));
    TEST(steps_as_check(DOGWOOD_NO_SPACE, 0, 2, BYTES("DWT\0\1" "\0\0" "\2" W V)));
    TEST(rests(DOGWOOD_NO_SPACE, 0, 0, 2) && stepping.state.marks[2] == DOGWOOD_PENDING);
}

/* A target is two strings and no byte more; it is read behind the list and before 18. */
static void test_append(void) {
    static uint8_t large[2 + 32767];
    const size_t one = sizeof ONE_TARGET - 1;

    begun(BYTES(ONE_TARGET), 0);
    TEST(appends_nothing(appended(BYTES("")), DOGWOOD_CUT, DOGWOOD_TARGETS));
    TEST(appends_nothing(appended(NULL, 0), DOGWOOD_CUT, DOGWOOD_TARGETS));
    TEST(appends_nothing(appended(BYTES("\0")), DOGWOOD_CUT, DOGWOOD_TARGETS));
    TEST(appends_nothing(appended(BYTES("\1 ")), DOGWOOD_OUTSIDE_CLASS, DOGWOOD_TARGETS));
    TEST(appends_nothing(appended(BYTES("\0\1\"")), DOGWOOD_OUTSIDE_CLASS, DOGWOOD_TARGETS));
    TEST(appends_nothing(appended(BYTES("\0\2\"")), DOGWOOD_CUT, DOGWOOD_TARGETS));
    TEST(appends_nothing(appended(BYTES("\0\0\0")), DOGWOOD_BYTES_AFTER, DOGWOOD_TARGETS));
    TEST(appends_nothing(appended(large, sizeof large), DOGWOOD_BYTES_AFTER, DOGWOOD_TARGETS));

    TEST(answers(appended(BYTES("\0\0")), 0, 0, one + 2) && has_appended(one, BYTES("\0\0"), 7));
    TEST(answers(appended(BYTES("\3App\4view")), 0, 0, one + 11) && has_appended(one + 2, BYTES("\3App\4view"), 7));
    TEST(dogwood_read_targets(stepping.list, stepping.length) == DOGWOOD_ACCEPTED && stepping.list[7] == 3);

    /* the count stands behind the narrowings, of which one may have a name */
    listed(BYTES("DWT\0\1" "\2\4User" "\1" "\0"));
    TEST(answers(appended(BYTES(V)), 0, 0, 16) && has_appended(13, BYTES(V), 12));

    /* a list that is refused, also for what the target is; a length beyond the buffer is all of it */
    listed(BYTES("DWT\0\1\2\0"));
    TEST(appends_nothing(appended(BYTES("")), DOGWOOD_OUTSIDE_CLASS, DOGWOOD_TARGETS));
    listed(BYTES(ONE_TARGET));
    stepping.length = one + 1;
    TEST(appends_nothing(appended(BYTES(V)), DOGWOOD_BYTES_AFTER, DOGWOOD_TARGETS));
    stepping.length = DOGWOOD_MOST_BYTES + 1;
    TEST(appends_nothing(appended_in(DOGWOOD_MOST_BYTES + 1, BYTES(V)), DOGWOOD_TOO_LONG, DOGWOOD_TARGETS));
    stepping.length = (size_t)-1;
    TEST(appends_nothing(appended_in(one, BYTES(V)), DOGWOOD_NO_SPACE, DOGWOOD_NO_RECORD));
    TEST(answers(dogwood_steps_append(NULL, 0, 0, NULL, 0), DOGWOOD_CUT, DOGWOOD_TARGETS, 0));

    /* no room: one byte more is enough */
    listed(BYTES(ONE_TARGET));
    TEST(appends_nothing(appended_in(one + 2, BYTES(V)), DOGWOOD_NO_SPACE, DOGWOOD_NO_RECORD));
    TEST(answers(appended_in(one + 3, BYTES(V)), 0, 0, one + 3) && has_appended(one, BYTES(V), 7));
}

/* As many targets of no name. */
static void listed_nameless(int count) {
    static const uint8_t heading[] = "DWT\0\1\0\0";

    memset(stepping.list, UNTOUCHED, sizeof stepping.list);
    memcpy(stepping.list, heading, 7);
    stepping.list[7] = (uint8_t)count;
    memset(stepping.list + 8, 0, 2 * (size_t)count);
    stepping.length = 8 + 2 * (size_t)count;
}

/* 64 targets whose list has so many bytes, above 32,704. */
static void listed_long(size_t bytes) {
    size_t at = 8, i;

    listed_nameless(64);
    for (i = 0; i < 64; i++) {
        size_t id = i < 63 ? 255 : bytes - at - 2 - 252;
        size_t name = i < 63 ? 255 : 252;

        stepping.list[at] = (uint8_t)name;
        memset(stepping.list + at + 1, 'A', name);
        stepping.list[at + 1 + name] = (uint8_t)id;
        memset(stepping.list + at + 2 + name, 'A', id);
        at += 2 + name + id;
    }
    stepping.length = at;
}

/* 18 counts every target that was ever appended, and every byte of the list. */
static void test_full_list(void) {
    begun(BYTES(NO_TARGET), SPACE);
    listed_nameless(255);
    TEST(appends_nothing(appended(BYTES("\1 \0")), DOGWOOD_OUTSIDE_CLASS, DOGWOOD_TARGETS));
    TEST(withdraws(254));
    TEST(appends_nothing(appended(BYTES("\0\0")), DOGWOOD_LIST_FULL, DOGWOOD_NO_RECORD));
    TEST(appends_nothing(appended_in(stepping.length, BYTES("\0\0")), DOGWOOD_LIST_FULL, DOGWOOD_NO_RECORD));
    listed_nameless(254);
    TEST(answers(appended(BYTES("\0\0")), 0, 0, 518) && stepping.list[7] == 255);
    TEST(appends_nothing(appended(BYTES("\0\0")), DOGWOOD_LIST_FULL, DOGWOOD_NO_RECORD));

    listed_long(DOGWOOD_MOST_BYTES - 2);
    TEST(stepping.length == DOGWOOD_MOST_BYTES - 2);
    TEST(answers(appended(BYTES("\0\0")), 0, 0, DOGWOOD_MOST_BYTES));
    TEST(appends_nothing(appended(BYTES("\0\0")), DOGWOOD_LIST_FULL, DOGWOOD_NO_RECORD));
    listed_long(DOGWOOD_MOST_BYTES - 1);
    TEST(appends_nothing(appended_in(DOGWOOD_MOST_BYTES + 64, BYTES("\0\0")), DOGWOOD_LIST_FULL, DOGWOOD_NO_RECORD));
}

/* 19 for what is done, withdrawn or absent; the list alone is read. */
static void test_withdraw(void) {
    int at;

    begun(BYTES(TWO_TARGETS), SPACE);
    TEST(withdraws(0) && stays(0, DOGWOOD_NOT_PENDING, DOGWOOD_NO_RECORD));
    TEST(stays(2, DOGWOOD_NOT_PENDING, DOGWOOD_NO_RECORD) && stays(255, DOGWOOD_NOT_PENDING, DOGWOOD_NO_RECORD));
    TEST(checks(stepped(), 0, 0, 1, 1) && stays(1, DOGWOOD_NOT_PENDING, DOGWOOD_NO_RECORD));

    /* the same action appended again is another position */
    begun(BYTES(ONE_TARGET), SPACE);
    TEST(withdraws(0) && rests(0, 0, 0, 0));
    TEST(answers(appended(BYTES(V)), 0, 0, sizeof ONE_TARGET - 1 + 3));
    TEST(stays(0, DOGWOOD_NOT_PENDING, DOGWOOD_NO_RECORD) && steps_as_check(0, 1, 1, BYTES(ONE_TARGET)));

    started(0, BYTES("XXX"), BYTES("XXX"), BYTES(ONE_TARGET), 0);
    TEST(withdraws(0));
    listed(BYTES("DWT"));
    TEST(stays(0, DOGWOOD_CUT, DOGWOOD_TARGETS));
    TEST(checks(dogwood_steps_withdraw(NULL, 0, stepping.state, 0).answer, DOGWOOD_CUT, DOGWOOD_TARGETS, 0, 0));

    begun(BYTES(NO_TARGET), 0);
    listed_nameless(255);
    for (at = 0; at < 255; at++) {
        TEST(withdraws(at));
    }
    TEST(stays(255, DOGWOOD_NOT_PENDING, DOGWOOD_NO_RECORD) && rests(0, 0, 0, 0));
}

/* Each value of each field of a state means something. */
static void test_other_states(void) {
    /* used beyond the buffer, among no reports, and in the middle of one: no new report fits, and those that stand count */
    begun(BYTES(TWO_TARGETS), SPACE);
    stepping.state.used = SPACE + 1;
    TEST(checks(stepped(), DOGWOOD_NO_SPACE, 0, 0, 1) && untouched_from(0));
    TEST(stepping.state.used == SPACE + 1 && stepping.state.stopped == 1 && stepping.state.marks[0] == DOGWOOD_DONE);
    begun(BYTES(TWO_TARGETS), SPACE);
    stepping.state.used = (size_t)-1;
    TEST(checks(stepped(), DOGWOOD_NO_SPACE, 0, 0, 1) && untouched_from(0) && stepping.state.used == (size_t)-1);
    begun(BYTES(TWO_TARGETS), SPACE);
    stepping.state.used = 1;
    TEST(checks(stepped(), DOGWOOD_NO_SPACE, 0, 0, 1) && untouched_from(0));
    started(0, BYTES(EMPTY_SCHEMA), BYTES(TWO_COMPARISONS), BYTES(TWO_TARGETS), SPACE);
    stepped();
    stepping.state.used = 2 * ONE_REPORT - 1;
    TEST(checks(stepped(), DOGWOOD_NO_SPACE, 0, 1, 6) && untouched_from(2 * ONE_REPORT));
    TEST(rests(DOGWOOD_NO_SPACE, 0, 1, 6));

    /* a step that has nothing to report has a number of its own */
    started(0, BYTES(EMPTY_SCHEMA), BYTES(CLEAN_CONDITION), BYTES(TWO_TARGETS), SPACE);
    stepping.state.used = (size_t)-1;
    TEST(checks(stepped(), 0, 0, 0, 1) && untouched_from(0) && stepping.state.used == (size_t)-1);

    /* fewer bytes used than were: the report is found anew, in its place */
    begun(BYTES(TWO_TARGETS), SPACE);
    stepped();
    stepping.state.used = 0;
    TEST(checks(stepped(), 0, 0, 1, 2) && untouched_from(ONE_REPORT) && stepping.state.used == ONE_REPORT);

    /* marks of other values are of positions that are not pending; those behind the list matter once it is longer */
    begun(BYTES(TWO_TARGETS), SPACE);
    stepping.state.marks[0] = 7;
    stepping.state.marks[2] = 255;
    TEST(stays(0, DOGWOOD_NOT_PENDING, DOGWOOD_NO_RECORD) && steps_as_check(0, 1, 1, BYTES("DWT\0\1" "\0\0" "\1" W)));
    TEST(answers(appended(BYTES(X)), 0, 0, sizeof TWO_TARGETS - 1 + 3) && rests(0, 0, 1, 1));
    TEST(stays(2, DOGWOOD_NOT_PENDING, DOGWOOD_NO_RECORD) && stepping.state.marks[0] == 7);

    /* stopped is 0 or not; the count is of the reports that stand there */
    begun(BYTES(TWO_TARGETS), SPACE);
    stepped();
    stepping.state.stopped = 200;
    TEST(rests(DOGWOOD_NO_SPACE, 0, 1, 1));
    stepping.state.stopped = 0;
    TEST(checks(stepped(), 0, 0, 1, 2));

    /* visits go no further than 32 bits, and the rules have two bits */
    begun(BYTES(TWO_TARGETS), SPACE);
    stepping.state.visits = 0xFFFFFFFF;
    stepping.state.rules = 0xFC;
    TEST(checks(stepped(), 0, 0, 1, 0xFFFFFFFF) && stepping.state.visits == 0xFFFFFFFF && stepping.state.rules == 0xFC);
}

/* A number that looks random, the same in every run. */
static uint32_t drawn(void) {
    static uint32_t last = 108;

    last = last * 1664525u + 1013904223u;
    return last >> 8;
}

static void draw(uint8_t *bytes, size_t length) {
    size_t at;

    for (at = 0; at < length; at++) {
        bytes[at] = (uint8_t)drawn();
    }
}

/* States and buffers of random bytes: `stepped` looks that no byte is written where none may be. */
static void test_random_states(void) {
    int turn;

    for (turn = 0; turn < 2000; turn++) {
        struct dogwood_steps state;
        struct dogwood_check_answer answer;

        started(0, BYTES(EMPTY_SCHEMA), BYTES(TWO_COMPARISONS), BYTES(TWO_TARGETS), drawn() % (SPACE + 1));
        if (turn % 2 == 0) {
            draw(buffer, SPACE);
            buffer[8] = 0;
        }
        draw(&stepping.state.rules, 1);
        stepping.state.stopped = (uint8_t)(turn % 3 == 0 ? drawn() : 0);
        draw(stepping.state.marks, 256);
        stepping.state.marks[drawn() % 2] = DOGWOOD_PENDING;
        stepping.state.used = turn % 5 == 0 ? drawn() : drawn() % 300;
        stepping.state.visits = drawn() << 8 | 0xFE;
        state = stepping.state;
        answer = stepped();
        TEST((answer.number == 0 || answer.number == DOGWOOD_NO_SPACE) && answer.record == 0);
        TEST(answer.visits == stepping.state.visits && stepping.state.rules == state.rules);
        if (state.stopped != 0) {
            TEST(answer.number == DOGWOOD_NO_SPACE && same_state(stepping.state, state));
            continue;
        }
        state.marks[state.marks[0] == DOGWOOD_PENDING ? 0 : 1] = DOGWOOD_DONE;
        TEST(memcmp(stepping.state.marks, state.marks, sizeof state.marks) == 0);
        TEST(stepping.state.used >= state.used && (stepping.state.stopped != 0) == (answer.number == DOGWOOD_NO_SPACE));
        TEST(stepping.state.used <= stepping.space || stepping.state.used == state.used);
    }
}

/* ─── Changing the rule ─── */

/* A move that sets the bit of own bodies, and changes nothing else. */
static int moves(void) {
    struct dogwood_steps state = stepping.state;

    state.rules = (uint8_t)(state.rules | DOGWOOD_OWN_BODIES);
    stepping.state = dogwood_steps_move(stepping.state);
    return same_state(stepping.state, state);
}

/* A move that changes nothing at all. */
static int stays_moved(void) {
    struct dogwood_steps state = stepping.state;

    stepping.state = dogwood_steps_move(stepping.state);
    return same_state(stepping.state, state);
}

/* A move by each of the rules, of states of random bytes, and a second one. */
static void test_move(void) {
    int rules, turn;

    for (rules = 0; rules < 256; rules++) {
        size_t strict = (rules & DOGWOOD_STRICT) != 0;
        size_t flat = (rules & DOGWOOD_OWN_BODIES) == 0;

        /* before the first step it is the check with own bodies */
        started(rules, BYTES(SCHEMA), BYTES(TAGS_AND_V), BYTES(TWO_TARGETS), SPACE);
        TEST(moves() && stepping.state.rules == (rules | DOGWOOD_OWN_BODIES) && stays_moved());
        TEST(steps_as_check(0, strict, 6, BYTES(ONE_TARGET)) && stays_moved());
        TEST(steps_as_check(0, strict, 12, BYTES(TWO_TARGETS)) && stays_moved());

        /* between two steps; the reports of the first stay */
        started(rules, BYTES(SCHEMA), BYTES(TAGS_AND_V), BYTES(TWO_TARGETS), SPACE);
        TEST(steps_as_check(0, strict + flat, 6, BYTES(ONE_TARGET)) && moves());
        TEST(checks(stepped(), 0, 0, strict + flat, 12) && stays_moved() && rests(0, 0, strict + flat, 12));
    }
    for (turn = 0; turn < 1000; turn++) {
        draw(&stepping.state.rules, 1);
        draw(&stepping.state.stopped, 1);
        draw(stepping.state.marks, sizeof stepping.state.marks);
        stepping.state.used = (size_t)drawn() << 8 | drawn();
        stepping.state.visits = drawn() << 8 | drawn();
        TEST(moves() && stays_moved());
    }
}

/* What a move does to the steps behind it: before the first step, behind the last, twice, and after 11. */
static void test_steps_moved(void) {
    started(0, BYTES(EMPTY_SCHEMA), BYTES(V_OUTSIDE), BYTES(ONE_TARGET), SPACE);
    TEST(moves() && steps_as_check(0, 0, 4, BYTES(ONE_TARGET)) && untouched_from(0));

    started(0, BYTES(EMPTY_SCHEMA), BYTES(V_OUTSIDE), BYTES(ONE_TARGET), SPACE);
    TEST(steps_as_check(0, 1, 4, BYTES(ONE_TARGET)) && moves() && rests(0, 0, 1, 4));

    started(0, BYTES(EMPTY_SCHEMA), BYTES(V_OUTSIDE), BYTES(TWO_TARGETS), SPACE);
    TEST(moves() && checks(stepped(), 0, 0, 0, 4) && moves() && checks(stepped(), 0, 0, 0, 8) && untouched_from(0));

    started(DOGWOOD_OWN_BODIES, BYTES(EMPTY_SCHEMA), BYTES(V_OUTSIDE), BYTES(ONE_TARGET), SPACE);
    TEST(stays_moved() && steps_as_check(0, 0, 4, BYTES(ONE_TARGET)));

    /* the second target has the report of the first, which was found by the other rule */
    begun(BYTES(TWO_TARGETS), SPACE);
    TEST(checks(stepped(), 0, 0, 1, 1) && moves());
    TEST(checks(stepped(), 0, 0, 1, 2) && stepping.state.used == ONE_REPORT && untouched_from(ONE_REPORT));

    /* after 11 nothing comes of it, and appending and withdrawing go on */
    begun(BYTES(TWO_TARGETS), ONE_REPORT - 1);
    TEST(checks(stepped(), DOGWOOD_NO_SPACE, 0, 0, 1) && moves() && stays_moved());
    TEST(rests(DOGWOOD_NO_SPACE, 0, 0, 1) && stepping.state.marks[1] == DOGWOOD_PENDING);
    TEST(answers(appended(BYTES(X)), 0, 0, sizeof TWO_TARGETS - 1 + 3) && withdraws(1));
    TEST(moves() && rests(DOGWOOD_NO_SPACE, 0, 0, 1));

    /* a report that does not fit after a move stops the check too */
    started(0, BYTES(V_BY_TARGET_SCHEMA), BYTES(V_IS_BOTH), BYTES("DWT\0\1" "\0\0" "\3" W V W), ONE_REPORT + 10);
    TEST(checks(stepped(), 0, 0, 1, 6) && moves() && checks(stepped(), DOGWOOD_NO_SPACE, 0, 1, 12));
    TEST(rests(DOGWOOD_NO_SPACE, 0, 1, 12) && stepping.state.marks[2] == DOGWOOD_PENDING);
}

/* The list of as many of these targets, of three bytes each, from one of them on. */
static size_t part_of(const uint8_t *targets, size_t first, size_t count, uint8_t *list) {
    static const uint8_t heading[] = "DWT\0\1\0\0";

    memcpy(list, heading, 7);
    list[7] = (uint8_t)count;
    memcpy(list + 8, targets + 3 * first, 3 * count);
    return 8 + 3 * count;
}

/* How many of some reports are of this message and start. */
static int pairs_of(const uint8_t *found, size_t count, const struct dogwood_report *wanted) {
    struct dogwood_report report;
    int of = 0;

    for (; count > 0; count--) {
        found = dogwood_next_report(found, &report);
        of += report.start == wanted->start && report.length == wanted->length &&
              memcmp(report.message, wanted->message, report.length) == 0;
    }
    return of;
}

/* Whether each of some reports is once among others. */
static int each_once_in(const uint8_t *some, size_t count, const uint8_t *others, size_t among) {
    struct dogwood_report report;

    for (; count > 0; count--) {
        some = dogwood_next_report(some, &report);
        if (pairs_of(others, among, &report) != 1) {
            return 0;
        }
    }
    return 1;
}

/* A check by rules of a part of these targets. */
static struct dogwood_check_answer part_checked(int rules, const uint8_t *targets, size_t first, size_t count, uint8_t *found) {
    uint8_t list[64];
    size_t length = part_of(targets, first, count, list);

    return dogwood_check_with((uint8_t)rules, BYTES(V_BY_TARGET_SCHEMA), BYTES(V_IS_BOTH), list, length, found, SPACE,
                              filled(0), SLOTS);
}

/*
 * At a split the different pairs are those of the first part by the rules of the start and those of the second with own
 * bodies, each once; the visits are those of one check.
 */
static void test_split(int rules, const uint8_t *targets, size_t count, size_t at) {
    static uint8_t first[SPACE], second[SPACE];
    struct dogwood_check_answer answer, front, behind;
    struct dogwood_report report;
    const uint8_t *next = buffer;
    uint8_t list[64];
    size_t step, length = part_of(targets, 0, count, list);

    started(rules, BYTES(V_BY_TARGET_SCHEMA), BYTES(V_IS_BOTH), list, length, SPACE);
    for (step = 0; step < at; step++) {
        stepped();
    }
    TEST(moves());
    for (; step < count; step++) {
        stepped();
    }
    answer = stepped();
    front = part_checked(rules, targets, 0, at, first);
    behind = part_checked(rules | DOGWOOD_OWN_BODIES, targets, at, count - at, second);
    TEST(checks(answer, 0, 0, answer.count, front.visits + behind.visits));
    TEST(each_once_in(buffer, answer.count, buffer, answer.count));
    TEST(each_once_in(first, front.count, buffer, answer.count) && each_once_in(second, behind.count, buffer, answer.count));
    for (step = 0; step < answer.count; step++) {
        next = dogwood_next_report(next, &report);
        TEST(pairs_of(first, front.count, &report) + pairs_of(second, behind.count, &report) > 0);
    }
    TEST(answer.visits == part_checked(rules, targets, 0, count, first).visits);
}

/* Each split of each list of up to four targets, which differ in what is reported with own bodies. */
static void test_splits(void) {
    static const char of_each[3][4] = {V, W, X};
    int count, number, numbers, at, place, rest;

    for (count = 0, numbers = 1; count <= 4; count++, numbers *= 3) {
        for (number = 0; number < numbers; number++) {
            uint8_t targets[12];

            for (place = 0, rest = number; place < count; place++, rest /= 3) {
                memcpy(targets + 3 * place, of_each[rest % 3], 3);
            }
            for (at = 0; at <= count; at++) {
                test_split(number % 4, targets, (size_t)count, (size_t)at);
            }
        }
    }
}

/* ─── Sums ─── */

static void test_sums(void) {
    const size_t one = DOGWOOD_REPORT_HEAD + strlen(SUM_MESSAGE);
    struct dogwood_answer answer = dogwood_sums(BYTES(WRONG_SUM), fresh(), SPACE);
    struct dogwood_report report;

    dogwood_next_report(buffer, &report);
    TEST(answers(answer, DOGWOOD_ACCEPTED, DOGWOOD_NO_RECORD, 1));
    TEST(reports(&report, 3, 258, SUM_MESSAGE));
    TEST(untouched_from(one));

    answer = dogwood_sums(BYTES(CONDITION), fresh(), SPACE);
    TEST(answers(answer, DOGWOOD_ACCEPTED, DOGWOOD_NO_RECORD, 0) && untouched_from(0));
    answer = dogwood_sums(BYTES(SCHEMA), fresh(), SPACE);
    TEST(refuses(answer, DOGWOOD_OTHER_MARK, DOGWOOD_CONDITION));
    answer = dogwood_sums(BYTES(WRONG_SUM), fresh(), one - 1);
    TEST(refuses(answer, DOGWOOD_NO_SPACE, DOGWOOD_NO_RECORD));
}

/* The sums with these rules, in all of the space. */
static struct dogwood_answer summed(int rules, const uint8_t *condition, size_t length) {
    return dogwood_sums_with((uint8_t)rules, condition, length, fresh(), SPACE);
}

/* Of the rules only own bodies count: a sum's list before what is around it, and neither a later binder nor one in the body. */
static void test_sums_with(void) {
    const size_t one = DOGWOOD_REPORT_HEAD + strlen(SUM_MESSAGE);
    struct dogwood_report report;
    struct dogwood_answer answer;
    int rules;

    for (rules = 0; rules < 256; rules++) {
        size_t flat = (rules & DOGWOOD_OWN_BODIES) == 0;

        answer = summed(rules, BYTES(WRONG_SUM));
        dogwood_next_report(buffer, &report);
        TEST(answers(answer, 0, 0, 1) && reports(&report, 3, 258, SUM_MESSAGE) && untouched_from(one));
        TEST(answers(summed(rules, BYTES(SUM_BESIDE_V)), 0, 0, flat) && untouched_from(flat * one));
        TEST(answers(summed(rules, BYTES(SUM_OVER_V)), 0, 0, flat) && untouched_from(flat * one));
        TEST(answers(summed(rules, BYTES(SUM_IN_ARGUMENT)), 0, 0, 1 - flat) && untouched_from((1 - flat) * one));
        TEST(refuses(summed(rules, BYTES(SCHEMA)), DOGWOOD_OTHER_MARK, DOGWOOD_CONDITION));
        answer = dogwood_sums_with((uint8_t)rules, BYTES(WRONG_SUM), fresh(), one - 1);
        TEST(refuses(answer, DOGWOOD_NO_SPACE, DOGWOOD_NO_RECORD));
    }
    TEST(answers(dogwood_sums_with(DOGWOOD_OWN_BODIES, NULL, 0, NULL, 0), DOGWOOD_CUT, DOGWOOD_CONDITION, 0));
}

/* ─── Windows ─── */

static int has_window(const struct dogwood_window *window, uint32_t start, uint64_t sweeps, uint64_t rest) {
    return window->start == start && window->sweeps == sweeps && window->rest == rest;
}

static void test_windows(void) {
    struct dogwood_answer answer = dogwood_windows(BYTES(TWO_WINDOWS), 3600, fresh(), SPACE);
    struct dogwood_window first, second;

    TEST(dogwood_next_window(dogwood_next_window(buffer, &first), &second) == buffer + 2 * DOGWOOD_WINDOW_BYTES);
    TEST(answers(answer, DOGWOOD_ACCEPTED, DOGWOOD_NO_RECORD, 2) && untouched_from(2 * DOGWOOD_WINDOW_BYTES));
    TEST(has_window(&first, 5, 1, 1800) && has_window(&second, 7, 48, 0));
    answer = dogwood_windows(BYTES(LONGEST_WINDOW), UINT64_MAX, fresh(), SPACE);
    dogwood_next_window(buffer, &first);
    TEST(answers(answer, 0, 0, 1) && has_window(&first, 5, 0, INT64_MAX));

    answer = dogwood_windows(BYTES(TWO_WINDOWS), 1, fresh(), 2 * DOGWOOD_WINDOW_BYTES - 1);
    dogwood_next_window(buffer, &first);
    TEST(answers(answer, DOGWOOD_NO_SPACE, DOGWOOD_NO_RECORD, 1) && has_window(&first, 5, 5400, 0));
    TEST(untouched_from(DOGWOOD_WINDOW_BYTES));
    TEST(answers(dogwood_windows(BYTES(TWO_WINDOWS), 1, fresh(), 2 * DOGWOOD_WINDOW_BYTES), 0, 0, 2));

    TEST(answers(dogwood_windows(BYTES(PARAMETER_WINDOW), 1, fresh(), SPACE), 0, 0, 0) && untouched_from(0));
    TEST(answers(dogwood_windows(BYTES(NO_WINDOW), 1, fresh(), SPACE), 0, 0, 0) && untouched_from(0));
    answer = dogwood_windows(BYTES(TWO_WINDOWS), 0, fresh(), 0);
    TEST(refuses(answer, DOGWOOD_NO_PERIOD, DOGWOOD_NO_RECORD));
    TEST(refuses(dogwood_windows(BYTES(NO_WINDOW), 0, fresh(), SPACE), DOGWOOD_NO_PERIOD, DOGWOOD_NO_RECORD));
    answer = dogwood_windows(BYTES(NEGATIVE_WINDOW), 0, fresh(), SPACE);
    TEST(refuses(answer, DOGWOOD_WINDOW_OUT_OF_RANGE, DOGWOOD_CONDITION));
    TEST(dogwood_read_condition(BYTES(LONG_WINDOW)) == DOGWOOD_WINDOW_OUT_OF_RANGE);
    TEST(refuses(dogwood_sums(BYTES(LONG_WINDOW), fresh(), SPACE), DOGWOOD_WINDOW_OUT_OF_RANGE, DOGWOOD_CONDITION));
    TEST(dogwood_read_condition(BYTES(PARAMETER_WINDOW)) == DOGWOOD_ACCEPTED);
    TEST(dogwood_read_condition(BYTES("DWC\0\4" "\13" ZERO_SPAN)) == DOGWOOD_OTHER_VERSION);
}

/* ─── Values ─── */

/* What an equality of version 3 with these operands is refused by. */
#define REFUSAL(operands) dogwood_read_condition(BYTES(VALUED operands))

/* Where each value stands, and what is wrong with one that is cut, undefined or outside its class. */
static void test_values(void) {
    TEST(REFUSAL("\1\1U\1x" "\1\1U\0") == DOGWOOD_ACCEPTED);
    TEST(REFUSAL("\2\200\0\0\0\0\0\0\0" "\2\177\377\377\377\377\377\377\377") == DOGWOOD_ACCEPTED);
    TEST(REFUSAL("\5\0" "\5\1") == DOGWOOD_ACCEPTED);
    TEST(REFUSAL("\4\1" "a" "\3\3" "1.5") == DOGWOOD_ACCEPTED);
    TEST(REFUSAL("\14\2\11\11" "\12\1\14\0\11\11") == DOGWOOD_ACCEPTED);
    TEST(REFUSAL("\1\1U") == DOGWOOD_CUT);
    TEST(REFUSAL("\1\1U\1\"") == DOGWOOD_OUTSIDE_CLASS);
    TEST(REFUSAL("\2\0\0\0\0\0\0\0") == DOGWOOD_CUT);
    TEST(REFUSAL("\5\2") == DOGWOOD_UNDEFINED_CHOICE);
    TEST(REFUSAL("\14\3") == DOGWOOD_UNDEFINED_CHOICE);
    TEST(REFUSAL("\14\2\17") == DOGWOOD_UNDEFINED_CHOICE);
    TEST(REFUSAL("\12\1\14\0\13") == DOGWOOD_AGGREGATE_BELOW_ARRAY);
    TEST(dogwood_read_condition(BYTES("DWC\0\3" "\4" AT_FIVE CALL)) == DOGWOOD_UNDEFINED_CHOICE);
    TEST(dogwood_read_condition(BYTES("DWC\0\2" "\10" ZERO_SPAN "\4\2\2")) == DOGWOOD_ACCEPTED);
}

/* At the text of a decimal 2, 6, 15 and 16 are met in this order. */
static void test_decimals(void) {
    TEST(REFUSAL(HIGHEST LOWEST) == DOGWOOD_ACCEPTED);
    TEST(REFUSAL("\3\4" "-0.0" "\3\4" "00.5") == DOGWOOD_ACCEPTED);
    TEST(REFUSAL("\3\4" "1.") == DOGWOOD_CUT);
    TEST(REFUSAL("\3\2" "1\"") == DOGWOOD_OUTSIDE_CLASS);
    TEST(REFUSAL(FIVE_DIGITS) == DOGWOOD_MALFORMED_DECIMAL);
    TEST(REFUSAL("\3\0") == DOGWOOD_MALFORMED_DECIMAL);
    TEST(REFUSAL("\3\2" ".5") == DOGWOOD_MALFORMED_DECIMAL);
    TEST(REFUSAL("\3\2" "5.") == DOGWOOD_MALFORMED_DECIMAL);
    TEST(REFUSAL("\3\4" "+1.0") == DOGWOOD_MALFORMED_DECIMAL);
    TEST(REFUSAL("\3\32" "99999999999999999999.00000") == DOGWOOD_MALFORMED_DECIMAL);
    TEST(REFUSAL("\3\26" "99999999999999999999.0") == DOGWOOD_DECIMAL_OUT_OF_RANGE);
    TEST(REFUSAL(ABOVE) == DOGWOOD_DECIMAL_OUT_OF_RANGE);
    TEST(REFUSAL(BELOW) == DOGWOOD_DECIMAL_OUT_OF_RANGE);
}

/* Every operation that reads a condition reads version 3, and meets 15 and 16. */
static void test_valued_operations(void) {
    struct dogwood_check_answer checked =
        dogwood_check(BYTES(EMPTY_SCHEMA), BYTES(VALUED_COMPARISON), BYTES(TARGETS), fresh(), SPACE);
    struct dogwood_answer answer;
    struct dogwood_report report;
    struct dogwood_window window;

    dogwood_next_report(buffer, &report);
    TEST(checks(checked, DOGWOOD_ACCEPTED, DOGWOOD_NO_RECORD, 1, 1) && reports(&report, 0, 8, MESSAGE));
    TEST(answers(dogwood_sums(BYTES(VALUED_WINDOW), fresh(), SPACE), 0, 0, 0) && untouched_from(0));
    answer = dogwood_windows(BYTES(VALUED_WINDOW), 3600, fresh(), SPACE);
    dogwood_next_window(buffer, &window);
    TEST(answers(answer, 0, 0, 1) && has_window(&window, 5, 1, 1800));

    checked = dogwood_check(BYTES(EMPTY_SCHEMA), BYTES(VALUED FIVE_DIGITS), BYTES(TARGETS), fresh(), SPACE);
    TEST(refuses_check(checked, DOGWOOD_MALFORMED_DECIMAL, DOGWOOD_CONDITION));
    checked = dogwood_check(BYTES(EMPTY_SCHEMA), BYTES(VALUED ABOVE), BYTES(TARGETS), fresh(), SPACE);
    TEST(refuses_check(checked, DOGWOOD_DECIMAL_OUT_OF_RANGE, DOGWOOD_CONDITION));
    TEST(refuses(dogwood_sums(BYTES(VALUED ABOVE), fresh(), SPACE), DOGWOOD_DECIMAL_OUT_OF_RANGE, DOGWOOD_CONDITION));
    answer = dogwood_windows(BYTES(VALUED FIVE_DIGITS), 0, fresh(), SPACE);
    TEST(refuses(answer, DOGWOOD_MALFORMED_DECIMAL, DOGWOOD_CONDITION));
}

/* ─── Lookup ─── */

/* Whether the output is these bytes, and what is behind them as it was. */
static int writes(struct dogwood_answer answer, const uint8_t *bytes, size_t length) {
    return answers(answer, DOGWOOD_ACCEPTED, DOGWOOD_NO_RECORD, length) && memcmp(buffer, bytes, length) == 0 &&
           untouched_from(length);
}

static void test_lookup(void) {
    struct dogwood_answer answer = dogwood_lookup(BYTES(SCHEMA), BYTES(TARGETS), BYTES(PATH), fresh(), SPACE);

    TEST(buffer[0] == DOGWOOD_RESOLVED && writes(answer, BYTES("\0" "\0\1" "\0\6string")));
    answer = dogwood_lookup(BYTES(SCHEMA), BYTES(TARGETS), BYTES(MISSING_PATH), fresh(), SPACE);
    TEST(buffer[0] == DOGWOOD_MISSING && writes(answer, BYTES("\1" "\0\2" "\0\4none" "\0\4User")));
    answer = dogwood_lookup(BYTES(EMPTY_SCHEMA), BYTES(TARGETS), BYTES(PATH), fresh(), SPACE);
    TEST(buffer[0] == DOGWOOD_UNKNOWN && writes(answer, BYTES("\4" "\0\0")));

    answer = dogwood_lookup(BYTES("DWS\0\2"), BYTES(TARGETS), BYTES(PATH), fresh(), SPACE);
    TEST(refuses(answer, DOGWOOD_OTHER_VERSION, DOGWOOD_SCHEMA));
    answer = dogwood_lookup(BYTES(SCHEMA), BYTES(""), BYTES(PATH), fresh(), SPACE);
    TEST(refuses(answer, DOGWOOD_CUT, DOGWOOD_TARGETS));
    answer = dogwood_lookup(BYTES(SCHEMA), BYTES(TARGETS), BYTES(PATH "\0"), fresh(), SPACE);
    TEST(refuses(answer, DOGWOOD_BYTES_AFTER, DOGWOOD_PATH));
    answer = dogwood_lookup(BYTES(SCHEMA), BYTES(TARGETS), BYTES(FAR_PATH), fresh(), 0);
    TEST(refuses(answer, DOGWOOD_NO_SUCH_TARGET, DOGWOOD_TARGETS));
    answer = dogwood_lookup(BYTES(SCHEMA), BYTES(TARGETS), BYTES(PATH), fresh(), 10);
    TEST(refuses(answer, DOGWOOD_NO_SPACE, DOGWOOD_NO_RECORD));
}

/* ─── Datetime and duration ─── */

/* Two datetimes are ordered, a datetime and a duration are not, and neither is a text; a lookup shows the word. */
static void test_times(void) {
    struct dogwood_check_answer answer =
        dogwood_check(BYTES(TIMES_SCHEMA), BYTES(ORDER FIELD_D FIELD_D), BYTES(TARGETS), fresh(), SPACE);
    struct dogwood_report report;

    TEST(checks(answer, DOGWOOD_ACCEPTED, DOGWOOD_NO_RECORD, 0, 1) && untouched_from(0));
    answer = dogwood_check(BYTES(TIMES_SCHEMA), BYTES(ORDER FIELD_D FIELD_E), BYTES(TARGETS), fresh(), SPACE);
    dogwood_next_report(buffer, &report);
    TEST(checks(answer, DOGWOOD_ACCEPTED, DOGWOOD_NO_RECORD, 1, 1) && reports(&report, 0, 0, TIMES_MESSAGE));
    answer = dogwood_check(BYTES(EMPTY_SCHEMA), BYTES(DATETIME_AND_STRING), BYTES(TARGETS), fresh(), SPACE);
    dogwood_next_report(buffer, &report);
    TEST(checks(answer, DOGWOOD_ACCEPTED, DOGWOOD_NO_RECORD, 1, 2) && reports(&report, 0, 0, DATETIME_MESSAGE));
    TEST(writes(dogwood_lookup(BYTES(DUE_SCHEMA), BYTES(TARGETS), BYTES(DUE_PATH), fresh(), SPACE),
                BYTES("\0" "\0\1" "\0\10datetime")));
}

/* ─── Decimals ─── */

/* Whether a number is written as this text, in all of the space and in just enough of it, and not in less. */
static int shows(int64_t value, const char *text) {
    const uint8_t *bytes = (const uint8_t *)text;
    size_t length = strlen(text);
    struct dogwood_answer answer = dogwood_write_decimal(value, fresh(), SPACE);

    if (!writes(answer, bytes, length)) {
        return 0;
    }
    answer = dogwood_write_decimal(value, fresh(), length);
    if (!writes(answer, bytes, length)) {
        return 0;
    }
    answer = dogwood_write_decimal(value, fresh(), length - 1);
    return refuses(answer, DOGWOOD_NO_SPACE, DOGWOOD_NO_RECORD);
}

static void test_write_decimal(void) {
    TEST(shows(0, "0.0000"));
    TEST(shows(1, "0.0001"));
    TEST(shows(-1, "-0.0001"));
    TEST(shows(15000, "1.5000"));
    TEST(shows(INT64_MIN, "-922337203685477.5808"));
    TEST(shows(INT64_MAX, "922337203685477.5807"));
    TEST(strlen("-922337203685477.5808") == DOGWOOD_MOST_DECIMAL);
    TEST(answers(dogwood_write_decimal(0, NULL, 0), DOGWOOD_NO_SPACE, 0, 0));
}

int main(void) {
    test_readers();
    test_levels();
    test_nothing();
    test_check();
    test_check_space();
    test_stack();
    test_check_with();
    test_strict();
    test_own_bodies();
    test_check_with_refusals();
    test_start();
    test_steps();
    test_steps_with_rules();
    test_steps_space();
    test_append();
    test_full_list();
    test_withdraw();
    test_other_states();
    test_random_states();
    test_move();
    test_steps_moved();
    test_splits();
    test_sums();
    test_sums_with();
    test_windows();
    test_values();
    test_decimals();
    test_valued_operations();
    test_lookup();
    test_times();
    test_write_decimal();
    printf("the library from C: %d tests, %d failed\n", tests, failures);
    return failures != 0;
}
