/* What the header says, tried on the library; compiled as C and as C++. */
#include "sandzguli.h"

#include <stdio.h>
#include <stdlib.h>
#include <string.h>

static int failures = 0;

static void expect(int is_met, const char *words) {
    if (!is_met) {
        fprintf(stderr, "not so: %s\n", words);
        failures += 1;
    }
}

static int is_refused_with(sandzguli_outcome outcome, enum sandzguli_refusal refusal, size_t record) {
    return sandzguli_is_refused(outcome) && sandzguli_refusal_of(outcome) == refusal
        && sandzguli_record_of(outcome) == record;
}

/* The empty page, at NULL, with no buffer. */
static void test_null(void) {
    expect(is_refused_with(sandzguli_check(NULL, 0), SANDZGULI_OPERANDS_MISSING, 0), "check takes NULL");
    expect(is_refused_with(sandzguli_copy(NULL, 0, NULL, 0), SANDZGULI_OPERANDS_MISSING, 0), "copy takes NULL");
    expect(is_refused_with(sandzguli_canonical(NULL, 0, NULL, 0), SANDZGULI_OPERANDS_MISSING, 0), "canonical takes NULL");
    expect(is_refused_with(sandzguli_split(NULL, 0, NULL, 0), SANDZGULI_OPERANDS_MISSING, 0), "split takes NULL");
    expect(is_refused_with(sandzguli_check_table(NULL, 0), SANDZGULI_OPERANDS_MISSING, 0), "check_table too");
    expect(is_refused_with(sandzguli_check_older(NULL, 0), SANDZGULI_OPERANDS_MISSING, 0), "check_older too");
    expect(is_refused_with(sandzguli_check_newer(NULL, 0), SANDZGULI_OPERANDS_MISSING, 0), "check_newer too");
    expect(is_refused_with(sandzguli_check_operators(NULL, 0), SANDZGULI_OPERANDS_MISSING, 0), "check_operators too");
    expect(is_refused_with(sandzguli_signature(NULL, 0, NULL, 0), SANDZGULI_UNKNOWN_FUNCTION, 0), "signature too");
    expect(sandzguli_generations(NULL, 0) == SANDZGULI_NEITHER, "generations takes NULL");
    expect(sandzguli_joint_label(NULL, 0) == 0, "joint_label takes NULL");
    expect(sandzguli_pattern(NULL, 0) == SANDZGULI_PATTERN_MATCHES_EMPTY, "pattern takes NULL, as the empty pattern");
}

/* `up`: 5 with too little room and an unchanged buffer, then its text and nothing after it. */
static void test_up(void) {
    const uint8_t up[] = {0x02, 0x02, 'u', 'p', 0x00};
    uint8_t out[4] = {'a', 'b', 'c', 'd'};
    sandzguli_outcome outcome = sandzguli_check(up, sizeof up);
    expect(!sandzguli_is_refused(outcome) && sandzguli_kind_of(outcome) == SANDZGULI_VECTOR, "up is a vector");
    expect(sandzguli_written(outcome) == 0, "check writes nothing");
    expect(is_refused_with(sandzguli_canonical(up, sizeof up, NULL, 0), SANDZGULI_OUTPUT_TOO_SHORT, 1), "no room at NULL");
    expect(is_refused_with(sandzguli_split(up, sizeof up, out, 1), SANDZGULI_OUTPUT_TOO_SHORT, 1), "1 byte is too short");
    expect(memcmp(out, "abcd", 4) == 0, "a refusal changes no byte");
    outcome = sandzguli_canonical(up, sizeof up, out, sizeof out);
    expect(!sandzguli_is_refused(outcome) && sandzguli_written(outcome) == 2, "two bytes are written");
    expect(memcmp(out, "upcd", 4) == 0, "the rest is as it was");
}

/* A string of a zero byte and an accent: five bytes with its quotes, where strlen stops after one. Cut inside the
 * accent it is refused. */
static void test_utf8(void) {
    const uint8_t page[] = {0x01, 0x03, 0x00, 0xc3, 0xa9};
    const uint8_t cut[] = {0x01, 0x02, 0x00, 0xc3};
    uint8_t out[8] = {0};
    sandzguli_outcome outcome = sandzguli_canonical(page, sizeof page, out, sizeof out);
    expect(!sandzguli_is_refused(outcome) && sandzguli_kind_of(outcome) == SANDZGULI_STRING, "UTF-8 is a string");
    expect(sandzguli_written(outcome) == 5 && memcmp(out, "\"\0\xc3\xa9\"", 5) == 0, "its bytes stand in quotes");
    expect(strlen((const char *)out) == 1, "strlen stops at a zero byte");
    expect(is_refused_with(sandzguli_check(cut, sizeof cut), SANDZGULI_BAD_TEXT, 0), "a text cut inside a character");
}

/* `-5`: the copy has the negated number. */
static void test_copy(void) {
    const uint8_t minus[] = {0x00, 0x00, 0x05, 0x07};
    uint8_t out[SANDZGULI_COPY_BYTES];
    sandzguli_outcome outcome = sandzguli_copy(minus, sizeof minus, out, sizeof out);
    expect(!sandzguli_is_refused(outcome) && sandzguli_kind_of(outcome) == SANDZGULI_SCALAR, "-5 is a scalar");
    expect(sandzguli_written(outcome) == 3 && memcmp(out, "\x00\x01\x05", 3) == 0, "the copy is 00 01 05");
}

/* Whether two accepted pages are one query: by memcmp of the bytes that copy reports. */
static int is_one_query(const uint8_t *first, size_t first_len, const uint8_t *second, size_t second_len) {
    uint8_t copies[2][SANDZGULI_COPY_BYTES];
    sandzguli_outcome one = sandzguli_copy(first, first_len, copies[0], sizeof copies[0]);
    sandzguli_outcome other = sandzguli_copy(second, second_len, copies[1], sizeof copies[1]);
    expect(!sandzguli_is_refused(one) && !sandzguli_is_refused(other), "both are queries");
    return sandzguli_written(one) == sandzguli_written(other)
        && memcmp(copies[0], copies[1], sandzguli_written(one)) == 0;
}

/* `up @ end() offset 1ms` in both orders, then with another sign; `sum(up)` and `sum by () (up)`. */
static void test_one_copy(void) {
    uint8_t at_first[] = {0x02, 0x02, 'u', 'p', 0x00, 0x05, 0x01, 0x06, 0x00, 0x01};
    const uint8_t offset_first[] = {0x02, 0x02, 'u', 'p', 0x00, 0x06, 0x00, 0x01, 0x05, 0x01};
    const uint8_t absent[] = {0x02, 0x02, 'u', 'p', 0x00, 0x0a, 0x1b, 0x00, 0x01};
    const uint8_t empty[] = {0x02, 0x02, 'u', 'p', 0x00, 0x0a, 0x1b, 0x01, 0x00, 0x01};
    uint8_t *sign = &at_first[8];
    uint8_t out[sizeof offset_first];
    sandzguli_outcome outcome = sandzguli_copy(offset_first, sizeof offset_first, out, sizeof out);
    expect(sandzguli_written(outcome) == sizeof out && memcmp(out, at_first, sizeof out) == 0, "@ comes first");
    expect(is_one_query(at_first, sizeof at_first, offset_first, sizeof offset_first), "either order is one query");
    *sign = 1;
    expect(!is_one_query(at_first, sizeof at_first, offset_first, sizeof offset_first), "another sign is another one");
    expect(!is_one_query(absent, sizeof absent, empty, sizeof empty), "an empty grouping is not an absent one");
}

/* 0.000001 under a unary record: its text has all six places, its copy the other form. Digits 0 and 10, which ends in
 * 0, and 16 places are no fraction's. */
static void test_fraction(void) {
    const uint8_t page[] = {0x00, 0x05, 0x01, 0x06, 0x07};
    const uint8_t others[][4] = {{0x00, 0x05, 0x00, 0x01}, {0x00, 0x05, 0x0a, 0x01}, {0x00, 0x05, 0x01, 0x10}};
    uint8_t out[9] = {0};
    sandzguli_outcome outcome = sandzguli_canonical(page, sizeof page, out, sizeof out);
    expect(!sandzguli_is_refused(outcome) && sandzguli_kind_of(outcome) == SANDZGULI_SCALAR, "a fraction is a scalar");
    expect(sandzguli_written(outcome) == 9 && memcmp(out, "-0.000001", 9) == 0, "a fraction prints all its places");
    outcome = sandzguli_copy(page, sizeof page, out, sizeof out);
    expect(sandzguli_written(outcome) == 4 && memcmp(out, "\x00\x06\x01\x06", 4) == 0, "the copy is 00 06 01 06");
    for (size_t index = 0; index < sizeof others / sizeof *others; index++) {
        outcome = sandzguli_check(others[index], sizeof *others);
        expect(is_refused_with(outcome, SANDZGULI_BAD_FIELD, 0), "digits or places of no fraction");
    }
}

/* `up + on (x) group_left (x) up`: the label is the byte at 21. */
static void test_label(void) {
    const uint8_t page[] = {0x02, 0x02, 'u', 'p', 0x00, 0x02, 0x02, 'u', 'p', 0x00, 0x09, 0x01,
                            0x01, 0x00, 0x01, 0x01, 0x01, 'x', 0x01, 0x01, 0x01, 'x', 0x00, 0x00};
    sandzguli_label label = sandzguli_joint_label(page, sizeof page);
    expect(is_refused_with(sandzguli_check(page, sizeof page), SANDZGULI_LABEL_IN_BOTH_LISTS, 2), "refused 19 at 2");
    expect(sandzguli_label_start(label) == 21 && sandzguli_label_length(label) == 1, "the label is the byte at 21");
}

/* A pattern in memory of exactly its length. */
static void test_pattern(const char *pattern, enum sandzguli_pattern_answer answer) {
    size_t length = strlen(pattern);
    uint8_t *bytes = (uint8_t *)malloc(length);
    expect(bytes != NULL, "there is memory");
    memcpy(bytes, pattern, length);
    expect(sandzguli_pattern(bytes, length) == answer, pattern);
    free(bytes);
}

static void test_patterns(void) {
    uint8_t longest[256];
    memset(longest, 'a', sizeof longest);
    test_pattern("5..", SANDZGULI_PATTERN_MISSES_EMPTY);
    test_pattern("(a|b)?c", SANDZGULI_PATTERN_MISSES_EMPTY);
    test_pattern("(a|b?)c*", SANDZGULI_PATTERN_MATCHES_EMPTY);
    test_pattern("a|", SANDZGULI_PATTERN_MATCHES_EMPTY);
    test_pattern("(a", SANDZGULI_PATTERN_NOT_COVERED);
    test_pattern("(a|(b", SANDZGULI_PATTERN_NOT_COVERED);
    test_pattern("a*?", SANDZGULI_PATTERN_NOT_COVERED);
    test_pattern("[a]*", SANDZGULI_PATTERN_NOT_COVERED);
    test_pattern("\xc3\xa9", SANDZGULI_PATTERN_NOT_COVERED);
    expect(sandzguli_pattern(longest, 255) == SANDZGULI_PATTERN_MISSES_EMPTY, "255 bytes are read");
    expect(sandzguli_pattern(longest, 256) == SANDZGULI_PATTERN_NOT_COVERED, "256 bytes are not covered");
}

/* `up{a=~"x"}` with either flag, which is tested; then `up{a=~"["}` with either, which is believed. */
static void test_flag(void) {
    uint8_t page[] = {0x02, 0x02, 'u', 'p', 0x01, 0x02, 0x01, 'a', 0x01, 'x', 0x00};
    uint8_t *pattern = &page[9], *flag = &page[10];
    expect(!sandzguli_is_refused(sandzguli_check(page, sizeof page)), "a right flag passes");
    *flag = 1;
    expect(is_refused_with(sandzguli_check(page, sizeof page), SANDZGULI_WRONG_FLAG, 0), "a wrong flag does not");
    sandzguli_outcome outcome = sandzguli_split(page, sizeof page, NULL, 0);
    expect(is_refused_with(outcome, SANDZGULI_WRONG_FLAG, 0), "a wrong flag comes before a short buffer");
    *pattern = '[';
    expect(!sandzguli_is_refused(sandzguli_check(page, sizeof page)), "flag 1 is believed");
    *flag = 0;
    expect(!sandzguli_is_refused(sandzguli_check(page, sizeof page)), "flag 0 is believed");
}

/* `abs(up)` passes both checks; with another letter or another result only the one without the table. Without its
 * operand each of them is refused by the table's rule first. */
static void test_table(void) {
    uint8_t page[] = {0x02, 0x02, 'u', 'p', 0x00, 0x0b, 0x03, 'a', 'b', 's', 0x01, 0x00, 0x00, 0x00, 0x01};
    uint8_t *letter = &page[9], *result = &page[13], *call = &page[5];
    size_t call_len = sizeof page - 5;
    expect(sandzguli_check_table(page, sizeof page) == sandzguli_check(page, sizeof page), "the table has abs");
    expect(is_refused_with(sandzguli_check_table(call, call_len), SANDZGULI_OPERANDS_MISSING, 0), "2 is check's own");
    *result = SANDZGULI_SCALAR;
    expect(sandzguli_check(page, sizeof page) == SANDZGULI_SCALAR, "check believes a signature");
    expect(is_refused_with(sandzguli_check_table(page, sizeof page), SANDZGULI_UNLIKE_SIGNATURE, 1), "38 at the call");
    expect(is_refused_with(sandzguli_check_table(call, call_len), SANDZGULI_UNLIKE_SIGNATURE, 0), "38 comes before 2");
    *letter = 'z';
    expect(sandzguli_check(page, sizeof page) == SANDZGULI_SCALAR, "check takes any name");
    expect(is_refused_with(sandzguli_check_table(page, sizeof page), SANDZGULI_UNKNOWN_FUNCTION, 1), "37 before 38");
    expect(is_refused_with(sandzguli_check_table(call, call_len), SANDZGULI_UNKNOWN_FUNCTION, 0), "37 comes before 2");
    page[sizeof page - 1] = 17;
    expect(is_refused_with(sandzguli_check_table(call, call_len), SANDZGULI_PAST_LIMIT, 0), "fields come before 37");
}

/* The word of a refusal. */
static sandzguli_outcome refused(enum sandzguli_refusal refusal, size_t record) {
    return (uint64_t)1 << 63 | (uint64_t)refusal << 16 | record;
}

/* What the older and the newer check say of a page, in memory of exactly its length, and which of them accept it. One
 * that accepts it says what check says. */
static void test_servers(const char *page, size_t length, sandzguli_outcome older, sandzguli_outcome newer,
                         enum sandzguli_generations answer) {
    uint8_t *bytes = (uint8_t *)malloc(length);
    expect(bytes != NULL, "there is memory");
    memcpy(bytes, page, length);
    sandzguli_outcome checked = sandzguli_check(bytes, length);
    expect(sandzguli_check_older(bytes, length) == older, "what the older check says");
    expect(sandzguli_check_newer(bytes, length) == newer, "what the newer check says");
    expect(sandzguli_generations(bytes, length) == answer, "which servers accept it");
    expect(sandzguli_is_refused(older) || older == checked, "what the older accepts, check does");
    expect(sandzguli_is_refused(newer) || newer == checked, "what the newer accepts, check does");
    free(bytes);
}

#define SERVERS(page, older, newer, answer) test_servers(page, sizeof page - 1, older, newer, answer)

/* NAME(up[1ms], 5, 5), with the signature that both servers have for it. */
#define SMOOTHED(length, name) \
    "\x02\x02up\x00\x03\x01\x00\x00\x05\x00\x00\x05\x0b" length name "\x03\x02\x01\x01\x00\x00\x03"
#define OF_OLDER SMOOTHED("\x0c", "holt_winters")
#define OF_NEWER SMOOTHED("\x1c", "double_exponential_smoothing")
#define ADDED "\x09\x01\x00"

/* Each name in its own server, and both names on one page; an extra that neither has, and missing operands, before
 * which 37 comes; a function of the function table that neither has, and one that both have; `limitk("a", up)`, of
 * which 42 is not asked; a byte that is no record. */
static void test_generations(void) {
    const sandzguli_outcome vector = SANDZGULI_VECTOR, unknown = refused(SANDZGULI_UNKNOWN_FUNCTION, 4);
    const sandzguli_outcome alone = refused(SANDZGULI_UNKNOWN_FUNCTION, 0);
    const sandzguli_outcome no_field = refused(SANDZGULI_BAD_FIELD, 0);
    SERVERS(OF_OLDER, vector, unknown, SANDZGULI_OLDER);
    SERVERS(OF_NEWER, unknown, vector, SANDZGULI_NEWER);
    SERVERS(OF_OLDER OF_NEWER ADDED, refused(SANDZGULI_UNKNOWN_FUNCTION, 9), unknown, SANDZGULI_NEITHER);
    SERVERS("\x0b\x0cholt_winters\x03\x02\x01\x01\x01\x00\x03", refused(SANDZGULI_UNLIKE_SIGNATURE, 0), alone,
            SANDZGULI_NEITHER);
    SERVERS("\x0b\x0cholt_winters\x03\x02\x01\x01\x00\x00\x03", refused(SANDZGULI_OPERANDS_MISSING, 0), alone,
            SANDZGULI_NEITHER);
    SERVERS("\x0b\x05start\x00\x00\x01\x00", alone, alone, SANDZGULI_NEITHER);
    SERVERS("\x0b\x04time\x00\x00\x01\x00", SANDZGULI_SCALAR, SANDZGULI_SCALAR, SANDZGULI_BOTH);
    SERVERS("\x01\x01" "a\x02\x02up\x00\x0a\x1d\x00\x02", vector, vector, SANDZGULI_BOTH);
    SERVERS("\x63", no_field, no_field, SANDZGULI_NEITHER);
}

/* `limitk("a", up)` passes check and prints, and is refused with 42 by the other check; so is `limit_ratio`. Before it
 * come 25, where the operand is a string too, and 2, without an operand; `topk` is refused with 25 by both. Then comes
 * `limitk` of a number in brackets, which both take. */
static void test_operators(void) {
    uint8_t page[] = {0x01, 0x01, 'a', 0x02, 0x02, 'u', 'p', 0x00, 0x0a, 0x1d, 0x00, 0x02, 0x63};
    const uint8_t strings[] = {0x01, 0x01, 'a', 0x01, 0x01, 'b', 0x0a, 0x1d, 0x00, 0x02};
    const uint8_t alone[] = {0x01, 0x01, 'a', 0x0a, 0x1d, 0x00, 0x02};
    const uint8_t number[] = {0x00, 0x00, 0x01, 0x08, 0x02, 0x02, 'u', 'p', 0x00, 0x0a, 0x1d, 0x00, 0x02};
    uint8_t *code = &page[9], out[32];
    size_t length = sizeof page - 1;
    expect(sandzguli_check(page, length) == SANDZGULI_VECTOR, "check takes a parameter of any kind");
    expect(sandzguli_check_table(page, length) == SANDZGULI_VECTOR, "and so does check_table");
    expect(sandzguli_written(sandzguli_canonical(page, length, out, sizeof out)) == 15, "and canonical text");
    expect(is_refused_with(sandzguli_check_operators(page, length), SANDZGULI_LIMIT_PARAMETER, 2), "42 at limitk");
    expect(is_refused_with(sandzguli_check(page, sizeof page), SANDZGULI_BAD_FIELD, 3), "byte 99 is no record");
    expect(is_refused_with(sandzguli_check_operators(page, sizeof page), SANDZGULI_LIMIT_PARAMETER, 2), "42 first");
    *code = 0x1e;
    expect(is_refused_with(sandzguli_check_operators(page, length), SANDZGULI_LIMIT_PARAMETER, 2), "42 at limit_ratio");
    *code = 0x1c;
    expect(is_refused_with(sandzguli_check_operators(page, length), SANDZGULI_AGGREGATE_KIND, 2), "25 at topk");
    expect(is_refused_with(sandzguli_check_operators(strings, sizeof strings), SANDZGULI_AGGREGATE_KIND, 2), "25 first");
    expect(is_refused_with(sandzguli_check_operators(alone, sizeof alone), SANDZGULI_OPERANDS_MISSING, 1), "2 first");
    expect(sandzguli_check_operators(number, sizeof number) == SANDZGULI_VECTOR, "a scalar passes");
}

/* A name in memory of exactly its length, and what the library answers, with so many bytes lent. */
static sandzguli_outcome signature_of(const char *name, uint8_t *out, size_t out_len) {
    size_t length = strlen(name);
    uint8_t *bytes = (uint8_t *)malloc(length);
    expect(bytes != NULL || length == 0, "there is memory");
    memcpy(bytes, name, length);
    sandzguli_outcome outcome = sandzguli_signature(bytes, length, out, out_len);
    free(bytes);
    return outcome;
}

/* A signature into memory of exactly its length, then of one byte less: 5 at 0, and no byte changes. */
static void test_signature(const char *name, const char *signature, size_t length, enum sandzguli_kind result) {
    uint8_t *out = (uint8_t *)malloc(length);
    expect(out != NULL, "there is memory");
    memset(out, 'z', length);
    expect(is_refused_with(signature_of(name, out, length - 1), SANDZGULI_OUTPUT_TOO_SHORT, 0), "no room for it");
    expect(out[0] == 'z' && memcmp(out, out + 1, length - 1) == 0, "too short a buffer keeps its bytes");
    expect(signature_of(name, out, length) == length * 4 + (uint64_t)result, "count of bytes and kind of the result");
    expect(memcmp(out, signature, length) == 0, name);
    free(out);
}

#define SIGNED(name, signature, result) test_signature(name, signature, sizeof signature - 1, result)

/* One of each form, the first and the last name, the longest name and both forms of the longest signature. */
static void test_signatures(void) {
    const char *unknown[] = {"", "ab", "Abs", "abs_", "sum", "holt_winters", "zzz", "\xc3\xa9", "a\nb"};
    uint8_t out[SANDZGULI_SIGNATURE_BYTES + 1];
    SIGNED("abs", "\x01\x00\x00\x00", SANDZGULI_VECTOR);
    SIGNED("year", "\x01\x00\x02\x01\x00", SANDZGULI_VECTOR);
    SIGNED("time", "\x00\x00\x01", SANDZGULI_SCALAR);
    SIGNED("rate", "\x01\x02\x00\x00", SANDZGULI_VECTOR);
    SIGNED("sort_by_label", "\x02\x00\x03\x01\x00", SANDZGULI_VECTOR);
    SIGNED("double_exponential_smoothing", "\x03\x02\x01\x01\x00\x00", SANDZGULI_VECTOR);
    SIGNED("label_replace", "\x05\x00\x03\x03\x03\x03\x00\x00", SANDZGULI_VECTOR);
    SIGNED("histogram_quantiles", "\x04\x00\x03\x01\x01\x02\x09\x00", SANDZGULI_VECTOR);
    for (size_t index = 0; index < sizeof unknown / sizeof *unknown; index++) {
        memset(out, 'z', sizeof out);
        sandzguli_outcome outcome = signature_of(unknown[index], out, index % sizeof out);
        expect(is_refused_with(outcome, SANDZGULI_UNKNOWN_FUNCTION, 0), "a name that the table lacks");
        expect(out[0] == 'z' && memcmp(out, out + 1, sizeof out - 1) == 0, "an unknown name changes no byte");
    }
    memset(out, 'z', sizeof out);
    expect(sandzguli_written(signature_of("scalar", out, sizeof out)) == 4, "scalar has four bytes");
    expect(memcmp(out, "\x01\x00\x00\x01zzzzz", sizeof out) == 0, "the bytes behind a signature stay");
}

static void test_longest_page(void) {
    static uint8_t page[SANDZGULI_PAGE_BYTES + 1];
    expect(is_refused_with(sandzguli_check(page, sizeof page), SANDZGULI_PAST_LIMIT, 0), "a longer page is refused with 3");
    expect(is_refused_with(sandzguli_check(page, sizeof page - 1), SANDZGULI_PAST_LIMIT, SANDZGULI_RECORDS), "257 records");
}

typedef sandzguli_outcome names(uint64_t number, uint8_t *out, size_t out_len);

/* A name into memory of exactly its length, then of one byte less: 5 at 0, and no byte changes. */
static void test_name(names *name_of, uint64_t number, const char *name) {
    size_t length = strlen(name);
    uint8_t *out = (uint8_t *)malloc(length);
    expect(out != NULL, "there is memory");
    memset(out, 'z', length);
    expect(is_refused_with(name_of(number, out, length - 1), SANDZGULI_OUTPUT_TOO_SHORT, 0), "one byte less is too short");
    expect(out[0] == 'z' && memcmp(out, out + 1, length - 1) == 0, "too short changes no byte");
    expect(name_of(number, out, length) == length * 4, "the count of bytes, and no kind");
    expect(memcmp(out, name, length) == 0, name);
    free(out);
}

/* Nothing is written of a number without a name, and nothing needs to be lent. */
static void test_no_name(names *name_of, uint64_t number) {
    uint8_t out[SANDZGULI_NAME_BYTES] = {'z'};
    expect(name_of(number, out, sizeof out) == 0 && out[0] == 'z', "a number without a name");
    expect(name_of(number, NULL, 0) == 0, "a number without a name takes NULL");
}

static void test_names(void) {
    test_name(sandzguli_kind_name, SANDZGULI_VECTOR, "vector");
    test_name(sandzguli_kind_name, SANDZGULI_STRING, "string");
    test_name(sandzguli_refusal_name, SANDZGULI_BAD_FIELD, "record cut short, bad number or code");
    test_name(sandzguli_refusal_name, SANDZGULI_SIDE_KIND, "a side is a string or a matrix");
    test_name(sandzguli_refusal_name, SANDZGULI_UNKNOWN_FUNCTION, "a function that the table does not have");
    test_name(sandzguli_refusal_name, SANDZGULI_UNLIKE_SIGNATURE, "a signature unlike the function table's");
    test_name(sandzguli_refusal_name, SANDZGULI_WRONG_FLAG,
              "the flag of a pattern is wrong: 1 if it matches empty text, else 0");
    test_name(sandzguli_refusal_name, SANDZGULI_LIMIT_PARAMETER, "the parameter of limitk or limit_ratio is no scalar");
    test_no_name(sandzguli_kind_name, 4);
    test_no_name(sandzguli_refusal_name, 0);
    test_no_name(sandzguli_refusal_name, 35);
    test_no_name(sandzguli_refusal_name, 36);
    test_no_name(sandzguli_refusal_name, 39);
    test_no_name(sandzguli_refusal_name, 40);
    test_no_name(sandzguli_refusal_name, 43);
    test_no_name(sandzguli_refusal_name, 255);
    test_no_name(sandzguli_refusal_name, UINT64_MAX);
    expect(is_refused_with(sandzguli_refusal_name(1, NULL, 0), SANDZGULI_OUTPUT_TOO_SHORT, 0), "a name needs room");
}

/* Every name fits, and the bytes after it stay as they were. */
static void test_name_bytes(void) {
    for (uint64_t number = 0; number < 256; number++) {
        uint8_t out[SANDZGULI_NAME_BYTES + 1];
        memset(out, 'Z', sizeof out);
        size_t length = sandzguli_written(sandzguli_refusal_name(number, out, SANDZGULI_NAME_BYTES));
        expect(length <= SANDZGULI_NAME_BYTES, "every name fits");
        expect(memchr(out, 'Z', sizeof out) == out + length, "names are in lower case");
        expect(out[SANDZGULI_NAME_BYTES] == 'Z', "the rest is as it was");
    }
}

static void test_version(void) {
    expect(sandzguli_version() == SANDZGULI_VERSION, "header and archive have one version");
}

int main(void) {
    test_null();
    test_up();
    test_utf8();
    test_copy();
    test_one_copy();
    test_fraction();
    test_label();
    test_patterns();
    test_flag();
    test_table();
    test_generations();
    test_operators();
    test_signatures();
    test_longest_page();
    test_names();
    test_name_bytes();
    test_version();
    return failures != 0;
}
