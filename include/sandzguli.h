/* Sandzguli: PromQL queries as byte pages, checked and printed.
 *
 * A page holds a query as records in postfix order. Eight calls take any byte string as a page and need no check before
 * them: check, check with the function table, check with the functions of an older server and with those of a newer
 * one, check as the operators document asks, copy, canonical text, split text. Each answers with one word: the kind of
 * the query and the count of bytes written, or why the page is refused and the index of the record that breaks the
 * rule, counted from 0. A ninth call tells which of the two servers accept the query, a tenth finds the label of
 * refusal 19. Two more take no page: one tells the flag of a pattern, one writes the signature of a function. Names of
 * kinds and refusals, and the version, need neither. docs/REFUSALS.md has an example page for each refusal.
 *
 * String literals, labels, and the names and values of matchers may hold UTF-8 (RFC 3629). Where they are ill-formed,
 * as those that end inside a character, they are refused with 4; so are metric and function names that are no ASCII
 * names. Canonical and split text are well-formed UTF-8 (proved). All lengths count bytes, not characters. A text may
 * hold a zero byte, and is printed with it: strlen counts bytes too, but stops there, as other C string functions do.
 * Go by the count of bytes that a call reports.
 *
 * A number literal or a fill is a whole number up to 2^53, a fraction, an infinity, the negation of one of these, or
 * NaN. A fraction is digits / 10^places, with digits from 1 to 10^15 - 1 that do not end in 0, and 1 to 15 places; all
 * others are refused with 1. It is held exactly, and printed with all its places and without an exponent, as 0.95 and
 * 0.000001. Times and durations are whole milliseconds.
 *
 * A matcher `=~` or `!~` has a flag beside its pattern: 1 if the pattern matches empty text, else 0, for both
 * operations. Where the pattern is covered, the flag is tested, and a page with a wrong one is refused with 41. Covered
 * is a choice: sequences with `|` between them. A sequence is items one after the other, or none. An item is an ASCII
 * letter, a digit, `_`, `-`, `.`, or a choice in round brackets; then nothing, or one of `*`, `+` and `?`. All other
 * patterns, as `a**`, `(?:a)`, `(a`, `[a]`, `a{2}` and `\d`, are not covered: there the flag is believed, so keep it
 * true. sandzguli_pattern tells the flag of a covered pattern, and which patterns are not covered.
 *
 * A call record carries the signature of its function: the kinds of its arguments, its extra and the kind of its
 * result. All calls on a page but four believe it. sandzguli_check_table does not: it asks the function table, which is
 * that of the Rust crate promql-parser (`FUNCTIONS` in function.rs, 91 names), and refuses a name that is not in it
 * with 37, a signature unlike the table's with 38. sandzguli_signature writes the table's signature of a name, so that
 * nobody writes one by hand.
 *
 * sandzguli_check_older and sandzguli_check_newer do the same with tables of their own, those of two server
 * generations: the older is Prometheus 2.55, the newer 3.0. Each table has 77 functions, from Prometheus' functions
 * documents (docs/PAGE.md has both tables beside the function table, docs/DECISIONS.md says what comes from where).
 * sandzguli_generations tells which of the two accept a query: neither, one, or both.
 *
 * limitk and limit_ratio take a parameter, the first of their two arguments. All calls but one let it be of any kind,
 * as the Rust crate does. sandzguli_check_operators does not: it refuses one that is no scalar with 42.
 *
 * Page, pattern and name are only read. They may be at any address; NULL is allowed where the length is 0.
 *
 * The buffer `out` is lent for the call. An accepted call writes the bytes that it reports, from the start of `out`,
 * and leaves the rest of `out` as it was; no terminating zero is written. A refused call changes no byte of it. NULL is
 * allowed where its length is 0.
 *
 * `out` must not overlap `page` or `name`. Where it does, the answer means nothing, and memory beyond the end of `out`
 * may be written: the library is proved and compiled on the word that it does not.
 *
 * Refusal 5 (the lent buffer is too short) is tested last, and a longer buffer then lets the call pass. Of pages only
 * those that check accepts are refused with it, with the number of their records as index; names and signatures that do
 * not fit have the index 0. The eight calls otherwise agree on a page's kind, or refusal and record, but for the
 * refusals that some checks have alone: 37 and 38 sandzguli_check_table, sandzguli_check_older and
 * sandzguli_check_newer, each by its own table, 42 sandzguli_check_operators.
 *
 * How long a buffer must be: SANDZGULI_COPY_BYTES hold every copy, SANDZGULI_CANONICAL_BYTES every canonical text,
 * SANDZGULI_NAME_BYTES every name and SANDZGULI_SIGNATURE_BYTES every signature (all proved). Canonical text is written
 * without being measured first where the buffer has 4 bytes for each byte of the page and 128 for each record. Split
 * texts have no proved bound: above 65,536 bytes they are rare (the longest that was built has 156,571). Where a split
 * text may be longer than the buffer, lend more after refusal 5, as examples/c/print_query.c does.
 *
 * Calls keep nothing between them, allocate nothing and use no global state: any thread may call at any time, with a
 * page that no one writes to meanwhile. All calls on a page recurse over the bytes of its patterns, and both texts over
 * its records: see SANDZGULI_STACK_BYTES.
 */
#ifndef SANDZGULI_H
#define SANDZGULI_H

#include <stddef.h>
#include <stdint.h>

#if SIZE_MAX != UINT64_MAX
#error "sandzguli.h: the library takes lengths of 64 bits, and size_t has another size"
#endif

#ifdef __cplusplus
extern "C" {
#endif

/* The version of this header. sandzguli_version tells that of the archive, as one number of the same form. */
#define SANDZGULI_VERSION_MAJOR 0
#define SANDZGULI_VERSION_MINOR 5
#define SANDZGULI_VERSION_PATCH 0
#define SANDZGULI_VERSION \
    (SANDZGULI_VERSION_MAJOR * 65536 + SANDZGULI_VERSION_MINOR * 256 + SANDZGULI_VERSION_PATCH)

/* The longest page that is read; a longer one is refused with 3 at 0. */
#define SANDZGULI_PAGE_BYTES 8192

/* The most records of a page. */
#define SANDZGULI_RECORDS 256

/* The longest copy of an accepted page. A copy above SANDZGULI_PAGE_BYTES is no page. */
#define SANDZGULI_COPY_BYTES 8827

/* No canonical text is longer. */
#define SANDZGULI_CANONICAL_BYTES 65536

/* No name of a kind or a refusal is longer. */
#define SANDZGULI_NAME_BYTES 128

/* No signature of the function table is longer. */
#define SANDZGULI_SIGNATURE_BYTES 8

/* No call uses more stack: the frames of the archive's functions, added up along the deepest chain of calls, are less
 * (docs/SPEED.md has each call's). Give a thread that calls the library so much beside what it uses itself. */
#define SANDZGULI_STACK_BYTES 262144

/* What a call answers, as one word. Accepted: 4 times the count of bytes written, plus the kind. Refused: bit 63 is 1,
 * bits 16 to 23 hold the refusal, bits 0 to 15 the index of the record, and all others are 0. Read by
 * sandzguli_is_refused, then by sandzguli_kind_of and sandzguli_written, or by sandzguli_refusal_of and
 * sandzguli_record_of. */
typedef uint64_t sandzguli_outcome;

/* Where a label lies in a page, as one word: 256 times its first byte's place, plus its length. Read by
 * sandzguli_label_start and sandzguli_label_length. */
typedef uint64_t sandzguli_label;

/* The kind of a query. */
enum sandzguli_kind {
    SANDZGULI_VECTOR = 0,
    SANDZGULI_SCALAR = 1,
    SANDZGULI_MATRIX = 2,
    SANDZGULI_STRING = 3
};

/* Why a call refuses, each with its name; 35, 36, 39 and 40 are no refusals. Of the eight calls on a page that answer
 * with an outcome only those that write give 5, only sandzguli_check_table, sandzguli_check_older and
 * sandzguli_check_newer give 37 and 38, and not 29, and only sandzguli_check_operators gives 42; all others are given
 * by all of them. sandzguli_signature gives 5 and 37. An archive that is newer than this header may have more refusals:
 * sandzguli_refusal_name has their names. */
enum sandzguli_refusal {
    SANDZGULI_BAD_FIELD = 1,                /* record cut short, bad number or code */
    SANDZGULI_OPERANDS_MISSING = 2,         /* operands missing, or not one expression at the end */
    SANDZGULI_PAST_LIMIT = 3,               /* a limit passed (page, records, text, list, count or time) */
    SANDZGULI_BAD_TEXT = 4,                 /* text not allowed, or not a name */
    SANDZGULI_OUTPUT_TOO_SHORT = 5,         /* the lent buffer is too short */
    SANDZGULI_UNARY_ON_LITERAL = 6,         /* unary on a string literal or range selector */
    SANDZGULI_RANGE_AFTER_OFFSET = 7,       /* range after offset */
    SANDZGULI_RANGE_AFTER_AT = 8,           /* range after @ */
    SANDZGULI_RANGE_ON_NO_SELECTOR = 9,     /* range on anything but a selector */
    SANDZGULI_AT_TWICE = 10,                /* @ set already */
    SANDZGULI_AT_ON_NO_SELECTOR = 11,       /* @ on no selector, range or subquery */
    SANDZGULI_OFFSET_TWICE = 12,            /* offset set already */
    SANDZGULI_OFFSET_ON_NO_SELECTOR = 13,   /* offset on no selector, range or subquery */
    SANDZGULI_AGGREGATE_OF_NOTHING = 14,    /* aggregate of 0 arguments */
    SANDZGULI_ARGUMENT_COUNT = 15,          /* aggregate of another count than 1, or 2 with a parameter */
    SANDZGULI_AGGREGATOR_AS_OPERATOR = 16,  /* binary code is an aggregator */
    SANDZGULI_BOOL_WITHOUT_COMPARISON = 17, /* bool without comparison */
    SANDZGULI_SCALARS_COMPARED = 18,        /* two scalars compared without bool */
    SANDZGULI_LABEL_IN_BOTH_LISTS = 19,     /* a label in both on and group */
    SANDZGULI_SET_OF_SCALAR = 20,           /* a side of a set operator is a scalar */
    SANDZGULI_SET_GROUPED = 21,             /* set operator between vectors has a grouping */
    SANDZGULI_SIDE_KIND = 22,               /* a side is a string or a matrix */
    SANDZGULI_MATCHING_WITHOUT_VECTORS = 23, /* matching labels, but a side is no vector */
    SANDZGULI_OPERATOR_AS_AGGREGATOR = 24,  /* aggregate code is an operator */
    SANDZGULI_AGGREGATE_KIND = 25,          /* aggregate operand is no vector, or parameter of the wrong kind */
    SANDZGULI_FIXED_ARITY = 26,             /* fixed signature with another count of arguments */
    SANDZGULI_TOO_FEW_ARGUMENTS = 27,       /* fewer arguments than declared kinds less one */
    SANDZGULI_TOO_MANY_ARGUMENTS = 28,      /* more arguments than declared kinds less one plus the upper extra */
    SANDZGULI_NO_DECLARED_KINDS = 29,       /* arguments, but no declared kinds */
    SANDZGULI_ARGUMENT_KIND = 30,           /* argument of another kind than declared */
    SANDZGULI_UNARY_KIND = 31,              /* unary operand is no scalar or vector */
    SANDZGULI_SUBQUERY_KIND = 32,           /* subquery operand is no vector */
    SANDZGULI_NAME_TWICE = 33,              /* metric name and a __name__ matcher */
    SANDZGULI_EMPTY_SELECTOR = 34,          /* no name, and no matcher or only ones that accept empty text */
    SANDZGULI_UNKNOWN_FUNCTION = 37,        /* a function that the table does not have */
    SANDZGULI_UNLIKE_SIGNATURE = 38,        /* a signature unlike the function table's */
    SANDZGULI_WRONG_FLAG = 41,              /* the flag of a pattern is wrong: 1 if it matches empty text, else 0 */
    SANDZGULI_LIMIT_PARAMETER = 42          /* the parameter of limitk or limit_ratio is no scalar */
};

/* What sandzguli_pattern answers. The first two are the flag that stands beside the pattern on a page. */
enum sandzguli_pattern_answer {
    SANDZGULI_PATTERN_MISSES_EMPTY = 0,  /* covered, and does not match empty text */
    SANDZGULI_PATTERN_MATCHES_EMPTY = 1, /* covered, and matches empty text */
    SANDZGULI_PATTERN_NOT_COVERED = 2    /* not covered, or above 255 bytes, which no page holds */
};

/* What sandzguli_generations answers: who accepts the query. The older generation is Prometheus 2.55, the newer 3.0.
 * The function has the same name, so say `enum` before it. */
enum sandzguli_generations {
    SANDZGULI_NEITHER = 0, /* neither Prometheus 2.55 nor 3.0 */
    SANDZGULI_OLDER = 1,   /* Prometheus 2.55 alone */
    SANDZGULI_NEWER = 2,   /* Prometheus 3.0 alone */
    SANDZGULI_BOTH = 3     /* Prometheus 2.55 and 3.0 */
};

/* The kind of the query, or why it is refused. Writes nothing; the count of bytes is 0. */
sandzguli_outcome sandzguli_check(const uint8_t *page, size_t page_len);

/* As sandzguli_check, and holds every call record to the function table too. Refused with 37
 * (SANDZGULI_UNKNOWN_FUNCTION) where the table does not have the name, byte by byte; with 38
 * (SANDZGULI_UNLIKE_SIGNATURE) where the count of kinds, one of them, the extra or the result is unlike the table's.
 * Both are asked when all fields of the record were read and before its operands are counted, so before 2; the count of
 * arguments is no part of a signature. The first record that is refused decides.
 *
 * A page that passes, check accepts with the same kind. A page that is refused with another number than 37 and 38,
 * check refuses with it at the same record. That number is not 29: functions of the table that declare no kinds are
 * fixed. */
sandzguli_outcome sandzguli_check_table(const uint8_t *page, size_t page_len);

/* As sandzguli_check_table, with the functions of a server in place of the function table: the older is Prometheus
 * 2.55, the newer 3.0. 37 and 38 are of that server's table, and again there is no 29. Each has 77 functions, with the
 * signatures of the function table. The older lacks 15 of that table's names and has holt_winters beside them, with the
 * signature of double_exponential_smoothing, which is the newer's name for it; the newer lacks 14. Experimental
 * functions stand in the tables, though a server takes them only with its flag.
 *
 * A page that passes, check accepts with the same kind. A page that is refused with another number than 37 and 38,
 * check refuses with it at the same record. What sandzguli_check_newer accepts, sandzguli_check_table accepts too; what
 * sandzguli_check_older accepts, it accepts if no call of holt_winters stands on the page. */
sandzguli_outcome sandzguli_check_older(const uint8_t *page, size_t page_len);
sandzguli_outcome sandzguli_check_newer(const uint8_t *page, size_t page_len);

/* Which server generations accept the query, each by its own check: an enum sandzguli_generations, one of the four for
 * every byte string. A page that cannot be read is accepted by neither. The word is not an outcome's: it has no refusal
 * and no record. Why a generation refuses is asked with sandzguli_check_older or sandzguli_check_newer, as
 * examples/c/which_servers.c does.
 *
 * An answer other than SANDZGULI_NEITHER means that check accepts the page, with the kind that the accepting checks
 * give (proved). Only pages with a call of holt_winters are the older's alone, only pages with a call of
 * double_exponential_smoothing the newer's alone; of a page with neither call both checks say the same (proved).
 * Nothing but names and signatures of calls is judged otherwise than by check: limitk with a string as its parameter is
 * accepted by both. */
uint64_t sandzguli_generations(const uint8_t *page, size_t page_len);

/* As sandzguli_check, and as the operators document asks: the parameter of limitk and limit_ratio is a scalar. Refused
 * with 42 (SANDZGULI_LIMIT_PARAMETER) where it is a vector, a matrix or a string, by its kind and not by what it is: a
 * number in brackets, an addition of numbers and a call that carries a scalar as its result all pass. 42 is asked when
 * check has nothing against the record, so after 25. The first record that is refused decides.
 *
 * A page that passes, check accepts with the same kind. A page that is refused with another number than 42, check
 * refuses with it at the same record. The function table is not asked. */
sandzguli_outcome sandzguli_check_operators(const uint8_t *page, size_t page_len);

/* The page of the checked query: numbers under unary records negated, set operators many-to-many, @ before offset
 * wherever both are set on one expression. All else is as on the page, in its order. A copy of at most
 * SANDZGULI_PAGE_BYTES is a page: the same query, and its own copy (proved).
 *
 * Two accepted pages have equal copies if and only if they are the same query, field by field (proved). So compare the
 * counts of bytes that the two calls report, then so many bytes with memcmp, as examples/c/same_query.c does. Lend
 * SANDZGULI_COPY_BYTES to each: every copy fits, and 5 is not answered. Copies above SANDZGULI_PAGE_BYTES are compared
 * the same way.
 *
 * Every field counts, also where the texts are alike: the order of matchers and labels, the signature that a call
 * carries, the flags of patterns, each time of @, `offset 0s` and `offset -0s`, 0 and minus zero, a modifier that is
 * absent and one with nothing in it, as `sum(up)` and `sum by () (up)`. (In a copy every set operator has a modifier.)
 * NaN is one number. */
sandzguli_outcome sandzguli_copy(const uint8_t *page, size_t page_len, uint8_t *out, size_t out_len);

/* The query on one line. */
sandzguli_outcome sandzguli_canonical(const uint8_t *page, size_t page_len, uint8_t *out, size_t out_len);

/* The query on several lines where it is longer than 100 bytes, two spaces a level; no line feed at the end. */
sandzguli_outcome sandzguli_split(const uint8_t *page, size_t page_len, uint8_t *out, size_t out_len);

/* Where the label of refusal 19 lies in the page: the first group label that is also in the on list, in UTF-8. 0 where
 * the page is not refused with 19. A label may be empty, so that only check tells whether there is one. */
sandzguli_label sandzguli_joint_label(const uint8_t *page, size_t page_len);

/* The flag of a covered pattern, or that it is not covered: an enum sandzguli_pattern_answer. Any byte string may be
 * asked about. Callers set the flag on a page with it. */
uint64_t sandzguli_pattern(const uint8_t *pattern, size_t pattern_len);

/* The signature of a function by its name, as it stands in a call record behind the name: the count of its kinds, the
 * kinds, the extra (0 fixed, 1 unlimited, 2 and the upper count), the kind of its result, each number one byte. In the
 * record the count of arguments follows. The word has the count of bytes written, and the kind of the result as its
 * kind. Refused with 37 at 0 for every name that the table does not have, also an empty, long or ill-formed one; else
 * with 5 at 0 where the signature does not fit. examples/c/write_call.c writes calls with it. */
sandzguli_outcome sandzguli_signature(const uint8_t *name, size_t name_len, uint8_t *out, size_t out_len);

/* The name of a kind or of a refusal, in ASCII, for any number: `vector`, `a side is a string or a matrix`. Nothing is
 * written, and the count of bytes is 0, where the number has no name. Refused with 5 at 0 where the name does not fit.
 * The word has no kind. */
sandzguli_outcome sandzguli_kind_name(uint64_t kind, uint8_t *out, size_t out_len);
sandzguli_outcome sandzguli_refusal_name(uint64_t refusal, uint8_t *out, size_t out_len);

/* The version of the archive: major * 65536 + minor * 256 + patch. */
uint64_t sandzguli_version(void);

/* Any outcome: whether the call refused, 1 or 0. The other helpers ask for the one case or the other. */
static inline int sandzguli_is_refused(sandzguli_outcome outcome) {
    return (int)(outcome >> 63);
}

/* An accepted outcome of a call on a page: the kind; of sandzguli_signature: that of the function's result. */
static inline enum sandzguli_kind sandzguli_kind_of(sandzguli_outcome outcome) {
    return (enum sandzguli_kind)(outcome & 3);
}

/* An accepted outcome: the count of bytes written. */
static inline size_t sandzguli_written(sandzguli_outcome outcome) {
    return (size_t)(outcome >> 2);
}

/* A refused outcome: why. */
static inline enum sandzguli_refusal sandzguli_refusal_of(sandzguli_outcome outcome) {
    return (enum sandzguli_refusal)((outcome >> 16) & 0xff);
}

/* A refused outcome: the index of the record, at most SANDZGULI_RECORDS. */
static inline size_t sandzguli_record_of(sandzguli_outcome outcome) {
    return (size_t)(outcome & 0xffff);
}

/* The label of 19: its first byte in the page. */
static inline size_t sandzguli_label_start(sandzguli_label label) {
    return (size_t)(label >> 8);
}

/* The label of 19: its length in bytes. */
static inline size_t sandzguli_label_length(sandzguli_label label) {
    return (size_t)(label & 0xff);
}

#ifdef __cplusplus
}
#endif

#endif
