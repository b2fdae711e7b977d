/* Writes the page of a function's call to standard output, for print_query to print:
 *
 *     write_call FUNCTION [ARGUMENT..]
 *
 * The library knows the signature of FUNCTION, and so what each ARGUMENT is: the metric name of a vector, or of its
 * last five minutes (a matrix), a whole number or a string. The page is checked with the function table first: where it
 * is refused, nothing is written but why. */
#include "sandzguli.h"

#include <stdio.h>
#include <stdlib.h>
#include <string.h>

/* The first numbers of records. */
#define NUMBER 0
#define STRING 1
#define SELECTOR 2
#define RANGE 3
#define CALL 11

#define FIVE_MINUTES 300000

/* One byte more than a page may have: a longer one is cut there, and refused as too long. */
struct page {
    uint8_t bytes[SANDZGULI_PAGE_BYTES + 1];
    size_t length;
};

static void put_byte(struct page *page, uint8_t byte) {
    if (page->length < sizeof page->bytes) {
        page->bytes[page->length++] = byte;
    }
}

static void put_bytes(struct page *page, const uint8_t *bytes, size_t length) {
    for (size_t index = 0; index < length; index++) {
        put_byte(page, bytes[index]);
    }
}

/* Groups of seven bits, the lowest first, the high bit of each byte set except the last. */
static void put_number(struct page *page, uint64_t number) {
    while (number >= 0x80) {
        put_byte(page, (uint8_t)((number & 0x7f) | 0x80));
        number >>= 7;
    }
    put_byte(page, (uint8_t)number);
}

/* A length and bytes. */
static void put_text(struct page *page, const char *text) {
    put_number(page, strlen(text));
    put_bytes(page, (const uint8_t *)text, strlen(text));
}

/* A selector without matchers. */
static void put_metric(struct page *page, const char *name) {
    put_number(page, SELECTOR);
    put_text(page, name);
    put_number(page, 0);
}

/* The record of a whole number: its form, which is 0, and its magnitude. */
static void put_whole(struct page *page, const char *digits) {
    if (*digits == '\0' || digits[strspn(digits, "0123456789")] != '\0') {
        fprintf(stderr, "'%s' is to be a whole number\n", digits);
        exit(EXIT_FAILURE);
    }
    put_number(page, NUMBER);
    put_number(page, 0);
    put_number(page, strtoull(digits, NULL, 10));
}

static void put_argument(struct page *page, enum sandzguli_kind kind, const char *argument) {
    switch (kind) {
    case SANDZGULI_VECTOR:
        put_metric(page, argument);
        break;
    case SANDZGULI_MATRIX:
        put_metric(page, argument);
        put_number(page, RANGE);
        put_number(page, FIVE_MINUTES);
        break;
    case SANDZGULI_SCALAR:
        put_whole(page, argument);
        break;
    case SANDZGULI_STRING:
        put_number(page, STRING);
        put_text(page, argument);
        break;
    }
}

/* The kind of an argument, counted from 0. A signature begins with the count of its kinds, a byte each; past them the
 * last one repeats. Where there is none, no argument passes, whatever its kind. */
static enum sandzguli_kind kind_at(const uint8_t *signature, size_t argument) {
    size_t count = signature[0];
    if (count == 0) {
        return SANDZGULI_VECTOR;
    }
    return (enum sandzguli_kind)signature[argument < count ? 1 + argument : count];
}

/* All arguments, then the call with the signature that the library has written. */
static void put_call(struct page *page, const char *function, char **arguments, size_t count) {
    uint8_t signature[SANDZGULI_SIGNATURE_BYTES];
    sandzguli_outcome outcome =
        sandzguli_signature((const uint8_t *)function, strlen(function), signature, sizeof signature);
    if (sandzguli_is_refused(outcome)) {
        fprintf(stderr, "the function table does not have %s\n", function);
        exit(EXIT_FAILURE);
    }
    for (size_t index = 0; index < count; index++) {
        put_argument(page, kind_at(signature, index), arguments[index]);
    }
    put_number(page, CALL);
    put_text(page, function);
    put_bytes(page, signature, sandzguli_written(outcome));
    put_number(page, count);
}

int main(int count, char **arguments) {
    static struct page page;
    if (count < 2) {
        fprintf(stderr, "write_call FUNCTION [ARGUMENT..]\n");
        return EXIT_FAILURE;
    }
    put_call(&page, arguments[1], arguments + 2, (size_t)count - 2);
    sandzguli_outcome outcome = sandzguli_check_table(page.bytes, page.length);
    if (sandzguli_is_refused(outcome)) {
        int refusal = (int)sandzguli_refusal_of(outcome);
        fprintf(stderr, "refused %d at %zu\n", refusal, sandzguli_record_of(outcome));
        return EXIT_FAILURE;
    }
    fwrite(page.bytes, 1, page.length, stdout);
    return fflush(stdout) == 0 ? EXIT_SUCCESS : EXIT_FAILURE;
}
