/* Writes the page of the query METRIC{LABEL=~"PATTERN"} to standard output, for print_query to print:
 *
 *     write_selector METRIC LABEL PATTERN [FLAG]
 *
 * The flag, 1 if the pattern matches empty text, else 0, is set by the library where the pattern is covered. Of other
 * patterns the library believes FLAG. */
#include "sandzguli.h"

#include <stdio.h>
#include <stdlib.h>
#include <string.h>

/* The numbers of a selector record and of a matcher `=~`. */
#define SELECTOR 2
#define MATCHES 2

/* Groups of seven bits, the lowest first, the high bit of each byte set except the last. */
static void write_number(size_t number) {
    while (number >= 0x80) {
        putchar((int)(number & 0x7f) | 0x80);
        number >>= 7;
    }
    putchar((int)number);
}

/* A length and bytes. */
static void write_text(const char *text) {
    write_number(strlen(text));
    fputs(text, stdout);
}

/* What the library knows of the pattern; where it does not cover it, what the caller says, if anything. */
static uint64_t flag_of(const char *pattern, const char *said) {
    uint64_t flag = sandzguli_pattern((const uint8_t *)pattern, strlen(pattern));
    if (flag == SANDZGULI_PATTERN_NOT_COVERED && said != NULL) {
        flag = strcmp(said, "1") == 0;
    }
    return flag;
}

int main(int count, char **arguments) {
    if (count != 4 && count != 5) {
        fprintf(stderr, "write_selector METRIC LABEL PATTERN [FLAG]\n");
        return EXIT_FAILURE;
    }
    uint64_t flag = flag_of(arguments[3], arguments[4]);
    if (flag == SANDZGULI_PATTERN_NOT_COVERED) {
        fprintf(stderr, "the pattern is not covered: FLAG is to be 1 if it matches empty text, else 0\n");
        return EXIT_FAILURE;
    }
    write_number(SELECTOR);
    write_text(arguments[1]);
    write_number(1);
    write_number(MATCHES);
    write_text(arguments[2]);
    write_text(arguments[3]);
    write_number((size_t)flag);
    return fflush(stdout) == 0 ? EXIT_SUCCESS : EXIT_FAILURE;
}
