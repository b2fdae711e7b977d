/* Tells whether the pages in two files are one query:
 *
 *     same_query FIRST SECOND
 *
 * Two accepted pages have equal copies if and only if they are the same query, field by field (proved). */
#include "sandzguli.h"

#include <stdio.h>
#include <stdlib.h>
#include <string.h>

/* One byte more than a page may have, so that a longer input is refused as too long. */
#define PAGE_ROOM (SANDZGULI_PAGE_BYTES + 1)

/* A page's copy; where the page is refused, only why. */
struct copy {
    sandzguli_outcome outcome;
    uint8_t bytes[SANDZGULI_COPY_BYTES];
};

/* The copy of the page in a file. Every copy fits, so that 5 is not answered. */
static void read_copy(const char *path, struct copy *copy) {
    uint8_t page[PAGE_ROOM];
    FILE *file = fopen(path, "rb");
    size_t page_len = file == NULL ? 0 : fread(page, 1, sizeof page, file);
    if (file == NULL || ferror(file)) {
        fprintf(stderr, "%s cannot be read\n", path);
        exit(EXIT_FAILURE);
    }
    fclose(file);
    copy->outcome = sandzguli_copy(page, page_len, copy->bytes, sizeof copy->bytes);
}

/* Whether two copies of accepted pages have the same bytes: as many, and alike. */
static int is_same(const struct copy *first, const struct copy *second) {
    size_t length = sandzguli_written(first->outcome);
    return sandzguli_written(second->outcome) == length && memcmp(first->bytes, second->bytes, length) == 0;
}

/* Whether a page is refused; then prints why. */
static int is_refused(const char *which, const struct copy *copy) {
    if (!sandzguli_is_refused(copy->outcome)) {
        return 0;
    }
    int refusal = (int)sandzguli_refusal_of(copy->outcome);
    printf("%s page refused %d at %zu\n", which, refusal, sandzguli_record_of(copy->outcome));
    return 1;
}

int main(int count, char **arguments) {
    static struct copy first, second;
    if (count != 3) {
        fprintf(stderr, "same_query FIRST SECOND\n");
        return EXIT_FAILURE;
    }
    read_copy(arguments[1], &first);
    read_copy(arguments[2], &second);
    if (!is_refused("first", &first) && !is_refused("second", &second)) {
        printf("%s\n", is_same(&first, &second) ? "one query" : "two queries");
    }
    return fflush(stdout) == 0 ? EXIT_SUCCESS : EXIT_FAILURE;
}
