/* Tells which servers accept the query of a page (standard input), Prometheus 2.55 or 3.0, and why one does not. */
#include "sandzguli.h"

#include <stdio.h>
#include <stdlib.h>

/* One byte more than a page may have, so that a longer input is refused as too long. */
#define PAGE_ROOM (SANDZGULI_PAGE_BYTES + 1)

/* Those that accept it, in words. */
static const char *words_of(enum sandzguli_generations generations) {
    switch (generations) {
    case SANDZGULI_OLDER:
        return "Prometheus 2.55 alone";
    case SANDZGULI_NEWER:
        return "Prometheus 3.0 alone";
    case SANDZGULI_BOTH:
        return "Prometheus 2.55 and 3.0";
    case SANDZGULI_NEITHER:
        break;
    }
    return "neither Prometheus 2.55 nor 3.0";
}

/* The name of a refusal. A newer archive may have one that is longer than the header says: then nothing. */
static void print_name(enum sandzguli_refusal refusal) {
    uint8_t name[SANDZGULI_NAME_BYTES];
    sandzguli_outcome named = sandzguli_refusal_name(refusal, name, sizeof name);
    if (!sandzguli_is_refused(named)) {
        fwrite(name, 1, sandzguli_written(named), stdout);
    }
}

/* Why a server refuses the query; nothing where it accepts it. */
static void print_refusal(const char *server, sandzguli_outcome outcome) {
    if (!sandzguli_is_refused(outcome)) {
        return;
    }
    enum sandzguli_refusal refusal = sandzguli_refusal_of(outcome);
    printf("%s: refused %d at %zu: ", server, (int)refusal, sandzguli_record_of(outcome));
    print_name(refusal);
    printf("\n");
}

int main(void) {
    static uint8_t page[PAGE_ROOM];
    size_t page_len = fread(page, 1, sizeof page, stdin);
    if (ferror(stdin)) {
        fprintf(stderr, "the page cannot be read\n");
        return EXIT_FAILURE;
    }
    printf("accepted by %s\n", words_of((enum sandzguli_generations)sandzguli_generations(page, page_len)));
    print_refusal("Prometheus 2.55", sandzguli_check_older(page, page_len));
    print_refusal("Prometheus 3.0", sandzguli_check_newer(page, page_len));
    return fflush(stdout) == 0 ? EXIT_SUCCESS : EXIT_FAILURE;
}
