/* Prints the query of a page (standard input) as split text, or why it is refused. */
#include "sandzguli.h"

#include <stdio.h>
#include <stdlib.h>

/* One byte more than a page may have, so that a longer input is refused as too long. */
#define PAGE_ROOM (SANDZGULI_PAGE_BYTES + 1)

/* Room for the first try. */
#define TEXT_ROOM 4096

/* The name of a refusal. A newer archive may have one that is longer than the header says: then nothing. */
static void print_name(enum sandzguli_refusal refusal) {
    uint8_t name[SANDZGULI_NAME_BYTES];
    sandzguli_outcome named = sandzguli_refusal_name(refusal, name, sizeof name);
    if (!sandzguli_is_refused(named)) {
        fwrite(name, 1, sandzguli_written(named), stdout);
    }
}

/* `refused N at R` and what the page breaks; for 19 also the label that stands in both lists. */
static void print_refusal(const uint8_t *page, size_t page_len, sandzguli_outcome outcome) {
    enum sandzguli_refusal refusal = sandzguli_refusal_of(outcome);
    printf("refused %d at %zu: ", (int)refusal, sandzguli_record_of(outcome));
    print_name(refusal);
    if (refusal == SANDZGULI_LABEL_IN_BOTH_LISTS) {
        sandzguli_label label = sandzguli_joint_label(page, page_len);
        printf(": '");
        fwrite(page + sandzguli_label_start(label), 1, sandzguli_label_length(label), stdout);
        printf("'");
    }
    printf("\n");
}

static int is_too_short(sandzguli_outcome outcome) {
    return sandzguli_is_refused(outcome) && sandzguli_refusal_of(outcome) == SANDZGULI_OUTPUT_TOO_SHORT;
}

/* Lends ever more room until the text fits. Answers the call's outcome; the caller frees the text. NULL: no memory is
 * left. */
static sandzguli_outcome split_with_room(const uint8_t *page, size_t page_len, uint8_t **text) {
    size_t room = TEXT_ROOM;
    sandzguli_outcome outcome = 0;
    *text = malloc(room);
    while (*text != NULL) {
        outcome = sandzguli_split(page, page_len, *text, room);
        if (!is_too_short(outcome)) {
            break;
        }
        room *= 2;
        free(*text);
        *text = malloc(room);
    }
    return outcome;
}

static int print_page(const uint8_t *page, size_t page_len) {
    uint8_t *text = NULL;
    sandzguli_outcome outcome = split_with_room(page, page_len, &text);
    if (text == NULL) {
        fprintf(stderr, "no memory is left\n");
        return EXIT_FAILURE;
    }
    if (sandzguli_is_refused(outcome)) {
        print_refusal(page, page_len, outcome);
    } else {
        fwrite(text, 1, sandzguli_written(outcome), stdout);
        printf("\n");
    }
    free(text);
    return fflush(stdout) == 0 ? EXIT_SUCCESS : EXIT_FAILURE;
}

int main(void) {
    static uint8_t page[PAGE_ROOM];
    size_t page_len = fread(page, 1, sizeof page, stdin);
    if (ferror(stdin)) {
        fprintf(stderr, "the page cannot be read\n");
        return EXIT_FAILURE;
    }
    return print_page(page, page_len);
}
