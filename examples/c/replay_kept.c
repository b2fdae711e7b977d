/* The calls on every page of the kept list (standard input), held against the answers there; the added checks and the
 * call that tells which servers accept a query against their words, and the call for signatures on names
 * (oracle/KEPT.md):
 *
 *     replay_kept oracle/kept/{table,operators,older,newer,generations,signatures} <crates/vectors/stdin */
#include "kept_list.h"
#include "sandzguli.h"

#include <string.h>

/* What a buffer holds before a call. */
#define FILLING 0xa5

/* How many calls were made. */
static size_t calls = 0;

typedef uint64_t asks(const uint8_t *page, size_t page_len);
typedef sandzguli_outcome writes(const uint8_t *page, size_t page_len, uint8_t *out, size_t out_len);

/* The calls that have a file of words beside the list, one for each page, in the order of these files. */
static const struct {
    asks *call;
    const char *words;
} asked[] = {
    {sandzguli_check_table, "the word of check_table"},
    {sandzguli_check_operators, "the word of check_operators"},
    {sandzguli_check_older, "the word of check_older"},
    {sandzguli_check_newer, "the word of check_newer"},
    {sandzguli_generations, "the word of generations"},
};

#define ASKED (sizeof asked / sizeof *asked)

static void expect(int is_met, const char *words, size_t index) {
    if (!is_met) {
        fprintf(stderr, "entry %zu: %s\n", index, words);
        exit(EXIT_FAILURE);
    }
}

static int is_filling(const uint8_t *bytes, size_t length) {
    size_t index = 0;
    while (index < length && bytes[index] == FILLING) {
        index++;
    }
    return index == length;
}

/* A call that is lent a buffer of this length: its outcome, and what the buffer holds afterwards. */
static void replay_with(const struct entry *entry, writes *call, const struct part *text, size_t room, size_t index) {
    struct part out = new_part(room);
    memset(out.bytes, FILLING, room);
    sandzguli_outcome outcome = call(entry->page.bytes, entry->page.length, out.bytes, room);
    calls += 1;
    if (sandzguli_is_refused(entry->word)) {
        expect(outcome == entry->word, "the refusal of check", index);
        expect(is_filling(out.bytes, room), "a refusal changes no byte", index);
    } else if (room < text->length) {
        expect(sandzguli_refusal_of(outcome) == SANDZGULI_OUTPUT_TOO_SHORT, "too short", index);
        expect(is_filling(out.bytes, room), "too short changes no byte", index);
    } else {
        expect(outcome == text->length * 4 + entry->word, "kind and count of bytes", index);
        expect(memcmp(out.bytes, text->bytes, text->length) == 0, "the bytes written", index);
        expect(is_filling(out.bytes + text->length, room - text->length), "the bytes behind", index);
    }
    free(out.bytes);
}

/* Exactly enough room, more, and one byte less. */
static void replay_writing(const struct entry *entry, writes *call, const struct part *text, size_t index) {
    replay_with(entry, call, text, text->length, index);
    replay_with(entry, call, text, text->length + 7, index);
    if (text->length > 0) {
        replay_with(entry, call, text, text->length - 1, index);
    }
}

/* The next word of each file. */
static void replay_asked(const struct part *page, FILE **files, size_t index) {
    for (size_t file = 0; file < ASKED; file++) {
        uint64_t word = read_little_endian(files[file], 8);
        expect(asked[file].call(page->bytes, page->length) == word, asked[file].words, index);
        calls += 1;
    }
}

static void replay(const struct entry *entry, size_t index) {
    const struct part *page = &entry->page;
    expect(sandzguli_check(page->bytes, page->length) == entry->word, "the word of check", index);
    expect(sandzguli_joint_label(page->bytes, page->length) == entry->label, "the label of 19", index);
    calls += 2;
    replay_writing(entry, sandzguli_copy, &entry->copy, index);
    replay_writing(entry, sandzguli_canonical, &entry->canonical, index);
    replay_writing(entry, sandzguli_split, &entry->split, index);
}

/* The call for the signature of a name, lent a buffer of this length. */
static void replay_signature(const struct signature_entry *entry, size_t room, size_t index) {
    const struct part *name = &entry->name;
    struct part out = new_part(room);
    memset(out.bytes, FILLING, room);
    sandzguli_outcome outcome = sandzguli_signature(name->bytes, name->length, out.bytes, room);
    calls += 1;
    if (!sandzguli_is_refused(entry->word) && room < entry->written.length) {
        expect(sandzguli_refusal_of(outcome) == SANDZGULI_OUTPUT_TOO_SHORT, "too short for a signature", index);
        expect(sandzguli_record_of(outcome) == 0, "too short at 0", index);
        expect(is_filling(out.bytes, room), "too short changes no byte", index);
    } else {
        size_t length = entry->written.length;
        expect(outcome == entry->word, "the word of signature", index);
        expect(length == 0 || memcmp(out.bytes, entry->written.bytes, length) == 0, "the signature", index);
        expect(is_filling(out.bytes + length, room - length), "the bytes behind a signature", index);
    }
    free(out.bytes);
}

/* All names, each with exactly enough room, more, and one byte less. */
static size_t replay_signatures(FILE *list) {
    size_t index = 0;
    while (!is_at_end(list)) {
        struct signature_entry entry = read_signature_entry(list);
        replay_signature(&entry, entry.written.length, index);
        replay_signature(&entry, entry.written.length + 7, index);
        if (entry.written.length > 0) {
            replay_signature(&entry, entry.written.length - 1, index);
        }
        free_signature_entry(&entry);
        index++;
    }
    return index;
}

static size_t replay_pages(FILE *list, FILE **files) {
    size_t index = 0;
    while (!is_at_end(list)) {
        struct entry entry = read_entry(list);
        replay(&entry, index);
        replay_asked(&entry.page, files, index);
        free_entry(&entry);
        index++;
    }
    for (size_t file = 0; file < ASKED; file++) {
        expect(is_at_end(files[file]), "as many words as pages", index);
    }
    return index;
}

static FILE *opened(const char *path) {
    FILE *file = fopen(path, "rb");
    if (file == NULL) {
        fprintf(stderr, "%s cannot be read\n", path);
        exit(EXIT_FAILURE);
    }
    return file;
}

int main(int count, char **words) {
    FILE *files[ASKED];
    if ((size_t)count != ASKED + 2) {
        fprintf(stderr, "usage: replay_kept TABLE OPERATORS OLDER NEWER GENERATIONS SIGNATURES <LIST\n");
        return EXIT_FAILURE;
    }
    for (size_t file = 0; file < ASKED; file++) {
        files[file] = opened(words[1 + file]);
    }
    FILE *signatures = opened(words[1 + ASKED]);
    size_t pages = replay_pages(stdin, files);
    size_t names = replay_signatures(signatures);
    for (size_t file = 0; file < ASKED; file++) {
        fclose(files[file]);
    }
    fclose(signatures);
    printf("%zu pages, %zu names, %zu calls: as the list has it\n", pages, names, calls);
    return pages == 0 || names == 0;
}
