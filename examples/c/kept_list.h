/* The kept list (oracle/KEPT.md): pages with the answers of the Rust crate promql-parser, read from a stream. Every part has
 * memory of its own of exactly its length, so that a tool that watches memory sees a byte read or written past its end. */
#ifndef KEPT_LIST_H
#define KEPT_LIST_H

#include <stdint.h>
#include <stdio.h>
#include <stdlib.h>

struct part {
    uint8_t *bytes;
    size_t length;
};

struct entry {
    struct part page;
    uint64_t word;
    uint64_t label;
    struct part copy;
    struct part canonical;
    struct part split;
};

/* A name, with the word of the call for signatures that is lent eight bytes and what it writes. */
struct signature_entry {
    struct part name;
    uint64_t word;
    struct part written;
};

/* A list that is cut short is no list. */
static inline void read_whole(FILE *list, uint8_t *bytes, size_t length) {
    if (fread(bytes, 1, length, list) != length) {
        fprintf(stderr, "the list is cut short\n");
        exit(EXIT_FAILURE);
    }
}

/* A number of so many bytes, the lowest first. */
static inline uint64_t read_little_endian(FILE *list, size_t length) {
    uint8_t bytes[8] = {0};
    uint64_t number = 0;
    read_whole(list, bytes, length);
    for (size_t index = length; index > 0; index--) {
        number = number << 8 | bytes[index - 1];
    }
    return number;
}

static inline struct part new_part(size_t length) {
    struct part part = {malloc(length), length};
    if (part.bytes == NULL && length > 0) {
        fprintf(stderr, "no memory is left\n");
        exit(EXIT_FAILURE);
    }
    return part;
}

static inline struct part read_part(FILE *list) {
    struct part part = new_part((size_t)read_little_endian(list, 4));
    read_whole(list, part.bytes, part.length);
    return part;
}

static inline int is_at_end(FILE *list) {
    int next = getc(list);
    ungetc(next, list);
    return next == EOF;
}

static inline struct entry read_entry(FILE *list) {
    struct entry entry;
    entry.page = read_part(list);
    entry.word = read_little_endian(list, 8);
    entry.label = read_little_endian(list, 8);
    entry.copy = read_part(list);
    entry.canonical = read_part(list);
    entry.split = read_part(list);
    return entry;
}

static inline void free_entry(struct entry *entry) {
    free(entry->page.bytes);
    free(entry->copy.bytes);
    free(entry->canonical.bytes);
    free(entry->split.bytes);
}

static inline struct signature_entry read_signature_entry(FILE *list) {
    struct signature_entry entry;
    entry.name = read_part(list);
    entry.word = read_little_endian(list, 8);
    entry.written = read_part(list);
    return entry;
}

static inline void free_signature_entry(struct signature_entry *entry) {
    free(entry->name.bytes);
    free(entry->written.bytes);
}

#endif
