/* Measures how much stack each call uses, and fails where one uses more than SANDZGULI_STACK_BYTES: the most over the
 * kept list (standard input), over pages that nest as deep as 256 records can, in every form around several leaves,
 * over the longest patterns, alone and on a page, and over names of functions. A call runs in a thread whose stack was
 * painted before; the paint that is gone afterwards was used. */
#define _POSIX_C_SOURCE 200112L
#include "kept_list.h"
#include "sandzguli.h"

#include <pthread.h>
#include <string.h>

#define STACK_BYTES (1 << 20)
#define TEXT_BYTES (1 << 18)
#define PAINT 0xa5
#define MOST_PAGES 32768

typedef sandzguli_outcome call(const uint8_t *page, size_t page_len, uint8_t *out, size_t out_len);

static struct part pages[MOST_PAGES];
static size_t page_count = 0;
static uint8_t text[TEXT_BYTES];
static _Alignas(4096) uint8_t stack[STACK_BYTES];

/* Uses so many bytes of stack, to try the measurement. */
#define KNOWN_BYTES 65536

static sandzguli_outcome known(const uint8_t *page, size_t page_len, uint8_t *out, size_t out_len) {
    volatile uint8_t bytes[KNOWN_BYTES];
    for (size_t index = 0; index < sizeof bytes; index++) {
        bytes[index] = 0;
    }
    (void)page, (void)out;
    return page_len + out_len + bytes[page_len % sizeof bytes];
}

static sandzguli_outcome check(const uint8_t *page, size_t page_len, uint8_t *out, size_t out_len) {
    (void)out, (void)out_len;
    return sandzguli_check(page, page_len);
}

static sandzguli_outcome check_table(const uint8_t *page, size_t page_len, uint8_t *out, size_t out_len) {
    (void)out, (void)out_len;
    return sandzguli_check_table(page, page_len);
}

static sandzguli_outcome check_older(const uint8_t *page, size_t page_len, uint8_t *out, size_t out_len) {
    (void)out, (void)out_len;
    return sandzguli_check_older(page, page_len);
}

static sandzguli_outcome check_newer(const uint8_t *page, size_t page_len, uint8_t *out, size_t out_len) {
    (void)out, (void)out_len;
    return sandzguli_check_newer(page, page_len);
}

static sandzguli_outcome generations(const uint8_t *page, size_t page_len, uint8_t *out, size_t out_len) {
    (void)out, (void)out_len;
    return sandzguli_generations(page, page_len);
}

static sandzguli_outcome check_operators(const uint8_t *page, size_t page_len, uint8_t *out, size_t out_len) {
    (void)out, (void)out_len;
    return sandzguli_check_operators(page, page_len);
}

static sandzguli_outcome joint_label(const uint8_t *page, size_t page_len, uint8_t *out, size_t out_len) {
    (void)out, (void)out_len;
    return sandzguli_joint_label(page, page_len);
}

/* Any byte string may be asked about, as a pattern too. */
static sandzguli_outcome pattern(const uint8_t *page, size_t page_len, uint8_t *out, size_t out_len) {
    (void)out, (void)out_len;
    return sandzguli_pattern(page, page_len);
}

/* Any number, by the page's length: kinds and refusals, and numbers without a name. */
static sandzguli_outcome kind_name(const uint8_t *page, size_t page_len, uint8_t *out, size_t out_len) {
    (void)page;
    return sandzguli_kind_name(page_len % 8, out, out_len);
}

static sandzguli_outcome refusal_name(const uint8_t *page, size_t page_len, uint8_t *out, size_t out_len) {
    (void)page;
    return sandzguli_refusal_name(page_len % 64, out, out_len);
}

static void expect(int is_met, const char *words) {
    if (!is_met) {
        fprintf(stderr, "not so: %s\n", words);
        exit(EXIT_FAILURE);
    }
}

static void add_page(struct part page) {
    expect(page_count < MOST_PAGES, "there is room for the pages");
    pages[page_count++] = page;
}

/* So many records, as bytes. */
struct records {
    const char *bytes;
    size_t length;
    size_t count;
};

#define RECORDS(count, bytes) {bytes, sizeof bytes - 1, count}
#define UP "\x02\x02up\x00"
#define FIVE_UPS UP UP UP UP UP
#define FIFTEEN_UPS FIVE_UPS FIVE_UPS FIVE_UPS
#define MATCHER "\x00\x02\"a\x03\\b\""
#define FOUR_MATCHERS MATCHER MATCHER MATCHER MATCHER
#define MATCHING "\x02\x02up\x10" FOUR_MATCHERS FOUR_MATCHERS FOUR_MATCHERS FOUR_MATCHERS
/* @ 10^15 ms, offset -2^53 ms. */
#define LONG_TIMES "\x05\x02\x80\x80\x9a\xa6\xea\xaf\xe3\x01\x06\x01\x80\x80\x80\x80\x80\x80\x80\x10"

/* -10^-15: no fraction has a longer text. */
#define LONG_FRACTION "\x06\x01\x0f"

/* The innermost part: a name, or 16 matchers; then the longest numbers after it. */
static const struct records leaves[] = {
    RECORDS(1, UP),
    RECORDS(1, MATCHING),
    RECORDS(3, UP LONG_TIMES),
    RECORDS(3, MATCHING LONG_TIMES),
};

/* What stands before and after the leaf, as often as there is room for. */
static const struct {
    struct records before;
    struct records behind;
} nests[] = {
    {RECORDS(0, ""), RECORDS(1, "\x08")},                                                 /* parens */
    {RECORDS(0, ""), RECORDS(1, "\x07")},                                                 /* unary */
    {RECORDS(0, ""), RECORDS(2, "\x07\x08")},                                             /* unary in parens */
    {RECORDS(0, ""), RECORDS(1, "\x0b\x02ln\x01\x00\x00\x00\x01")},                       /* a call */
    {RECORDS(15, FIFTEEN_UPS), RECORDS(1, "\x0b\x01" "f\x01\x00\x01\x00\x10")},           /* 16 arguments, the last nests */
    {RECORDS(0, ""), RECORDS(16, FIFTEEN_UPS "\x0b\x01" "f\x01\x00\x01\x00\x10")},        /* 16 arguments, the first nests */
    {RECORDS(0, ""), RECORDS(2, "\x04\xe0\xa7\x12\x00\x0b\x01" "f\x01\x02\x00\x00\x01")}, /* a subquery in a call */
    {RECORDS(0, ""), RECORDS(1, "\x0a\x1b\x01\x02\x03x y\x01z\x01")},                     /* an aggregate with labels */
    {RECORDS(1, "\x00\x00\x05"), RECORDS(1, "\x0a\x1c\x02\x01\x01z\x02")},                /* with a parameter */
    {RECORDS(1, "\x00" LONG_FRACTION), RECORDS(1, "\x0a\x18\x00\x02")},                   /* with a fraction as one */
    {RECORDS(0, ""), RECORDS(2, UP "\x09\x01\x00")},                                      /* an operator, leaning left */
    {RECORDS(1, UP), RECORDS(1, "\x09\x01\x00")},                                         /* leaning right */
    {RECORDS(0, ""), RECORDS(2, UP "\x09\x08\x01\x01\x01\x01\x01x\x01\x01\x03y z\x01\x00\x05\x01\x02")},
    {RECORDS(1, UP), RECORDS(1, "\x09\x08\x01\x01\x02\x01\x01x\x02\x01\x03y z\x01\x00\x05\x01\x02")},
    {RECORDS(1, UP), RECORDS(1, "\x09\x01\x01\x00\x00\x00\x01" LONG_FRACTION "\x00")},   /* with a fraction as fill */
};

/* Bytes that are put together to a page. */
static void append(struct part *page, const struct records *records, size_t times) {
    page->bytes = realloc(page->bytes, page->length + records->length * times + 1);
    expect(page->bytes != NULL, "there is memory");
    for (size_t index = 0; index < times; index++) {
        memcpy(page->bytes + page->length, records->bytes, records->length);
        page->length += records->length;
    }
}

static void add_nested(const struct records *before, const struct records *leaf, const struct records *behind) {
    struct part page = {NULL, 0};
    size_t times = (SANDZGULI_RECORDS - leaf->count) / (before->count + behind->count);
    append(&page, before, times);
    append(&page, leaf, 1);
    append(&page, behind, times);
    expect(!sandzguli_is_refused(sandzguli_check(page.bytes, page.length)), "a nested page is accepted");
    add_page(page);
}

static void add_deepest(void) {
    for (size_t nest = 0; nest < sizeof nests / sizeof *nests; nest++) {
        for (size_t leaf = 0; leaf < sizeof leaves / sizeof *leaves; leaf++) {
            add_nested(&nests[nest].before, &leaves[leaf], &nests[nest].behind);
        }
    }
}

/* The longest pattern, and a selector as far as its bytes. */
#define PATTERN_BYTES 255
#define MATCHED "\x02\x02up\x01\x02\x01" "a\xff\x01"

/* So many brackets that open, so many that close, and letters between them; alone, and on a page with the flag 0. */
static void add_pattern(size_t opening, size_t closing) {
    struct part page = {NULL, 0};
    struct part pattern = new_part(PATTERN_BYTES);
    memset(pattern.bytes, 'a', PATTERN_BYTES);
    memset(pattern.bytes, '(', opening);
    memset(pattern.bytes + PATTERN_BYTES - closing, ')', closing);
    const struct records parts[] = {
        RECORDS(1, MATCHED), {(const char *)pattern.bytes, pattern.length, 0}, RECORDS(0, "\x00"),
    };
    for (size_t index = 0; index < sizeof parts / sizeof *parts; index++) {
        append(&page, &parts[index], 1);
    }
    expect(!sandzguli_is_refused(sandzguli_check(page.bytes, page.length)), "a page with a pattern is accepted");
    add_page(pattern);
    add_page(page);
}

/* A name that the function table has; pages are names that it lacks. */
static void add_name(const char *name) {
    struct part part = new_part(strlen(name));
    memcpy(part.bytes, name, part.length);
    expect(!sandzguli_is_refused(sandzguli_signature(part.bytes, part.length, text, sizeof text)), "a name is known");
    add_page(part);
}

/* Where the stack of the thread's own function lies; what a call uses lies below it. */
static uintptr_t start;

static void *call_all(void *argument) {
    volatile uint8_t here = 0;
    call *each = *(call **)argument;
    start = (uintptr_t)&here;
    for (size_t index = 0; index < page_count; index++) {
        each(pages[index].bytes, pages[index].length, text, sizeof text);
    }
    return NULL;
}

/* Bytes of stack that the calls used, with the few of the thread's own function. */
static size_t used(call *each) {
    pthread_t thread;
    pthread_attr_t attributes;
    size_t untouched = 0;
    memset(stack, PAINT, sizeof stack);
    expect(pthread_attr_init(&attributes) == 0, "a thread has attributes");
    expect(pthread_attr_setstack(&attributes, stack, sizeof stack) == 0, "a thread has this stack");
    expect(pthread_create(&thread, &attributes, call_all, &each) == 0, "a thread starts");
    expect(pthread_join(thread, NULL) == 0, "a thread ends");
    pthread_attr_destroy(&attributes);
    while (untouched < sizeof stack && stack[untouched] == PAINT) {
        untouched++;
    }
    expect(untouched > 0, "the stack was deep enough");
    return start - (uintptr_t)(stack + untouched);
}

static void add_kept(void) {
    while (!is_at_end(stdin)) {
        struct entry entry = read_entry(stdin);
        add_page(entry.page);
        entry.page.bytes = NULL;
        free_entry(&entry);
    }
}

int main(void) {
    const struct { const char *name; call *each; } calls[] = {
        {"check", check}, {"check_table", check_table}, {"check_older", check_older}, {"check_newer", check_newer},
        {"generations", generations}, {"check_operators", check_operators}, {"joint_label", joint_label},
        {"copy", sandzguli_copy}, {"canonical", sandzguli_canonical}, {"split", sandzguli_split}, {"pattern", pattern},
        {"signature", sandzguli_signature}, {"kind_name", kind_name}, {"refusal_name", refusal_name},
    };
    add_kept();
    add_deepest();
    add_pattern(PATTERN_BYTES, 0);
    add_pattern(PATTERN_BYTES / 2, PATTERN_BYTES / 2);
    add_pattern(0, 0);
    add_name("abs");
    add_name("histogram_quantiles");
    add_name("year");
    size_t measured = used(known);
    expect(measured >= KNOWN_BYTES && measured < KNOWN_BYTES + 1024, "a known use is measured");
    printf("%zu pages; a call that uses %d bytes: %zu\n", page_count, KNOWN_BYTES, measured);
    for (size_t index = 0; index < sizeof calls / sizeof *calls; index++) {
        size_t bytes = used(calls[index].each);
        printf("%-15s %8zu bytes\n", calls[index].name, bytes);
        expect(bytes <= SANDZGULI_STACK_BYTES, "the header's bytes of stack are enough");
    }
    return 0;
}
