/* What the programs that call the library share: checks, bytes and the pages of T.88 H.1. */
#include "hayro_jbig2.h"

#include <stdio.h>
#include <stdlib.h>
#include <string.h>

static unsigned checks, failures;

static void check(bool holds, const char *file, int line, const char *condition) {
    checks++;
    if (!holds) {
        failures++;
        printf("%s:%d: not so: %s\n", file, line, condition);
    }
}

#define CHECK(condition) check((condition), __FILE__, __LINE__, #condition)

struct bytes {
    uint8_t at[4096];
    size_t length;
};

static inline void read_file(const char *name, struct bytes *bytes) {
    FILE *file = fopen(name, "rb");
    if (file == NULL) {
        perror(name);
        exit(2);
    }
    bytes->length = fread(bytes->at, 1, sizeof bytes->at, file);
    fclose(file);
}

static void append(struct bytes *bytes, const void *more, size_t length) {
    memcpy(bytes->at + bytes->length, more, length);
    bytes->length += length;
}

/* T.88 H.1: pages 1 and 2, 64 by 56, and page 3, 37 by 8, a number for each row. */
static const uint64_t both_pages[56] = {
    0x0000000000000000, 0x07878f0f0f000000, 0x0840488090800000, 0x0807c88f90000000, 0x0808489090000000,
    0x08484f1090800000, 0x0787c80f8f000000, 0x0000080000000000, 0x0000080000000000, 0x0000000000000000,
    0x0000000000000000, 0x0fffffffffffffc0, 0x0fffffffffffffc0, 0x0c000000000000c0, 0x0c000000000000c0,
    0x0c000000022200c0, 0x0c00026666ee00c0, 0x0c000002666600c0, 0x0c000000000400c0, 0x0c000000222200c0,
    0x0c0026666eee00c0, 0x0c000026666700c0, 0x0c000000004400c0, 0x0c000002222600c0, 0x0c006666eeee00c0,
    0x0c000266667f00c0, 0x0c000000044400c0, 0x0c000022226600c0, 0x0c00666eeeee00c0, 0x0c00266667ff00c0,
    0x0c000000444600c0, 0x0c000222266600c0, 0x0c0066eeeeef00c0, 0x0c0066667fff00c0, 0x0c000004446600c0,
    0x0c002222666e00c0, 0x0c006eeeeeff00c0, 0x0c006667ffff00c0, 0x0c000044466600c0, 0x0c00222666ef00c0,
    0x0c00eeeeefff00c0, 0x0c00667fffff00c0, 0x0c000444666600c0, 0x0c0022666eff00c0, 0x0c00eeeeffff00c0,
    0x0c0067ffffff00c0, 0x0c004446666700c0, 0x0c002666efff00c0, 0x0c00eeefffff00c0, 0x0c007fffffff00c0,
    0x0c004466667f00c0, 0x0c000000000000c0, 0x0c000000000000c0, 0x0fffffffffffffc0, 0x0fffffffffffffc0,
    0x0000000000000000,
};
static const uint64_t third_page[8] = {
    0x7878f0f0f0, 0x8404880908, 0x807c88f900, 0x8084890900, 0x8484f10908, 0x787c80f8f0, 0x0000800000, 0x0000800000,
};

/* Row R9.2 of crates/jbig2_rows/README.md: a text region whose symbols lie in the globals. */
static inline void page_with_globals(const struct bytes *page, struct bytes *globals, struct bytes *taken) {
    append(globals,
           "\0\0\0\1\0\0\1\0\0\0\x0F"
           "\0\1\0\0\0\1\0\0\0\1\x5F\x80\x80\0\x40",
           26);
    append(taken, page->at, page->length);
    append(taken,
           "\0\0\0\2\6\x20\1\1\0\0\0\x2D"
           "\0\0\0\x08\0\0\0\1\0\0\0\0\0\0\0\0\0",
           29);
    append(taken,
           "\0\x11\0\0\0\0\0\1\1"
           "\0\0\0\0\0\0\0\0\0\0\0\0\0\0\0\0\0"
           "\0\4",
           28);
}
