/* What the tests of libjbig2dec.so.0 share: checks, allocators that refuse and move blocks, what a listener heard. */
#ifndef SUPPORT_H
#define SUPPORT_H

#include "abi.h"
/* The texts of the decoder's errors, which bindings/dropin/test has testing/error_texts.py print. */
#include "error_texts.h"

#include <stdbool.h>

extern unsigned checks, failures;
void check(bool holds, const char *file, int line, const char *condition);
#define CHECK(condition) check((condition), __FILE__, __LINE__, #condition)

/* Over malloc. Blocks lie `offset` bytes after a multiple of 16, as Ghostscript's do at 8. */
struct counted {
    struct allocator base;
    size_t offset;
    unsigned long requests, refused_request; /* from 1; 0 refuses none */
    size_t largest;                          /* larger requests are refused; 0 refuses none */
    long held;
    bool is_gone; /* a call after that is a fault */
};

struct counted counted_allocator(void);

/* How many blocks the process took from malloc; the variable is there where malloc.c is linked. */
extern unsigned long mallocs __attribute__((weak));

/* What a listener heard. */
struct heard {
    unsigned count[4];
    uint32_t segment; /* of the last message */
    char text[1024];
};

void hear(void *heard, const char *text, enum severity severity, uint32_t segment);

struct file {
    uint8_t *at;
    size_t length;
};

/* The files that all tests use: a file of three pages (T.88, H.1), and an embedded page with its globals. */
extern struct file book, stream, shared, meant;
void read_files(char **names);
void free_files(void);

/* How many pages the book has, and a page as a PBM file. */
enum { BOOK_PAGES = 3 };
bool is_meant(const struct image *image);

struct context *embedded_context(struct allocator *allocator, struct globals *globals, struct heard *heard);
struct context *file_context(struct allocator *allocator, struct heard *heard);
/* The globals of the tests, decoded; null where memory is refused. */
struct globals *made_globals(struct allocator *allocator, struct heard *heard);

/* refusals.c, threads.c, traps.c, pages.c, damage.c, reentry.c, limits.c */
void refuses_each_request(void);
void shares_globals_among_threads(void);
void meets_the_traps(void);
void hands_out_pages(void);
void survives_damage(void);
void comes_back_out_of_allocators(void);
void leaves_by_longjmp(void);
void keeps_to_the_limit_of_work(void);

#endif
