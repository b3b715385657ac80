/*
 * The binary interface of libjbig2dec.so.0 in version 0.19, as its callers use it: layouts, numbers and calls. It is
 * written from what the binaries of Debian show; the names of types and members are our own.
 */
#ifndef ABI_H
#define ABI_H

#include <stddef.h>
#include <stdint.h>
#include <stdio.h>

#define ABI_MAJOR 0
#define ABI_MINOR 19

/* The caller's memory. Each function is handed the structure itself. */
struct allocator {
    void *(*take)(struct allocator *allocator, size_t size);
    void (*give_back)(struct allocator *allocator, void *block);
    void *(*resize)(struct allocator *allocator, void *block, size_t size);
};

/* A page: packed rows, 1 is black, the leftmost pixel the highest bit of its byte. */
struct image {
    uint32_t width, height, row_bytes;
    uint8_t *rows;
    int holders;
};

enum severity { SEVERITY_DEBUG, SEVERITY_INFO, SEVERITY_WARNING, SEVERITY_FATAL };

#define NO_SEGMENT UINT32_MAX

/* What the library has to say goes here; `segment` is a segment's number or NO_SEGMENT. */
typedef void listener(void *data, const char *text, enum severity severity, uint32_t segment);

enum { OPTION_EMBEDDED = 1 };

struct context;
struct globals;

/* The calls that return an int return 0, or -1 after an error. */
struct context *jbig2_ctx_new_imp(struct allocator *allocator, int options, struct globals *globals, listener *listen,
                                  void *listener_data, int major, int minor);
struct allocator *jbig2_ctx_free(struct context *context);
struct globals *jbig2_make_global_ctx(struct context *context);
struct allocator *jbig2_global_ctx_free(struct globals *globals);
int jbig2_data_in(struct context *context, const unsigned char *data, size_t size);
int jbig2_complete_page(struct context *context);
struct image *jbig2_page_out(struct context *context);
void jbig2_release_page(struct context *context, struct image *image);

/* Not in the public header. The program jbig2dec calls the first two; the others count the holders of an image. */
int jbig2_error(struct context *context, enum severity severity, uint32_t segment, const char *format, ...)
    __attribute__((format(printf, 4, 5)));
int jbig2_image_write_pbm(const struct image *image, FILE *file);
struct image *jbig2_image_reference(struct context *context, struct image *image);
void jbig2_image_release(struct context *context, struct image *image);

#endif
