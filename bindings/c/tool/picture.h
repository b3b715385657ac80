/* A page as the writers take it, and the formats. */
#ifndef HAYRO_TOOL_PICTURE_H
#define HAYRO_TOOL_PICTURE_H

#include "hayro_jbig2.h"
#include "messages.h"

#include <stdio.h>

struct picture {
    uint32_t width, height;
    uint32_t x_resolution, y_resolution; /* pixels for each metre; 0: unknown */
    hayro_jbig2_context *context;        /* which has its rows */
    uint8_t *ready;                      /* all rows for PBM, the coded ones for TIFF, or NULL */
    size_t ready_size;
};

size_t row_size(const struct picture *picture);
/* Rows from `first` on, a bit for each pixel, 1 is black. False where the context doesn't have them. */
bool read_rows(const struct picture *picture, uint32_t first, uint32_t count, uint8_t *rows);
/* How many rows a writer takes at once, about 64 KiB. */
uint32_t rows_at_once(const struct picture *picture);

/* What pages are drawn as, and what `write` makes: a JBIG2 file, an embedded page, a PDF file. */
enum format { FORMAT_PNG, FORMAT_PBM, FORMAT_TIFF, FORMAT_JBIG2, FORMAT_EMBEDDED, FORMAT_PDF };

bool is_drawn_format(enum format format);
/* "png" and so on. */
const char *name_of_format(enum format format);
/* The version of the library that writes the format, "" where it needs none, NULL where it was built without. */
const char *version_of_format(enum format format);
/* "PNG needs libpng (Debian's libpng-dev), which this program was built without" */
void add_missing_package(struct text *text, enum format format);

/* Does what threads can do at once, before one has its turn to write: gets all rows, or codes them. */
void prepare_picture(struct picture *picture, enum format format);
void free_prepared(struct picture *picture);
/* False where a picture is left as it is. */
bool code_for_tiff(struct picture *picture);

/* Write one picture. False with errno, or a reason. */
bool write_pbm(FILE *file, const struct picture *picture, struct text *reason);
bool write_png(FILE *file, const struct picture *picture, struct text *reason);
const char *png_library_version(void);

/* A TIFF file gets a page after the other. The descriptor stays open. open_tiff returns NULL with errno. */
struct tiff_file;
struct tiff_file *open_tiff(int descriptor);
bool add_tiff_page(struct tiff_file *file, const struct picture *picture, struct text *reason);
void close_tiff(struct tiff_file *file);
const char *tiff_library_version(void);

#endif
